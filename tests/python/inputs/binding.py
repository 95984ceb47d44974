"""Whom the rules of bundles bind: nodes and their IDs, and parts that may have changed a bundle."""

import itertools

from .bundle_rules import NODES, PLACES, RECORD, bundle, cipher, integrity
from .rules import LAST, stream
from .spelling import (
    END, START, canonical, encoded, endpoint, head, hop_count, item, security, segment, sess_init, spelled, status_report, total,
)

# Node IDs that name a node, as values of `--own`
IDS = [
    "ipn:0.0", "ipn:1.0", "ipn:01.7", "ipn:0.1.0", "IPN:1.1", "ipn:5.1.0", "ipn:5.0.1", "ipn:0.0.0", f"ipn:{LAST}.0", f"ipn:0.{LAST}.0",
    f"ipn:{LAST + 1}.0", f"ipn:{LAST + 2}.1", f"ipn:{LAST + 1}.1.0", "dtn://n/", "DTN://N/a", "dtn://n/~", "dtn://%7E/", "dtn:///",
    "dtn:///~", "dtn://none/", "dtn://~n/",
]
# The nodes of bundles and of security blocks in this file
MINE, THEIRS = (1, 1), (9, 1)
# Without the option, with it for each of the two, and for none of them
OWN = [{}, {"own": "ipn:1.0"}, {"own": "ipn:9.0"}, {"own": "ipn:7.0"}]


def of_bundles(blocks, options=OWN):
    """A bundle through `check --bundles` with each of some options."""
    return spelled(blocks)[0], [("check", {"bundles": True, **it}) for it in options]


def of_stream(*messages, options=OWN):
    """A stream of messages through `check` with each of some options."""
    return stream(*messages), [("check", it) for it in options]


def sent(blocks, items=()):
    """A transfer of a bundle in one segment."""
    return segment(START | END, 0, spelled(blocks)[0], items)


def unchecked(source):
    """A bundle of a source that has no check and a reserved flag."""
    return bundle(source=source, flags=0x08 | (0x04 if source is None else 0), kind=0)


def pairs_of_ids():
    """Each endpoint ID as a source, with each node ID as the option and in a SESS_INIT."""
    for source in NODES:
        yield of_bundles(unchecked(source), [{"own": it} for it in IDS])
        for node in [*IDS, "", "dtn:none", "ipn:!1.0", "ipn:1", "dtn:n", "dtn2://n/"]:
            yield of_stream(sess_init(node=node.encode()), sent(unchecked(source)), options=[{}])


def bytes_of_names():
    """Each byte in a name, beside the same name in the other case, and names of other lengths."""
    for byte in range(256):
        for name in (b"//%c/" % byte, b"//a%c/" % byte, b"//n/%c" % byte, b"//%%%c0/" % byte):
            options = [{"own": it} for it in ("dtn://N/", "dtn:///", "dtn://aA/")]
            yield of_bundles(unchecked(name), options)
            for node in (b"dtn:" + name, b"dtn:" + name.swapcase()):
                yield of_stream(sess_init(node=node), sent(unchecked(name)), options=[{}])


def numbers_of_ids():
    """Numbers of a node around powers of two, with zeros before them, in two numbers and in three."""
    numbers = sorted({*range(3), *(2**bits + more for bits in (8, 16, 32, 63, 64, 65, 128) for more in (-1, 0, 1))})
    for number, zeros in itertools.product(numbers, (0, 1, 30)):
        for form in ("ipn:%s.0", "ipn:0.%s.0", "ipn:%s.1.0", "ipn:1.%s.0", "ipn:1.%s"):
            node = form % ("0" * zeros + str(number))
            for source in ((number % 2**64, 1), (number % 2**64, 1, 0), (1, number % 2**64, 1)):
                yield of_bundles(unchecked(source), [{"own": node}])
                yield of_stream(sess_init(node=node.encode()), sent(unchecked(source)), options=[{}])


def places_of_sess_inits():
    """Every four messages: SESS_INITs of three nodes, and transfers whole and in two segments."""
    content = spelled(unchecked(MINE))[0]
    messages = [
        sess_init(), sess_init(node=b"ipn:9.0"), sess_init(node=b""), segment(START, 0, content[:9]), segment(END, 0, content[9:]),
        segment(START | END, 1, content), [b"\x04"],
    ]
    for them in itertools.product(messages, repeat=4):
        yield of_stream(*them, options=OWN[:2])


def data(kind, content):
    """A block of a type with this data, of any number."""
    return lambda number: canonical(kind, number, content)


# Blocks by their numbers: some break a rule, and each type of a block is there
LONG_TARGET = b"\x81\x18\x00\x01\x00" + encoded(endpoint(MINE))
BLOCKS = [
    data(6, encoded(endpoint(None))), data(6, encoded(endpoint(b"n"))), data(7, b"\x18\x05"), data(7, b""), data(7, b"\x9f"),
    data(10, encoded(hop_count(0, 1))), data(11, b"\x81"), data(11, b"\x9f"), data(11, LONG_TARGET), data(12, b"\x80"),
    *[lambda number, each=each, source=source, targets=targets: each(number, targets, source=source, flags=2)
      for each in (integrity, cipher) for source in (MINE, THEIRS, b"n") for targets in ([1], [0, 0], [2, 3])],
    data(192, b"x"),
]
# Bundles that break rules of their source
BEGINS = [{"flags": 0x0A, "kind": 0, "destination": b"n", "payload": b"\x82\x02"}, {"flags": 0x02, "payload": b"\x9f"}]


def made_by(source, *blocks, destination=(2, 1), kind=1, flags=0, payload=RECORD, fragment=()):
    """A bundle of a source."""
    begin, *rest = bundle(*blocks, source=source, kind=kind, flags=flags, payload=payload, fragment=fragment)
    if destination != (2, 1):
        begin = [*begin[:4], *endpoint(destination), *begin[9:]]
    return [begin, *rest]


def two_blocks():
    """Every two blocks of some, in bundles of two sources, with each option."""
    for one, two, begin in itertools.product(BLOCKS, BLOCKS, BEGINS):
        yield of_bundles(made_by(MINE, one(2), two(3), **begin), OWN[:3])
    for one, two in itertools.product(BLOCKS, repeat=2):
        yield of_bundles(made_by(THEIRS, one(2), two(3), **BEGINS[0]), OWN[1:])


def three_security_blocks():
    """Every three security blocks of two nodes that may share targets."""
    made = list(itertools.product((integrity, cipher), (MINE, THEIRS), ([1], [2], [1, 4])))
    for them in itertools.product(made, repeat=3):
        blocks = [each(number, targets, source=source) for number, (each, source, targets) in enumerate(them, 2)]
        yield of_bundles(made_by(MINE, *blocks), OWN[1:3])


def unknown_blocks():
    """Each block of some beside a block of each type of some, in whole bundles and in fragments."""
    kinds = [0, 1 << 8, 2, 5, 6, 7, 10, 11, 12, 13, 191, 192, 255, LAST]
    wrong = [*BLOCKS, lambda number: cipher(number, [0]), lambda number: cipher(number, [1], 1, block_flags=0x10)]
    for one, kind, place in itertools.product(wrong, kinds, PLACES):
        fields = {**place, "flags": place.get("flags", 0) | 0x02, "payload": b"\x82\x01"}
        other = canonical(kind, 9, b"\x05")
        yield of_bundles(made_by(MINE, one(2), other, **fields), OWN[:1])
        yield of_bundles(made_by(MINE, other, one(2), **fields), OWN[:1])
    for offset, whole, length in itertools.product((0, 1, 5), (1, 5), range(3)):
        fragment = {"flags": 0x01, "fragment": (offset, whole), "payload": bytes(length)}
        yield of_bundles(made_by(MINE, canonical(192, 9, b""), **fragment), OWN[:1])
    for statuses in itertools.product((False, True, 7), repeat=4):
        payload = encoded(status_report(statuses, 255, b"n", (1, 0)))
        yield of_bundles(made_by(MINE, canonical(192, 9, b""), flags=0x02, payload=payload), OWN)


def heads_and_unknown_blocks():
    """Long heads of the bundle and of each of two blocks, beside a block of an unknown type and without."""
    long_age, long_security = (7, b"\x18\x05"), (11, b"\x98\x01" + encoded(security([0], 1, MINE))[1:])
    choices = [None, long_age, long_security, (12, b"\x98\x01" + encoded(security([9], 2, THEIRS))[1:])]
    for one, two, other in itertools.product(choices, choices, (7, 192)):
        blocks = [canonical(each[0], number, each[1]) for number, each in ((2, one), (3, two)) if each]
        them = made_by(MINE, *blocks, canonical(other, 9, b"\x05"))
        for number in (0, sum(map(len, them)) - 1):
            it = [each for block in them for each in block][number]
            for spelling in (b"", head(it.major, it.value, 2)):
                content = spelled(them, number if spelling else None, spelling)[0]
                yield content, [("check", {"bundles": True, **own}) for own in OWN]


def items_of_transfers():
    """Up to three items of some in the START of a transfer whose data is a bundle, is not read or is none."""
    items = [
        total(9), item("transfer", 0, 1, b""), item("transfer", 1, 0, b""), item("transfer", 0, 2, b"a"), item("transfer", 0, 0x7FFF, b""),
        item("transfer", 1, 0x8000, b"abc"), item("transfer", 3, 0xFFFF, b""),
    ]
    wrong = made_by(MINE, *[it(number) for number, it in enumerate(BLOCKS[:14], 2)], flags=0x4002, kind=0, payload=b"\x82\x01")
    options = [{}, {"must": True}, {"own": "ipn:9.0"}]
    for count in range(4):
        for them in itertools.combinations(items, count):
            for content in (spelled(wrong)[0], spelled(bundle(kind=0))[0], b"\x9f\x9f", b"\x9f", b""):
                yield of_stream(sess_init(), segment(START, 0, content[:5], them), segment(END, 0, content[5:]), options=options)
            yield of_stream(sess_init(items=them), segment(START, 0, b"x", them), sent(wrong), options=options)


def groups():
    """The groups of this file."""
    for make in (
        pairs_of_ids, bytes_of_names, numbers_of_ids, places_of_sess_inits, two_blocks, three_security_blocks, unknown_blocks,
        heads_and_unknown_blocks, items_of_transfers,
    ):
        yield f"rules: {make.__name__.replace('_', ' ')}", make
