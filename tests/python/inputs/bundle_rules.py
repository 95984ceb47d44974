"""What the rules of bundles depend on, at its limits and in each combination."""

import itertools

from .prefixes import BUNDLE_CHECKS, CHECKS
from .rules import LAST, stream
from .spelling import (
    END, START, array, canonical, carried, encoded, endpoint, head, hop_count, primary, security, segment, sess_init, spelled,
    status_report, unsigned,
)

BITS = [1 << bit for bit in range(64)]

# The flags of a bundle that are defined (RFC 9171 section 4.2.3), and those of a block (4.2.4)
BUNDLE_FLAGS = [0x000001, 0x000002, 0x000004, 0x000020, 0x000040, 0x004000, 0x010000, 0x020000, 0x040000]
BLOCK_FLAGS = [0x01, 0x02, 0x04, 0x10]

# An administrative record: a status report
RECORD = encoded(status_report([True, False, False, False], 0, (2, 1), (1, 0)))


def bundle(*blocks, source=(1, 1), report=None, flags=0, kind=1, stamp=(1, 0), lifetime=20, fragment=(), payload=RECORD):
    """The heads of a bundle that breaks no rule, unless these values do."""
    return [primary((2, 1), source, report, kind, flags, stamp, lifetime, fragment), *blocks, canonical(1, 1, payload)]


def checked(blocks):
    """A bundle through `check --bundles`."""
    return spelled(blocks)[0], BUNDLE_CHECKS[:1]


def sums(values):
    """The sum of each choice of some flags."""
    return [sum(them) for count in range(len(values) + 1) for them in itertools.combinations(values, count)]


def flags_of_bundles():
    """Each choice of the flags that are defined and each other flag, with each kind of source."""
    for flags in [*sums(BUNDLE_FLAGS), *BITS]:
        for source in (None, b"none", (1, 1)):
            yield checked(bundle(source=source, flags=flags, fragment=(0, 9) if flags & 1 else ()))


def flags_of_blocks():
    """The same of a block and of the payload block, in bundles that may ask for reports and not."""
    for flags in [*sums(BLOCK_FLAGS), *BITS]:
        for of_bundle, source in ((0x00, (1, 1)), (0x02, (1, 1)), (0x04, None)):
            for one, two, three in ((flags, 0, 0), (0, flags, 0), (0, 0, flags), (flags, flags, flags)):
                blocks = [canonical(192, 9, b"", flags=one), canonical(7, 2, b"\x05", flags=two)]
                begin, *them, _ = bundle(*blocks, flags=of_bundle, source=source)
                yield checked([begin, *them, canonical(1, 1, RECORD, flags=three)])


def dtn_names():
    """Every dtn name of a few bytes in each place, and each byte in each part of one."""
    names = [bytes(it) for length in range(7) for it in itertools.product(b"/n ", repeat=length)]
    names += [it % byte for it in (b"//%c/", b"//n%c/", b"//n/%c", b"/%c/n/") for byte in range(256)]
    for name in [*names, b"none"]:
        yield checked(bundle(source=name))
    for them in itertools.product((None, (1, 1), b"//n/", b"//n", b""), repeat=3):
        yield checked([primary(*them, 1, 0x04, (1, 0)), canonical(1, 1, b"")])


def confidential(number, targets, length=None):
    """A block confidentiality block with these targets. Its data may be cut."""
    return canonical(12, number, encoded(security(targets, 2, (1, 1)))[:length])


def fragments():
    """Fragments whose offset, length and total length are at their limits.

    The payload may be ciphertext in some.
    """
    hiding = [[], [confidential(9, [1])], [confidential(9, [0, 2])], [confidential(9, [1], 2)]]
    for offset, whole in itertools.product((0, 1, 2, 3, LAST - 1, LAST), (0, 1, 2, 3, 4, LAST)):
        for length, flags, blocks in itertools.product(range(5), (0x01, 0x03, 0x05), hiding):
            yield checked(bundle(*blocks, flags=flags, fragment=(offset, whole), payload=bytes(length)))


def blocks_of_fragments():
    """Fragments, and a bundle that is none, with and without what their source had to add."""
    integrity = [[]] + [[canonical(11, 2, it)] for it in (
        encoded(security([0], 1, (1, 1))), encoded(security([1], 1, (1, 1))), b"\x81",
    )]
    ages = [[canonical(7, number, b"\x05") for number in range(3, 3 + count)] for count in range(3)]
    hiding = [[], [confidential(9, [2])], [confidential(9, [3])]]
    for place in ((), (0, 9), (1, 9), (LAST - 3, LAST)):
        for time, kind, one, two, three in itertools.product((0, 1), (0, 2), integrity, ages, hiding):
            begin = {"flags": 0x01 if place else 0, "fragment": place, "kind": kind, "stamp": (time, 7)}
            yield spelled(bundle(*one, *two, *three, **begin))[0], BUNDLE_CHECKS


def blocks_together():
    """Every three blocks whose data is read, with each head of a bundle that rules depend on."""
    kinds = [
        (6, encoded(endpoint((1, 0)))), (6, b"\x82"), (7, b"\x05"), (7, b""), (10, b"\x82\x05\x01"), (10, b"\x82\x00\x01"),
        (10, b"\x82\x05"), (11, encoded(security([0], 1, (1, 1)))), (11, encoded(security([1], 1, (1, 1)))), (11, b"\x81"),
        (12, encoded(security([0], 1, (1, 1)))), (12, encoded(security([1], 1, (1, 1)))), (12, b"\x81\x00"), (192, b""),
    ]
    heads = [{}, {"kind": 0, "stamp": (0, 7)}, {"flags": 0x02}, {"flags": 0x02, "payload": b"\x82\x01"}]
    for them in itertools.product(kinds, repeat=3):
        blocks = [canonical(kind, number, data) for number, (kind, data) in enumerate(them, 2)]
        for begin in heads:
            yield checked(bundle(*blocks, **begin))


def hidden_data():
    """Blocks whose data may be ciphertext, before, after and between those that may say so."""
    choices = [list(them) for count in range(5) for them in itertools.combinations((0, 1, 2, 3), count)]
    others = list(range(300, 363))
    hiding = [[confidential(9, it)] for it in choices] + [
        [], [confidential(9, [2], 1)], [confidential(9, [2, 300], 3)], [confidential(9, [*others, 2])],
        [confidential(9, [2, *others, 363])], [confidential(9, [*others, 363, 364])], [confidential(9, [8]), confidential(8, [3])],
    ]
    firsts = [
        (6, b"\x82\x01\x00"), (7, b"\xff"), (10, b"\x82\x05\x06"), (10, b"\x82\x00\x00"), (10, b"\x9f"), (11, b"\x81"),
        (11, encoded(security([0], 1, (1, 1)))), (11, encoded(security([1], 1, (1, 1)))),
    ]
    seconds = [(6, b"\x9f"), (6, b"\x60"), (10, b"\x82\x05\x06"), (192, b"")]
    heads = [
        {}, {"flags": 0x02, "payload": b"\x82\x01"}, {"flags": 0x02, "payload": b"\x9f"},
        {"flags": 0x01, "fragment": (0, 3), "kind": 0}, {"flags": 0x01, "fragment": (1, 3), "kind": 0},
    ]
    for them, one, two, begin in itertools.product(hiding, firsts, seconds, heads):
        first, second = canonical(one[0], 2, one[1]), canonical(two[0], 3, two[1])
        yield checked(bundle(*them, first, second, **begin))
        yield checked(bundle(first, *them, second, **begin))
        yield checked(bundle(first, second, *them, **begin))


def hidden_among_many():
    """As many blocks as a bundle has, of which all but one may be ciphertext, or all but two."""
    kinds = [(6, b"\xff"), (7, b"\x9f"), (10, b"\x82"), (10, b"\x82\x01\x7f")]
    blocks = {number: canonical(kinds[number % 4][0], number, kinds[number % 4][1]) for number in range(2, 63)}
    for left in range(2, 63):
        for more in (left, left + 1 if left < 62 else 2):
            targets = [number for number in blocks if number not in (left, more)]
            whole, halves = [confidential(63, targets)], [confidential(63, targets[::2]), confidential(64, targets[1::2])]
            for begin in ({}, {"flags": 0x02, "payload": b"\x9f"}):
                yield checked(bundle(*blocks.values(), *whole, **begin))
                yield checked(bundle(*halves, *blocks.values(), **begin))


def hop_counts():
    """Hop counts at their limits, alone and before another."""
    for limit, count in itertools.product((0, 1, 2, 254, 255, 256, LAST), repeat=2):
        block = canonical(10, 2, encoded(hop_count(limit, count)))
        yield checked(bundle(block))
        yield checked(bundle(block, canonical(10, 3, encoded(hop_count(0, 1)))))


def security_targets():
    """Security blocks with the primary block at each place of their targets, whole and cut."""
    for kind, count in itertools.product((11, 12), range(1, 6)):
        for place in range(count + 1):
            numbers = [0 if at == place else 300 + at for at in range(count)]
            data = encoded(security(numbers, 1, (1, 1)))
            for length in range(len(data) + 1):
                yield checked(bundle(canonical(kind, 2, data[:length]), kind=0))


# A bundle with a block of each type whose data is read, and a fragment
LONG = [
    bundle(
        canonical(6, 2, encoded(endpoint(b"//node/")), kind=2), canonical(7, 3, b"\x05"),
        canonical(10, 300, encoded(hop_count(30, 1)), kind=1), canonical(11, 5, encoded(security([1], 1, (1, 1)))),
        source=(4196, 2, 1), report=b"//node/a", kind=2, stamp=(700, 70000), payload=bytes(30),
    ),
    bundle(flags=1, kind=0, fragment=(6, 18)),
]


def longer(it):
    """A head in each form that is longer than its shortest one."""
    least = len(head(it.major, it.value)) - 1
    return [head(it.major, it.value, width) for width in (1, 2, 4, 8) if width > least]


def long_heads():
    """Bundles with each head, and with every two heads, in longer forms.

    A head in the data of a block, of a bundle age, is in longer forms too.
    """
    for blocks in LONG:
        heads = [it for block in blocks for it in block]
        for number, it in enumerate(heads):
            for other in longer(it):
                content = spelled(blocks, number, other)[0]
                yield content, BUNDLE_CHECKS[:1]
                yield carried(content), CHECKS[:1]
    for width in (1, 2, 4, 8):
        yield spelled(LONG[0], widths=lambda value, width=width: width if value < 1 << 8 * width else 8)[0], BUNDLE_CHECKS[:1]
        yield checked(bundle(canonical(7, 2, head(0, 5, width))))


def indefinite():
    """Bundles with a head of indefinite length in place of each of their heads, and in pieces.

    So the fault is a limit of the toolkit in some, and not in others.
    """
    others = (b"\x1f", b"\x3f", b"\x5f", b"\x7f", b"\x9f", b"\xbf", b"\xdf", b"\xff", b"\x5e", b"\x9c")
    for blocks in LONG:
        yield from replaced(blocks, others)


def replaced(blocks, others):
    """Transfers of a bundle with each of some heads in place of each of its heads.

    In others, the bundle ends with that head, whose last byte is in a segment of its own.
    """
    for number in range(sum(map(len, blocks))):
        for other in others:
            content, after = spelled(blocks, number, other)
            yield carried(content), CHECKS[:1]
            begin, rest = content[:after - 1], content[after - 1:after]
            yield stream(sess_init(), segment(START, 0, begin), segment(END, 0, rest)), CHECKS[:1]


def tags():
    """Bundles with a tag in place of each of their heads, and before their first byte.

    The tag of CBOR itself comes in each number of segments, cut, and with each of its bytes changed.
    """
    for blocks in LONG:
        yield from replaced(blocks, (b"\xd8\x18", b"\xd8\x19", b"\xd8", b"\xd9\x00\x18", b"\xc0", b"\xd7", b"\xd9\xd9\xf7"))
    tagged = b"\xd9\xd9\xf7" + spelled(LONG[1])[0]
    for length in (*range(6), len(tagged)):
        yield carried(tagged[:length]), CHECKS
        for one, two in itertools.combinations_with_replacement(range(min(length, 5) + 1), 2):
            them = segment(START, 0, tagged[:one]), segment(0, 0, tagged[one:two]), segment(END, 0, tagged[two:length])
            yield stream(sess_init(), *them), CHECKS[:1]
    for at, byte in itertools.product(range(4), range(256)):
        yield carried(tagged[:at] + bytes([byte]) + tagged[at + 1:]), CHECKS[:1]


# ---- nodes, ages, types and reports

# Endpoint IDs that name a node, a group, an application, none, and that have no syntax
NODES = [
    None, b"none", b"", b"//n/", b"//n/a", b"//n/~", b"//n/a~", b"//n:/~", b"//~n/", b"///", b"///~", b"//n//", b"//%7e/", b"//%/a",
    (1, 0), (1, 1), (0, 0), (0, LAST), (5, 1, 0), (5, 1, 1), (5, 0, 0),
]
# Where a bundle is whole, a first fragment, or a later one
PLACES = [{}, {"flags": 0x01, "fragment": (0, 99)}, {"flags": 0x01, "fragment": (1, 99)}]


def report(*statuses, reason=0, source=(2, 1), more=b""):
    """A bundle that is a status report, with these bytes after it."""
    return bundle(flags=0x02, payload=encoded(status_report(statuses, reason, source, (1, 0))) + more)


def integrity(number, targets, context=1, source=(1, 1), flags=0):
    """A block integrity block."""
    return canonical(11, number, encoded(security(targets, context, source, flags)))


def cipher(number, targets, context=2, source=(1, 1), flags=0, block_flags=None):
    """A block confidentiality block. It is in every fragment if the payload is a target."""
    block_flags = int(1 in targets) if block_flags is None else block_flags
    return canonical(12, number, encoded(security(targets, context, source, flags)), flags=block_flags)


def names_in_blocks():
    """Every byte in each part of a dtn name, in each block and in a status report."""
    names = [it % byte for it in (b"//%c/", b"//n/%c", b"//%%%c0/", b"//%%0%c/") for byte in range(256)]
    for name in [*names, *(it for it in NODES if isinstance(it, bytes))]:
        yield checked(bundle(canonical(6, 2, encoded(endpoint(name)))))
        yield checked(bundle(integrity(2, [0], source=name)))
        yield checked(bundle(cipher(2, [1], source=name)))
        yield checked(report(True, False, False, False, source=name))


def places_of_names():
    """Good and bad names in every place of a bundle, where some of them may be ciphertext."""
    for them in itertools.product((b"n", b"//n/"), repeat=7):
        blocks = [
            canonical(6, 2, encoded(endpoint(them[3]))), integrity(3, [0], source=them[4]), cipher(4, [9], source=them[5]),
        ]
        payload = encoded(status_report([True, False, False, False], 0, them[6], (1, 0)))
        for more in ([], [cipher(5, [2])], [cipher(5, [3])], [cipher(5, [1, 2])]):
            for order in (blocks + more, more + blocks[::-1]):
                yield checked([primary(*them[:3], 1, 0x02, (1, 0), 20), *order, canonical(1, 1, payload)])


def previous_nodes():
    """Every two previous nodes, where each may be ciphertext or malformed."""
    datas = [encoded(endpoint(it)) for it in NODES] + [b"", b"\x9f", b"\x82\x01\x00\x00"]
    for one, two in itertools.product(datas, repeat=2):
        blocks = [canonical(6, 2, one), canonical(6, 3, two)]
        for more in ([], [cipher(9, [2])], [cipher(9, [3])]):
            yield checked(bundle(*blocks, *more))
    for data, begin in itertools.product(datas, PLACES):
        yield spelled(bundle(canonical(6, 2, data), **begin))[0], BUNDLE_CHECKS
    for node in NODES:
        yield checked(bundle(source=node))


def ages():
    """Every age with every lifetime of some, alone and beside another block that may be the first."""
    numbers = [0, 1, 5, 6, 23, 24, 255, 256, 65536, 2**32, 2**63, LAST - 1, LAST]
    for lifetime, age in itertools.product(numbers, repeat=2):
        block = canonical(7, 2, encoded([unsigned(age)]))
        for begin in PLACES:
            yield checked(bundle(block, lifetime=lifetime, **begin))
        for other in (b"\x05", b"", b"\x9f", b"\x1b" + bytes(8 * [0xFF])):
            for more in ([], [cipher(9, [2])], [cipher(9, [3])]):
                yield checked(bundle(block, canonical(7, 3, other), *more, lifetime=lifetime))


def types_of_blocks():
    """Each type of a block, and every two of some."""
    for kind in [*range(301), *BITS, LAST]:
        for begin in PLACES:
            yield checked(bundle(canonical(kind if kind != 1 else 0, 2, b"\x80"), **begin))
    for one, two in itertools.product((0, 2, 5, 6, 8, 9, 10, 13, 192, 255, 256), repeat=2):
        yield checked(bundle(canonical(one, 2, b""), canonical(two, 3, b""), cipher(9, [3])))


def records():
    """Each type of a record, and each list of statuses, reasons and sources of some."""
    for kind in [*range(30), *BITS, LAST]:
        for begin in PLACES:
            begin = {**begin, "flags": begin.get("flags", 0) | 0x02}
            yield checked(bundle(payload=encoded([array(2), unsigned(kind)]), **begin))
    for count in (4, 5, 6):
        for statuses in itertools.product((False, True, 0, 7), repeat=count):
            yield checked(report(*statuses))
    lists = [(False,) * 4, (False, True, False, False), (7, False, True, False), (7, 7, False, False, True)]
    for statuses, reason, source in itertools.product(lists, (0, 1, 11, 16, 17, 24, 255, 256, LAST), NODES):
        yield checked(report(*statuses, reason=reason, source=source))
    for statuses, reason, more in itertools.product(lists, (0, 17), (b"", b"\x00")):
        it = report(*statuses, reason=reason, source=None, more=more)
        for blocks in ([], [cipher(9, [1])], [cipher(9, [2])], [canonical(12, 9, b"")]):
            yield checked([it[0], *blocks, it[1]])


# ---- security blocks


def two_security_blocks():
    """Every two security blocks with some targets, beside an age and each other in each order."""
    lists = [[], [0], [1], [2], [3], [4], [5], [1, 1], [2, 1], [1, 2], [3, 4], [0, 5, 0]]
    age = canonical(7, 2, b"\x05")
    made = list(itertools.product((integrity, cipher), lists))
    for one, two, begin in itertools.product(made, made, PLACES):
        blocks = [one[0](3, one[1]), two[0](4, two[1])]
        yield checked(bundle(age, *blocks, **begin))
        yield checked(bundle(*blocks[::-1], age, **begin))


def three_security_blocks():
    """Every three security blocks with a few targets, of which some may be ciphertext or malformed."""
    lists = [[1], [2], [3], [4, 1]]
    made = [*itertools.product((integrity, cipher), lists), (None, 11), (None, 12)]
    for them in itertools.product(made, repeat=3):
        blocks = [
            each(number, targets) if each else canonical(targets, number, b"\x81")
            for number, (each, targets) in enumerate(them, 2)
        ]
        for begin in PLACES:
            yield checked(bundle(*blocks, **begin))


def many_targets():
    """About as many targets as are looked at, with one of interest at each place near the ends.

    Another block shares it, before or after. The bundle has as many blocks as it may, or few.
    """
    others = [canonical(192, number, b"") for number in range(3, 64)]
    numbers = [*range(3, 64), 1, 0, 300, 301]
    for count, each, wanted in itertools.product((62, 63, 64, 65), (integrity, cipher), (0, 1, 2, 3, 64, 500)):
        for place in (0, 1, 61, 62, 63, 64):
            targets = [it for it in numbers if it != wanted][:count]
            targets[place:place + 1] = [wanted]
            block = each(2, targets)
            for other in (integrity, cipher):
                yield checked(bundle(block, other(64, [wanted]), *others))
                yield checked(bundle(other(64, [wanted]), block, flags=0x01, fragment=(0, 99)))
                yield checked(bundle(other(64, [wanted]), block, flags=0x01, fragment=(1, 99)))
            yield checked(bundle(each(2, [*targets, targets[0]]), *others))


def flags_of_security():
    """Each flag and each ID of a context, and each flag of a block, beside a block that is right."""
    contexts = [0, 1, 2, 3, -1, -2, 23, -24, -25, 255, -256, 32767, -32768, LAST, -LAST - 1]
    for each, flags in itertools.product((integrity, cipher), [*range(260), *BITS, LAST]):
        yield checked(bundle(each(2, [1], flags=flags)))
    for one, two in itertools.product(itertools.product((integrity, cipher), contexts), repeat=2):
        yield checked(bundle(one[0](2, [0], one[1], flags=2), two[0](3, [1], two[1])))
    for targets, begin in itertools.product(([1], [9], [9, 1], []), PLACES):
        for flags in [*sums(BLOCK_FLAGS), *BITS]:
            yield checked(bundle(cipher(2, targets, block_flags=flags), canonical(7, 9, b"\x05"), **begin))
            yield checked(bundle(integrity(2, targets), cipher(3, [9, 1], 1, block_flags=flags), **begin))


# Data of each type, as heads
DATA = [
    (6, endpoint((977, 5, 0))), (6, endpoint(b"//n/")), (7, [unsigned(5)]), (10, hop_count(30, 1)),
    (11, security([0, 9], 1, (1, 1), 1)), (12, security([9], -3, b"//n/")),
]


def long_heads_of_data():
    """Every two blocks with a head that is longer than its shortest form, or with none.

    The bundle has a long head before them, after them, or none, and a block may be ciphertext.
    """
    made = []
    for kind, heads in DATA:
        made += [(kind, encoded(heads)), *((kind, encoded(heads, at, longer(it)[0])) for at, it in enumerate(heads) if longer(it))]
    for (one, first), (two, second) in itertools.product(made, repeat=2):
        blocks = [canonical(one, 2, first), canonical(two, 3, second)]
        for more in ([], [cipher(9, [3])]):
            yield checked(bundle(*blocks, *more))
    for (kind, data), begin in itertools.product(made, PLACES):
        it = bundle(canonical(kind, 2, data), **begin)
        for number in (0, sum(map(len, it)) - 1):
            head_of = [each for block in it for each in block][number]
            for other in (head(head_of.major, head_of.value), longer(head_of)[0]):
                yield spelled(it, number, other)[0], BUNDLE_CHECKS
    for kind, heads in DATA:
        for at, it in enumerate(heads):
            for other in longer(it):
                yield checked(bundle(canonical(kind, 2, encoded(heads, at, other))))
                yield checked(bundle(canonical(kind, 2, encoded(heads, at, other) + b"\x18\x00")))


def cut_bundles():
    """A bundle that breaks many rules, in two segments and in three, cut at each byte."""
    content = spelled(bundle(
        canonical(6, 2, encoded(endpoint(b"//n/a"))), canonical(7, 3, b"\x18\x18"), canonical(10, 4, encoded(hop_count(0, 1))),
        canonical(9, 5, b""), integrity(6, [1, 5, 6], 0, b"//n", 2), cipher(7, [5, 7, 0], 1, flags=256, block_flags=0x18),
        cipher(8, [5, 5]), canonical(192, 300, bytes(30)), source=b"//n/~", flags=0x02, kind=0, stamp=(0, 7),
        payload=encoded(status_report([True, 7, False, False], 17, None, (1, 0))),
    ))[0]
    for at in range(len(content) + 1):
        pieces = segment(START, 0, content[:at]), segment(END, 0, content[at:])
        yield stream(sess_init(), *pieces), CHECKS
        pieces = segment(START, 0, content[:at]), segment(0, 0, content[at:at + 1]), segment(END, 0, content[at + 1:])
        yield stream(sess_init(), *pieces), CHECKS
        yield 2 * content + content[:at], BUNDLE_CHECKS


def groups():
    """The groups of this file."""
    for make in (flags_of_bundles, flags_of_blocks, dtn_names, fragments, blocks_of_fragments, blocks_together, hidden_data,
                 hidden_among_many, hop_counts, security_targets, long_heads, indefinite, tags, names_in_blocks,
                 places_of_names, previous_nodes, ages, types_of_blocks, records, two_security_blocks,
                 three_security_blocks, many_targets, flags_of_security, long_heads_of_data, cut_bundles):
        yield f"rules: {make.__name__.replace('_', ' ')}", make
