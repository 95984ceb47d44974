"""`check`: whom a line accuses: the option `--own`, the first SESS_INIT, and what an unknown part may change.

A bundle is of the node ipn:1.0 if nothing else is said, and so are the security blocks in it. MINE
names this node, and THEIRS another. Offsets are those of `broken`.
"""

import make
from inputs.spelling import endpoint, head, hop_count, spelled
from model import checking

from .broken import (
    AGE, AGE_3, CLEAN, CONTACT, HIDDEN_2, HOPS, INIT, INTEGRITY, KEEPALIVE, LAST, NODE, OPEN_RECORD, PRIVATE, RECORD,
    VERSION, alone, block, blocks_of, bundle, bundles_of, hiding, of, protecting, report, row, sent, two,
)
from .bundles import BUNDLES, LONG_2, LONG_AGE, NOBODY
from .lines import END, HEAD, START
from .runs import KNOWN_BLOCKS, KNOWN_LINES
from .security import FIRST, LATER, SECURITY

MINE, THEIRS, NOBODYS = "ipn:1.0", "ipn:9.0", "ipn:77.0"

# An endpoint ID of the other node, as the source of a bundle and of a security block
OTHER = (9, 1)


def both(name, content, lines, **options):
    """A bundle in a transfer of one segment at 38, and alone, with options."""
    yield row(name, HEAD + sent(content), of(lines, 38, "transfer=0"), options)
    yield row(f"{name}, alone", content, alone(lines, 0), {**options, "bundles": True})


# ---- which rules are judged

# The rules of bundles that bind one of the three alone. All rules of security blocks bind the adder.
SOURCE = """
bundle-flags primary-check anonymous record-reports block-reports block-flags fragment whole-fragment age hop-count record
source-node block-type record-type report-times report-empty report-reason report-source
""".split()
SENDER = "previous-node hops previous-node-id expired".split()
ADDER = ["confidential-primary", *SECURITY]
# Those that bind one or another, by what is wrong
MIXED = "long-head dtn-name block-data data-not-read".split()

# Rules whose bundles, or the security blocks in these, are in part of no node or of others
OTHERS = "anonymous block-reports source-node".split()


def rule_of(line):
    """The rule of a line as `broken` spells it."""
    return line.split(" ")[1].rstrip(":")


def listed(lines):
    """The lines of a bundle as a list."""
    return [lines] if isinstance(lines, str) else lines


def of_one():
    """The bundles of the rules that bind one of the three alone, and break no other rule, with their lines."""
    one = {*SOURCE, *SENDER, *ADDER}
    rules = {rule: it for rule, it in {**BUNDLES, **SECURITY}.items() if rule in one}
    for name, content, lines in bundles_of(rules):
        if {rule_of(line) for line in listed(lines)} <= one:
            yield name, content, listed(lines)


def of_nobody():
    """With `--own` of a node that no bundle names, only rules of the sender are judged."""
    for name, content, lines in of_one():
        yield from both(f"{name}, of nobody", content, [it for it in lines if rule_of(it) in SENDER], own=NOBODYS)


def of_its_source():
    """With `--own` of the source and adder, all rules are judged. The source is known to be meant."""
    for name, content, lines in of_one():
        if name.split(",")[0] not in OTHERS:
            options = {"own": MINE}
            yield row(f"{name}, of its source", HEAD + sent(content), of(lines, 38, "transfer=0"), options)
            yield row(f"{name}, of its source, alone", content, of(lines, 0, "bundle=0"), {**options, "bundles": True})


def long_version(*blocks, **fields):
    """A bundle with a version that is one byte longer than needed. A block in it is at 26, and its data at 32."""
    return spelled(blocks_of(*blocks, **fields), VERSION, head(0, 7, 1))[0]


def always(line):
    """The lines of a bundle that breaks a rule of the sender, with `--own` of each of two nodes."""
    return [line], [line]


# Bundles, and their lines with `--own` of MINE and of THEIRS
SHARED = [
    # Heads of the bundle bind the source, those of an age the sender, and those of a security block its adder.
    ("heads", long_version(), ["must long-head: byte=2"], []),
    ("heads of another", long_version(source=OTHER), [], ["must long-head: byte=2"]),
    ("heads of an age of another", bundle(LONG_AGE, source=OTHER), *always("should long-head: byte=31")),
    ("heads of an adder", bundle(LONG_2, source=OTHER), ["must long-head: byte=31"], []),
    ("heads of all", bundle(LONG_AGE, LONG_2), ["must long-head: byte=39"], ["should long-head: byte=31"]),
    ("heads of all, of another", bundle(LONG_AGE, LONG_2, source=OTHER),
     ["must long-head: byte=39"], ["should long-head: byte=31"]),
    ("heads of a source and an adder", long_version(LONG_2, source=OTHER),
     ["must long-head: byte=32"], ["must long-head: byte=2"]),
    # So do names. What is no name is of no node.
    ("names", bundle(NOBODY, destination=b"n", source=OTHER),
     ["must dtn-name: of=previous-node block=2"], ["must dtn-name: of=destination"]),
    ("a name of the report-to", bundle(report=b"n"), ["must dtn-name: of=report-to"], []),
    ("a source that is no name", bundle(source=b"//n"), [], []),
    ("a security source that is no name", bundle(protecting(2, 1, source=b"//n")), [], []),
    ("a name in a report", bundle(flags=0x02, payload=report(True, False, False, False, source=b"n")),
     ["must dtn-name: of=report-source"], []),
    ("names in a report and before", bundle(NOBODY, flags=0x02, payload=report(True, False, False, False, source=b"n")),
     *always("must dtn-name: of=previous-node block=2")),
    # Data that is malformed: that of a security block is of no node, and a record is the source's.
    ("an age", bundle(block(7, 2, b""), source=OTHER), *always("must block-data: block=2 byte=31")),
    ("a node and hops", bundle(block(10, 2, b""), block(6, 3, b"")), *always("must block-data: block=2 byte=31")),
    ("security blocks", bundle(block(11, 2, b"")), [], []),
    ("a security block and a record", bundle(block(12, 9, b"\x80"), flags=0x02, payload=RECORD), [], []),
    ("a security block before an age", bundle(block(11, 2, b"\x81\x18"), block(7, 3, b"")),
     *always("must block-data: block=3 byte=39")),
    ("an open age", bundle(block(7, 2, b"\x9f"), source=OTHER), *always("should data-not-read: block=2 byte=31")),
    ("an open security block", bundle(block(11, 2, b"\x9f")), [], []),
    ("an open record", bundle(flags=0x02, payload=OPEN_RECORD), ["should data-not-read: block=1 byte=31"], []),
    ("an open record of another", bundle(flags=0x02, payload=OPEN_RECORD, source=OTHER),
     [], ["should data-not-read: block=1 byte=31"]),
    # An open security block hides the record, whoever added it.
    ("an open security block and a record", bundle(block(12, 9, b"\x9f"), flags=0x02, payload=OPEN_RECORD), [], []),
    # Without a source, a bundle is of no node.
    ("no source", bundle(source=None), [], []),
    ("no source, and a previous node", bundle(block(6, 2, endpoint(None)), source=None),
     *always("must previous-node-id: block=2")),
    # Security blocks in a bundle of another node, and of another node
    ("an adder", bundle(protecting(2, 2), source=OTHER), ["must integrity-target: block=2 target=2"], []),
    ("another adder", bundle(protecting(2, 2, source=OTHER)), [], ["must integrity-target: block=2 target=2"]),
    ("the primary block", bundle(hiding(9, 0), source=OTHER), ["must confidential-primary: block=9"], []),
    ("two adders", bundle(AGE, hiding(8, 0, source=OTHER), hiding(9, 2, 0)),
     ["must confidential-primary: block=9"], ["must confidential-primary: block=8"]),
    ("the second adder", bundle(protecting(2, source=OTHER), protecting(3, 1, 1)),
     ["must security-targets: block=3 target=1"], ["must security-targets: block=2"]),
    ("a target twice and one that is not there", bundle(protecting(2, 1, 1), protecting(3, 300, source=OTHER)),
     ["must security-targets: block=2 target=1"], ["should security-targets: block=3 target=300"]),
    ("flags of two", bundle(protecting(2, 0, context_flags=2), hiding(9, 1, context_flags=4, source=OTHER)),
     ["must security-flags: block=2 flags=02"], ["must security-flags: block=9 flags=04"]),
    ("a cipher of another", bundle(AGE, hiding(9, 2, context=1, flags=0x10, source=OTHER)),
     [], ["must confidential-flags: block=9 flags=10", "must confidential-context: block=9"]),
    # The flags of a block are the source's, as its adder may not be known.
    ("flags of a security block", bundle(protecting(2, 0, flags=0x08, source=OTHER)), ["should block-flags: block=2 flags=08"], []),
    # Two blocks: nothing shows which of two nodes came first.
    ("twice", bundle(protecting(2, 1), protecting(3, 1), source=OTHER), ["must security-twice: block=3 target=1"], []),
    ("twice by two nodes", bundle(protecting(2, 1), protecting(3, 1, source=OTHER)), [], []),
    ("twice by two nodes, the other first", bundle(protecting(2, 1, source=OTHER), protecting(3, 1)), [], []),
    ("twice around another", bundle(protecting(2, 1), protecting(3, 1, source=OTHER), protecting(4, 1)),
     ["must security-twice: block=4 target=1"], []),
    ("shared", bundle(INTEGRITY, hiding(9, 1), source=OTHER), ["should shared-target: block=2 target=1"], []),
    ("shared by two nodes", bundle(INTEGRITY, hiding(9, 1, source=OTHER)), [], []),
    ("shared by two nodes, the other first", bundle(protecting(2, 1, source=OTHER), hiding(9, 1)), [], []),
    ("shared with two", bundle(protecting(2, 0, 1, source=OTHER), hiding(8, 0), hiding(9, 1, source=OTHER)),
     ["must confidential-primary: block=8"], ["should shared-target: block=2 target=1"]),
    # A target is a security block, whoever added it; and a block is hidden, whoever encrypted it.
    ("a security block of another", bundle(protecting(2, 3), protecting(3, 0, source=OTHER)),
     ["must integrity-target: block=2 target=3"], []),
    ("encrypted by another", bundle(block(7, 2, b""), protecting(3, 3), hiding(9, 2, 3, source=OTHER)), [], []),
    # No check: a block of integrity counts, whoever added it.
    ("no check", bundle(kind=0, source=OTHER), [], ["must primary-check:"]),
    ("no check, protected by another", bundle(protecting(2, 0, source=OTHER), kind=0), [], []),
]


def of_two_nodes():
    """The bundles above, with `--own` of each node."""
    for name, content, mine, theirs in SHARED:
        for node, lines in ((MINE, mine), (THEIRS, theirs)):
            yield row(f"{name}, {node}", HEAD + sent(content), of(lines, 38, "transfer=0"), {"own": node})
            yield row(f"{name}, {node}, alone", content, of(lines, 0, "bundle=0"), {"own": node, "bundles": True})


def of_the_sender():
    """Rules of messages and transfers are judged with any `--own`, and so is whether data is a bundle."""
    recording = b"dtn!\x04\x80" + INIT + KEEPALIVE + make.xfer_segment(START | END | 0x04, 0, b"") + sent(b"\xbf", 2)
    for node in (MINE, THEIRS):
        yield row(f"messages and transfers, {node}", recording, [
            "0 must contact-flags flags=80",
            "39 must segment-flags flags=07",
            "39 must bundle transfer=0 code=B1 byte=0",
            "61 should transfer-id-order id=2",
            "61 must bundle transfer=2 code=B3 byte=0",
        ], {"own": node})
    yield row("not read, with --own", HEAD + sent(b"\x9f\x9f"), ["38 should not-read transfer=0 code=B5 byte=1"], {"own": THEIRS})
    announced = HEAD + two(CLEAN, 9, make.length_item(34))
    lines = ["38 must length-differs transfer=0 announced=34 length=33"]
    yield row("a length, with --own", announced, lines, {"own": THEIRS})
    # With --must, and beside bundles of others
    lines = [line for line in KNOWN_LINES if line.split(" ")[2] in ("previous-node", "block-data", "previous-node-id")]
    yield row("most rules, with --own and --must", KNOWN_BLOCKS, lines, {"own": THEIRS, "must": True, "bundles": True})
    content = bundle(flags=0x08) + bundle(flags=0x08, source=OTHER) + bundle(flags=0x08)
    for node, lines in ((MINE, [f"{at} should bundle-flags bundle={number} flags=08" for at, number in ((0, 0), (66, 2))]),
                        (THEIRS, ["33 should bundle-flags bundle=1 flags=08"])):
        yield row(f"three bundles, {node}", content, lines, {"own": node, "bundles": True})


# ---- the node of an ID

# What a node ID breaks that is not the node's own, is a group's, or has not the syntax of its scheme
SERVICE, GROUP, WRONG = "should node-name", "must node-name", "must node-id"

# A node ID and an endpoint ID of the same node, and what the node ID breaks
SAME = [
    ("ipn:1.0", (1, 1), ""), ("ipn:1.7", (1, 0), SERVICE), ("IPN:01.00", (1, 1), ""), ("ipn:0.1.0", (1, 1), ""),
    ("ipn:1.0", (0, 1, 5), ""), ("ipn:00.001.9", (1, LAST), SERVICE), ("ipn:5.1.0", (5, 1, 9), ""), ("ipn:0.0", (0, 3), ""),
    ("ipn:0.0.0", (0, 0), ""), (f"ipn:{LAST}.0", (LAST, 1), ""), (f"ipn:{LAST}.{LAST}.1", (LAST, LAST, 0), SERVICE),
    ("dtn://n/", b"//n/", ""), ("dtn://n/", b"//n/a", ""), ("dtn://N/x", b"//n//", SERVICE), ("DtN://n/~", b"//N/a~", GROUP),
    ("dtn:///", b"///a", ""), ("dtn://%4a-.~!/", b"//%4A-.~!/", ""), ("dtn://none/", b"//NONE/", ""),
]
# The same of two nodes, or of none
DIFFERENT = [
    ("ipn:1.0", (2, 1), ""), ("ipn:2.1", (1, 1), SERVICE), ("ipn:1.0", (1, 1, 0), ""), ("ipn:1.1.0", (1, 1), ""),
    ("ipn:4294967297.0", (1, 1, 0), ""), ("ipn:5.1.0", (0, 1, 0), ""), ("ipn:10.0", (1, 0), ""),
    ("ipn:18446744073709551616.0", (0, 0), ""), ("ipn:18446744073709551617.0", (1, 0), ""),
    ("ipn:1.18446744073709551617.0", (1, 1, 0), ""), ("ipn:0.0", None, ""),
    ("dtn://n/", b"//m/", ""), ("dtn://n/", b"//nn/", ""), ("dtn://nn/", b"//n/", ""), ("dtn://n/n/", b"//n%2fn/", SERVICE),
    ("dtn://%41/", b"//A/", ""), ("dtn://1/", (1, 1), ""), ("dtn:///", b"//n/", ""), ("dtn:///", None, ""),
    ("dtn://none/", None, ""),
]
# The same, where the node ID names no node
NONE = [
    ("", (0, 0), ""), ("dtn:none", None, SERVICE), ("DTN:NoNe", b"//none/", SERVICE), ("ipn:!", (0, 0), ""),
    ("ipn:!1.0", (1, 0), ""), ("IPN:!.0", (0, 0), ""), ("ipn:1", (1, 1), WRONG), ("ipn:1.2.3.0", (2, 3, 0), WRONG), ("ipn:.0", (0, 0), WRONG),
    ("ipn:", (0, 0), WRONG), ("ipn:+1.0", (1, 1), WRONG), ("ipn:1.-0", (1, 0), WRONG), ("ipn:1.0 ", (1, 1), WRONG),
    ("ipn:1_0.0", (10, 0), WRONG), ("ipn2:1.0", (1, 1), SERVICE), ("1.0", (1, 1), WRONG), ("dtn:", b"///", WRONG),
    ("dtn:n", b"//n/", WRONG), ("dtn:/n/", b"//n/", WRONG), ("dtn://n", b"//n/", WRONG), ("dtn://n:1/", b"//n/", WRONG),
    ("dtn://n/<", b"//n/", WRONG), ("dtn://n/%4", b"//n/", WRONG), ("dtn://n/ ", b"//n/", WRONG), ("dtn://\u00e4/", b"//n/", WRONG),
    ("dtn2://n/", b"//n/", SERVICE), ("//n/", b"//n/", WRONG), (":", (1, 1), WRONG), ("https://n/", b"//n/", SERVICE),
]


def made_by(source, **fields):
    """A bundle of a source. One without a source must not be fragmented."""
    return bundle(source=source, **{**fields, "flags": fields.get("flags", 0) | (0x04 if source is None else 0)})


def of_own_nodes():
    """`--own` with each of these IDs: whether a rule of the source is judged."""
    line = ["0 should bundle-flags bundle=0 flags=08"]
    for node, source, _ in SAME:
        yield row(f"{node} is {source}", made_by(source, flags=0x08), line, {"own": node, "bundles": True})
    for node, source, _ in DIFFERENT:
        yield row(f"{node} is not {source}", made_by(source, flags=0x08), [], {"own": node, "bundles": True})


def of_senders():
    """A SESS_INIT with each of these IDs: whether `primary-check` is a must."""
    for level, pairs in (("must", SAME), ("should", [*DIFFERENT, *NONE])):
        for node, source, broken in pairs:
            name = node.encode()
            begin = CONTACT + make.sess_init(node=name)
            lines = [f"6 {broken} length={len(name)}"] if broken else []
            lines.append(f"{len(begin)} {level} primary-check transfer=0")
            yield row(f"from {node!r}, of {source}", begin + sent(made_by(source, kind=0)), lines)


def of_sess_inits():
    """Where the SESS_INIT is that counts: the first one, if it comes before the end of the transfer."""
    unchecked = bundle(kind=0)
    other, none = make.sess_init(node=b"ipn:9.0"), make.sess_init(node=b"")
    begins, ends = make.xfer_segment(START, 0, unchecked[:9]), make.xfer_segment(END, 0, unchecked[9:])
    early, second = "6 must order fault=segment-before-session-initiation", "should order fault=second-session-initiation"
    for name, content, lines in [
        ("after the transfer", sent(unchecked) + INIT, [early, "6 should primary-check transfer=0"]),
        ("amid the transfer", begins + INIT + ends, [early, "6 must primary-check transfer=0"]),
        ("of another amid the transfer", begins + other + ends, [early, "6 should primary-check transfer=0"]),
        ("after that of another", other + INIT + sent(unchecked), [f"38 {second}", "70 should primary-check transfer=0"]),
        ("before that of another", INIT + other + sent(unchecked), [f"38 {second}", "70 must primary-check transfer=0"]),
        ("after one without a name", none + INIT + sent(unchecked), [f"31 {second}", "63 should primary-check transfer=0"]),
        ("before a transfer of two", INIT + begins + KEEPALIVE + ends, ["38 must primary-check transfer=0"]),
        ("between two transfers", sent(unchecked) + INIT + sent(unchecked, 1),
         [early, "6 should primary-check transfer=0", "90 must primary-check transfer=1"]),
    ]:
        yield row(f"a SESS_INIT {name}", CONTACT + content, lines)


# ---- what an unknown part may have changed

# A block of a type for private use, of 9 bytes
UNKNOWN = block(192, 50, b"x")

# The blocks and the fields of bundles whose lines are a must only if no block is of an unknown type
UNSURE = [
    ("block-data", [block(7, 2, b"")], {}, "must block-data: block=2 byte=31"),
    ("block-data of security", [block(11, 2, b"\x00")], {}, "must block-data: block=2 byte=31"),
    ("report-times", [], {"flags": 0x02, "payload": report(7, True, False, False)}, "must report-times:"),
    ("previous-node-id", [block(6, 2, endpoint(None))], {}, "must previous-node-id: block=2"),
    ("previous-node-id of a group", [block(6, 2, endpoint(b"//n/~"))], {}, "must previous-node-id: block=2"),
    ("confidential-primary", [hiding(9, 0)], {}, "must confidential-primary: block=9"),
    ("security-targets", [protecting(2)], {}, "must security-targets: block=2"),
    ("security-targets, one twice", [protecting(2, 1, 1)], {}, "must security-targets: block=2 target=1"),
    # The line names what it would name as a must.
    ("security-targets of two blocks", [protecting(2, 300), hiding(9)], {}, "must security-targets: block=9"),
    ("security-targets of one block", [protecting(2, 300, 1, 1)], {}, "must security-targets: block=2 target=1"),
    ("security-twice", [protecting(2, 1), protecting(3, 1)], {}, "must security-twice: block=3 target=1"),
    ("security-flags", [protecting(2, 1, context_flags=2)], {}, "must security-flags: block=2 flags=02"),
    ("integrity-target", [protecting(2, 2)], {}, "must integrity-target: block=2 target=2"),
    ("confidential-target", [hiding(9, 9)], {}, "must confidential-target: block=9 target=9"),
    ("confidential-flags", [AGE, hiding(9, 2, flags=0x10)], {}, "must confidential-flags: block=9 flags=10"),
    ("confidential-flags of a payload", [hiding(9, 1, flags=0x00)], {}, "must confidential-flags: block=9 flags=00"),
    ("confidential-context", [hiding(9, 1, context=1)], {}, "must confidential-context: block=9"),
    ("long-head", [LONG_2], {}, "must long-head: byte=31"),
    ("dtn-name", [NOBODY], {}, "must dtn-name: of=previous-node block=2"),
    ("dtn-name of an adder", [protecting(2, 1, source=b"n")], {}, "must dtn-name: of=security-source block=2"),
    ("dtn-name of a report", [], {"flags": 0x02, "payload": report(True, False, False, False, source=b"n")},
     "must dtn-name: of=report-source"),
    ("hop-count", [block(10, 2, hop_count(0, 0))], {}, "must hop-count: blocks=1 limit=0"),
    ("fragment", [], {"flags": 0x01, "fragment": (2, 2)}, "must fragment: offset=2 length=1 total=2"),
]
# Those whose lines are a must beside such a block too
SURE = [
    ("bundle-flags", [], {"flags": 0x4002, "payload": RECORD}, "must record-reports: flags=4002"),
    ("primary-check", [], {"kind": 0}, "must primary-check:"),
    ("anonymous", [], {"source": None}, "must anonymous: flags=00"),
    ("block-reports", [], {"source": None, "flags": 0x04, "payload_flags": 0x02}, "must block-reports: block=1"),
    ("age", [], {"stamp": (0, 5)}, "must age: blocks=0"),
    ("age, two", [AGE, AGE_3], {}, "must age: blocks=2"),
    ("previous-node", [NODE, block(6, 3, endpoint((5, 0)))], {}, "must previous-node: blocks=2"),
    ("hop-count, two", [HOPS, block(10, 3, hop_count(9, 0))], {}, "must hop-count: blocks=2 limit=30"),
    ("hop-count, two and a limit", [block(10, 3, hop_count(0, 0)), HOPS], {}, "must hop-count: blocks=2 limit=0"),
    ("source-node", [], {"source": b"//n/~"}, "must source-node:"),
    ("dtn-name", [], {"destination": b"n"}, "must dtn-name: of=destination"),
    ("dtn-name, two", [NOBODY], {"report": b"n"}, "must dtn-name: of=report-to"),
    ("fragment, none", [], {"flags": 0x05, "fragment": (0, 2)}, "must fragment: offset=0 length=1 total=2"),
    ("fragment, empty", [], {"flags": 0x01, "fragment": (0, 2), "payload": b""}, "must fragment: offset=0 length=0 total=2"),
    ("fragment, none and its end", [], {"flags": 0x05, "fragment": (2, 2)}, "must fragment: offset=2 length=1 total=2"),
]


def of_blocks():
    """Bundles without a block of an unknown type, and with one."""
    for name, blocks, fields, line in UNSURE:
        yield from both(f"{name}, known", bundle(*blocks, **fields), line)
        yield from both(f"{name}, unknown", bundle(*blocks, UNKNOWN, **fields), line.replace("must", "should"))
        yield from both(f"{name}, unknown, must", bundle(*blocks, UNKNOWN, **fields), [], must=True)
    for name, blocks, fields, line in SURE:
        yield from both(f"{name}, beside an unknown block", bundle(*blocks, UNKNOWN, **fields), line)
    yield from both("record, known", bundle(flags=0x02), "must record: byte=32")
    yield from both("record, unknown", bundle(UNKNOWN, flags=0x02), "should record: byte=41")


def of_types():
    """Each type of a block that is known, and some that are not, beside an age that is malformed."""
    known = [block(6, 3, endpoint((1, 0))), block(10, 4, hop_count(30, 1)), protecting(5, 0), hiding(9, 3)]
    yield from both("known blocks", bundle(block(7, 2, b""), *known), "must block-data: block=2 byte=31")
    for kind in (13, 14, 191, 192, 255):
        content = bundle(block(7, 2, b""), *known, block(kind, 50, b""))
        yield from both(f"a block of type {kind}", content, "should block-data: block=2 byte=31")
    for kind in (0, 2, 5, 8, 9, 256, 65536, LAST):
        lines = ["should block-data: block=2 byte=31", f"should block-type: block=50 type={kind}"]
        yield from both(f"a block of type {kind}", bundle(block(7, 2, b""), block(kind, 50, b"")), lines)
    # Where it is, and whether it is ciphertext, does not matter.
    yield from both("an unknown block before", bundle(UNKNOWN, block(7, 2, b"")), "should block-data: block=2 byte=40")
    hidden = bundle(block(7, 2, b""), UNKNOWN, hiding(9, 50))
    yield from both("an unknown block that is ciphertext", hidden, "should block-data: block=2 byte=31")
    yield from both("the age is ciphertext", bundle(block(7, 2, b""), UNKNOWN, HIDDEN_2), [])
    # In a later fragment, and in the first
    wrong = [AGE, hiding(9, 1, context=1), UNKNOWN]
    for name, place in (("first", FIRST), ("later", LATER)):
        yield from both(f"in the {name} fragment", bundle(*wrong, **place), "should confidential-context: block=9")


def long_payload(*blocks):
    """A bundle with a block of an unknown type, and a longer head before its payload.

    Without other blocks, this head is at 39.
    """
    return bundle(*blocks, UNKNOWN)[:-3] + b"\x58\x01x\xff"


def of_long_heads():
    """Long heads beside a block of an unknown type: the least offset of the line's level."""
    # LONG_2 has 16 bytes, and LONG_AGE has 8.
    yield from both("a long head of the bundle", long_payload(LONG_2), "must long-head: byte=55")
    yield from both("a long head of the bundle, and an age", long_payload(LONG_AGE), "must long-head: byte=47")
    yield from both("long heads of data", bundle(LONG_AGE, LONG_2, UNKNOWN), "should long-head: byte=31")
    yield from both("long heads of other data", bundle(LONG_2, LONG_AGE, UNKNOWN), "should long-head: byte=31")
    yield from both("no long head of the node", bundle(LONG_AGE, LONG_2, UNKNOWN), "should long-head: byte=31", own=THEIRS)
    yield from both("no long head of the adder", bundle(LONG_2, UNKNOWN), [], own=THEIRS)
    yield from both("a long head of the adder", bundle(LONG_2, UNKNOWN), "should long-head: byte=31", own=MINE)


ITEM = make.item(0, PRIVATE, b"")


def of_items():
    """Transfers of bundles and of none, with items of an unknown type in the START, and beside."""
    wrong = "bundle transfer=0 code=B3 byte=0"
    for kind in (0x0000, 0x0002, 0x7FFF, 0x8000, 0xFFFF):
        for flags in (0x00, 0x01, 0x80):
            lines = [f"38 must item-flags item=0 flags={flags:02x}"] if flags > 1 else []
            lines += [f"38 should item-type item=0 type={kind:04x}"] if kind < 0x8000 else []
            content = HEAD + sent(b"\xbf", 0, make.item(flags, kind, b"ab"))
            yield row(f"an item of type {kind:04x}, flags {flags:02x}", content, [*lines, f"38 should {wrong}"])
    lines = [f"38 {line[2:]}".replace("bundle=0", "transfer=0").replace("must", "should") for line in KNOWN_LINES]
    yield row("most rules, with an item", HEAD + sent(KNOWN_BLOCKS, 0, ITEM), lines)
    yield row("most rules, with an item, must", HEAD + sent(KNOWN_BLOCKS, 0, ITEM), [], {"must": True})
    yield row("not read, with an item", HEAD + sent(b"\x9f\x9f", 0, ITEM), ["38 should not-read transfer=0 code=B5 byte=1"])
    # With --own, a rule of the source or adder is not judged, and one of the sender is.
    lines = [it for it in lines if it.split(" ")[2] in (*SENDER, "block-data", "data-not-read")]
    yield row("most rules, with an item, of another", HEAD + sent(KNOWN_BLOCKS, 0, ITEM), lines, {"own": THEIRS})
    yield row("no bundle, with an item, of another", HEAD + sent(b"\xbf", 0, ITEM), [f"38 should {wrong}"], {"own": THEIRS})
    primary = HEAD + sent(bundle(kind=0), 0, ITEM)
    yield row("no check, with an item", primary, ["38 should primary-check transfer=0"])
    yield row("no check, with an item, of its source", primary, ["38 should primary-check transfer=0"], {"own": MINE})
    # The length is judged whatever the item says, and so are segments.
    yield row("a length, with an item", HEAD + two(b"\xbf\x00", 1, make.length_item(9), ITEM), [
        "38 must length-differs transfer=0 announced=9 length=2", f"38 should {wrong}",
    ])
    yield row("two lengths, with an item", HEAD + two(b"\xbf\x00", 1, make.length_item(2), ITEM, make.length_item(2)), [
        "38 must length-item transfer=0", f"38 should {wrong}",
    ])
    lines = ["38 must peer-segment length=33 limit=32"]
    yield row("a limit, with an item", HEAD + sent(CLEAN, 0, ITEM), lines, {"peer_segment": 32})


def of_other_items():
    """Transfers whose bundle is judged as ever: no item of an unknown type is in their START."""
    wrong = "38 must bundle transfer=0 code=B3 byte=0"
    yield row("a length", HEAD + two(b"\xbf\x00", 1, make.length_item(2)), [wrong])
    yield row("a malformed length", HEAD + two(b"\xbf\x00", 1, make.item(0, 1, b"")), ["38 must length-item transfer=0", wrong])
    yield row("no item", HEAD + sent(KNOWN_BLOCKS), [f"38 {line[2:]}".replace("bundle=0", "transfer=0") for line in KNOWN_LINES])
    init = make.sess_init(ITEM)
    yield row("an item of the session", CONTACT + init + sent(b"\xbf"), ["43 must bundle transfer=0 code=B3 byte=0"])
    # The next transfer, and one of the same ID. A START with the item has 27 bytes before its data.
    yield row("an item of another transfer", HEAD + sent(b"\xbf", 0, ITEM) + sent(b"\xbf", 1), [
        "38 should bundle transfer=0 code=B3 byte=0", "66 must bundle transfer=1 code=B3 byte=0",
    ])
    yield row("an item of a transfer of the same ID", HEAD + make.xfer_segment(START, 0, b"", ITEM) + sent(b"\xbf"), [
        "65 must order fault=start-repeats-the-open-transfer", "65 must transfer-id id=0",
        "65 must bundle transfer=0 code=B3 byte=0",
    ])
    yield row("an item of a refused START", CONTACT + sent(b"\xbf", 0, ITEM), [
        "6 must order fault=segment-before-session-initiation", "6 should bundle transfer=0 code=B3 byte=0",
    ])


def rows():
    """The rows of this file."""
    for part in (
        of_nobody, of_its_source, of_two_nodes, of_the_sender, of_own_nodes, of_senders, of_sess_inits, of_blocks, of_types,
        of_long_heads, of_items, of_other_items,
    ):
        yield from part()


def is_refused(node):
    """Whether a node ID is no value of `--own`."""
    try:
        checking.checking(b"", own=node, bundles=True)
    except ValueError:
        return True
    return False


def checks():
    """Tries the IDs that name no node as values of `--own`."""
    longest = f"dtn://{'n' * 1017}/"
    refused = [*(node for node, *_ in NONE), f"{longest}a", f"{longest}\u00e4"]
    wrong = [f"  not for {node!r}" for node in refused if not is_refused(node)]
    wrong += ["  not taken: the longest one"] if is_refused(longest) else []
    yield "`--own` refuses an ID that names no node, or is too long.", len(refused), wrong
    rules, lists = {rule.name for rule in checking.BUNDLES}, [*SOURCE, *SENDER, *ADDER, *MIXED]
    wrong = [f"  not {name}" for name in rules | set(lists) if (name in rules, lists.count(name)) != (True, 1)]
    yield "Each rule of bundles and of security blocks binds one of the three, or is mixed.", len(rules), wrong
