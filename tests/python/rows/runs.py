"""`check`: several rules at once and their order, the options, faults, and the status."""

import make
from inputs.spelling import endpoint, head, hop_count, spelled

from . import Row
from .broken import (
    AGE, CLEAN, CONTACT, HIDDEN, INIT, INTEGRITY, KEEPALIVE, LAST, OPEN_RECORD, OTHER_INTERVAL, VERSION, block, blocks_of,
    bundle, hiding, protecting, report, row, sent, two,
)
from .lines import BOTH, END, HEAD, START

ALONE = {"bundles": True}
length = make.length_item

# A bundle that breaks two rules, one of each level: 33 bytes
TWO_RULES = bundle(flags=0x08, stamp=(0, 0))

# The beginning of a transfer of CLEAN, which ends at 69 if it is the first, and its end
BEGINS, ENDS = make.xfer_segment(START, 0, CLEAN[:9]), make.xfer_segment(END, 0, CLEAN[9:])
# 51 bytes, of which the last 33 are data
STRAY = make.xfer_segment(END | 0x40, 1, CLEAN)
# An empty transfer in one segment, and one that has begun: 22 bytes each
EMPTY, OPENED = make.xfer_segment(BOTH, 5, b""), make.xfer_segment(START, 6, b"")
# A SESS_TERM with a reserved flag: 3 bytes
TERM = make.sess_term(2, 0)


def breaking(other):
    """A bundle that breaks most rules of bundles, with another block, whose number is 9.

    The primary block has 21 bytes, so the data of the first block is at 28. The blocks after it are
    at 31 and 38.
    """
    return spelled(
        blocks_of(
            block(6, 2, endpoint(None)), block(6, 3, b"\x00"), block(6, 4, b"\x9f"),
            block(7, 5, b"\x05"), block(7, 6, b"\x06"),
            block(10, 7, hop_count(0, 1), flags=0x0A), block(10, 8, hop_count(9, 0)), other,
            protecting(10, 9, 11, context_flags=0x02), hiding(11, 0, 9, 11, context=0, flags=0x10),
            hiding(12, 9, context=1), protecting(13),
            flags=0x400A, kind=0, source=None, destination=b"n", lifetime=4,
            payload=report(7, True, False, False, reason=255, source=None),
        ),
        VERSION, head(0, 7, 1),
    )[0]


# A bundle that breaks each rule of bundles that can be broken together, in their order: 179 bytes.
# It has a block of an unknown type.
EVERY_RULE = breaking(block(9, 9, b""))
EVERY_LINE = [
    "0 must long-head bundle=0 byte=2",
    "0 should bundle-flags bundle=0 flags=400a",
    "0 should primary-check bundle=0",
    "0 must anonymous bundle=0 flags=400a",
    "0 must record-reports bundle=0 flags=400a",
    "0 must block-reports bundle=0 block=7",
    "0 should block-flags bundle=0 block=7 flags=0a",
    "0 must dtn-name bundle=0 of=destination",
    "0 must age bundle=0 blocks=2",
    "0 must previous-node bundle=0 blocks=3",
    "0 must hop-count bundle=0 blocks=2 limit=0",
    "0 should confidential-primary bundle=0 block=11",
    "0 should hops bundle=0 limit=0 count=1",
    "0 should block-data bundle=0 block=3 byte=37",
    "0 should data-not-read bundle=0 block=4 byte=44",
    "0 should previous-node-id bundle=0 block=2",
    "0 should expired bundle=0 lifetime=4 age=5",
    "0 should block-type bundle=0 block=9 type=9",
    "0 should report-times bundle=0",
    "0 should report-reason bundle=0 reason=255",
    "0 should report-source bundle=0",
    "0 should security-targets bundle=0 block=13",
    "0 should security-twice bundle=0 block=12 target=9",
    "0 should security-flags bundle=0 block=10 flags=02",
    "0 should security-context bundle=0 block=11 context=0",
    "0 should integrity-target bundle=0 block=10 target=11",
    "0 should confidential-target bundle=0 block=11 target=11",
    "0 should confidential-flags bundle=0 block=11 flags=10",
    "0 should confidential-context bundle=0 block=12",
    "0 should shared-target bundle=0 block=10 target=9",
]

# The same with a third age, of 7 bytes, in place of a block of an unknown type. What that block may
# have changed is a must here, unless the rule is a should.
KNOWN_BLOCKS = breaking(block(7, 9, b"\x07"))
SURE = [
    "confidential-primary", "block-data", "previous-node-id", "report-times", "security-targets", "security-twice", "security-flags",
    "integrity-target", "confidential-target", "confidential-flags", "confidential-context",
]
KNOWN_LINES = [
    line.replace("0 should", "0 must") if line.split(" ")[2] in SURE else line.replace("age bundle=0 blocks=2", "age bundle=0 blocks=3")
    for line in EVERY_LINE if "block-type" not in line
]


def stream_row(name, messages, lines, report=(), status=None, **options):
    """A run of `check` of a recording with these messages after its SESS_INIT."""
    status = int(bool(lines)) if status is None else status
    return Row(name, "check", options, HEAD + b"".join(messages), lines, list(report), status)


def bundle_row(name, content, lines, report=(), status=None, **options):
    """A run of `check --bundles`."""
    status = int(bool(lines)) if status is None else status
    return Row(name, "check", {**ALONE, **options}, content, lines, list(report), status)


def of_one_message():
    """Several rules that one message breaks."""
    init = make.sess_init(make.item(2, 9, b""), node=b"n")
    yield row("a SESS_INIT", b"dtn!\x04\x04" + KEEPALIVE + init, [
        "0 must contact-flags flags=04",
        "6 should before-session type=04",
        "7 must node-id length=1",
        "7 must item-flags item=0 flags=02",
        "7 should item-type item=0 type=0009",
    ])
    # The run of IDs is 5, 6, of the segments at 38 and 60.
    late = make.xfer_segment(BOTH | 0x08, 5, CLEAN, length(34), make.item(0x10, 1, b""))
    yield stream_row("a START that breaks most rules", [EMPTY, OPENED, TERM, late], [
        "38 should transfer-id-order id=5",
        "38 must bundle transfer=5 code=B1 byte=0",
        "82 must term-flags flags=02",
        "85 must item-flags item=1 flags=10",
        "85 must order fault=start-after-session-termination",
        "85 should interleaved id=5 open=6",
        "85 must segment-flags flags=0b",
        "85 must transfer-id id=5",
        "85 must peer-segment length=33 limit=32",
        "85 must peer-transfer length=33 limit=31",
        "85 must length-item transfer=5",
        "85 should length-of-one-segment transfer=5",
    ], peer_segment=32, peer_transfer=31)
    yield stream_row("a stray segment", [BEGINS, STRAY, ENDS], [
        "69 must order fault=no-such-open-transfer",
        "69 must segment-flags flags=41",
        "69 must peer-segment length=33 limit=32",
    ], peer_segment=32, peer_transfer=33)


def of_one_step():
    """As many lines as a step writes, of a START that closes its transfer."""
    most = make.xfer_segment(BOTH | 0x08, 5, EVERY_RULE, length(9), length(9), make.item(0x10, 2, b""))
    # An item of an unknown type is there, so no rule of its bundle is a must.
    of_bundle = [line.replace("0 must", "0 should").replace("0 ", "88 ", 1).replace("bundle=0", "transfer=5") for line in EVERY_LINE]
    yield stream_row("the most lines of a step", [EMPTY, OPENED, TERM, make.msg_reject(1, 8), most], [
        "38 should transfer-id-order id=5",
        "38 must bundle transfer=5 code=B1 byte=0",
        "82 must term-flags flags=02",
        "88 must item-flags item=2 flags=10",
        "88 must order fault=start-after-session-termination",
        "88 should interleaved id=5 open=6",
        "88 must segment-flags flags=0b",
        "88 must transfer-id id=5",
        "88 must peer-segment length=179 limit=178",
        "88 must peer-transfer length=179 limit=0",
        "88 should item-type item=2 type=0002",
        "88 must after-reject type=01",
        "88 must length-item transfer=5",
        "88 should length-of-one-segment transfer=5",
        *of_bundle,
    ], peer_segment=178, peer_transfer=0)


def of_one_bundle():
    """Several rules that one transfer or one bundle breaks."""
    yield stream_row("a wrong length and no bundle", [make.xfer_segment(BOTH, 0, b"\x00", length(2))], [
        "38 must length-differs transfer=0 announced=2 length=1",
        "38 should length-of-one-segment transfer=0",
        "38 must bundle transfer=0 code=B3 byte=0",
    ])
    yield stream_row("a wrong length hides no rule of bundles", [two(TWO_RULES, 9, length(34))], [
        "38 must length-differs transfer=0 announced=34 length=33",
        "38 should bundle-flags transfer=0 flags=08",
        "38 must age transfer=0 blocks=0",
    ])
    yield bundle_row("a bundle", EVERY_RULE, EVERY_LINE)
    yield bundle_row("a bundle of known blocks", KNOWN_BLOCKS, KNOWN_LINES)
    yield bundle_row("a record", bundle(flags=0x4002, source=None, stamp=(0, 0)), [
        "0 must anonymous bundle=0 flags=4002",
        "0 must record-reports bundle=0 flags=4002",
        "0 must age bundle=0 blocks=0",
        "0 must record bundle=0 byte=32",
    ])
    # The blocks are at 25, 32 and 38, and the payload, a head that is cut, is at 44.
    yield bundle_row("a block and a record", bundle(AGE, block(6, 3, b""), flags=0x02), [
        "0 must block-data bundle=0 block=3 byte=38",
        "0 must record bundle=0 byte=45",
    ])
    yield bundle_row("two long heads", bundle()[:25] + bytes.fromhex("98 05 01 01 00 00 58 01 78 ff"), [
        "0 must long-head bundle=0 byte=25",
    ])
    yield bundle_row("dtn:none as a text", bundle(source=b"none"), ["0 must dtn-name bundle=0 of=source"])
    hops, cut = block(10, 3, hop_count(0, 1)), block(10, 4, b"")
    yield bundle_row("two hop count blocks, the first malformed", bundle(cut, hops), [
        "0 must hop-count bundle=0 blocks=2",
        "0 must block-data bundle=0 block=4 byte=31",
    ])


def not_read():
    """Blocks that are not read beside some that are wrong."""
    # Blocks of 7 bytes are at 25 and 32, and a payload at 39, whose data is at 45.
    open_age, text = block(7, 2, b"\xbf"), block(6, 3, b"\x60")
    yield bundle_row("a block that is not read, and one that is wrong", bundle(open_age, text), [
        "0 must block-data bundle=0 block=3 byte=38",
        "0 should data-not-read bundle=0 block=2 byte=31",
    ])
    yield bundle_row("a record that is not read", bundle(text, AGE, flags=0x02, payload=OPEN_RECORD), [
        "0 must block-data bundle=0 block=3 byte=31",
        "0 should data-not-read bundle=0 block=1 byte=45",
    ])
    yield bundle_row("a block that is not read, and a record", bundle(AGE, block(6, 3, b"\x9f"), flags=0x02), [
        "0 should data-not-read bundle=0 block=3 byte=38",
        "0 must record bundle=0 byte=46",
    ])


def ciphertext():
    """Data that may be ciphertext. The blocks of confidentiality that say so have 17 bytes."""
    hops, cut, age = block(10, 3, hop_count(0, 1)), block(10, 4, b""), block(7, 5, b"")
    yield bundle_row("every block", bundle(hops, cut, age, hiding(9, 0, 1, 3, 4, 5), flags=0x02), [
        "0 must hop-count bundle=0 blocks=2",
        "0 must confidential-primary bundle=0 block=9",
    ])
    # The hop counts are at 42 and 51, the age at 57, and the payload at 63.
    yield bundle_row("only the primary block", bundle(hiding(9, 0), hops, cut, age, flags=0x02), [
        "0 must hop-count bundle=0 blocks=2 limit=0",
        "0 must confidential-primary bundle=0 block=9",
        "0 should hops bundle=0 limit=0 count=1",
        "0 must block-data bundle=0 block=4 byte=57",
        "0 must record bundle=0 byte=70",
    ])
    # The hop counts are at 25 and 34.
    yield bundle_row("the payload and the age", bundle(hops, cut, age, hiding(9, 1), hiding(8, 5), flags=0x02), [
        "0 must hop-count bundle=0 blocks=2 limit=0",
        "0 should hops bundle=0 limit=0 count=1",
        "0 must block-data bundle=0 block=4 byte=40",
    ])
    many = hiding(9, *range(65))
    yield bundle_row("too many targets", bundle(hops, cut, age, INTEGRITY, many, kind=0, flags=0x02), [
        "0 must hop-count bundle=0 blocks=2",
        "0 must confidential-primary bundle=0 block=9",
        "0 should security-targets bundle=0 block=9 target=6",
        "0 must confidential-target bundle=0 block=9 target=9",
    ])
    yield bundle_row("a fragment without its end", bundle(HIDDEN, flags=0x05, fragment=(0, 0), payload=b""), [
        "0 must fragment bundle=0 offset=0 length=0 total=0",
    ])


def fragments():
    """What the last fragment of a bundle lacks, and a fragment of no data."""
    late = {"flags": 0x01, "stamp": (0, 5), "kind": 0}
    lines = ["0 should primary-check bundle=0", "0 should age bundle=0 blocks=0"]
    yield bundle_row("a late fragment", bundle(**late, fragment=(1, 2)), lines)
    yield bundle_row("a late fragment, must", bundle(**late, fragment=(1, 2)), [], must=True)
    yield bundle_row("the first fragment", bundle(**late, fragment=(0, 2)), [
        "0 should primary-check bundle=0", "0 must age bundle=0 blocks=0",
    ])
    yield bundle_row("a late fragment with two ages", bundle(AGE, block(7, 3, b"\x06"), **late, fragment=(1, 2)), [
        "0 must age bundle=0 blocks=2",
    ], must=True)
    yield bundle_row("a fragment of no data", bundle(flags=0x01, fragment=(0, 0), payload=b""), [
        "0 must fragment bundle=0 offset=0 length=0 total=0", "0 should whole-fragment bundle=0 total=0",
    ])
    yield bundle_row("a whole fragment that must be none", bundle(flags=0x05, fragment=(0, 1)), [
        "0 must fragment bundle=0 offset=0 length=1 total=1", "0 should whole-fragment bundle=0 total=1",
    ])
    wrong = {"flags": 0x05, "fragment": (0, 1), "source": b"//n/~", "lifetime": 4}
    yield bundle_row("a whole fragment of a group", bundle(AGE, block(0, 3, b""), protecting(4, 4, 0), **wrong), [
        "0 must fragment bundle=0 offset=0 length=1 total=1", "0 should whole-fragment bundle=0 total=1",
        "0 must source-node bundle=0", "0 should expired bundle=0 lifetime=4 age=5",
        "0 should block-type bundle=0 block=3 type=0", "0 should integrity-target bundle=0 block=4 target=4",
    ])


def of_two_levels():
    """Rules whose level depends on the case, with all lines and with those of level must."""
    group, service = block(6, 2, endpoint(None)), block(6, 2, endpoint((1, 1)))
    age, hops = block(7, 3, b"\x18\x05"), block(10, 4, b"\x98\x02\x05\x01")
    # A hop count of 10 bytes is at 25, and the data of the block after it at 41.
    source = block(11, 5, b"\x81\x01\x01\x00\x82\x01\x18\x00")
    for name, content, line in [
        ("a node that is none", bundle(group), "previous-node-id bundle=0 block=2"),
        ("heads of blocks and of data", bundle(hops, source), "long-head bundle=0 byte=47"),
        ("a target twice, and one that is not there", bundle(protecting(2, 7), protecting(3, 1, 1)),
         "security-targets bundle=0 block=3 target=1"),
    ]:
        yield bundle_row(name, content, [f"0 must {line}"])
        yield bundle_row(f"{name}, must", content, [f"0 must {line}"], must=True)
    for name, content, line in [
        ("a node that is a service", bundle(service), "previous-node-id bundle=0 block=2"),
        ("heads of data", bundle(age, hops), "long-head bundle=0 byte=31"),
        ("a target that is not there", bundle(protecting(2, 7)), "security-targets bundle=0 block=2 target=7"),
    ]:
        yield bundle_row(name, content, [f"0 should {line}"])
        yield bundle_row(f"{name}, must", content, [], must=True)


def transfers():
    """Which transfers are judged, and when their lines come."""
    begins, ends = make.xfer_segment(START, 0, TWO_RULES[:9]), make.xfer_segment(END, 0, TWO_RULES[9:])
    yield stream_row("lines of a transfer", [begins, make.xfer_segment(0x04, 0, b""), ends, TERM], [
        "69 must segment-flags flags=04",
        "38 should bundle-flags transfer=0 flags=08",
        "38 must age transfer=0 blocks=0",
        "129 must term-flags flags=02",
    ])
    yield stream_row("a START of its own ID abandons it", [BEGINS, sent(CLEAN)], [
        "69 must order fault=start-repeats-the-open-transfer",
        "69 must transfer-id id=0",
    ])
    last = make.xfer_segment(START, 1, b"\x00", length(9))
    yield stream_row("the last is unfinished", [sent(CLEAN), last], ["93 should unfinished transfer=1 length=1"])
    yield stream_row("a stray segment between two transfers", [BEGINS, STRAY, sent(CLEAN, 2)], [
        "69 must order fault=no-such-open-transfer",
        "69 must segment-flags flags=41",
        "120 should interleaved id=2 open=0",
        "120 should transfer-id-order id=2",
    ])
    yield stream_row("IDs of transfers that are refused", [TERM, sent(CLEAN, 7), sent(CLEAN, 7)], [
        "38 must term-flags flags=02",
        "41 must order fault=start-after-session-termination",
        "41 should transfer-id-order id=7",
        "96 must order fault=start-after-session-termination",
        "96 must transfer-id id=7",
    ])


def once():
    """What breaks a rule once in a transfer or in a recording."""
    middle, ends = make.xfer_segment(0, 0, CLEAN[9:20]), make.xfer_segment(END, 0, CLEAN[20:])
    yield stream_row("a limit that is passed", [BEGINS, middle, ends], [
        "69 must peer-transfer length=20 limit=19",
    ], peer_transfer=19)
    yield stream_row("a limit that is passed before a stray segment", [BEGINS, STRAY, ENDS], [
        "38 must peer-transfer length=9 limit=8",
        "69 must order fault=no-such-open-transfer",
        "69 must segment-flags flags=41",
    ], peer_transfer=8)
    yield stream_row("a limit that is passed twice", [two(CLEAN, 20, length(33))], [
        "38 must peer-transfer announced=33 limit=19",
    ], peer_transfer=19)
    # The list of two items has 26 bytes, so the second segment is at 95.
    yield stream_row("malformed items announce nothing", [two(CLEAN, 9, length(99), length(99))], [
        "95 must peer-transfer length=33 limit=32",
        "38 must length-item transfer=0",
    ], peer_transfer=32)
    none = make.sess_init(keepalive=0)
    yield stream_row("a second SESS_INIT without keepalives", [KEEPALIVE, none, KEEPALIVE, KEEPALIVE, none, KEEPALIVE], [
        "39 should order fault=second-session-initiation",
        "71 should keepalive",
        "73 should order fault=second-session-initiation",
    ])


def faults():
    """Faults of the stream end the run. A cut segment counts with the length in its head."""
    yield Row("no recording", "check", {}, b"", [], ["tcpclkit: byte 0: truncated"], 3)
    version = ["tcpclkit: byte 0: unsupported version 3"]
    yield Row("another version", "check", {}, b"dtn!\x03\x80", [], version, 3)
    cut, whole = ["tcpclkit: byte 38: truncated"], make.xfer_segment(BOTH | 0x04, 0, CLEAN)
    yield stream_row("a segment that is cut", [whole[:-1]], [
        "38 must segment-flags flags=07",
        "38 must peer-segment length=33 limit=32",
        "38 must peer-transfer length=33 limit=0",
    ], cut, 3, peer_segment=32, peer_transfer=0)
    yield stream_row("a head that is cut", [whole[:21]], [], cut, 3, peer_segment=0)
    most = make.xfer_segment(END, 0, b"")[:-8] + LAST.to_bytes(8, "big")
    yield stream_row("a sum beyond 64 bits", [make.xfer_segment(START, 0, b"ab"), most], [
        f"62 must peer-segment length={LAST} limit=2",
        f"62 must peer-transfer length={LAST + 2} limit={LAST}",
    ], ["tcpclkit: byte 62: truncated"], 3, peer_segment=2, peer_transfer=LAST)
    yield stream_row("open at a fault", [OPENED, b"\x16"], ["38 should transfer-id-order id=6"], ["tcpclkit: byte 60: unknown message type 16"], 3)
    yield stream_row("lines before a fault", [KEEPALIVE, INIT, b"\x16"], [
        "39 should order fault=second-session-initiation",
    ], ["tcpclkit: byte 71: unknown message type 16"], 3)


def levels():
    """`--must` leaves lines out, and they do not count."""
    yield stream_row("every level", [sent(TWO_RULES), INIT], [
        "38 should bundle-flags transfer=0 flags=08",
        "38 must age transfer=0 blocks=0",
        "93 should order fault=second-session-initiation",
    ])
    yield stream_row("must", [sent(TWO_RULES), INIT], ["38 must age transfer=0 blocks=0"], must=True)
    yield stream_row("none of must", [INIT, OPENED], [], must=True)
    changed = [OTHER_INTERVAL, sent(CLEAN), OTHER_INTERVAL, INIT]
    yield stream_row("a SESS_INIT that changes the session", changed, [
        "125 must order fault=second-session-initiation",
    ], must=True)
    # A transfer begins at 6, before the SESS_INIT at 37. A segment of it is at 69.
    inner, ends = make.xfer_segment(0, 0, CLEAN[9:20]), make.xfer_segment(END, 0, CLEAN[20:])
    yield row("a SESS_INIT amid a transfer", CONTACT + BEGINS + INIT + inner + OTHER_INTERVAL + ends, [
        "6 must order fault=segment-before-session-initiation", "98 must order fault=second-session-initiation",
    ], {"must": True})
    # A message of a transfer before the first SESS_INIT does not count.
    early = CONTACT + KEEPALIVE + make.xfer_ack(BOTH, 0, 1) + INIT + OTHER_INTERVAL
    lines = [
        "6 should before-session type=04", "7 should before-session type=02",
        "57 should order fault=second-session-initiation",
    ]
    yield row("a SESS_INIT after an early XFER_ACK", early, lines)
    yield row("none of must after an early XFER_ACK", early, [], {"must": True})
    fault = ["tcpclkit: byte 70: unknown message type 00"]
    yield stream_row("none of must before a fault", [INIT, b"\x00"], [], fault, 3, must=True)
    yield bundle_row("must, of a bundle", TWO_RULES, ["0 must age bundle=0 blocks=0"], must=True)


def files():
    """`--bundles`: good bundles, the first bad one, and no bundle."""
    yield bundle_row("no bundle", b"", [])
    yield bundle_row("three bundles", CLEAN + TWO_RULES + CLEAN, [
        "33 should bundle-flags bundle=1 flags=08",
        "33 must age bundle=1 blocks=0",
    ])
    yield bundle_row("a bad bundle", TWO_RULES + CLEAN[:-1] + b"\x00" + TWO_RULES, [
        "0 should bundle-flags bundle=0 flags=08",
        "0 must age bundle=0 blocks=0",
    ], ["tcpclkit: bundle 1 byte 32: B17 no payload block at the end"], 3)
    cut = ["tcpclkit: bundle 0 byte 39: B1 input ends inside a bundle"]
    yield bundle_row("a cut bundle", bundle(AGE)[:-1], [], cut, 3, must=True)


def of_several_bundles():
    """Bundles one after another, of which one breaks most rules, and others keep them all."""
    record = bundle(AGE, flags=0x02, payload=report(True, False, False, False))
    keeping = bundle(block(7, 3, b"\x05"), protecting(4, 0), block(192, 2, b"", flags=0x01), hiding(9, 1, 2))
    at = len(EVERY_RULE) + len(keeping) + len(record)
    later = [line.replace("0 ", f"{at} ", 1).replace("bundle=0", "bundle=3") for line in EVERY_LINE]
    yield bundle_row("most rules twice", EVERY_RULE + keeping + record + EVERY_RULE, [*EVERY_LINE, *later])
    yield bundle_row("no rule", keeping + record + CLEAN, [])
    # Transfers of 201, 55 and 201 bytes
    lines = [line.replace("0 ", "38 ", 1).replace("bundle=0", "transfer=0") for line in EVERY_LINE]
    later = [line.replace("38 ", "294 ", 1).replace("transfer=0", "transfer=2") for line in lines]
    yield stream_row("most rules in transfers", [sent(EVERY_RULE), sent(CLEAN, 1), sent(EVERY_RULE, 2)], lines + later)
    yield stream_row("most rules in two segments", [two(EVERY_RULE, 90)], lines)


def rows():
    """The rows of this file."""
    for part in (
        of_one_message, of_one_step, of_one_bundle, not_read, ciphertext, fragments, of_two_levels, transfers, once, faults,
        levels, files, of_several_bundles,
    ):
        yield from part()
