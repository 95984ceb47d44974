"""`check`: the streams of examples/faults that break a rule alone or keep it.

There are two for each rule, and two for each further cause by which a rule is broken or kept. What
keeps a rule keeps all that the RFCs ask for: a receiver that does not take it is wrong. What breaks
a rule keeps all else, as far as it is there.

So a bundle was made on 2026-01-01 and lives for 20 years. Its primary block has 16 bytes more than
that of CLEAN: 40 bytes, from 1 on. A block after it is at 41, and its data at 47. The bundle LIVING
has 49 bytes, and so a transfer of it in one segment ends at 109.

A pair is spelled as its rule, what breaks it, its line, what keeps it, and a cause and options if
there are any.
"""

from typing import NamedTuple

import make
from inputs.spelling import (
    array, data, encoded, endpoint, head, hop_count, security, spelled, status_report, text, unsigned,
)
from model.check import check

from . import Row
from .broken import (
    AGE, CONTACT, HOPS, KEEPALIVE, NODE, OTHER_INTERVAL, VERSION, block, blocks_of, bundle, sent, two,
)
from .lines import BOTH, END, HEAD, START

# Milliseconds from 2000-01-01 to 2026-01-01, and 20 years of 365.25 days
MADE, YEARS = 820_540_800_000, 631_152_000_000
DAY = 86_400_000
LIVES = {"stamp": (MADE, 0), "lifetime": YEARS}

# The end of a session
TERM = make.sess_term(0, 0)

# An extension type for private use (RFC 9174 sections 8.3 and 8.4)
PRIVATE = 0x8000

# A scheme for private use (RFC 9171 section 9.6)
PRIVATE_SCHEME = 65536

# The SESS_INIT names the node ipn:1.0: the source of a bundle that this node forwards, and the
# report-to of one that asks it for reports
FORWARDED, REPORTED = {"source": (3, 1)}, {"report": (1, 0)}


class Pair(NamedTuple):
    """A stream that breaks a rule alone, its lines, and one that just keeps the rule.

    `name` is that of the rule, and of a cause where there are several. `options` are those of
    `check`. If `is_answer`, the kept one answers a transfer that nobody sent.
    """
    rule: str
    name: str
    broken: bytes
    lines: list
    kept: bytes
    options: dict
    is_answer: bool = False


def living(*blocks, **fields):
    """A bundle that lives."""
    return bundle(*blocks, **{**LIVES, **fields})


# 49 bytes. Its check field is at 38, its payload's head at 46, and its payload at 47.
LIVING = living()
# The next one of the same source
NEXT = living(stamp=(MADE, 1))

# A status report, with the time of the reception of a bundle from ipn:2.1
REPORT = status_report([MADE, False, False, False], 0, (2, 1), (MADE, 0))
# An administrative record from ipn:1.0 to ipn:2.0
RECORD = {"flags": 0x02, "source": (1, 0), "destination": (2, 0), "payload": encoded(REPORT)}


def reporting(*statuses, reason=0, source=(2, 1)):
    """The same with these statuses, this reason, and this source of its bundle."""
    report = status_report(statuses, reason, source, (MADE, 0))
    return living(**{**RECORD, "payload": encoded(report)})


# ---- blocks of RFC 9172 and RFC 9173

# The initialization vector of RFC 9173 appendix A.2 to A.4, a payload of A.3 and its tag
VECTOR = b"Twelve121212"
PAYLOAD = bytes.fromhex("3a09c1e63fe23a7f66a59c7303837241e070b02619fc59c5214a22f08cd70795e73e9a")
PAYLOAD_TAG = bytes.fromhex("efa4b5ac0108e3816c5606479801bc04")
# The age 5, and its tag, encrypted in the same way: AES-GCM with the key of A.3 and scope flags 0
HIDDEN_AGE, AGE_TAG = b"\x6d", bytes.fromhex("54ee44aa45b002f78e9ad991eb1619b9")
# A block of integrity whose targets are 0 and 1, and its tag. It has the primary block of a bundle
# without a check, and the payload of A.3.
HIDDEN_INTEGRITY = bytes.fromhex(
    "ea6ca18347404c9247c37b9f67f4913685d250842b9654a8cbde50fa960e3ac6ceff7cf3fc9afeca8f36476ff148b675b1c04e84e4b6cadec1"
    "b5b62dbe0f5c85a1e162181410ba1fbeb65df962f219a8882cb00b1ac70fdc466a38c7"
)
INTEGRITY_TAG = bytes.fromhex("a23445b1c041c265cb1b10da38c67668")
# The code of the age 5 in a block of integrity: HMAC with SHA-256, the key of A.3, and scope flags 0
AGE_CODE = bytes.fromhex("56ce5e3dcb289518928cadb5be1c6062c7565c69b0e924d4f7af890f8844c807")


def results(codes):
    """The heads of the results of a security block: for each target its code, or none if it is empty."""
    each = [[array(1), array(2), unsigned(1), data(code)] if code else [array(0)] for code in codes]
    return [array(len(codes)), *[it for them in each for it in them]]


def confidential(number, *tags, context=2, flags=None):
    """A block confidentiality block of targets with their tags (RFC 9173 section 4).

    It is in every fragment if the payload is a target (RFC 9172 section 3.8).
    """
    targets, codes = [it for it, _ in tags], [it for _, it in tags]
    heads = [*security(targets, context, (1, 1), 1), array(3), array(2), unsigned(1), data(VECTOR)]
    heads += [array(2), unsigned(2), unsigned(1), array(2), unsigned(4), unsigned(0), *results(codes)]
    return block(12, number, heads, flags=(0x01 if 1 in targets else 0) if flags is None else flags)


def protection(*codes, source=(1, 1), context=1, flags=1):
    """The heads of a block integrity block's data, of targets with their codes (RFC 9173 section 3)."""
    targets, codes = [it for it, _ in codes], [it for _, it in codes]
    heads = [*security(targets, context, source, flags), array(2), array(2), unsigned(1), unsigned(5)]
    return [*heads, array(2), unsigned(3), unsigned(0), *results(codes)]


def protecting(number, *codes, **fields):
    """A block integrity block. After an age, its data is at 55."""
    return block(11, number, protection(*codes, **fields))


# The payload is PAYLOAD, or a block 2 is ciphertext. That one is the age 5.
CONFIDENTIAL, CONFIDENTIAL_2 = confidential(4, (1, PAYLOAD_TAG)), confidential(4, (2, AGE_TAG))
SECRET_AGE = block(7, 2, HIDDEN_AGE)
# A block of integrity of the age 5
CODE = (2, AGE_CODE)
PROTECTING = protecting(3, CODE)
PROTECTED = living(AGE, PROTECTING)
# The same of the payload and of the primary block, which has no check. It is ciphertext itself, as is the payload.
ENCRYPTED = living(
    block(11, 3, HIDDEN_INTEGRITY), confidential(4, (3, INTEGRITY_TAG), (1, PAYLOAD_TAG)), kind=0, payload=PAYLOAD,
)


# ---- bundles that are not read, or are none


def with_check(before, after):
    """A block with a check value of CRC-16 between these bytes of it."""
    return before + check(1, before + bytes(2) + after) + after


def open_array():
    """LIVING with a primary block that is an array of indefinite length (RFC 9171 section 4.1)."""
    begin, *others = blocks_of(**LIVES)
    primary = with_check(b"\x9f" + encoded(begin[1:]), b"\xff")
    return b"\x9f" + primary + b"".join(map(encoded, others)) + b"\xff"


def open_check():
    """LIVING with a check value of indefinite length, in one piece."""
    begin, *others = blocks_of(**LIVES)
    primary = with_check(encoded(begin[:-1]) + b"\x5f\x42", b"\xff")
    return b"\x9f" + primary + b"".join(map(encoded, others)) + b"\xff"


def tagged_data():
    """A bundle with the tag of embedded CBOR before the data of its block, which is at 46."""
    return living(HOPS).replace(b"\x44\x82\x18\x1e\x01", b"\xd8\x18\x44\x82\x18\x1e\x01")


def long_version():
    """LIVING with a version that is a byte longer than needed."""
    return spelled(blocks_of(**LIVES), VERSION, head(0, 7, 1))[0]


# ---- streams


def closed(*messages):
    """A recording with these messages after its SESS_INIT, and a SESS_TERM."""
    return HEAD + b"".join(messages) + TERM


def of_sessions():
    """The pairs of rules of messages, but those of segments and their limits."""
    yield "contact-flags", b"dtn!\x04\x80", "0 must contact-flags flags=80", closed()
    node, part = (CONTACT + make.sess_init(node=it) for it in (b":", b"dtn:n"))
    yield "node-id", node, "6 must node-id length=1", CONTACT + make.sess_init(node=b"dtn://n/") + TERM
    yield "node-id", part, "6 must node-id length=5", CONTACT + make.sess_init(node=b"ipn:0.1.0") + TERM, "part"
    wrong, good = (CONTACT + make.sess_init(make.item(flags, PRIVATE, b"")) for flags in (0x80, 0x00))
    yield "item-flags", wrong, "6 must item-flags item=0 flags=80", good + TERM
    early, late = CONTACT + make.xfer_segment(END, 0, b""), make.xfer_segment(START, 0, LIVING[:9])
    late += TERM + make.xfer_segment(END, 0, LIVING[9:])
    yield "order", early, "6 must order fault=segment-before-session-initiation", HEAD + late
    # Only a session that begins with other parameters has them.
    changed, begins = HEAD + sent(LIVING) + OTHER_INTERVAL, CONTACT + OTHER_INTERVAL + sent(LIVING) + TERM
    yield "order", changed, "109 must order fault=second-session-initiation", begins, "changed-parameters"
    yield "before-session", CONTACT + KEEPALIVE, "6 should before-session type=04", closed(KEEPALIVE)
    acks = HEAD + make.xfer_ack(START, 0, 20) + make.xfer_ack(END, 0, 19)
    kept = closed(make.xfer_ack(START, 0, 20), make.xfer_ack(END, 0, 20))
    yield "ack-length", acks, "56 should ack-length length=19 before=20", kept
    none, least = (CONTACT + make.sess_init(keepalive=it) + KEEPALIVE for it in (0, 30))
    yield "keepalive", none, "38 should keepalive", least + TERM
    yield "term-flags", CONTACT + make.sess_term(0x02, 0), "6 must term-flags flags=02", closed()
    yield from of_names()
    shorter, longest = (CONTACT + make.sess_init(keepalive=it) for it in (29, 600))
    yield "keepalive-interval", shorter, "6 should keepalive-interval interval=29", longest + TERM
    length, private = (CONTACT + make.sess_init(make.item(0, it, b"")) for it in (0x0001, PRIVATE))
    yield "item-type", length, "6 should item-type item=0 type=0001", private + TERM
    items = [make.length_item(49), make.item(0, PRIVATE, b"")]
    other, both = HEAD + sent(LIVING, 0, make.item(0, PRIVATE - 1, b"")), closed(two(LIVING, 9, *items))
    yield "item-type", other, "38 should item-type item=0 type=7fff", both, "of-a-transfer"
    yield from of_order()
    known, unexpected = CONTACT + make.msg_reject(1, 7), make.msg_reject(3, 7)
    yield "reject-known", known, "6 should reject-known reason=01 header=07", closed(unexpected)
    unassigned = CONTACT + make.msg_reject(4, 7)
    yield "reason", unassigned, "6 should reason type=06 reason=04", closed(unexpected)
    yield "reason", CONTACT + make.sess_term(0, 6), "6 should reason type=05 reason=06", closed(), "of-an-end"
    yield "term-order", CONTACT + TERM + TERM, "9 should term-order type=05", closed(KEEPALIVE)
    late = CONTACT + TERM + make.sess_init()
    yield "term-order", late, "9 should term-order type=07", CONTACT + make.sess_init() + TERM, "of-a-session"


def of_order():
    """The same of rules of the order of IDs, of answers, and of what comes after MSG_REJECT."""
    yield "transfer-id-order", HEAD + sent(LIVING, 1), "38 should transfer-id-order id=1", closed(sent(LIVING), sent(NEXT, 1))
    first, end = make.xfer_ack(START, 0, 20), make.xfer_ack(END, 0, 40)
    refused = [make.xfer_refuse(reason, 0) for reason in (0, 4)]
    for cause, broken, line, kept in [
        ("not-the-last", [end], "38", [first, end]),
        ("start-repeats", [first, first], "56", [first, make.xfer_ack(START, 1, 20)]),
        ("after-end", [first, end, end], "74", [first, end, make.xfer_ack(BOTH, 1, 20)]),
        ("after-refusal", [refused[0], end], "48", [refused[0], refused[0]]),
        ("refused-after-end", [first, end, refused[0]], "74", [first, end, refused[1]]),
    ]:
        line = f"{line} should answer-order id=0 fault={cause}"
        yield "answer-order", HEAD + b"".join(broken), line, closed(*kept), "" if cause == "not-the-last" else cause
    unknown, unsupported, unexpected = (make.msg_reject(*it) for it in ((1, 0x20), (2, 4), (3, 7)))
    yield "after-reject", HEAD + unknown + KEEPALIVE, "41 should after-reject type=04", closed(unsupported, KEEPALIVE)
    yield "after-reject", CONTACT + unknown + TERM, "9 must after-reject type=05", closed(unexpected), "of-an-end"


def of_names():
    """The same of rules of the names of nodes."""
    named = {it: CONTACT + make.sess_init(node=it) for it in (b"dtn://n/a", b"dtn://n/~a", b"dtn://n/", b"ipn:1.1", b"ipn:1.0")}
    yield "node-name", named[b"dtn://n/a"], "6 should node-name length=9", named[b"dtn://n/"] + TERM
    yield "node-name", named[b"ipn:1.1"], "6 should node-name length=7", named[b"ipn:1.0"] + TERM, "of-a-service"
    yield "node-name", named[b"dtn://n/~a"], "6 must node-name length=10", named[b"dtn://n/"] + TERM, "of-a-group"


def of_segments():
    """The same of rules of segments and of the peer's limits."""
    opened = HEAD + make.xfer_segment(START, 0, b"") + sent(LIVING, 1)
    yield "interleaved", opened, "60 should interleaved id=1 open=0", closed(sent(LIVING), sent(NEXT, 1))
    reserved = HEAD + make.xfer_segment(BOTH | 0x04, 0, LIVING)
    yield "segment-flags", reserved, "38 must segment-flags flags=07", closed(two(LIVING, 9))
    twice = HEAD + sent(LIVING) + sent(NEXT)
    yield "transfer-id", twice, "109 must transfer-id id=0", closed(sent(LIVING), sent(NEXT, 1))
    longer = HEAD + sent(living(payload=b"xy"))
    for rule in ("peer-segment", "peer-transfer"):
        line, options = f"38 must {rule} length=50 limit=49", {rule.replace("-", "_"): 49}
        yield rule, longer, line, closed(sent(LIVING)), "", options


def of_transfers():
    """The same of rules of transfers. A line is here without `38 `, and with `:` for ` transfer=0`."""
    yield "unfinished", make.xfer_segment(START, 0, b""), "should unfinished: length=0", sent(LIVING)
    announced = two(LIVING, 9, make.length_item(49))
    yield "length-item", two(LIVING, 9, make.item(0, 1, b"")), "must length-item:", announced
    differs = two(LIVING, 9, make.length_item(50))
    yield "length-differs", differs, "must length-differs: announced=50 length=49", announced
    one = sent(LIVING, 0, make.length_item(49))
    yield "length-of-one-segment", one, "should length-of-one-segment:", two(LIVING, 48, make.length_item(49))
    yield "bundle", sent(b""), "must bundle: code=B1 byte=0", sent(LIVING)
    for rule, breaking, line, keeping, *cause in of_faults():
        yield rule, sent(breaking), line, sent(keeping), *cause


def of_faults():
    """The same of data that is no bundle, or is not read."""
    # A payload in pieces, and one that looks like it
    pieces = b"\x5f\x41x\xff"
    data = LIVING[:46] + pieces + b"\xff"
    yield "bundle", data, "must bundle: code=B5 byte=46", living(payload=pieces), "indefinite-data"
    yield "bundle", open_check(), "must bundle: code=B5 byte=38", living(kind=2), "indefinite-check"
    # As many blocks as are read
    most = living(*[block(192, number, b"") for number in range(2, 65)])
    yield "not-read", open_array(), "should not-read: code=B5 byte=1", most
    tagged = b"\xd9\xd9\xf7" + LIVING
    yield "not-read", tagged, "should not-read: code=B3 byte=0", living(payload=tagged), "tagged-bundle"
    yield "not-read", tagged_data(), "should not-read: code=B5 byte=46", living(HOPS), "tagged-data"


def of_bundles():
    """The same of rules of bundles. Each bundle is in a transfer of one segment."""
    yield "long-head", long_version(), "must long-head: byte=2", living(payload=bytes(24))
    long_targets, long_age = living(AGE, block(11, 3, b"\x98\x01" + encoded(protection(CODE))[1:])), block(7, 2, b"\x18\x05")
    yield "long-head", long_targets, "must long-head: byte=55", PROTECTED, "of-security"
    yield "long-head", living(long_age), "should long-head: byte=47", living(AGE), "of-data"
    yield "bundle-flags", living(flags=0x08), "should bundle-flags: flags=08", living(flags=0x074064, **REPORTED)
    yield "primary-check", living(kind=0), "must primary-check:", living(kind=2)
    part = {"flags": 0x01, "fragment": (1, 2)}
    yield "primary-check", living(kind=0, **part), "should primary-check:", living(kind=2, **part), "of-a-fragment"
    forwarded = living(kind=0, **FORWARDED)
    yield "primary-check", forwarded, "should primary-check:", living(kind=2, **FORWARDED), "of-another-node"
    known = living(AGE, PROTECTING, CONFIDENTIAL, kind=0, payload=PAYLOAD)
    yield "primary-check", known, "must primary-check:", ENCRYPTED, "confidential"
    yield "anonymous", living(source=None), "must anonymous: flags=00", living(source=None, flags=0x04)
    asking = living(**{**RECORD, **REPORTED, "flags": 0x4002})
    yield "record-reports", asking, "must record-reports: flags=4002", living(**RECORD)
    other = block(192, 2, b"", flags=0x02)
    yield "block-reports", living(other, source=None, flags=0x04), "must block-reports: block=2", living(other, **REPORTED)
    asking, good = living(**RECORD, payload_flags=0x02), living(payload_flags=0x02, **REPORTED)
    yield "block-reports", asking, "must block-reports: block=1", good, "of-a-payload"
    good = living(block(7, 2, b"\x05", flags=0x17), **REPORTED)
    yield "block-flags", living(payload_flags=0x08), "should block-flags: block=1 flags=08", good
    yield from of_dtn_names()
    yield from of_fragments(part)
    clock = {"stamp": (0, 5)}
    yield "age", living(**clock), "must age: blocks=0", living(AGE, **clock)
    yield "age", living(**clock, **part), "should age: blocks=0", living(AGE, **clock, **part), "of-a-fragment"
    twice = living(NODE, block(6, 3, endpoint((5, 0))), **FORWARDED)
    yield "previous-node", twice, "must previous-node: blocks=2", living(NODE, **FORWARDED)
    none, most, over, all_of_them = (living(block(10, 2, hop_count(*it))) for it in [(0, 0), (255, 0), (5, 6), (5, 5)])
    yield "hop-count", none, "must hop-count: blocks=1 limit=0", most
    whole = confidential(2, (0, PAYLOAD_TAG))
    yield "confidential-primary", living(whole), "must confidential-primary: block=2", living(CONFIDENTIAL, payload=PAYLOAD)
    yield "hops", over, "should hops: limit=5 count=6", all_of_them
    yield from of_data()
    yield from of_nodes()
    yield from of_reports()
    yield from of_targets()
    yield from of_security()


def of_dtn_names():
    """Endpoint IDs that have not the form of a dtn name, in each place that has one, and good ones."""
    good = living(destination=b"//n/")
    yield "dtn-name", living(destination=b""), "must dtn-name: of=destination", good
    yield "dtn-name", living(destination=b"//n:1/"), "must dtn-name: of=destination", good, "reg-name"
    wrong, right = (living(block(6, 2, endpoint(it)), **FORWARDED) for it in (b"none", (1, 0)))
    yield "dtn-name", wrong, "must dtn-name: of=previous-node block=2", right, "previous-node"
    wrong, right = (living(AGE, protecting(3, CODE, source=it)) for it in (b"//n", b"//n/"))
    yield "dtn-name", wrong, "must dtn-name: of=security-source block=3", right, "security-source"
    wrong, right = (reporting(MADE, False, False, False, source=it) for it in (b"none", b"//n/"))
    yield "dtn-name", wrong, "must dtn-name: of=report-source", right, "report-source"


def of_nodes():
    """Sources and previous nodes that are none, ages, and types of blocks."""
    group, one = (living(source=it) for it in (b"//n/~a", b"//n/a"))
    yield "source-node", group, "must source-node:", one
    right = living(NODE, **FORWARDED)
    for cause, node, level in [
        ("", None, "must"), ("of-a-group", b"//n/~a", "must"), ("of-a-service", (1, 1), "should"),
        ("of-an-application", b"//n/a", "should"),
    ]:
        wrong = living(block(6, 2, endpoint(node)), **FORWARDED)
        yield "previous-node-id", wrong, f"{level} previous-node-id: block=2", right, cause
    late, early = (living(block(7, 2, [unsigned(it)]), stamp=(0, 5)) for it in (YEARS + 1, YEARS - DAY))
    yield "expired", late, f"should expired: lifetime={YEARS} age={YEARS + 1}", early
    old, high, private, highest = (living(block(it, 2, b"")) for it in (5, 256, 192, 255))
    yield "block-type", old, "should block-type: block=2 type=5", private
    yield "block-type", high, "should block-type: block=2 type=256", highest, "above-255"


def of_reports():
    """Administrative records that say something wrong, and good ones."""
    right = living(**RECORD)
    yield "record-type", living(**{**RECORD, "payload": b"\x82\x02\x00"}), "should record-type: type=2", right
    some, each = reporting(MADE, True, False, False), reporting(MADE, MADE, False, False)
    yield "report-times", some, "must report-times:", each
    fifth, least = reporting(MADE, False, False, False, True), reporting(MADE, False, False, False, False)
    yield "report-times", fifth, "must report-times:", least, "of-a-fifth"
    yield "report-empty", reporting(False, False, False, False), "should report-empty:", right
    reserved, last = (reporting(MADE, False, False, False, reason=it) for it in (255, 16))
    yield "report-reason", reserved, "should report-reason: reason=255", last
    yield "report-source", reporting(MADE, False, False, False, source=None), "should report-source:", right


def of_targets():
    """Security blocks with wrong targets, and good ones."""
    none, again = living(AGE, protecting(3)), living(AGE, protecting(3, CODE, CODE))
    yield "security-targets", none, "must security-targets: block=3", PROTECTED
    yield "security-targets", again, "must security-targets: block=3 target=2", PROTECTED, "twice"
    removed = living(AGE, protecting(3, CODE, (5, AGE_CODE)))
    yield "security-targets", removed, "should security-targets: block=3 target=5", PROTECTED, "removed"
    secret = living(SECRET_AGE, CONFIDENTIAL_2)
    signed, hidden = living(AGE, PROTECTING, protecting(4, CODE)), living(SECRET_AGE, CONFIDENTIAL_2, confidential(5, (2, AGE_TAG)))
    yield "security-twice", signed, "must security-twice: block=4 target=2", PROTECTED
    yield "security-twice", hidden, "must security-twice: block=5 target=2", secret, "confidential"
    signed, both = living(AGE, PROTECTING, protecting(4, (3, AGE_CODE))), living(AGE, PROTECTING, CONFIDENTIAL, payload=PAYLOAD)
    yield "integrity-target", signed, "must integrity-target: block=4 target=3", PROTECTED
    signed = living(SECRET_AGE, CONFIDENTIAL_2, protecting(3, (4, AGE_CODE)))
    yield "integrity-target", signed, "must integrity-target: block=3 target=4", both, "confidential"
    # A block of integrity may be ciphertext.
    other, own = (living(SECRET_AGE, CONFIDENTIAL_2, confidential(5, (it, AGE_TAG))) for it in (4, 5))
    yield "confidential-target", other, "must confidential-target: block=5 target=4", ENCRYPTED
    yield "confidential-target", own, "must confidential-target: block=5 target=5", ENCRYPTED, "itself"
    # It has to be, if what it protects is.
    shared = living(SECRET_AGE, PROTECTING, CONFIDENTIAL_2)
    yield "shared-target", shared, "should shared-target: block=3 target=2", ENCRYPTED


def of_security():
    """Security blocks with wrong flags and contexts, and good ones."""
    yield "security-flags", living(AGE, protecting(3, CODE, flags=3)), "must security-flags: block=3 flags=03", PROTECTED
    test, local = (living(AGE, protecting(3, CODE, context=it)) for it in (0, -1))
    yield "security-context", test, "should security-context: block=3 context=0", PROTECTED
    yield "security-context", local, "should security-context: block=3 context=-1", PROTECTED, "negative"
    removed, secret = (living(SECRET_AGE, confidential(4, (2, AGE_TAG), flags=it)) for it in (0x10, 0x00))
    yield "confidential-flags", removed, "must confidential-flags: block=4 flags=10", secret
    tag = (1, PAYLOAD_TAG)
    first, every = (living(confidential(4, tag, flags=it), payload=PAYLOAD) for it in (0x00, 0x01))
    yield "confidential-flags", first, "must confidential-flags: block=4 flags=00", every, "of-a-payload"
    code = living(confidential(4, tag, context=1), payload=PAYLOAD)
    yield "confidential-context", code, "must confidential-context: block=4", every


def of_fragments(part):
    """Fragments that break `fragment` or `whole-fragment`, and a part that breaks neither."""
    empty = living(flags=0x01, fragment=(0, 2), payload=b"")
    yield "fragment", empty, "must fragment: offset=0 length=0 total=2", living(**part)
    # The ciphertext has the tag at its end, and so the payload is longer than the data by 16 bytes.
    end = {"flags": 0x01, "fragment": (30, 35), "payload": (PAYLOAD + PAYLOAD_TAG)[30:]}
    known = living(SECRET_AGE, CONFIDENTIAL_2, **end)
    hidden = living(AGE, confidential(4, (1, b"")), **end)
    yield "fragment", known, "must fragment: offset=30 length=21 total=35", hidden, "confidential"
    whole, begins = (living(flags=0x01, fragment=(0, total)) for total in (1, 2))
    yield "whole-fragment", whole, "should whole-fragment: total=1", begins


def of_data():
    """Blocks and records whose data is wrong, is not read, or is ciphertext, and good ones."""
    yield "block-data", living(block(7, 2, b"")), "must block-data: block=2 byte=47", living(AGE)
    known, hidden = living(SECRET_AGE, CONFIDENTIAL, payload=PAYLOAD), living(SECRET_AGE, CONFIDENTIAL_2)
    yield "block-data", known, "must block-data: block=2 byte=47", hidden, "confidential"
    around = block(11, 3, [array(6), *protection(CODE)])
    yield "block-data", living(AGE, around), "must block-data: block=3 byte=56", PROTECTED, "security"
    open_hops = block(10, 2, b"\x9f\x18\x1e\x01\xff")
    yield "data-not-read", living(open_hops), "should data-not-read: block=2 byte=47", living(HOPS)
    scheme = block(6, 2, [array(2), unsigned(PRIVATE_SCHEME), unsigned(0)])
    yield "data-not-read", living(scheme, **FORWARDED), "should data-not-read: block=2 byte=48", living(NODE, **FORWARDED), "scheme"
    # The head of the data has three bytes, so the name is at 51.
    longest = b"//" + b"n" * 1021 + b"/"
    name, good = (living(block(6, 2, [array(2), unsigned(1), text(it)]), **FORWARDED) for it in (longest + b"a", longest))
    yield "data-not-read", name, "should data-not-read: block=2 byte=51", good, "long-name"
    # The head of the payload has two bytes, and three heads are before the statuses.
    begin, statuses, rest = encoded(REPORT[:3]), encoded(REPORT[4:13]), encoded(REPORT[13:])
    report = living(**{**RECORD, "payload": begin + b"\x9f" + statuses + b"\xff" + rest})
    part = encoded(status_report([MADE, False, False, False], 0, (2, 1), (MADE, 0), (7, 5)))
    good = living(**{**RECORD, "payload": part})
    yield "data-not-read", report, "should data-not-read: block=1 byte=51", good, "record"
    open_targets = block(11, 3, b"\x9f\x02\xff" + encoded(protection(CODE))[2:])
    yield "data-not-read", living(AGE, open_targets), "should data-not-read: block=3 byte=55", PROTECTED, "security"
    yield "record", living(flags=0x02), "must record: byte=48", living(**RECORD)


def pair(rule, breaking, line, keeping, cause="", options=None):
    """A pair of streams from the words of the calls above."""
    name = f"{rule}-{cause}" if cause else rule
    return Pair(rule, name, breaking, [line], keeping, options or {}, rule in ("ack-length", "answer-order"))


def of_transfer(rule, breaking, line, keeping, *cause):
    """A pair of streams from a transfer that breaks a rule, and one that keeps it."""
    return pair(rule, HEAD + breaking, f"38 {line.replace(':', ' transfer=0')}", closed(keeping), *cause)


def pairs():
    """All pairs of streams."""
    yield from (pair(*it) for it in (*of_sessions(), *of_segments()))
    yield from (of_transfer(*it) for it in of_transfers())
    for rule, breaking, line, keeping, *cause in of_bundles():
        yield of_transfer(rule, sent(breaking), line, sent(keeping), *cause)


def rows():
    """The rows of this file."""
    for it in pairs():
        yield Row(f"{it.name}, broken", "check", it.options, it.broken, it.lines, [], 1)
        yield Row(f"{it.name}, kept", "check", it.options, it.kept, [], [], 0)
