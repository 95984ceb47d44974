"""`check`: each fault of docs/FORMATS.md, in a small stream that has no other.

A stream of a fault of the wire ends with what shows it. Bundles are whole, and their checks are
right, but for the fault. The streams are in examples/faults too.
"""

from typing import NamedTuple

import make
from inputs.spelling import head, hop_count, spelled

from . import Row
from .broken import AGE, CHECK_FIELD, CONTACT, INIT, VERSION, block, blocks_of, sent
from .corpus import LIVES, LIVING, PRIVATE, PRIVATE_SCHEME, TERM, living
from .lines import END, HEAD, START

# Numbers of other heads of a bundle with the primary block of LIVING
CHECK_TYPE, SCHEME, LIFETIME, PAYLOAD_NUMBER = 3, 5, 20, 24

# Kinds of a fault: the RFC forbids it, permits it, permits to end a connection so, or does not
# forbid it but asks for something else
FORBIDDEN, LIMIT, CUT, SHOULD = "fault", "limit", "cut", "should"


class Fault(NamedTuple):
    """A stream with a fault: the name, the RFC and section, the bytes, and what `check` writes."""
    name: str
    rfc: str
    content: bytes
    output: list
    report: list
    status: int
    kind: str = FORBIDDEN


def wire(text, more, section, content, at, kind=FORBIDDEN):
    """A fault of the wire in the message at an offset. `more` is the rest of its text."""
    line = f"tcpclkit: byte {at}: {text}{more}"
    return Fault(f"wire-{text.replace(' ', '-')}", f"9174 {section}", content, [], [line], 3, kind)


def order(name, section, content, at, more=(), kind=FORBIDDEN):
    """A fault of the order in the message at an offset, and other lines."""
    level = SHOULD if kind == SHOULD else "must"
    lines = [f"{at} {level} order fault={name}", *more]
    return Fault(f"order-{name}", f"9174 {section}", content, lines, [], 1, kind)


def of_bundle(name, rfc, content, at, kind=FORBIDDEN):
    """A fault of a bundle at an offset in it. The bundle is a transfer in one segment."""
    rule, code = "should not-read" if kind == LIMIT else "must bundle", name.partition("-")[0]
    line = f"38 {rule} transfer=0 code={code} byte={at}"
    return Fault(f"bundle-{name}", rfc, HEAD + sent(content), [line], [], 1, kind)


def respelled(number, other, content=None):
    """LIVING with another head. `content` makes what follows the head."""
    return spelled(blocks_of(**LIVES), number, other, content)[0]


WIRE = [
    wire("truncated", "", "6.1", HEAD + sent(LIVING)[:-1], 38, CUT),
    wire("not a contact header", "", "4.2", b"DTN!\x04\x00", 0),
    wire("unsupported version", " 3", "4.2", b"dtn!\x03\x00", 0),
    wire("unknown message type", " 08", "4.5", HEAD + b"\x08", 38),
    wire("node id too long", ": 1025", "4.6", CONTACT + make.sess_init(node=b"dtn://" + b"n" * 1018 + b"/"), 6, LIMIT),
    wire("extension list too long", ": 65537", "4.6",
         CONTACT + make.sess_init(make.item(0, PRIVATE, bytes(65532))), 6, LIMIT),
    wire("too many extension items", "", "4.6",
         CONTACT + make.sess_init(*[make.item(0, PRIVATE + number, b"") for number in range(65)]), 6, LIMIT),
    # The list has 5 bytes, and its item has 6.
    wire("extension items overrun their list", "", "4.6",
         CONTACT + make.sess_init(make.item(0, PRIVATE, b"a")[:-1]), 6),
]

ORDER = [
    # It changes nothing, so no key word forbids it.
    order("second-session-initiation", "4.7, 5.1.2", HEAD + INIT, 38, kind=SHOULD),
    order("segment-before-session-initiation", "4", CONTACT + sent(LIVING), 6),
    order("no-such-open-transfer", "5.2.2", HEAD + make.xfer_segment(END, 0, b""), 38),
    # This one breaks `transfer-id` too.
    order("start-repeats-the-open-transfer", "5.2.1",
          HEAD + make.xfer_segment(START, 0, b"") + sent(LIVING), 60, ["60 must transfer-id id=0"]),
    order("start-after-session-termination", "6.1", HEAD + TERM + sent(LIVING), 41),
]

# The primary block of LIVING is at 1, with the destination at 5, the lifetime at 29 and the check
# field at 38. The payload block is at 41.
BUNDLES = [
    of_bundle("B1-input-ends-inside-a-bundle", "9171 4.1", LIVING[:-1], 48),
    of_bundle("B2-bytes-after-the-bundle", "9174 5.2", LIVING + b"\x00", 49),
    # An array of two in place of one of indefinite length
    of_bundle("B3-not-a-bundle", "9171 4.1", b"\x82" + LIVING[1:-1], 0),
    of_bundle("B4-ill-formed-head", "8949 3", respelled(LIFETIME, b"\x1c"), 29),
    # A text in place of a number
    of_bundle("B5-wrong-kind-of-item", "9171 4.3.1", respelled(LIFETIME, head(3, 0)), 29),
    # An ipn endpoint ID of four numbers
    of_bundle("B6-wrong-number-of-elements", "9171 4.2.5.1.2", living(destination=(0, 0, 2, 1)), 7),
    of_bundle("B7-unsupported-bundle-version", "9171 4.3.1", respelled(VERSION, head(0, 6)), 2),
    of_bundle("B8-unknown-check-type", "9171 4.2.1", respelled(CHECK_TYPE, head(0, 3)), 4),
    of_bundle("B9-unknown-endpoint-scheme", "9171 4.2.5.1", respelled(SCHEME, head(0, PRIVATE_SCHEME)), 6, LIMIT),
    # The two numbers of an ipn endpoint ID, of the scheme dtn
    of_bundle("B10-wrong-scheme-specific-part", "9171 4.2.5.1.1", respelled(SCHEME, head(0, 1)), 7),
    of_bundle("B11-endpoint-id-too-long", "9171 4.2.5.1.1", living(destination=b"//" + b"n" * 1022 + b"/"), 7, LIMIT),
    # Three bytes of a CRC-16
    of_bundle("B12-wrong-check-length", "9171 4.2.2", respelled(CHECK_FIELD, head(2, 3), lambda it: it + b"\x00"), 38),
    of_bundle("B13-check-differs", "9171 4.3.1",
              respelled(CHECK_FIELD, head(2, 2), lambda it: bytes(255 - byte for byte in it)), 38),
    # A payload block with number 2
    of_bundle("B14-wrong-block-number", "9171 4.1", respelled(PAYLOAD_NUMBER, head(0, 2)), 43),
    # Two extension blocks with number 2, of which the first has 7 bytes
    of_bundle("B15-repeated-block-number", "9171 4.1", living(AGE, block(10, 2, hop_count(30, 1))), 50),
    # 64 blocks before the payload block: 22 of 7 bytes, and 42 of 8
    of_bundle("B16-too-many-blocks", "9171 4.1",
              living(*[block(192, number, b"") for number in range(2, 66)]), 531, LIMIT),
    of_bundle("B17-no-payload-block-at-the-end", "9171 4.1", spelled(blocks_of(**LIVES)[:1])[0], 41),
]

ALL = [*WIRE, *ORDER, *BUNDLES]


def rows():
    """The rows of this file."""
    for it in ALL:
        yield Row(it.name, "check", {}, it.content, it.output, it.report, it.status)
