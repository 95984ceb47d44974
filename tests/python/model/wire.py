"""The reading of a recorded stream (RFC 9174 sections 3.2 and 4).

The sections of docs/FORMATS.md are those from "The recorded stream" to "The order of judgement".
"""

from typing import NamedTuple, Optional

# Flags of XFER_SEGMENT (RFC 9174 section 5.2.2)
END = 0x01
START = 0x02

MAX_NODE = 1024
MAX_LIST = 65536
MAX_ITEMS = 64


class Item(NamedTuple):
    """An extension item (sections 4.8 and 5.2.5)."""
    flags: int
    kind: int
    value: bytes


class Segment(NamedTuple):
    """XFER_SEGMENT (section 5.2.2).

    `items` is None without START. `data` is shorter than `length` if the stream is cut.
    """
    flags: int
    id: int
    items: Optional[list]
    length: int
    data: bytes


class Ack(NamedTuple):
    """XFER_ACK (section 5.2.3)."""
    flags: int
    id: int
    length: int


class Refuse(NamedTuple):
    """XFER_REFUSE (section 5.2.4)."""
    reason: int
    id: int


class Keepalive(NamedTuple):
    """KEEPALIVE (section 5.1.1)."""


class SessTerm(NamedTuple):
    """SESS_TERM (section 6.1)."""
    flags: int
    reason: int


class Reject(NamedTuple):
    """MSG_REJECT (section 5.1.2)."""
    reason: int
    header: int


class SessInit(NamedTuple):
    """SESS_INIT (section 4.6)."""
    keepalive: int
    segment_mru: int
    transfer_mru: int
    node: bytes
    items: list


class Reading(NamedTuple):
    """The contact header's flags, the messages with their offsets, and the fault.

    The fault is (offset, text), or None if there is none. If the contact header has the fault, the
    flags are None. The last message may be a segment whose data is cut.
    """
    contact: Optional[int]
    messages: list
    fault: Optional[tuple]


class Fault(Exception):
    """The first field from the left that is missing or breaks its rule."""


class Cursor:
    """A stream, and the offset of the next field."""

    def __init__(self, stream):
        self.stream, self.at = stream, 0

    def left(self):
        """The number of bytes that follow."""
        return len(self.stream) - self.at

    def take(self, count):
        """The next field, of that many bytes."""
        if count > self.left():
            raise Fault("truncated")
        self.at += count
        return self.stream[self.at - count:self.at]

    def number(self, size):
        """The next field, a number of that many bytes."""
        return int.from_bytes(self.take(size), "big")


def contact(cursor):
    """The flags of a contact header (section 4.2), which is one field of six bytes."""
    header = cursor.take(6)
    if header[:4] != b"dtn!":
        raise Fault("not a contact header")
    if header[4] != 4:
        raise Fault(f"unsupported version {header[4]}")
    return header[5]


def extension_list(cursor):
    """The items of an extension list (sections 4.8 and 5.2.5).

    The list's length is judged first, and then each item by the six steps of "Extension lists".
    """
    left = cursor.number(4)
    if left > MAX_LIST:
        raise Fault(f"extension list too long: {left}")
    items = []
    while left > 0:
        if left < 5:
            raise Fault("extension items overrun their list")
        head = cursor.take(5)
        flags, kind, length = head[0], int.from_bytes(head[1:3], "big"), int.from_bytes(head[3:5], "big")
        if length > left - 5:
            raise Fault("extension items overrun their list")
        if len(items) == MAX_ITEMS:
            raise Fault("too many extension items")
        items.append(Item(flags, kind, cursor.take(length)))
        left -= 5 + length
    return items


def segment(cursor):
    """XFER_SEGMENT after its type byte (section 5.2.2). Data that is cut is no fault here."""
    flags, transfer = cursor.number(1), cursor.number(8)
    items = extension_list(cursor) if flags & START else None
    length = cursor.number(8)
    return Segment(flags, transfer, items, length, cursor.take(min(length, cursor.left())))


def sess_init(cursor):
    """SESS_INIT after its type byte (section 4.6)."""
    keepalive, segment_mru, transfer_mru = cursor.number(2), cursor.number(8), cursor.number(8)
    length = cursor.number(2)
    if length > MAX_NODE:
        raise Fault(f"node id too long: {length}")
    node = cursor.take(length)
    return SessInit(keepalive, segment_mru, transfer_mru, node, extension_list(cursor))


# The fields of each message after its type byte, in written order (section 4.5).
FIELDS = {
    0x01: segment,
    0x02: lambda cursor: Ack(cursor.number(1), cursor.number(8), cursor.number(8)),
    0x03: lambda cursor: Refuse(cursor.number(1), cursor.number(8)),
    0x04: lambda cursor: Keepalive(),
    0x05: lambda cursor: SessTerm(cursor.number(1), cursor.number(1)),
    0x06: lambda cursor: Reject(cursor.number(1), cursor.number(1)),
    0x07: sess_init,
}


def message(cursor):
    """The message at the cursor."""
    kind = cursor.number(1)
    if kind not in FIELDS:
        raise Fault(f"unknown message type {kind:02x}")
    return FIELDS[kind](cursor)


def is_cut(it):
    """Whether a message is a segment whose data is not all in the stream."""
    return isinstance(it, Segment) and len(it.data) < it.length


def reading(stream):
    """The reading of a stream, to its end or its first fault."""
    cursor, flags, messages, at = Cursor(stream), None, [], 0
    try:
        flags = contact(cursor)
        while cursor.left() > 0:
            at = cursor.at
            messages.append((at, message(cursor)))
            if is_cut(messages[-1][1]):
                raise Fault("truncated")
    except Fault as fault:
        return Reading(flags, messages, (at, str(fault)))
    return Reading(flags, messages, None)
