"""The bytes of messages (RFC 9174) and of bundles (RFC 9171) that keep all rules."""

import struct
from typing import NamedTuple

from model import check, wire

START, END, REPLY, CRITICAL, CAN_TLS = wire.START, wire.END, 0x01, 0x01, 0x01

# The type byte of each kind of message (section 4.5)
TYPES = {wire.Segment: 1, wire.Ack: 2, wire.Refuse: 3, wire.Keepalive: 4, wire.SessTerm: 5, wire.Reject: 6,
         wire.SessInit: 7}

# The type of a Transfer Length item (section 5.2.5.1), and types for experiments (sections 8.3, 8.4)
LENGTH, EXPERIMENTS = 0x0001, range(0x8000, 0x8008)


class Contact(NamedTuple):
    """A contact header (section 4.2)."""
    flags: int = 0
    version: int = 4


class Raw(NamedTuple):
    """Bytes that are no message, or not all of one."""
    content: bytes


class Sent(NamedTuple):
    """A message, when it was sent and how long it was under way, in seconds.

    `seen` counts the messages of the other side that the node had processed by then.
    """
    it: object
    time: float
    delay: float
    seen: int


def extension_list(items):
    """An extension list (sections 4.8 and 5.2.5)."""
    joined = b"".join(struct.pack(">BHH", it.flags, it.kind, len(it.value)) + it.value for it in items)
    return struct.pack(">I", len(joined)) + joined


def of_segment(it):
    """XFER_SEGMENT (section 5.2.2)."""
    items = extension_list(it.items) if it.flags & START else b""
    return struct.pack(">BBQ", 1, it.flags, it.id) + items + struct.pack(">Q", len(it.data)) + it.data


def of_init(it):
    """SESS_INIT (section 4.6)."""
    head = struct.pack(">BHQQH", 7, it.keepalive, it.segment_mru, it.transfer_mru, len(it.node))
    return head + it.node + extension_list(it.items)


SPELLED = {
    Contact: lambda it: b"dtn!" + bytes([it.version, it.flags]),
    Raw: lambda it: it.content,
    wire.Segment: of_segment,
    wire.Ack: lambda it: struct.pack(">BBQQ", 2, it.flags, it.id, it.length),
    wire.Refuse: lambda it: struct.pack(">BBQ", 3, it.reason, it.id),
    wire.Keepalive: lambda it: b"\x04",
    wire.SessTerm: lambda it: bytes([5, it.flags, it.reason]),
    wire.Reject: lambda it: bytes([6, it.reason, it.header]),
    wire.SessInit: of_init,
}


def spelled(it):
    """The bytes of a message."""
    return SPELLED[type(it)](it)


def segment(flags, ident, data, items=()):
    """XFER_SEGMENT with these bytes as its data."""
    return wire.Segment(flags, ident, list(items) if flags & START else None, len(data), data)


def length_item(total, flags=0):
    """A Transfer Length item (section 5.2.5.1)."""
    return wire.Item(flags, LENGTH, struct.pack(">Q", total))


def head(major, value):
    """The shortest CBOR head of that value (RFC 8949 section 3)."""
    if value < 24:
        return bytes([major << 5 | value])
    size = next(it for it in range(4) if value < 1 << (8 << it))
    return bytes([major << 5 | 24 + size]) + value.to_bytes(1 << size, "big")


def checked(block):
    """A block with a CRC-16 as its last item (RFC 9171 section 4.2.1)."""
    return block + b"\x42" + check.check(1, block + b"\x42\x00\x00")


def bundle(sequence, payload):
    """A bundle from ipn:1.1 to ipn:2.1, of 2026, that lives for a day (RFC 9171 section 4)."""
    created = b"\x82" + head(0, 820540800000) + head(0, sequence)
    ends = b"".join(b"\x82\x02\x82" + bytes([node, service]) for node, service in ((2, 1), (1, 1), (1, 0)))
    primary = checked(b"\x89\x07\x00\x01" + ends + created + head(0, 86400000))
    content = b"\x85\x01\x01\x00\x00" + head(2, len(payload)) + payload
    return b"\x9f" + primary + content + b"\xff"


SMALLEST = len(bundle(0, b""))
