"""Messages and bundles as bytes, and the offsets of their lengths.

A stream is a list of pieces. A piece is bytes, or a `Length` with the pieces whose bytes it counts.
A bundle is a list of blocks, and a block is a list of `Head`s.
"""

import struct
from typing import Callable, NamedTuple

from model.check import WIDTH, check

CONTACT = b"dtn!\x04\x00"
END, START = 0x01, 0x02


class Length(NamedTuple):
    """A length field: its name, its width in bytes, and the greatest value that is good there.

    `fill` makes content of a length, and `inside` has the pieces that the field counts.
    """
    name: str
    width: int
    limit: int
    fill: Callable
    inside: list


class Field(NamedTuple):
    """A length field, and its offset in a stream."""
    at: int
    length: Length


def laid(pieces):
    """A stream as bytes, and its length fields."""
    stream, fields = b"", []
    for piece in pieces:
        if isinstance(piece, bytes):
            stream += piece
            continue
        inside, nested = laid(piece.inside)
        fields.append(Field(len(stream), piece))
        fields += [Field(len(stream) + piece.width + it.at, it.length) for it in nested]
        stream += len(inside).to_bytes(piece.width, "big") + inside
    return stream, fields


def item_bytes(length):
    """One extension item of `length` bytes in all, or of the most bytes that an item can have.

    Below five bytes it is a cut item.
    """
    if length < 5:
        return bytes(length)
    value = min(length - 5, 0xFFFF)
    return b"\x00\x12\x34" + struct.pack(">H", value) + bytes(length - 5)


def item(name, flags, kind, value):
    """An extension item (RFC 9174 sections 4.8 and 5.2.5)."""
    return [struct.pack(">BH", flags, kind), Length(f"{name} item", 2, len(value), bytes, [value])]


def listed(name, items):
    """An extension list of items, which are made of pieces."""
    return Length(f"{name} list", 4, 65536, item_bytes, [piece for it in items for piece in it])


def sess_init(node=b"ipn:1.0", items=(), keepalive=60, segment_mru=65536, transfer_mru=1048576):
    """SESS_INIT (section 4.6)."""
    head = struct.pack(">BHQQ", 0x07, keepalive, segment_mru, transfer_mru)
    return [head, Length("node id", 2, 1024, lambda length: b"n" * length, [node]), listed("session", items)]


def segment(flags, number, data, items=()):
    """XFER_SEGMENT (section 5.2.2)."""
    head = [struct.pack(">BBQ", 0x01, flags, number)]
    extension = [listed("transfer", items)] if flags & START else []
    return head + extension + [Length("data", 8, 65536, bytes, [data])]


def total(length):
    """A Transfer Length item (section 5.2.5.1)."""
    return item("transfer", 0x00, 0x0001, struct.pack(">Q", length))


def carried(data):
    """The bytes of a stream that carries `data` as its only transfer."""
    return laid([CONTACT, *sess_init(), *segment(START | END, 0, data)])[0]


class Head(NamedTuple):
    """The head of a data item: its major type, its value, and the greatest good value there.

    `content` follows the head. `check` is the check type of a check field, whose content is
    computed.
    """
    major: int
    value: int
    limit: int = 0
    content: bytes = b""
    check: int = 0


def unsigned(value, limit=0):
    """An unsigned number."""
    return Head(0, value, limit)


def array(count, limit=0):
    """The head of an array."""
    return Head(4, count, limit or count)


def text(name):
    """A dtn name."""
    return Head(3, len(name), 1024, name)


def data(content):
    """The data of a block."""
    return Head(2, len(content), 65536, content)


def check_field(kind):
    """The check field of a block, if its check type has one (section 4.2.2)."""
    return [Head(2, WIDTH[kind], WIDTH[kind], b"", kind)] if kind else []


def endpoint(it):
    """The heads of an endpoint ID (RFC 9171 section 4.2.5.1).

    `it` is None for dtn:none, bytes for a dtn name, and numbers for an ipn endpoint ID.
    """
    if it is None:
        return [array(2), unsigned(1, 2), unsigned(0)]
    if isinstance(it, bytes):
        return [array(2), unsigned(1, 2), text(it)]
    return [array(2), unsigned(2, 2), array(len(it), 3), *map(unsigned, it)]


def primary(destination, source, report, kind=0, flags=0, stamp=(0, 0), lifetime=0, fragment=()):
    """A primary block (section 4.3.1)."""
    heads = [array(8 + (kind > 0) + len(fragment), 11), unsigned(7, 7), unsigned(flags, 1), unsigned(kind, 2)]
    heads += endpoint(destination) + endpoint(source) + endpoint(report)
    heads += [array(2), *map(unsigned, stamp), unsigned(lifetime), *map(unsigned, fragment)]
    return heads + check_field(kind)


def canonical(block_type, number, content, kind=0, flags=0):
    """A canonical block (section 4.3.2)."""
    heads = [array(5 + (kind > 0), 6), unsigned(block_type, 1), unsigned(number, 1), unsigned(flags), unsigned(kind, 2)]
    return heads + [data(content)] + check_field(kind)


def boolean(value):
    """A Boolean."""
    return Head(7, 21 if value else 20)


def integer(value):
    """An integer, which may be negative."""
    return Head(0, value) if value >= 0 else Head(1, -1 - value)


def hop_count(limit, count):
    """The heads of a hop count block's data (section 4.4.3)."""
    return [array(2), unsigned(limit), unsigned(count)]


def security(targets, context, source, flags=0):
    """The heads of the beginning of an abstract security block (RFC 9172 section 3.6)."""
    return [array(len(targets)), *map(unsigned, targets), integer(context), unsigned(flags), *endpoint(source)]


def assertion(it):
    """The heads of a status, which is False, True or a time (RFC 9171 section 6.1.1)."""
    return [array(1), boolean(it)] if isinstance(it, bool) else [array(2), boolean(True), unsigned(it)]


def status_report(assertions, reason, source, stamp, fragment=()):
    """The heads of an administrative record that is a status report (section 6.1.1)."""
    heads = [array(2), unsigned(1), array(4 + len(fragment)), array(len(assertions))]
    heads += [head for it in assertions for head in assertion(it)]
    return heads + [unsigned(reason), *endpoint(source), array(2), *map(unsigned, stamp), *map(unsigned, fragment)]


def encoded(heads, changed=None, other=b""):
    """Heads as bytes, with what follows each. The head number `changed` is spelled `other`."""
    spellings = [other if number == changed else head(it.major, it.value) for number, it in enumerate(heads)]
    return b"".join(spelling + it.content for spelling, it in zip(spellings, heads))


def head(major, value, width=None):
    """A head with an argument of `width` bytes, or in its shortest form (RFC 8949 section 3)."""
    if width is None:
        width = 0 if value < 24 else next(it for it in (1, 2, 4, 8) if value < 1 << 8 * it)
    if width == 0:
        return bytes([major << 5 | value])
    return bytes([major << 5 | 23 + width.bit_length()]) + value.to_bytes(width, "big")


def spelled(blocks, changed=None, other=b"", content=None, widths=lambda value: None):
    """The bundle as bytes, and the offset after its head number `changed`.

    That head is spelled `other`. If `content` is given, it makes the bytes that follow the head.
    Check fields fit their blocks all the same.
    """
    bundle, after, number = b"\x9f", 0, 0
    for block in blocks:
        start = len(bundle)
        for it in block:
            bundle += other if number == changed else head(it.major, it.value, widths(it.value))
            after = len(bundle) if number == changed else after
            follows = check(it.check, bundle[start:] + bytes(WIDTH[it.check])) if it.check else it.content
            bundle += content(follows) if number == changed and content else follows
            number += 1
    return bundle + b"\xff", after
