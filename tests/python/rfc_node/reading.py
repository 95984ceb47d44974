"""Reads what a peer sends, field by field, and never holds more of it than a small message."""

import asyncio
import struct
import time
from typing import NamedTuple, Optional

from .octets import TRANSFER_LENGTH, ItemFlag, Kind, SegmentFlag

CHUNK = 65536
# The bytes of an item before its value
ITEM_HEAD = 5


class Items(NamedTuple):
    """What a node needs to know of a list of extension items.

    An overrun is an item that claims more bytes than its list has left. An underrun are bytes after the
    last item, too few for another one. `left` counts the bytes of such a list that have not been read.
    """
    is_overrun: bool = False
    is_underrun: bool = False
    left: int = 0
    has_unknown_critical: bool = False
    # Whether any type is unknown, and the flags of all these items together
    has_unknown: bool = False
    unknown_flags: int = 0
    # The values of the Transfer Length items: the first two, None for one that is not 8 bytes long
    lengths: tuple = ()

    @property
    def is_broken(self):
        """Whether the content of the list disagrees with its length."""
        return self.is_overrun or self.is_underrun


class SessInit(NamedTuple):
    """A SESS_INIT."""
    keepalive: int
    segment_mru: int
    transfer_mru: int
    node: bytes
    items: Items
    kind: Kind = Kind.SESS_INIT


class Segment(NamedTuple):
    """An XFER_SEGMENT whose data has not been read. `length` is None if its list is broken."""
    flags: int
    identifier: int
    items: Items
    length: Optional[int]
    kind: Kind = Kind.XFER_SEGMENT

    @property
    def is_start(self):
        """Whether it is the first segment of a transfer."""
        return bool(self.flags & SegmentFlag.START)

    @property
    def is_end(self):
        """Whether it is the last segment of a transfer."""
        return bool(self.flags & SegmentFlag.END)


class Ack(NamedTuple):
    """An XFER_ACK."""
    flags: int
    identifier: int
    length: int
    kind: Kind = Kind.XFER_ACK


class Refuse(NamedTuple):
    """An XFER_REFUSE."""
    reason: int
    identifier: int
    kind: Kind = Kind.XFER_REFUSE


class Term(NamedTuple):
    """A SESS_TERM."""
    flags: int
    reason: int
    kind: Kind = Kind.SESS_TERM


class Reject(NamedTuple):
    """A MSG_REJECT."""
    reason: int
    header: int
    kind: Kind = Kind.MSG_REJECT


class Keepalive(NamedTuple):
    """A KEEPALIVE."""
    kind: Kind = Kind.KEEPALIVE


class Unknown(NamedTuple):
    """The first byte of a message whose type is not in table 2."""
    kind: int


class Reader:
    """The bytes of a peer. `heard` is the time at which the last of them came, `taken` counts those taken."""

    def __init__(self, stream):
        """Reads from an asyncio.StreamReader. EOFError is raised where the bytes end."""
        self.stream = stream
        self.ahead = bytearray()
        self.heard = time.monotonic()
        self.taken = self.reads = 0
        self.marked = (0, 0)

    async def refill(self):
        """Waits for more bytes."""
        part = await self.stream.read(CHUNK)
        if not part:
            raise EOFError
        self.ahead += part
        self.reads += 1
        self.heard = time.monotonic()

    async def take(self, count):
        """Returns this number of bytes."""
        while len(self.ahead) < count:
            await self.refill()
        data = bytes(self.ahead[:count])
        del self.ahead[:count]
        self.taken += count
        return data

    async def skip(self, count):
        """Passes over this number of bytes, however large it is."""
        while count:
            if not self.ahead:
                await self.refill()
            size = min(count, len(self.ahead))
            del self.ahead[:size]
            self.taken += size
            count -= size

    def mark(self):
        """Remembers where a message begins."""
        self.marked = (self.taken, self.reads)

    def is_in_bits(self):
        """Whether what was taken since the mark came in several reads, of at most four bytes on average."""
        taken, reads = self.taken - self.marked[0], self.reads - self.marked[1]
        return reads > 1 and 4 * reads >= taken

    async def fields(self, form):
        """Returns the fields of this form, in network byte order."""
        form = f">{form}"
        return struct.unpack(form, await self.take(struct.calcsize(form)))

    async def number(self, form):
        """Returns one field of this form."""
        return (await self.fields(form))[0]

    async def message(self):
        """Reads the next message, of an XFER_SEGMENT only what comes before its data."""
        self.mark()
        kind = await self.number("B")
        read = READERS.get(kind)
        return await read(self) if read else Unknown(kind)

    async def sess_init(self):
        """Reads a SESS_INIT after its type."""
        keepalive, segment_mru, transfer_mru, named = await self.fields("HQQH")
        node = await self.take(named)
        items = await self.items(await self.number("I"), known=())
        return SessInit(keepalive, segment_mru, transfer_mru, node, items)

    async def segment(self):
        """Reads an XFER_SEGMENT after its type, up to its data."""
        flags, identifier = await self.fields("BQ")
        items = Items()
        if flags & SegmentFlag.START:
            items = await self.items(await self.number("I"), known=(TRANSFER_LENGTH,))
        length = None if items.is_broken else await self.number("Q")
        return Segment(flags, identifier, items, length)

    async def items(self, length, known):
        """Reads a list of items. It stops at an item that claims more bytes than the list has left."""
        result = Items()
        while length:
            if length < ITEM_HEAD:
                return result._replace(is_underrun=True, left=length)
            flags, kind, size = await self.fields("BHH")
            length -= ITEM_HEAD
            if size > length:
                return result._replace(is_overrun=True, left=length)
            value = await self.take(size)
            length -= size
            result = with_item(result, flags, kind, value, known)
        return result

    async def ack(self):
        """Reads an XFER_ACK after its type."""
        return Ack(*await self.fields("BQQ"))

    async def refuse(self):
        """Reads an XFER_REFUSE after its type."""
        return Refuse(*await self.fields("BQ"))

    async def keepalive(self):
        """Reads nothing more: a KEEPALIVE is its type."""
        return Keepalive()

    async def sess_term(self):
        """Reads a SESS_TERM after its type."""
        return Term(*await self.fields("BB"))

    async def msg_reject(self):
        """Reads a MSG_REJECT after its type."""
        return Reject(*await self.fields("BB"))

    async def drain(self, seconds):
        """Passes over what the peer still sends, until it closes or this time has passed."""
        try:
            await asyncio.wait_for(self.rest(), seconds)
        except (asyncio.TimeoutError, OSError):
            pass

    async def rest(self):
        """Passes over all bytes up to the end."""
        while await self.stream.read(CHUNK):
            pass


READERS = {
    Kind.SESS_INIT: Reader.sess_init,
    Kind.SESS_TERM: Reader.sess_term,
    Kind.XFER_SEGMENT: Reader.segment,
    Kind.XFER_ACK: Reader.ack,
    Kind.XFER_REFUSE: Reader.refuse,
    Kind.KEEPALIVE: Reader.keepalive,
    Kind.MSG_REJECT: Reader.msg_reject,
}


def with_item(items, flags, kind, value, known):
    """Returns what is known of a list after one more item."""
    if kind not in known:
        is_critical = bool(flags & ItemFlag.CRITICAL)
        return items._replace(
            has_unknown=True, unknown_flags=items.unknown_flags | flags,
            has_unknown_critical=items.has_unknown_critical or is_critical)
    total = struct.unpack(">Q", value)[0] if len(value) == 8 else None
    return items._replace(lengths=(*items.lengths, total)[:2])
