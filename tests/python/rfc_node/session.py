"""One session over one TCP connection (RFC 9174). Its parts are in contact, inbound, outbound, .."""

import asyncio
import time
from typing import NamedTuple

from .contact import Contact
from .ending import Ending
from .inbound import Inbound
from .octets import Kind
from .outbound import Outbound
from .reading import Reader
from .upkeep import Upkeep

KINDS = frozenset(Kind)


class Settings(NamedTuple):
    """What a node says in its SESS_INIT, and how many bundles it sends in a session."""
    node: str = "ipn:1.0"
    keepalive: int = 60
    segment_mru: int = 65536
    transfer_mru: int = 1048576
    bundles: int = 0


class Session(Contact, Inbound, Outbound, Upkeep, Ending):
    """A session. `is_active` says whether this node opened the connection."""

    def __init__(self, entity, reader, writer, is_active):
        """Begins a session of an entity over a connection."""
        self.entity, self.settings = entity, entity.settings
        self.writer, self.is_active = writer, is_active
        self.reader = Reader(reader)
        self.begun = self.sent_at = time.monotonic()
        # When the contact headers were exchanged, and when the own SESS_TERM was sent
        self.messages_since = self.term_sent = None
        # The SESS_INIT of the peer, whether its reception failed, and the negotiated interval
        self.peer, self.has_failed, self.interval = None, False, 0
        # The types of all messages sent, and the REPLY flags of all SESS_TERM received
        self.kinds_sent, self.terms = set(), set()
        # The open transfer of the peer, the IDs of all, and the reasons of those that were refused
        self.inbound, self.begun_by_peer, self.refused = None, set(), {}
        self.outbound = {}
        self.established, self.answered, self.over = (asyncio.Event() for _ in range(3))
        self.flushing = asyncio.Lock()

    @property
    def delivered(self):
        """The bundles that the entity has received."""
        return self.entity.delivered

    def next_bundle(self, number):
        """Returns the bundle to send next."""
        return self.entity.next_bundle()

    def send(self, message):
        """Sends a whole message."""
        self.kinds_sent.add(message[0])
        self.send_octets(message)

    def send_octets(self, octets):
        """Sends bytes, unless the connection is over."""
        if not self.over.is_set():
            self.writer.write(octets)
            self.sent_at = time.monotonic()

    async def flush(self):
        """Waits until the peer takes more. Before Python 3.11, only one task may wait in `drain`."""
        async with self.flushing:
            await self.writer.drain()

    async def run(self):
        """Holds the session until it is over, and closes the connection."""
        tasks = [asyncio.ensure_future(it) for it in (self.converse(), self.keep_up(), self.send_bundles())]
        for task in tasks:
            task.add_done_callback(self.finish)
        try:
            await self.over.wait()
        finally:
            for task in tasks:
                task.cancel()
            await asyncio.gather(*tasks, return_exceptions=True)
            await self.close()

    def finish(self, task):
        """Ends the session with the first task that fails."""
        if not task.cancelled() and task.exception() is not None:
            self.over.set()
            self.entity.report(task.exception())

    async def converse(self):
        """Reads and answers until the session is over."""
        try:
            if await self.contact():
                await self.exchange()
        except EOFError:
            if self.messages_since is None:
                await self.lose_contact()
        self.over.set()

    async def exchange(self):
        """Exchanges messages."""
        self.messages_since = time.monotonic()
        if self.is_active:
            self.send_init()
        while not (self.over.is_set() or self.has_ended()):
            await self.take(await self.reader.message())
            await self.flush()

    async def take(self, message):
        """Takes a message."""
        if message.kind not in KINDS:
            self.take_unknown(message)
        elif self.is_early(message):
            await self.take_early(message)
        else:
            taken = getattr(self, f"take_{message.kind.name.lower()}")(message)
            if taken is not None:
                await taken

    def is_early(self, message):
        """Whether a message comes before the SESS_INIT, but may not."""
        return self.peer is None and message.kind not in (Kind.SESS_INIT, Kind.SESS_TERM, Kind.MSG_REJECT)

    async def take_early(self, message):
        """Rejects a message that comes before the SESS_INIT."""
        self.unexpected(message)
        if message.kind == Kind.XFER_SEGMENT:
            await self.pass_over(message)
