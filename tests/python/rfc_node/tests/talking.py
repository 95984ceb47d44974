"""A peer that does what a row says, and keeps all that the node sends."""

import asyncio
import socket
import struct
import unittest
from typing import NamedTuple, Tuple

from rfc_node import octets
from rfc_node.entity import Entity
from rfc_node.session import Session, Settings
from rfc_node.wrong import wrong_session

HEADER = octets.contact_header()
OWN = octets.sess_init(60, 65536, 2**20, "ipn:1.0")
PEER = octets.sess_init(60, 65536, 2**20, "ipn:2.0")
BUNDLE = bytes(range(200)) * 4
# How long a peer waits for an answer, and between the bytes of a message in bits
PATIENCE, BIT = 8, 0.004


class Send(NamedTuple):
    """Sends bytes in one write."""
    octets: bytes

    async def do(self, peer):
        """Does it."""
        peer.writer.write(self.octets)
        await peer.writer.drain()


class Bits(NamedTuple):
    """Sends bytes one by one."""
    octets: bytes

    async def do(self, peer):
        """Does it."""
        for at in range(len(self.octets)):
            peer.writer.write(self.octets[at:at + 1])
            await peer.writer.drain()
            await asyncio.sleep(BIT)


class Came(NamedTuple):
    """Waits until this number of bytes has come."""
    count: int

    async def do(self, peer):
        """Does it."""
        await peer.until(self.count)


class Wait(NamedTuple):
    """Waits for a time."""
    seconds: float

    async def do(self, peer):
        """Does it."""
        await asyncio.sleep(self.seconds)


class Fin(NamedTuple):
    """Closes the peer's side of the connection."""

    async def do(self, peer):
        """Does it."""
        peer.writer.write_eof()


class Reset(NamedTuple):
    """Resets the connection."""

    async def do(self, peer):
        """Does it."""
        sock = peer.writer.get_extra_info("socket")
        sock.setsockopt(socket.SOL_SOCKET, socket.SO_LINGER, struct.pack("ii", 1, 0))
        peer.writer.transport.abort()


class Row(NamedTuple):
    """What a peer does, and all that a right node sends. `hold` is how long the peer waits at the end."""
    name: str
    steps: Tuple
    answer: bytes
    closes: bool = False
    is_active: bool = False
    settings: Settings = Settings()
    hold: float = 1.0


class FixedEntity(Entity):
    """A node whose bundles are all the same. `errors` has what went wrong in its own code."""
    errors = ()

    def report(self, error):
        """Keeps an error of this node."""
        if not isinstance(error, OSError):
            self.errors += (error,)
            super().report(error)

    def next_bundle(self):
        """Returns bytes that the row knows."""
        return BUNDLE


class TalkCase(unittest.IsolatedAsyncioTestCase):
    """A test with sessions."""

    async def asyncSetUp(self):
        """Turns off what asyncio does to debug tests, since it takes time."""
        asyncio.get_running_loop().set_debug(False)


class Peer:
    """The other side of one connection."""

    def __init__(self, reader, writer):
        """Holds a connection."""
        self.reader, self.writer = reader, writer
        self.received, self.has_ended, self.was_reset = bytearray(), False, False
        self.grown = asyncio.Event()

    async def listen(self):
        """Keeps what comes."""
        try:
            while not self.has_ended:
                part = await self.reader.read(65536)
                self.received += part
                self.has_ended = not part
                self.grown.set()
        except OSError:
            self.has_ended = self.was_reset = True
        self.grown.set()

    async def until(self, count):
        """Waits until this number of bytes has come, or the end."""
        while len(self.received) < count and not self.has_ended:
            self.grown.clear()
            try:
                await asyncio.wait_for(self.grown.wait(), PATIENCE)
            except asyncio.TimeoutError:
                return

    async def play(self, row):
        """Does what the row says. Returns what came, and whether the node closed the connection by FIN."""
        listening = asyncio.ensure_future(self.listen())
        try:
            for step in row.steps:
                await step.do(self)
            await asyncio.wait([listening], timeout=row.hold)
        except OSError:
            pass
        result = bytes(self.received), self.has_ended and not self.was_reset
        listening.cancel()
        self.writer.close()
        return result


async def meet(port, row):
    """Plays a row as the peer of a node on this port. Returns what came, and whether the node closed by FIN."""
    return await Peer(*await asyncio.open_connection("127.0.0.1", port)).play(row)


class Node:
    """A node on a port of its own, with these wrong switches."""

    def __init__(self, settings, names=()):
        """Makes the node."""
        self.entity = FixedEntity(settings, wrong_session(Session, names))
        self.sessions = set()

    async def __aenter__(self):
        """Begins to listen."""
        self.server = await asyncio.start_server(self.accept, "127.0.0.1", 0)
        return self

    async def __aexit__(self, *error):
        """Ends all sessions."""
        self.server.close()
        if self.sessions:
            await asyncio.wait(self.sessions, timeout=0.3)
        for session in self.sessions:
            session.cancel()
        await asyncio.gather(*self.sessions, return_exceptions=True)
        if self.entity.errors:
            raise self.entity.errors[0]

    async def accept(self, reader, writer):
        """Holds a session that can be ended from outside."""
        session = asyncio.ensure_future(self.entity.accept(reader, writer))
        self.sessions.add(session)
        await asyncio.wait([session])

    async def meet(self, row):
        """Lets a peer connect, and play a row."""
        return await meet(self.server.sockets[0].getsockname()[1], row)

    async def visit(self, row):
        """Lets the node connect to a peer that plays a row."""
        played = asyncio.get_running_loop().create_future()

        async def play(reader, writer):
            """Plays the row."""
            played.set_result(await Peer(reader, writer).play(row))
        peer = await asyncio.start_server(play, "127.0.0.1", 0)
        self.sessions.add(asyncio.ensure_future(self.entity.visit_once(*peer.sockets[0].getsockname()[:2])))
        result = await played
        peer.close()
        return result


async def talk(row, names=()):
    """Lets a peer talk to a node with these wrong switches. Returns what came, and whether the node closed."""
    async with Node(row.settings, names) as node:
        return await (node.visit(row) if row.is_active else node.meet(row))
