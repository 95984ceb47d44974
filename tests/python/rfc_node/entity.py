"""A TCPCL entity: it listens for connections, or opens one after the other."""

import asyncio
import itertools
import sys
import traceback
from collections import deque

from .bundles import bundle

# The delay before a connection is opened again: it doubles while the peer refuses it
FIRST_DELAY = 0.2
LAST_DELAY = 30.0
# How many bytes the payload of a bundle has, and how many received bundles are kept
PAYLOAD = 800
KEPT = 16


class Entity:
    """A node, with a class whose instances are its sessions."""

    def __init__(self, settings, session):
        """Makes a node of these settings."""
        self.settings, self.session = settings, session
        self.delivered = deque(maxlen=KEPT)
        self.numbers = itertools.count()
        # What a wrong switch remembers of the whole node
        self.remembered = {}

    def next_bundle(self):
        """Returns a new bundle."""
        number = next(self.numbers)
        payload = bytes((number + at) % 256 for at in range(PAYLOAD))
        return bundle(self.settings.node, number, payload)

    def report(self, error):
        """Reports an error of this node, but none of a connection."""
        if not isinstance(error, OSError):
            traceback.print_exception(type(error), error, error.__traceback__, file=sys.stderr)

    async def serve(self, host, port):
        """Listens, says where, and serves every connection."""
        server = await asyncio.start_server(self.accept, host, port)
        name = f"[{host}]" if ":" in host else host
        print(f"listening on {name}:{server.sockets[0].getsockname()[1]}", flush=True)
        async with server:
            await server.serve_forever()

    async def accept(self, reader, writer):
        """Holds the session of a connection that a peer opened."""
        await self.session(self, reader, writer, is_active=False).run()

    async def visit(self, host, port):
        """Opens a connection, holds its session, and begins again after a delay."""
        delay = FIRST_DELAY
        while True:
            try:
                await self.visit_once(host, port)
                delay = FIRST_DELAY
            except OSError:
                delay = min(2 * delay, LAST_DELAY)
            await asyncio.sleep(delay)

    async def visit_once(self, host, port):
        """Opens a connection and holds its session. OSError says that there is no connection."""
        reader, writer = await asyncio.open_connection(host, port)
        await self.session(self, reader, writer, is_active=True).run()
