"""A relay between two nodes that records what each side sends."""

import asyncio


class Relay:
    """Listens, and passes each connection on to a node. `sessions` holds the recordings of both sides."""

    def __init__(self, host, port):
        """Passes connections on to this address."""
        self.address = host, port
        self.sessions = []
        self.ended = asyncio.Event()

    async def __aenter__(self):
        """Begins to listen."""
        self.server = await asyncio.start_server(self.join, "127.0.0.1", 0)
        self.port = self.server.sockets[0].getsockname()[1]
        return self

    async def __aexit__(self, *error):
        """Takes no more connections."""
        self.server.close()

    async def join(self, reader, writer):
        """Passes on and records one connection."""
        other_reader, other_writer = await asyncio.open_connection(*self.address)
        sides = bytearray(), bytearray()
        await asyncio.gather(pump(reader, other_writer, sides[0]), pump(other_reader, writer, sides[1]))
        writer.close()
        other_writer.close()
        self.sessions.append(tuple(map(bytes, sides)))
        self.ended.set()


async def pump(reader, writer, record):
    """Passes bytes on until they end, and records them."""
    while True:
        part = await reader.read(65536)
        if not part:
            break
        record += part
        writer.write(part)
        await writer.drain()
    writer.write_eof()
