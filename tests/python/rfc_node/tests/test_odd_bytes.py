"""Streams of the rows, cut, repeated, swapped and changed: the node takes them, and they find a planted crash."""

import asyncio
import random
import unittest

from rfc_node.tests.rows import ACKED, ROWS
from rfc_node.tests.running import end, listening
from rfc_node.tests.talking import Bits, Fin, Row, Send, TalkCase, meet

SEED = 9174
STREAMS = 500
AT_ONCE = 24
LONGEST = 4000
PLANTED = "planted-crash"
GOOD_ROW = next(row for row in ROWS if row.name == "good")


def stream_of(row):
    """Returns all that the peer of a row sends."""
    return b"".join(step.octets for step in row.steps if isinstance(step, (Send, Bits)))


def mutated(chance, stream):
    """Returns a stream with one to three changes."""
    result = bytearray(stream)
    for _ in range(chance.randint(1, 3)):
        start = chance.randrange(len(result))
        end = start + chance.randint(1, 20)
        other = chance.randrange(len(result))
        kind = chance.randrange(4)
        if kind == 0 and len(result) > 30:
            del result[start:end]
        elif kind == 1:
            result[start:start] = result[start:end]
        elif kind == 2:
            result[start], result[other] = result[other], result[start]
        else:
            result[start] = chance.randrange(256)
    return bytes(result)


async def send_all(port, streams):
    """Sends each stream in a connection of its own."""
    turn = asyncio.Semaphore(AT_ONCE)

    async def one(stream):
        """Sends one stream, and closes the connection. It is no matter here whether anybody answers."""
        async with turn:
            try:
                await meet(port, Row("odd bytes", (Send(stream), Fin()), b"", hold=0.3))
            except OSError:
                pass
    await asyncio.gather(*map(one, streams))


class OddBytes(TalkCase):
    """Sends streams to a node, and looks whether it serves."""

    async def asyncSetUp(self):
        """Makes the streams."""
        await super().asyncSetUp()
        self.plain = [it for it in map(stream_of, ROWS) if 0 < len(it) < LONGEST]
        chance = random.Random(SEED)
        self.odd = [mutated(chance, chance.choice(self.plain)) for _ in range(STREAMS)]

    async def serves(self, port):
        """Whether the node gives the right answer in a good session."""
        return (await meet(port, GOOD_ROW))[0].endswith(ACKED)

    async def test_right(self):
        """No stream breaks the right node. It writes nothing of errors."""
        node, port = await listening()
        await send_all(port, self.odd)
        self.assertTrue(await self.serves(port))
        self.assertEqual(end(node), (None, b""))

    async def test_planted(self):
        """The planted crash is not found by the streams of the rows, but by the mutated ones."""
        node, port = await listening("--wrong", PLANTED)
        await send_all(port, self.plain)
        self.assertTrue(await self.serves(port))
        await send_all(port, self.odd)
        self.assertEqual(end(node), (1, b""))


if __name__ == "__main__":
    unittest.main()
