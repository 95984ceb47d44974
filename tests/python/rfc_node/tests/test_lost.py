"""The switches that make a node serve nobody any more."""

import asyncio
import unittest

from rfc_node.cases import LOST
from rfc_node.tests.rows import ACKED, ROWS
from rfc_node.tests.running import end, listening
from rfc_node.tests.talking import TalkCase, meet

BY_NAME = {row.name: row for row in ROWS}
PATIENCE = 3


async def is_served(port):
    """Whether a good session gets its answer in time."""
    try:
        return (await asyncio.wait_for(meet(port, BY_NAME["good"]), PATIENCE))[0].endswith(ACKED)
    except (OSError, asyncio.TimeoutError):
        return False


class Lost(TalkCase):
    """Runs nodes that break."""

    async def test_lost(self):
        """Such a node serves before the row of its case, and not after it."""
        for case, name in LOST.items():
            node, port = await listening("--wrong", name)
            before = await is_served(port)
            try:
                await asyncio.wait_for(meet(port, BY_NAME[case]._replace(hold=0.2)), PATIENCE)
            except (OSError, asyncio.TimeoutError):
                pass
            after = await is_served(port)
            end(node)
            with self.subTest(name):
                self.assertEqual((before, after), (True, False))


if __name__ == "__main__":
    unittest.main()
