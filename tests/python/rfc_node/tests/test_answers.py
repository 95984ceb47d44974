"""What the node answers to each peer, and that each wrong switch changes an answer."""

import asyncio
import unittest

from rfc_node.cases import CASES, LOST, RULES
from rfc_node.session import Settings
from rfc_node.tests.rows import ACKED, RESETS, ROWS, raw
from rfc_node.tests.talking import Node, TalkCase, Wait, talk
from rfc_node.wrong import SWITCHES

# Rows that show the switches of no case
OTHERS = {
    "term-after-other-magic": "magic",
    "term-before-header": "version-3",
    "sets-contact-flags": "good",
    "resets": "close-without-term",
    "acks-without-flags": "good",
    "acks-without-reserved-flags": "segment-flags",
    "acks-length-of-segment": "segments",
    "refuses-other-id": "xfer-item-critical",
    "reply-with-other-reason": "term-00",
    "reply-without-flag": "term-00",
    "sets-term-flags": "term-00",
    "term-inside-segment": "term-00",
    "initial-term-with-reply": "ends-by-itself",
    "closes-in-place-of-term": "ends-by-itself",
    "starts-every-segment": "sent-good",
    "sets-segment-flags": "sent-good",
    "interleaves-transfers": "sent-good",
    "announces-other-length": "sent-good",
    "announces-twice": "sent-good",
    "announces-by-other-type": "sent-good",
    "sets-item-flags": "sent-good",
    "waits-for-each-ack": "refuse-middle",
    "announces-length-of-one": "sent-whole",
    "repeats-transfer-id": "sent-twice",
    "begins-with-id-1": "sent-twice",
    "retries-refused-bundle": "refuse-first-04",
    "interval-of-29": "good",
    "interval-of-601": "good",
    "never-idle": "silence-session",
}
# How many peers talk at the same time
AT_ONCE = 24
BY_NAME = {row.name: row for row in ROWS}


async def results_of(talks):
    """Returns the results of talks, each a row with names of switches."""
    turn = asyncio.Semaphore(AT_ONCE)

    async def one(row, names):
        """Lets one peer talk in its turn."""
        async with turn:
            return await talk(row, names)
    return await asyncio.gather(*(one(row, names) for row, names in talks))


async def is_served_beside_others(names):
    """Whether a session is served in a second while eight others are silent."""
    async with Node(Settings(), names) as node:
        silent = [asyncio.ensure_future(node.meet(row)) for row in 8 * [raw("silent", [Wait(10)], b"")]]
        await asyncio.sleep(0.3)
        good = asyncio.ensure_future(node.meet(BY_NAME["good"]))
        await asyncio.wait([good], timeout=3)
        for one in silent:
            one.cancel()
        return good.done() and good.result() == (BY_NAME["good"].answer, False)


class Answers(TalkCase):
    """Compares answers with the rows."""

    async def test_rows(self):
        """The node answers each peer as its row says."""
        for row, (answer, closes) in zip(ROWS, await results_of((row, ()) for row in ROWS)):
            with self.subTest(row.name):
                self.assertEqual((answer.hex(), closes), (row.answer.hex(), row.closes))

    async def test_resets(self):
        """After a peer that resets its connection, the same node serves the next one."""
        for row in RESETS:
            async with Node(row.settings) as node:
                await node.meet(row)
                with self.subTest(row.name):
                    self.assertIn(ACKED, (await node.meet(BY_NAME["good"]))[0])

    async def test_crowd(self):
        """Eight silent sessions do not keep the node from serving another one, unless a switch is on."""
        self.assertTrue(await is_served_beside_others(()))
        self.assertFalse(await is_served_beside_others((CASES["crowd"],)))


class Wrong(TalkCase):
    """Tries the wrong switches."""

    async def test_cases(self):
        """The switch of each case, and each other switch, changes what the node answers to its row."""
        rows = {name: case for case, name in CASES.items() if case != "crowd"}
        tried = [(BY_NAME[row], (name,)) for name, row in {**rows, **OTHERS}.items()]
        for (row, names), (answer, closes) in zip(tried, await results_of(tried)):
            with self.subTest(f"{names[0]} {row.name}"):
                self.assertNotEqual((answer.hex(), closes), (row.answer.hex(), row.closes))

    def test_names(self):
        """Every switch has a row, or a test of its own, and the tables name only switches that there are."""
        self.assertEqual({*CASES.values(), *OTHERS, *LOST.values(), "planted-crash"}, set(SWITCHES))
        self.assertLessEqual(set(RULES.values()), set(SWITCHES))


if __name__ == "__main__":
    unittest.main()
