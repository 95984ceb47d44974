"""Tests of the module `tcpclkit`, on the examples of the repository.

PYTHONPATH names the folder of the module. tests/gate/library-callers runs them with an installed
one.
"""

import array
import copy
import inspect
import mmap
import os
import tracemalloc
import unittest

import tcpclkit
from tcpclkit import Announced, Block, BlockHead, Code, Dtn, Fault, Ipn, Item, Kind, Message

EXAMPLES = f"{os.path.dirname(os.path.realpath(__file__))}/../../examples"
NUMBER = 2**64 - 1
COPIES = (copy.copy, copy.deepcopy)


def example(name):
    """Returns the bytes of an example."""
    with open(f"{EXAMPLES}/{name}", "rb") as it:
        return it.read()


def shown_in(documented):
    """Returns the code that a docstring shows."""
    lines = inspect.getdoc(documented).splitlines(keepends=True)
    return "".join(line[4:] for line in lines if line.startswith("    "))


def taken_of(message):
    """Returns the message of some bytes."""
    return next(tcpclkit.messages(message, 0))


def taken_of_first_two():
    """Returns the SESS_INIT of a recording, and the segment after it that begins a transfer."""
    return list(tcpclkit.messages(example("transfers.tcpcl")))[:2]


HELLO = example("two.bundles")[:34]
FRAGMENT = bytes.fromhex(
    "9f8b07010282028202018201632f2f78820100820009001a000111701a000222e04469890dbe"
    "8501010000466d6964646c65ff"
)
# A block of each check type: a bundle age, a hop count, and the payload `hi`
SEVERAL = bytes.fromhex(
    "9f8807040082028202018202820101820100820000008607021001410542"
    "6dcc850a03000043820401860101010242686944d4a3fe01ff"
)
SEVERAL_BLOCKS = [
    Block(1, 21, 4, 0), Block(22, 10, 16, 1, 7, 2, b"\5", 28),
    Block(32, 9, 0, 0, 10, 3, b"\x82\4\1", 38), Block(41, 13, 1, 2, 1, 1, b"hi", 47),
]


class Bundles(unittest.TestCase):
    """Bundles, whole, cut and changed."""

    def test_a_good_bundle(self):
        it = tcpclkit.bundle(HELLO)
        self.assertEqual((it.source, it.destination), (Ipn(None, 1, 1), Ipn(None, 2, 1)))
        self.assertEqual(it.report_to, Dtn(None))
        self.assertEqual((it.flags, it.time, it.sequence, it.lifetime), (0, 0, 0, 0))
        self.assertEqual((it.fragment, it.blocks, it.payload), (None, 1, b"hello"))
        self.assertEqual(tcpclkit.verdict(HELLO), (None, slice(28, 33)))

    def test_a_fragment_with_a_name(self):
        it = tcpclkit.bundle(FRAGMENT)
        self.assertEqual((it.source, it.fragment), (Dtn(b"//x"), (70000, 140000)))
        self.assertEqual((it.sequence, it.payload), (9, b"middle"))

    def test_where_reports_go(self):
        reported = HELLO[:15] + bytes.fromhex("8201652f2f646566") + HELLO[18:]
        self.assertEqual(tcpclkit.bundle(reported).report_to, Dtn(b"//def"))
        for length in range(len(reported) + 1):
            found = tcpclkit.primary(reported[:length]).report_to
            self.assertEqual(found, Dtn(b"//def") if length >= 23 else None)

    def test_prefixes(self):
        for length in range(len(HELLO)):
            payload = slice(28, min(length, 33)) if length >= 28 else None
            judged = tcpclkit.verdict(HELLO[:length])
            self.assertEqual(judged, (Fault(Code.BUNDLE_CUT, 0, length), payload))
            self.assertTrue(judged.fault.is_truncated)

    def test_primary_blocks(self):
        ends = [3, 4, 5, 10, 16, 19, 22, 23, 28, 33]
        for length in range(len(FRAGMENT) + 1):
            it = tcpclkit.primary(FRAGMENT[:length])
            self.assertEqual(it.accepted, sum(end <= length for end in ends))
            self.assertEqual((it.is_whole, it.lifetime is None), (length >= 38, length < 23))
        wrong = FRAGMENT[:37] + b"\0" + FRAGMENT[38:]
        fields = Ipn(None, 2, 1), Dtn(b"//x"), Dtn(None), (0, 9), 0, (70000, 140000)
        self.assertEqual(tcpclkit.primary(wrong), (10, False, 1, *fields))
        with self.assertRaises(Fault) as raised:
            tcpclkit.bundle(wrong)
        self.assertEqual(raised.exception.code, Code.BUNDLE_CHECK_DIFFERS)

    def test_faults(self):
        for content, code, offset in [
            (HELLO + b"\0", Code.BUNDLE_TRAILING, 34),
            (HELLO[:2] + b"\6" + HELLO[3:], Code.BUNDLE_BAD_VERSION, 2),
            (b"hello", Code.BUNDLE_NOT_A_BUNDLE, 0),
        ]:
            with self.assertRaises(Fault) as raised:
                tcpclkit.bundle(content)
            self.assertEqual(raised.exception, Fault(code, 0, offset))
            self.assertFalse(raised.exception.is_truncated)

    def test_buffers(self):
        with mmap.mmap(-1, len(HELLO)) as mapped:
            mapped[:] = HELLO
            same = [bytearray(HELLO), memoryview(HELLO), array.array("B", HELLO), mapped]
            for content in same + [memoryview(b"--" + HELLO + b"--")[2:-2]]:
                self.assertEqual(tcpclkit.bundle(content), tcpclkit.bundle(HELLO))
        changed = bytearray(HELLO)
        found = tcpclkit.bundle(changed)
        changed[28:33] = b"other"
        self.assertEqual(found.payload, b"hello")
        for content in (b"", bytearray(), memoryview(b"")):
            self.assertEqual(tcpclkit.verdict(content).fault, Fault(Code.BUNDLE_CUT))
        for content in (None, "text", memoryview(HELLO)[::2]):
            self.assertRaises(TypeError, tcpclkit.bundle, content)


class Scans(unittest.TestCase):
    """Bundles in pieces."""

    def test_each_size_of_pieces(self):
        content, scan = example("two.bundles"), tcpclkit.Scan()
        for size in range(1, len(content) + 1):
            scan.restart()
            taken = sum(scan.feed(content[at:at + size]) for at in range(0, len(content), size))
            it = scan.bundle()
            self.assertEqual((taken, it.payload), (34, slice(28, 33)))
            self.assertEqual(it._replace(payload=b"hello"), tcpclkit.bundle(HELLO))
            self.assertEqual((scan.is_going, scan.feed(content)), (False, 0))

    def test_what_has_come(self):
        scan = tcpclkit.Scan()
        for length, byte in enumerate(HELLO):
            self.assertEqual(scan.verdict(), tcpclkit.verdict(HELLO[:length]))
            self.assertEqual((scan.is_going, scan.feed(b"")), (True, 0))
            with self.assertRaises(Fault) as raised:
                scan.bundle()
            self.assertTrue(raised.exception.is_truncated)
            self.assertEqual(scan.feed(bytes([byte])), 1)
        self.assertEqual(scan.verdict(), (None, slice(28, 33)))

    def test_a_fault_stays(self):
        scan = tcpclkit.Scan()
        self.assertEqual(scan.feed(HELLO[:2] + b"\6" + HELLO[3:]), 3)
        self.assertEqual((scan.feed(HELLO), scan.is_going), (0, False))
        self.assertEqual(scan.verdict(), (Fault(Code.BUNDLE_BAD_VERSION, 0, 2), None))
        scan.restart()
        self.assertEqual(scan.feed(bytearray(FRAGMENT)), len(FRAGMENT))
        self.assertEqual(scan.bundle().source, Dtn(b"//x"))

    def test_the_loop_that_is_shown(self):
        loop = shown_in(tcpclkit.Scan)
        for kind in (bytes, bytearray):
            pieces = map(kind, [HELLO[:20], HELLO[20:]])
            names = {"tcpclkit": tcpclkit, "receive": lambda: next(pieces)}
            exec(loop, names)
            self.assertEqual((names["taken"], names["bundle"].payload), (14, slice(28, 33)))
            ended = map(kind, [HELLO[:20], b""])  # The loop may not ask again after the end.
            with self.assertRaises(Fault) as raised:
                exec(loop, {"tcpclkit": tcpclkit, "receive": lambda: next(ended)})
            self.assertEqual(raised.exception, Fault(Code.BUNDLE_CUT, 0, 20))

    def test_the_end_of_a_transfer(self):
        content = example("two.bundles")
        for fed in range(35):
            scan = tcpclkit.Scan()
            self.assertEqual(scan.feed(content[:fed]), fed)
            self.assertEqual(scan.end(fed), tcpclkit.verdict(content[:fed]))
            wrong = [-1, 2**64, fed - 1] + ([fed + 1] if fed < 34 else [])
            for length in wrong:
                with self.assertRaisesRegex(ValueError, "^length is "):
                    scan.end(length)
        self.assertEqual(scan.feed(content[34:]), 0)
        for length in range(34, len(content) + 1):
            self.assertEqual(scan.end(length), tcpclkit.verdict(content[:length]))
        self.assertEqual(scan.end(NUMBER).fault, Fault(Code.BUNDLE_TRAILING, 0, 34))
        scan.restart()
        scan.feed(b"hello")
        self.assertEqual(scan.end(1), scan.end(NUMBER))
        self.assertEqual(scan.end(5).fault, Fault(Code.BUNDLE_NOT_A_BUNDLE))

    def test_the_loops_of_docstrings(self):
        for length in range(37):
            pieces = [(HELLO + b"more")[at:at + 5] for at in range(0, length, 5)]
            names = {"scan": tcpclkit.Scan(), "pieces": pieces}
            exec(shown_in(tcpclkit.Scan.end), names)
            self.assertEqual(names["verdict"], tcpclkit.verdict(b"".join(pieces)))
        for limit, words in [(5, None), (4, "^the bundle is too large$")]:
            names = {"scan": tcpclkit.Scan(), "piece": HELLO[:28], "limit": limit}
            if words is None:
                exec(shown_in(tcpclkit.Scan.block_head), names)
                self.assertEqual(names["taken"], 28)
            else:
                with self.assertRaisesRegex(ValueError, words):
                    exec(shown_in(tcpclkit.Scan.block_head), names)

    def test_copies(self):
        for copied_by in COPIES:
            scan = tcpclkit.Scan()
            self.assertEqual(scan.feed(HELLO[:20]), 20)
            other = copied_by(scan)
            self.assertEqual(scan.feed(HELLO[20:]), 14)
            self.assertEqual(other.verdict().fault, Fault(Code.BUNDLE_CUT, 0, 20))
            self.assertEqual((other.feed(HELLO[20:]), other.bundle()), (14, scan.bundle()))


class Blocks(unittest.TestCase):
    """Blocks, one after another."""

    def test_a_good_bundle(self):
        for content in (SEVERAL, SEVERAL + b"\x9f", bytearray(SEVERAL)):
            self.assertEqual(list(tcpclkit.blocks_of(content)), SEVERAL_BLOCKS)

    def test_faults(self):
        wrong = SEVERAL[:30] + b"\0" + SEVERAL[31:]
        cases = [(SEVERAL[:length], Fault(Code.BUNDLE_CUT, 0, length)) for length in range(55)]
        for content, fault in [*cases, (wrong, Fault(Code.BUNDLE_CHECK_DIFFERS, 0, 29))]:
            found = tcpclkit.blocks_of(content)
            for it in SEVERAL_BLOCKS:
                if it.offset + it.length <= fault.offset:
                    self.assertEqual(next(found), it)
            with self.assertRaises(Fault) as raised:
                next(found)
            self.assertEqual(raised.exception, fault)

    def test_each_size_of_pieces(self):
        for size in range(1, len(SEVERAL) + 1):
            scan, at, found = tcpclkit.Scan(), 0, []
            while scan.is_going:
                taken, it = scan.next_block(SEVERAL[at:at + size])
                at += taken
                if it is not None:
                    self.assertEqual(it.offset + it.length, at)
                    found.append(it if it.data is None else it.with_data(SEVERAL[it.data]))
            self.assertEqual((found, at), (SEVERAL_BLOCKS, len(SEVERAL)))
            self.assertEqual(scan.next_block(SEVERAL), (0, None))

    def test_a_scan_that_was_fed(self):
        scan = tcpclkit.Scan()
        self.assertEqual(scan.feed(SEVERAL[:25]), 25)
        it = SEVERAL_BLOCKS[1]._replace(data=slice(28, 29))
        self.assertEqual(scan.next_block(SEVERAL[25:]), (7, it))
        self.assertEqual(scan.feed(SEVERAL[32:]), 23)
        self.assertEqual(scan.bundle().blocks, 3)


    def test_heads(self):
        scan, heads = tcpclkit.Scan(), []
        for at in range(len(SEVERAL) + 1):
            head = scan.block_head()
            wanted = None
            for it in SEVERAL_BLOCKS[1:]:
                if it.data_at <= at < it.offset + it.length:
                    end = min(at, it.data_at + len(it.data))
                    wanted = BlockHead(
                        it.offset, it.flags, it.check, it.block_type, it.number, len(it.data),
                        slice(it.data_at, end),
                    )
            self.assertEqual(head, wanted)
            heads += [] if head is None else [head]
            scan.feed(SEVERAL[at:at + 1])
        self.assertEqual(len(heads), 4 + 3 + 7)

    def test_a_block_that_is_too_long(self):
        scan, head = tcpclkit.Scan(), b"\x85\1\1\0\0\x5b" + 8 * b"\xff"
        self.assertEqual(scan.feed(SEVERAL[:22] + head[:-1]), 35)
        self.assertIsNone(scan.block_head())
        self.assertEqual(scan.feed(head[-1:]), 1)
        self.assertEqual(scan.block_head(), BlockHead(22, 0, 0, 1, 1, NUMBER, slice(36, 36)))
        self.assertEqual((scan.feed(b"data"), scan.block_head().data), (4, slice(36, 40)))

    def test_words(self):
        primary, *others = tcpclkit.blocks_of(SEVERAL)
        self.assertEqual([it.words(primary) for it in others], ["age=5", "limit=4 count=1", ""])
        self.assertEqual(primary.words(primary), "")
        bad = others[1]._replace(data=b"\x82\4\x81")
        self.assertEqual(bad.words(primary), "malformed-at=40")
        record = primary._replace(flags=2)
        self.assertEqual(others[2].words(record), "malformed-at=47")
        self.assertEqual(others[2]._replace(data=b"\x82\2").words(record), "record=2/?")
        named = others[0]._replace(block_type=6, data=b"\x82\1\x79\4\0" + bytes(1024))
        self.assertEqual(named.words(primary), "node=dtn:" + 1024 * r"\x00")
        with self.assertRaisesRegex(ValueError, "^the block that is to be the primary block"):
            others[0].words(others[1])
        with self.assertRaisesRegex(ValueError, "^number is -1, "):
            others[0]._replace(number=-1).words(primary)
        with self.assertRaisesRegex(ValueError, "^a block has a number that no block has"):
            others[0]._replace(data_at=NUMBER).words(primary)

    def test_words_of_a_scan(self):
        scan, at, words, primary = tcpclkit.Scan(), 0, [], None
        for _ in range(4):
            taken, it = scan.next_block(SEVERAL[at:])
            at += taken
            primary = primary or it
            if it.data is not None:
                for wrong in (it, it._replace(data=SEVERAL[it.data])):
                    self.assertRaises(ValueError, wrong.with_data, b"another")
                self.assertRaisesRegex(ValueError, "with_data adds it", it.words, primary)
                words.append(it.with_data(SEVERAL[it.data]).words(primary))
        self.assertEqual(words, ["age=5", "limit=4 count=1", ""])
        self.assertRaises(ValueError, primary.with_data, b"")

    def test_the_loop_that_is_shown(self):
        lines = []
        names = {"tcpclkit": tcpclkit, "content": SEVERAL, "print": lambda *it: lines.append(it)}
        exec(shown_in(Block.words), names)
        self.assertEqual(lines, [(7, "age=5"), (10, "limit=4 count=1"), (1, "")])


class Recordings(unittest.TestCase):
    """Messages, items and their order."""

    def test_contact_headers(self):
        self.assertEqual(tcpclkit.contact(b"dtn!\4\x80more"), 0x80)
        for content, code, number in [
            (b"", Code.WIRE_TRUNCATED, 0), (b"dtn!\4", Code.WIRE_TRUNCATED, 0),
            (b"dtn?\4\0", Code.WIRE_BAD_MAGIC, 0), (b"dtn!\3\0", Code.WIRE_BAD_VERSION, 3),
        ]:
            with self.assertRaises(Fault) as raised:
                tcpclkit.contact(content)
            self.assertEqual(raised.exception, Fault(code, number, 0))

    def test_every_message(self):
        content = example("every-message.tcpcl")
        found = list(tcpclkit.messages(content))
        self.assertEqual([it.offset for it in found], [6, 49, 101, 136, 154, 164, 165, 168, 171])
        init, segment, ack = found[0], found[1], found[3]
        self.assertEqual((init.keepalive, init.node), (60, b"ipn:1.0"))
        self.assertEqual([it[:2] for it in init.items], [(1, 0x1234), (0, 0xABCD)])
        self.assertEqual([it.total for it in segment.items], [34])
        self.assertEqual((segment.announced, init.announced), (Announced(34), None))
        self.assertEqual((found[2].items, found[2].announced), (None, None))
        self.assertEqual((segment.length, segment.data), (17, content[84:101]))
        self.assertEqual([it.head_end for it in found[:3]], [49, 84, 119])
        self.assertEqual(ack[:3] + (ack.id, ack.length), (136, Kind.XFER_ACK, 1, 0, 34))
        self.assertEqual((found[4].reason, found[7].header), (2, 0x16))

    def test_announcements(self):
        one = bytes([1, 0, 1, 0, 8]) + (34).to_bytes(8, "big")
        short, other = bytes([1, 0, 1, 0, 1, 34]), bytes([1, 0, 2, 0, 1, 34])
        for items, wanted in [
            (b"", Announced(None)), (other, Announced(None)), (one, Announced(34)),
            (other + one, Announced(34)), (short, Announced(None, True)),
            (one + one, Announced(None, True)), (one + short, Announced(None, True)),
        ]:
            message = b"\1\3" + bytes(8) + len(items).to_bytes(4, "big") + items + bytes(8)
            self.assertEqual(taken_of(message).announced, wanted)

    def test_a_cut_segment(self):
        content = example("prelude-and-transfer.tcpcl")
        for length in range(60, len(content)):
            found = tcpclkit.messages(content[:length], 38)
            cut = next(found)
            self.assertEqual((cut.is_cut, cut.data), (True, content[60:length]))
            with self.assertRaises(Fault) as raised:
                next(found)
            self.assertEqual(raised.exception, Fault(Code.WIRE_TRUNCATED, 0, 38))

    def test_no_message(self):
        content = example("prelude-and-transfer.tcpcl")
        for offset in (len(content), len(content) + 1, NUMBER):
            self.assertEqual(list(tcpclkit.messages(content, offset)), [])
        for offset in (-1, NUMBER + 1):
            with self.assertRaisesRegex(ValueError, "^offset is "):
                list(tcpclkit.messages(content, offset))

    def test_the_order(self):
        content = example("transfers.tcpcl")
        order = tcpclkit.Order()
        turns = [order.judge(it) for it in tcpclkit.messages(content)]
        self.assertEqual([it.abandoned for it in turns if it.begins], [None, None, None, 2])
        init, start = taken_of_first_two()
        self.assertRaises(Fault, tcpclkit.Order().judge, start)
        self.assertRaises(Fault, order.judge, init)
        for fields, words in [
            ({"flags": 256}, "^flags is 256"), ({"id": NUMBER + 1}, "^id is "),
            ({"kind": 9}, "^9 is not a valid Kind"),
        ]:
            for call in (order.judge, order.take):
                with self.assertRaisesRegex(ValueError, words):
                    call(start._replace(**fields))

    def test_copies_of_an_order(self):
        order, (init, start) = tcpclkit.Order(), taken_of_first_two()
        for copied_by in COPIES:
            other = copied_by(order)
            other.judge(init)
            self.assertRaises(Fault, order.judge, start)
            self.assertTrue(other.judge(start).begins)

    def test_going_on(self):
        order = tcpclkit.Order()
        taken = [order.take(it) for it in tcpclkit.messages(example("order-faults.tcpcl"))]
        codes = {fault.code for _, fault in taken if fault is not None}
        self.assertEqual(codes, {code for code in Code if code.name.startswith("ORDER_")})
        strays = {fault.code for turn, fault in taken if turn is None}
        before = {Code.ORDER_NO_SUCH_OPEN_TRANSFER, Code.ORDER_SEGMENT_BEFORE_SESS_INIT}
        self.assertTrue(strays and strays <= before)


INIT = Message(0, Kind.SESS_INIT, keepalive=0, segment_mru=1, transfer_mru=2, node=b"", items=())
START = Message(0, Kind.XFER_SEGMENT, flags=2, id=7, length=5, items=())


class WrittenMessages(unittest.TestCase):
    """Messages that are written."""

    def test_what_was_read(self):
        for name in sorted(os.listdir(EXAMPLES)):
            if not name.endswith(".tcpcl"):
                continue
            content = example(name)
            written = tcpclkit.write_contact(tcpclkit.contact(content))
            for message in tcpclkit.messages(content):
                written += tcpclkit.write_message(message)
            self.assertEqual(written, content)

    def test_contact_headers(self):
        self.assertEqual(tcpclkit.write_contact(), b"dtn!\4\0")
        for flags in (-1, 256):
            with self.assertRaisesRegex(ValueError, f"^flags is {flags}, "):
                tcpclkit.write_contact(flags)

    def test_what_is_shown(self):
        names = {"tcpclkit": tcpclkit, "length": 34}
        exec(shown_in(tcpclkit.write_message), names)
        self.assertEqual(taken_of(names["content"]), names["ack"]._replace(head_end=18))
        exec(shown_in(tcpclkit.write_item), names)
        self.assertEqual(names["content"], b"\1\x80\0\0\5hello")
        exec(shown_in(tcpclkit.total_item), names)
        segment = tcpclkit.write_message(START._replace(items=names["items"]))
        self.assertEqual(taken_of(segment + bytes(5)).announced, Announced(34))
        self.assertEqual(list(taken_of(segment + bytes(5)).items), names["items"])
        with self.assertRaisesRegex(ValueError, f"^total is {2**64}, "):
            tcpclkit.total_item(2**64)

    def test_data(self):
        head = tcpclkit.write_message(START)
        self.assertEqual(head, b"\1\2" + bytes(7) + b"\7" + bytes(11) + b"\5")
        for data in (b"", b"hel", bytearray(b"hello")):
            self.assertEqual(tcpclkit.write_message(START._replace(data=data)), head + data)
        whole = START._replace(length=None, data=b"hello")
        self.assertEqual(tcpclkit.write_message(whole), head + b"hello")
        with self.assertRaisesRegex(ValueError, "^the length of data is 6, "):
            tcpclkit.write_message(START._replace(data=b"hello!"))

    def test_lists(self):
        empty, full = Item(0, 2, b""), Item(255, 65535, bytes(65531))
        for items in ([], [full], 64 * [empty], [full._replace(value=bytes(65526)), empty]):
            for message in (INIT, START._replace(length=0)):
                content = tcpclkit.write_message(message._replace(items=items))
                self.assertEqual(taken_of(content).items, tuple(items))
        for items, words in [
            (65 * [empty], "^the number of items is 65, "),
            ([full, empty], "^the length of items is 65541, "),
            ([full._replace(value=bytes(65532))], "^the length of value is 65532, "),
            ([empty._replace(flags=256)], "^flags is 256, "),
            ([empty._replace(item_type=65536)], "^item_type is 65536, "),
        ]:
            for message in (INIT, START):
                with self.assertRaisesRegex(ValueError, words):
                    tcpclkit.write_message(message._replace(items=items))
        with self.assertRaisesRegex(ValueError, "^a segment without SEGMENT_START has no items"):
            tcpclkit.write_message(START._replace(flags=1, items=[empty]))

    def test_node_ids(self):
        longest = INIT._replace(node=bytes(1024))
        self.assertEqual(taken_of(tcpclkit.write_message(longest)).node, bytes(1024))
        with self.assertRaisesRegex(ValueError, "^the length of node is 1025, "):
            tcpclkit.write_message(INIT._replace(node=bytes(1025)))

    def test_ranges(self):
        ack = Message(0, Kind.XFER_ACK, flags=255, id=NUMBER, length=NUMBER)
        term = Message(0, Kind.SESS_TERM, flags=255, reason=255)
        reject = Message(0, Kind.MSG_REJECT, reason=255, header=255)
        refuse = Message(0, Kind.XFER_REFUSE, reason=255, id=NUMBER)
        most = INIT._replace(keepalive=65535, segment_mru=NUMBER, transfer_mru=NUMBER)
        for message in (ack, term, reject, refuse, most, Message(0, Kind.KEEPALIVE)):
            content = tcpclkit.write_message(message)
            self.assertEqual(taken_of(content), message._replace(head_end=len(content)))
            self.assertRaises(ValueError, tcpclkit.write_message, message._replace(kind=8))
            for name, value in message._asdict().items():
                is_number = isinstance(value, int) and name not in ("offset", "kind")
                for wrong in (-1, value + 1) if is_number else ():
                    with self.assertRaisesRegex(ValueError, f"^{name} is {wrong}, "):
                        tcpclkit.write_message(message._replace(**{name: wrong}))
                if is_number:
                    with self.assertRaisesRegex(ValueError, f"has the field {name}$"):
                        tcpclkit.write_message(message._replace(**{name: None}))
                if value is None and name not in ("head_end", "items", "announced"):
                    with self.assertRaisesRegex(ValueError, f"has no {name}$"):
                        tcpclkit.write_message(message._replace(**{name: 0}))


def written_again(content):
    """Returns a good bundle that is written from what is read of it."""
    blocks = [
        tcpclkit.write_primary(tcpclkit.bundle(content), it.check)
        if it.block_type is None else tcpclkit.write_block(it) for it in tcpclkit.blocks_of(content)
    ]
    return tcpclkit.BUNDLE_FIRST + b"".join(blocks) + tcpclkit.BUNDLE_LAST


class WrittenBundles(unittest.TestCase):
    """Bundles that are written."""

    def test_what_was_read(self):
        for content in (HELLO, FRAGMENT, SEVERAL):
            self.assertEqual(written_again(content), content)

    def test_what_is_shown(self):
        names = {
            "tcpclkit": tcpclkit, "bundle": tcpclkit.bundle(HELLO),
            "blocks": list(tcpclkit.blocks_of(HELLO))[1:],
        }
        exec(shown_in(tcpclkit.write_primary), names)
        self.assertEqual(written_again(names["content"]), names["content"])
        self.assertEqual(tcpclkit.primary(names["content"]).accepted, 8)
        sent = []
        head = BlockHead(0, flags=1, check=2, block_type=1, number=1, data_length=2)
        names = {"tcpclkit": tcpclkit, "block": head, "pieces": [b"h", b"i"], "send": sent.append}
        exec(shown_in(tcpclkit.write_block_head), names)
        self.assertEqual(b"".join(sent), SEVERAL[41:54])

    def test_primary_blocks(self):
        it = tcpclkit.bundle(HELLO)
        named = it._replace(source=Dtn(bytes(1024)), destination=Ipn(NUMBER, NUMBER, NUMBER))
        named = named._replace(flags=NUMBER, time=NUMBER, lifetime=NUMBER, fragment=(NUMBER, 0))
        content = tcpclkit.BUNDLE_FIRST + tcpclkit.write_primary(named, 2)
        self.assertTrue(tcpclkit.primary(content).is_whole)
        self.assertEqual(tcpclkit.primary(content).source, named.source)
        for fields, words in [
            ({"source": Dtn(bytes(1025))}, "^the length of name is 1025, "),
            ({"report_to": Ipn(None, -1, 0)}, "^node is -1, "), ({"flags": -1}, "^flags is -1, "),
            ({"time": NUMBER + 1}, "^time is "), ({"sequence": -1}, "^sequence is "),
            ({"lifetime": -1}, "^lifetime is "), ({"flags": 1}, "^flag 0x01 and fragment "),
            ({"fragment": (0, 0)}, "^flag 0x01 and fragment "),
            ({"flags": 1, "fragment": (-1, 0)}, "^the offset of fragment is "),
            ({"flags": 1, "fragment": (0, -1)}, "^the total of fragment is "),
        ]:
            with self.assertRaisesRegex(ValueError, words):
                tcpclkit.write_primary(it._replace(**fields))
        for check in (-1, 3):
            with self.assertRaisesRegex(ValueError, f"^check is {check}, "):
                tcpclkit.write_primary(it, check)

    def test_canonical_blocks(self):
        primary, age, _, payload = SEVERAL_BLOCKS
        most = age._replace(block_type=NUMBER, number=NUMBER, flags=NUMBER)
        content = SEVERAL[:22] + tcpclkit.write_block(most) + SEVERAL[41:]
        self.assertEqual(list(tcpclkit.blocks_of(content))[1].block_type, NUMBER)
        for block, words in [
            (primary, "^a primary block is written by write_primary"),
            (age._replace(number=0), "^number is 0, "), (age._replace(flags=-1), "^flags is -1, "),
            (age._replace(block_type=NUMBER + 1), "^block_type is "),
            (age._replace(check=3), "^check is 3, "),
            (age._replace(number=1), "^a block has type 1"),
            (payload._replace(number=2), "^a block has type 1"),
            (age._replace(data=slice(0, 1)), "with_data adds it"),
        ]:
            with self.assertRaisesRegex(ValueError, words):
                tcpclkit.write_block(block)

    def test_checks(self):
        for kind, value in [(0, None), (1, 0x906E), (2, 0xE3069283)]:
            check = tcpclkit.Check(kind)
            check.feed(b"12345")
            for copied_by in COPIES:
                other = copied_by(check)
                other.feed(bytearray(b"6789"))
                self.assertEqual(other.value(), value)
            self.assertEqual(len(check.field()), (0, 3, 5)[kind])
        for kind in (-1, 3):
            self.assertRaises(ValueError, tcpclkit.Check, kind)

    def test_data_of_blocks(self):
        primary, *others = SEVERAL_BLOCKS
        for block_type, data, words in [
            (7, tcpclkit.write_age(NUMBER), f"age={NUMBER}"),
            (10, tcpclkit.write_hop_count(30, 2), "limit=30 count=2"),
            (6, tcpclkit.write_eid(Dtn(b"//a b/")), r"node=dtn://a\x20b/"),
        ]:
            block = others[0]._replace(block_type=block_type, data=data)
            self.assertEqual(block.words(primary), words)
        for call, arguments in [
            (tcpclkit.write_age, [-1]), (tcpclkit.write_hop_count, [NUMBER + 1, 0]),
            (tcpclkit.write_hop_count, [0, -1]), (tcpclkit.write_eid, [Dtn(bytes(1025))]),
        ]:
            self.assertRaises(ValueError, call, *arguments)


class Answers(unittest.TestCase):
    """The answers to a transfer that is sent."""

    def test_answers(self):
        sent = tcpclkit.Sent(7, length=10)
        ack = Message(3, Kind.XFER_ACK, flags=0, id=7, length=4)
        refuse = Message(4, Kind.XFER_REFUSE, reason=2, id=7)
        for message, code, acknowledged in [
            (ack, None, 4), (ack._replace(id=8), Code.ANSWER_OTHER_TRANSFER, 4),
            (ack._replace(length=3), Code.ANSWER_LENGTH_FALLS, 4),
            (ack._replace(length=11), Code.ANSWER_LENGTH_NOT_SENT, 4), (refuse, None, 4),
            (refuse._replace(id=8), Code.ANSWER_OTHER_TRANSFER, 4),
            (ack._replace(length=10), None, 10),
            (ack._replace(flags=1, length=10), Code.ANSWER_END_TOO_EARLY, 10),
        ]:
            if code is None:
                sent.judge(message)
            else:
                with self.assertRaises(Fault) as raised:
                    sent.judge(message)
                self.assertEqual(raised.exception, Fault(code, 0, message.offset))
            self.assertEqual(sent.acknowledged, acknowledged)
        sent.whole = True
        sent.judge(ack._replace(flags=1, length=10))
        self.assertRaises(ValueError, sent.judge, Message(0, Kind.KEEPALIVE))
        self.assertRaises(ValueError, tcpclkit.Sent(-1).judge, ack)

    def test_what_is_shown(self):
        answer = Message(0, Kind.XFER_ACK, flags=1, id=7, length=5)
        names = {"tcpclkit": tcpclkit, "data": b"hello", "answer": answer}
        exec(shown_in(tcpclkit.Sent), names)
        self.assertEqual(names["sent"], tcpclkit.Sent(7, 5, True, 5))


class Texts(unittest.TestCase):
    """Texts of faults and endpoint IDs."""

    def test_faults(self):
        for code, number, text in [
            (Code.WIRE_TRUNCATED, 0, "truncated"),
            (Code.WIRE_UNKNOWN_TYPE, 0x16, "unknown message type 16"),
            (Code.ORDER_NO_SUCH_OPEN_TRANSFER, 0, "no such open transfer"),
            (Code.ANSWER_LENGTH_FALLS, 0, "acknowledged length falls"),
            (Code.BUNDLE_CHECK_DIFFERS, 0, "B13 check differs"),
        ]:
            self.assertEqual(str(Fault(code, number, 7)), text)

    def test_endpoint_ids(self):
        for eid, text in [
            (Dtn(None), "dtn:none"), (Dtn(b"//a b\\\xff/"), r"dtn://a\x20b\x5c\xff/"),
            (Dtn(bytes(1024)), "dtn:" + 1024 * r"\x00"), (Dtn(b""), "dtn:"),
            (Ipn(None, 0, NUMBER), f"ipn:0.{NUMBER}"), (Ipn(1, 2, 3), "ipn:1.2.3"),
        ]:
            self.assertEqual(str(eid), text)
            self.assertEqual(tcpclkit.read_eid_text(text), eid)
        self.assertRaises(ValueError, str, Dtn(bytes(1025)))
        self.assertEqual(tcpclkit.read_eid_text(str(Dtn(b"none"))), Dtn(None))
        bad = "", "dtn", "ipn:1", "ipn:01.2", "dtn:a b", "dtn:\xe9", "dtn:\ud800", r"dtn:\x41"
        for text in bad:
            with self.assertRaisesRegex(ValueError, "^no endpoint ID has this text$"):
                tcpclkit.read_eid_text(text)
        for eid, name in [
            (Ipn(-1, 1, 0), "allocator"), (Ipn(1, -1, 0), "node"),
            (Ipn(None, 0, NUMBER + 1), "service"),
        ]:
            with self.assertRaisesRegex(ValueError, f"^{name} is "):
                str(eid)


    def test_names(self):
        refuse = Message(0, Kind.XFER_REFUSE, reason=2, id=0)
        for message, name in [
            (refuse, "no-resources"), (refuse._replace(reason=255), "?"),
            (Message(0, Kind.SESS_TERM, reason=1), "idle-timeout"),
            (Message(0, Kind.MSG_REJECT, reason=1), "message-type-unknown"),
            (Message(0, Kind.KEEPALIVE), None),
        ]:
            self.assertEqual(message.reason_name, name)
        self.assertEqual(tcpclkit.report_reason_name(1), "lifetime-expired")
        self.assertEqual(tcpclkit.block_type_name(7), "bundle-age")
        self.assertEqual(tcpclkit.block_type_name(NUMBER), "?")
        with self.assertRaisesRegex(ValueError, "^reason is 256, "):
            refuse._replace(reason=256).reason_name
        for call in (tcpclkit.block_type_name, tcpclkit.report_reason_name):
            self.assertRaises(ValueError, call, NUMBER + 1)


class Tools(unittest.TestCase):
    """The tools, over bytes."""

    def test_list(self):
        run = tcpclkit.list_messages(example("prelude-and-transfer.tcpcl"))
        self.assertEqual((run.output.count(b"\n"), run.report, run.exit_status), (3, b"", 0))
        self.assertEqual(tcpclkit.list_messages(b""), (b"", b"tcpclkit: byte 0: truncated\n", 3))

    def test_long_texts(self):
        lines = tcpclkit.list_messages(b"dtn!\4\0" + 20000 * b"\4").output.split(b"\n")
        self.assertEqual((len(lines), lines[-2]), (20002, b"20005 keepalive"))

    def test_a_tool_runs_twice_at_most(self):
        call, rooms = tcpclkit._CALLS["list"], []

        def counted(*arguments):
            rooms.append((arguments[4], arguments[7]))
            return call(*arguments)

        tcpclkit._CALLS["list"] = counted
        try:
            run = tcpclkit.list_messages(b"dtn!\4\0" + 300000 * b"\4")
        finally:
            tcpclkit._CALLS["list"] = call
        self.assertEqual((len(rooms), rooms[-1]), (2, (len(run.output), len(run.report))))

    def test_pack_and_unpack(self):
        bundles = example("two.bundles")
        packed = tcpclkit.pack(bundles, b"ipn:1.0", peer_segment=20)
        unpacked = tcpclkit.unpack(packed.output)
        self.assertEqual((unpacked.output, unpacked.exit_status), (bundles, 0))
        self.assertEqual(tcpclkit.unpack(packed.output, 0, payload=True).output, b"hello")

    def test_pack_more(self):
        bundles = example("two.bundles")
        packed = tcpclkit.pack(bundles, b"", peer_segment=20, announce=34)
        more = tcpclkit.pack_more(bundles, peer_segment=20, announce=34)
        self.assertEqual((more.output, more.report), (packed.output[31:], packed.report))
        last = NUMBER - len(bundles)
        for content in (bundles, bytearray(bundles)):
            ids = [it.id for it in tcpclkit.messages(tcpclkit.pack_more(content, last).output, 0)]
            self.assertEqual(ids, [last, last + 1])
        for options, name in [
            ({"first": last + 1}, "first"), ({"first": -1}, "first"),
            ({"peer_segment": 0}, "peer_segment"), ({"peer_transfer": -1}, "peer_transfer"),
            ({"announce": 2**20 + 1}, "announce"),
        ]:
            with self.assertRaisesRegex(ValueError, f"^{name} is "):
                tcpclkit.pack_more(bundles, **options)

    def test_going_on(self):
        late = example("late-transfers.tcpcl")
        run = tcpclkit.unpack(late)
        self.assertEqual((len(run.output), run.exit_status), (13 * 34, 3))
        run = tcpclkit.unpack(late, keep_going=True)
        self.assertEqual((len(run.output), run.exit_status), (30 * 34, 1))
        self.assertEqual((run.report.count(b"\n"), run.report.count(b"tcpclkit: ")), (47, 17))

    def test_blocks(self):
        run = tcpclkit.blocks(example("prelude-and-transfer.tcpcl"))
        self.assertEqual((run.output.count(b"\n"), run.report, run.exit_status), (3, b"", 0))
        late = example("late-transfers.tcpcl")
        self.assertEqual(tcpclkit.blocks(late).exit_status, 3)
        self.assertEqual(tcpclkit.blocks(late, keep_going=True).exit_status, 1)
        run = tcpclkit.blocks(2 * SEVERAL, bundles=True)
        self.assertEqual((run.output.count(b"\n"), run.exit_status), (10, 0))
        for name, value in [("transfer", 0), ("keep_going", True)]:
            with self.assertRaisesRegex(ValueError, f"^{name} is an option for recordings"):
                tcpclkit.blocks(SEVERAL, bundles=True, **{name: value})

    def test_check(self):
        lines = b"38 must primary-check transfer=0\n38 must age transfer=0 blocks=0\n"
        content = example("prelude-and-transfer.tcpcl")
        self.assertEqual(tcpclkit.check(content), (lines, b"", 1))
        within = tcpclkit.check(content, peer_segment=34, peer_transfer=34)
        self.assertEqual(within, (lines, b"", 1))
        run = tcpclkit.check(content, peer_segment=33, peer_transfer=0)
        segment = b"38 must peer-segment length=34 limit=33\n"
        transfer = b"38 must peer-transfer length=34 limit=0\n"
        self.assertEqual(run.output, segment + transfer + lines)
        early = b"dtn!\4\0\4"
        self.assertEqual(tcpclkit.check(early), (b"6 should before-session type=04\n", b"", 1))
        self.assertEqual(tcpclkit.check(early, must=True), (b"", b"", 0))
        run = tcpclkit.check(2 * SEVERAL, bundles=True)
        broken = ["should primary-check bundle={}", "should expired bundle={} lifetime=0 age=5"]
        lines = [f"{55 * n} {rule.format(n)}\n" for n in range(2) for rule in broken]
        self.assertEqual(run, ("".join(lines).encode(), b"", 1))
        for name, value in [("peer_segment", 1), ("peer_transfer", 0)]:
            with self.assertRaisesRegex(ValueError, f"^{name} is an option for recordings"):
                tcpclkit.check(SEVERAL, bundles=True, **{name: value})
        run = tcpclkit.check(content, peer_segment=0)
        self.assertIn(b"38 must peer-segment length=34 limit=0\n", run.output)

    def test_ranges(self):
        for name, least, most in [
            ("keepalive", 0, 65535), ("segment_mru", 0, NUMBER), ("transfer_mru", 0, NUMBER),
            ("peer_segment", 1, NUMBER), ("peer_transfer", 0, NUMBER), ("announce", 0, 2**20),
        ]:
            for value in (least, most):
                tcpclkit.pack(b"", b"n", **{name: value})
            for value in (least - 1, most + 1):
                with self.assertRaisesRegex(ValueError, f"^{name} is {value}, "):
                    tcpclkit.pack(b"", b"n", **{name: value})
        tcpclkit.pack(b"", bytes(1024))
        with self.assertRaisesRegex(ValueError, "^the length of node is 1025, "):
            tcpclkit.pack(b"", bytes(1025))
        for call in (tcpclkit.unpack, tcpclkit.blocks):
            with self.assertRaisesRegex(ValueError, "^transfer is "):
                call(b"", NUMBER + 1)

    def test_memory(self):
        length = 2**22
        head = b"\1\3" + bytes(12) + length.to_bytes(8, "big")
        content = example("prelude-and-transfer.tcpcl")[:38] + head + bytes(length)
        for call, returned in [(tcpclkit.unpack, length), (tcpclkit.list_messages, 0)]:
            tracemalloc.start()
            run = call(content)
            taken = tracemalloc.get_traced_memory()[1]
            tracemalloc.stop()
            self.assertLess(taken, returned + 2**16)
            self.assertGreaterEqual(len(run.output), returned)


if __name__ == "__main__":
    unittest.main()
