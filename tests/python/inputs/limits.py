"""Counts and sizes at their limits and one past them.

Other groups have every byte in each place where a byte is shown or judged alone.
"""

import itertools
import struct

from .lengths import CHECKED
from .prefixes import BLOCKS, BUNDLE_BLOCKS, BUNDLE_CHECKS, CHECKS, GOES_ON, LISTS, PACKS, UNPACKS, prefixes
from .spelling import (
    CONTACT, END, START, array, canonical, carried, item, laid, primary, segment, sess_init, spelled, total, unsigned,
)

STREAM_RUNS = LISTS + UNPACKS[::2] + BLOCKS[:1] + CHECKS[:1]
LONG_RUNS = [("pack", {"node": "", **it}) for it in [
    {}, {"peer_segment": 2**64 - 1, "announce": 65537}, {"peer_segment": 30000, "announce": 1048576},
    {"peer_segment": 32768, "announce": 65536, "peer_transfer": 65536},
]] + BUNDLE_BLOCKS + BUNDLE_CHECKS[:1]


def stream(*pieces):
    """The bytes of a stream that begins with a contact header and a SESS_INIT."""
    return laid([CONTACT, *sess_init(), *[it for piece in pieces for it in piece]])[0]


def items_of(count, length):
    """`count` extension items with values of `length` bytes."""
    return [item("session", 0xFF, 0xFFFF, bytes(length)) for _ in range(count)]


def item_counts():
    """Lists of 63 to 66 items, in both kinds of list.

    Others are cut or overrun after 64 items, where the 65th item is judged.
    """
    for count in (63, 64, 65, 66):
        for length in (0, 1, 1019, 1020):
            yield laid([CONTACT, *sess_init(items=items_of(count, length)), b"\x04"])[0], STREAM_RUNS
            yield stream(segment(START | END, 0, b"", items_of(count, length)), [b"\x04"]), STREAM_RUNS
    before = laid([CONTACT, *sess_init()])[0][:-4]
    listed = b"".join(struct.pack(">BHHB", 0, 2, 1, 7) for _ in range(64))
    for left in range(8):
        for item_head in (b"\x00\x00\x02\x00\x01\x07", b"\x00\x00\x02\x00\x03\x07", b"\x00\x00\x02\xff\xff\x07"):
            for there in range(len(item_head) + 1):
                yield before + struct.pack(">I", 384 + left) + listed + item_head[:there], STREAM_RUNS


def length_items():
    """Transfers of one segment and of two that announce their length.

    The items that announce it have each length, and there are up to three of them.
    """
    sizes = [(), (7,), (8,), (9,), (0,), (8, 8), (8, 7), (0, 8), (8, 8, 8)]
    for announced in (4, 5, 2**64 - 1):
        for lengths in sizes:
            value = struct.pack(">Q", announced)
            items = [item("transfer", 0x00, 0x0001, (value + b"\x00")[:length]) for length in lengths]
            items.insert(1, item("transfer", 0x01, 0x0100, value))
            for flags in (START, START | END):
                rest = [] if flags & END else segment(END, 0, b"o")
                yield stream(segment(flags, 0, b"hell" if rest else b"hello", items), rest), STREAM_RUNS
    yield stream(segment(START | END, 0, b"hello", [item("transfer", 0xFE, 0x0001, struct.pack(">Q", 6))])), STREAM_RUNS
    yield laid([CONTACT, *sess_init(items=[total(3), total(4), item("session", 0, 1, b"")])])[0], STREAM_RUNS


def longest_lines():
    """The longest lines.

    A node ID has 1,024 bytes, and its list 64 items. Names in a bundle have 1,024 and 1,025 bytes.
    """
    node, number = b"\x00" * 1024, 2**64 - 1
    yield laid([CONTACT, *sess_init(node, items_of(64, 1019))])[0], STREAM_RUNS
    for lengths in ((1024, 1024), (1025, 1024), (1024, 1025)):
        names = [b"\xff" * length for length in lengths]
        for fragment in ((), (number, number)):
            block = primary(*names, names[0], flags=number if fragment else number - 1, stamp=(number, number), fragment=fragment)
            content, _ = spelled([block, canonical(1, 1, b"x")])
            yield content, PACKS + BUNDLE_BLOCKS + BUNDLE_CHECKS[:1]
            yield carried(content), UNPACKS + BLOCKS[:1] + CHECKS[:1]


def block_counts():
    """Bundles of 63 to 66 canonical blocks, and bundles with another head in place of the 65th."""
    for count in (63, 64, 65, 66):
        blocks = [canonical(7, number, b"", kind=number % 3) for number in range(2, count + 1)]
        yield from both(spelled([primary(None, None, None), *blocks, canonical(1, 1, b"")])[0])
        yield from both(spelled([primary(None, None, None), *blocks, canonical(7, count + 1, b"")])[0])
    blocks = [canonical(7, number, b"") for number in range(2, 66)]
    before = spelled([primary(None, None, None), *blocks])[0][:-1]
    for other in ("", "ff", "00", "80", "84", "85", "86", "87", "98", "9805", "9806", "9807", "9f", "1c", "5f", "c085"):
        yield from both(before + bytes.fromhex(other))


def both(content):
    """A bundle alone, and as the data of a transfer."""
    yield content, PACKS[:1] + BUNDLE_BLOCKS
    yield carried(content), UNPACKS[::2] + BLOCKS[:1] + CHECKS[:1]


def block_numbers():
    """Extension blocks with every pair of numbers, and with every pair of a type and a number."""
    numbers, begin, end = (0, 1, 2, 3, 2**64 - 1), primary(None, None, None), canonical(1, 1, b"")
    for first in numbers:
        for second in numbers:
            yield from both(spelled([begin, canonical(7, first, b""), canonical(8, second, b""), end])[0])
            yield from both(spelled([begin, canonical(first, second, b""), end])[0])


def block_shapes():
    """Primary and canonical blocks of each count of elements, with each check type.

    The primary blocks also come with and without the flag of a fragment.
    """
    for count in range(7, 13):
        for kind in (0, 1, 2, 3):
            for flags in (0, 1, 2, 3):
                block = primary(None, (1, 1), None, kind=kind % 3, flags=flags, fragment=(1, 2) if flags & 1 else ())
                block[0], block[3] = array(count), unsigned(kind)
                yield from both(spelled([block, canonical(1, 1, b"x")])[0])
    for count in range(4, 8):
        for kind in (0, 1, 2, 3):
            block = canonical(1, 1, b"x", kind % 3)
            block[0], block[4] = array(count), unsigned(kind)
            yield from both(spelled([primary(None, None, None), block])[0])


def damaged():
    """A bundle with each of its bytes changed, in its lowest and in its highest bit.

    It comes alone, and is carried in a transfer.
    """
    whole, runs = spelled(CHECKED)[0], [("pack", {"node": "", "peer_segment": 1})] + BUNDLE_BLOCKS
    for at, byte in enumerate(whole):
        for bit in (0x01, 0x80):
            changed = whole[:at] + bytes([byte ^ bit]) + whole[at + 1:]
            yield changed, runs
            yield carried(changed), UNPACKS[::2] + BLOCKS[:1] + CHECKS[:1]


def order():
    """Every pair of messages whose order is judged, and a few messages after it."""
    whole, _ = spelled([primary((2, 1), (1, 1), None), canonical(1, 1, b"x")])
    messages = [laid(it)[0] for it in [
        sess_init(), [b"\x05\x00\x00"], [b"\x04"], segment(START | END, 0, whole), segment(START, 0, whole[:9]),
        segment(START, 1, b""), segment(0, 0, b""), segment(END, 0, whole[9:]), segment(END, 1, whole),
        segment(START | END, 1, whole)[:-1] + [struct.pack(">Q", 99) + whole], segment(END, 0, b"")[:-1] + [struct.pack(">Q", 9)],
    ]]
    for first in messages:
        yield CONTACT + first, UNPACKS + BLOCKS + CHECKS
        for second in messages:
            for last in (b"", messages[3], messages[5], messages[7]):
                yield CONTACT + messages[0] + first + second + last, UNPACKS[:3] + GOES_ON[:1] + BLOCKS + CHECKS


def going_on():
    """Every three messages whose order is judged, from a contact header on.

    After them comes nothing, a message, a segment that is cut, or a byte that begins no message.
    """
    whole, _ = spelled([primary((2, 1), (1, 1), None), canonical(1, 1, b"x")])
    messages = [laid(it)[0] for it in [
        sess_init(), [b"\x05\x00\x00"], segment(START, 0, whole[:9]), segment(START | END, 0, whole), segment(START, 1, whole[:9]),
        segment(0, 0, b""), segment(END, 0, whole[9:]), segment(END, 1, whole[9:]),
    ]]
    lasts = [b"", *messages[3:8:2], messages[6], messages[3][:-1], messages[7][:-1], b"\x16"]
    for first in itertools.product(messages, repeat=3):
        for last in lasts:
            yield CONTACT + b"".join(first) + last, GOES_ON[:2] + BLOCKS[2:] + CHECKS[:1]


def worked_rows():
    """The streams of the worked cases, each with every prefix of it.

    tests/data/cases/keep-going-* have what the program has to write for them.
    """
    whole, _ = spelled([primary((2, 1), (1, 1), None), canonical(1, 1, b"hello")])
    begins, rest = segment(START, 0, whole[:10]), segment(END, 0, whole[10:])
    streams = [laid([CONTACT, *it])[0] for it in [
        [*begins, *segment(START | END, 0, whole)],
        [*sess_init(), *begins, *segment(START | END, 0, b"")],
        [*sess_init(), *begins, *segment(END, 1, b"ab"), *rest],
        [*sess_init(), *begins, *segment(END, 1, b"abcde")],
    ]]
    for content in streams:
        for it in prefixes(content):
            yield it, UNPACKS + GOES_ON + BLOCKS + CHECKS


def refused_and_cut():
    """Messages that are refused for their order, and are cut at each byte.

    Others have a head with a fault of its own.
    """
    begun, late = CONTACT + laid(sess_init())[0], b"\x05\x00\x00"
    opened = laid(segment(START, 0, b"\x9f\x88"))[0]
    start, rest = laid(segment(START | END, 0, b"\x9f\x88", [total(2)]))[0], laid(segment(END, 1, b"\x07\x00"))[0]
    for before, it in [
        (begun, laid(sess_init(items=items_of(1, 2)))[0]), (CONTACT, start), (CONTACT, rest), (begun + opened, start),
        (begun + opened, rest), (begun + late, start), (begun + opened + late, start), (begun + start, rest),
    ]:
        for length in range(len(it) + 1):
            yield before + it[:length], UNPACKS[::2] + GOES_ON[:1] + BLOCKS[2:] + CHECKS[:1]
        for at in range(len(it)):
            yield before + it[:at] + b"\xff" * 4 + it[at + 4:], UNPACKS[::2] + GOES_ON[:1] + BLOCKS[2:] + CHECKS[:1]


def every_byte():
    """Every byte, wherever a byte is shown or judged alone.

    It is a version, flags, a message type, a reason, or a byte of a node ID or of a dtn name.
    """
    runs, lines = LISTS + UNPACKS[:1] + CHECKS[:1], LISTS + CHECKS[:1]
    for byte in range(256):
        it = bytes([byte])
        yield b"dtn!" + it + b"\x00", runs
        yield CONTACT[:5] + it, runs
        yield stream([it + bytes(40)]), runs
        yield stream([b"\x03" + it + bytes(8), b"\x05\x00" + it, b"\x06" + it + it, b"\x05" + it, b"\x00"]), lines
        yield stream([b"\x02" + it + bytes(16)], segment(byte, 5, b"x")), runs
        yield laid([CONTACT, *sess_init(node=b"a" + it)])[0], lines
    names = bytes(range(256))
    yield from both(spelled([primary(names, names[::-1], None), canonical(1, 1, b"")])[0])


def long_bundles():
    """Bundles of about 65,536 bytes, the longest chunk, and of about twice that.

    They are whole, cut, or have a wrong last byte.
    """
    for length in (65535, 65536, 65537, 131072, 131073):
        short = len(spelled([primary(None, None, None), canonical(1, 1, b"")], widths=lambda value: 8)[0])
        content = spelled([primary(None, None, None), canonical(1, 1, bytes(length - short))], widths=lambda value: 8)[0]
        yield content, LONG_RUNS
        yield content[:-1], LONG_RUNS
        yield content[:-1] + b"\x00", LONG_RUNS


def cut_chunks():
    """Bundles that are cut, or end at a fault, at every byte.

    They are packed in chunks of each length and with each hold.
    """
    whole, _ = spelled([primary((2, 1), (1, 1), None), canonical(1, 1, b"hello")])
    sizes, holds = (1, 10, 17, 34), (0, 10, 20, 33, 34)
    runs = [("pack", {"node": "", "peer_segment": size, "announce": hold}) for size in sizes for hold in holds]
    for length in range(len(whole) + 1):
        yield whole[:length], runs
        yield whole[:length] + b"\x1c", runs[::3]
    for most in range(len(whole) + 2):
        for content in (whole, whole + whole, whole[:-1], whole[:20] + b"\x1c"):
            yield content, [("pack", {"node": "n", "peer_transfer": most, "peer_segment": 10, "announce": 30, "end": True})]


def option_values():
    """Each option that has a number, with the numbers up to 255 and those around powers of two.

    `--transfer` comes with each choice of the other options of its tool.
    """
    whole, _ = spelled([primary((2, 1), (1, 1), None), canonical(1, 1, b"hello")])
    shown = [{}, {"keep_going": True}]
    flags = [dict.fromkeys(names, True) for count in range(3) for names in itertools.combinations(("payload", "keep_going"), count)]
    limits = {"keepalive": 2**16, "segment_mru": 2**64, "transfer_mru": 2**64, "peer_segment": 2**64, "peer_transfer": 2**64, "announce": 2**20 + 1}
    for value in sorted({*range(256), *[2**bits + more for bits in range(8, 65) for more in (-1, 0, 1)]}):
        if value < 2**64:
            selected = [("unpack", {**it, "transfer": value}) for it in flags]
            selected += [("blocks", {**it, "transfer": value}) for it in shown]
            yield stream(segment(START | END, value, whole)), selected
        names = [name for name, limit in limits.items() if (name == "peer_segment") <= value < limit]
        yield whole, [("pack", {"node": "", name: value}) for name in names]
        yield stream(segment(START | END, 0, whole)), [("check", {name: value}) for name in names if name.startswith("peer")]


def groups():
    """The groups of this file."""
    for make in (item_counts, length_items, longest_lines, block_counts, block_numbers, block_shapes, damaged, order,
                 going_on, worked_rows, refused_and_cut, every_byte, long_bundles, cut_chunks, option_values):
        yield f"limits: {make.__name__.replace('_', ' ')}", make
