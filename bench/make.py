#!/usr/bin/env python3
"""Makes the files that run.sh measures: `python3 make.py FOLDER`.

instructions.py makes the same files with fewer bytes.

For list, some 128 MiB each:
long.tcpcl: one transfer in segments of 64 KiB.
bundles.tcpcl: transfers of one bundle of 200 bytes, an acknowledgement and a KEEPALIVE after each.
short.tcpcl: one transfer in segments of 1 to 16 bytes.
answers.tcpcl: only acknowledgements, refusals and KEEPALIVEs, which break no rule of check.

For unpack, blocks and check, some 256 MiB each, and each transfer is a good bundle:
plain.tcpcl: bundles of 1 MiB in segments of 64 KiB, without a check.
crc16.tcpcl, crc32.tcpcl: the same with a check over the payload.
small.tcpcl: bundles of 100 to 300 bytes with a CRC-32C in the primary block. Each transfer has one,
    and an acknowledgement follows it.
crumbs.tcpcl: bundles of 1 MiB in segments of 1 to 16 bytes.
grains.tcpcl: bundles of 200 bytes in segments of 1 to 16 bytes.
kept.tcpcl: as small.tcpcl, but nothing breaks a rule that check judges: the transfer IDs count up,
    each bundle has a creation time, and each number has its shortest spelling.

For pack, and for blocks and check with --bundles, some 256 MiB each, the same bundles, one after
another:
plain.bundles, crc16.bundles, crc32.bundles, small.bundles, kept.bundles.

The script uses only python's standard library.
"""

import itertools
import struct
import sys
from pathlib import Path

LIST_SIZE = 128 << 20
BUNDLES_SIZE = 256 << 20

# RFC 9174 section 4.2: `dtn!`, version 4, flags 00
CONTACT = b"dtn!" + bytes([4, 0x00])

# SESS_INIT (section 4.6): keepalive 60 s, MRUs 64 KiB and 1 MiB, node ID `ipn:1.0`, no items
SESS_INIT = struct.pack(">BHQQH", 0x07, 60, 65536, 1048576, 7) + b"ipn:1.0" + struct.pack(">I", 0)

# KEEPALIVE (section 5.1.1)
KEEPALIVE = b"\x04"

# flags of XFER_SEGMENT (section 5.2.2)
END = 0x01
START = 0x02

# a bundle of 200 bytes (RFC 9171 section 4): from ipn:1.1 to ipn:2.1, with 170 bytes of payload
BUNDLE = bytes.fromhex("9f880700008202820201820282010182010082000000850101000058aa") + bytes(170) + b"\xff"


# A check of a bundle (RFC 9171 section 4.2.1): type, reversed polynomial, bytes of the field
NO_CHECK = (0, 0, 0)
CRC16 = (1, 0x8408, 2)
CRC32 = (2, 0x82F63B78, 4)


def check_value(check, data):
    """The check of the bytes, as the bytes of its field."""
    _, polynomial, size = check
    table = []
    for entry in range(256):
        for _ in range(8):
            entry = entry >> 1 ^ (polynomial if entry & 1 else 0)
        table.append(entry)
    ones = (1 << 8 * size) - 1
    register = ones
    for byte in data:
        register = table[(register ^ byte) & 0xFF] ^ register >> 8
    return (register ^ ones).to_bytes(size, "big")


def checked(block, check):
    """A block with its check field as the last item.

    The field has the head 0x42 or 0x44, and the check value of the block with zeros in its place.
    """
    _, _, size = check
    if size == 0:
        return block
    open_block = block + bytes([0x40 + size])
    return open_block + check_value(check, open_block + bytes(size))


def kept_bundle(payload):
    """A bundle like that of `bundle`, with a CRC-32C in its primary block, that keeps all rules.

    Its creation time is 2026-01-01, in milliseconds since 2000-01-01, and its lifetime is an hour. The
    payload has 24 to 255 bytes.
    """
    created = bytes([0x82, 0x1B]) + struct.pack(">Q", 820540800000) + bytes([0])
    lifetime = bytes([0x1A]) + struct.pack(">I", 3600000)
    first = bytes([0x89, 7, 0, CRC32[0]]) + bytes.fromhex("82028202018202820101820100") + created + lifetime
    second = bytes([0x85, 1, 1, 0, 0, 0x58, len(payload)]) + payload
    return b"\x9f" + checked(first, CRC32) + second + b"\xff"


def bundle(payload, primary=NO_CHECK, content=NO_CHECK):
    """A bundle (section 4) from ipn:1.1 to ipn:2.1 with this payload and with these checks."""
    first = bytes([0x88 + (primary[0] > 0), 7, 0, primary[0]]) + bytes.fromhex("82028202018202820101820100") + bytes.fromhex("82000000")
    second = bytes([0x85 + (content[0] > 0), 1, 1, 0, content[0], 0x5A]) + struct.pack(">I", len(payload)) + payload
    return b"\x9f" + checked(first, primary) + checked(second, content) + b"\xff"


def transfer(number, data, sizes):
    """The segments of a transfer whose data is cut into pieces of these sizes, in turn."""
    pieces, at, turn = [], 0, 0
    while at < len(data):
        pieces.append(data[at : at + sizes[turn % len(sizes)]])
        at, turn = at + len(pieces[-1]), turn + 1
    last = len(pieces) - 1
    return b"".join(segment((START if i == 0 else 0) | (END if i == last else 0), number, piece) for i, piece in enumerate(pieces))


def segment(flags, number, data):
    """XFER_SEGMENT (section 5.2.2). With START it has an empty extension list."""
    listed = struct.pack(">I", 0) if flags & START else b""
    return struct.pack(">BBQ", 0x01, flags, number) + listed + struct.pack(">Q", len(data)) + data


def ack(flags, number, length):
    """XFER_ACK (section 5.2.3)."""
    return struct.pack(">BBQQ", 0x02, flags, number, length)


def refuse(reason, number):
    """XFER_REFUSE (section 5.2.4)."""
    return struct.pack(">BBQ", 0x03, reason, number)


def repeated(block, size):
    """The block, as often as it fits in `size` bytes, and at least once."""
    return block * max(1, size // len(block))


def one_transfer(pieces, size):
    """A transfer with an empty segment at each end, and these pieces between, again and again."""
    middle = b"".join(segment(0, 0, piece) for piece in pieces)
    return segment(START, 0, b"") + repeated(middle, size) + segment(END, 0, b"")


DATA = bytes(range(256)) * 256


def bundles():
    """Yields the name of each kind of bundles, and bundles of that kind."""
    payload = (DATA * 16)[: (1 << 20) - 100]
    yield "plain", [bundle(payload)]
    yield "crc16", [bundle(payload, content=CRC16)]
    yield "crc32", [bundle(payload, content=CRC32)]
    yield "small", [bundle(DATA[:length], primary=CRC32) for length in range(60, 260, 10)]
    yield "kept", [kept_bundle(DATA[:length]) for length in range(50, 250, 10)]


def kept_transfers(kept, size):
    """Transfers of these bundles in turn, with IDs from 0 on, and an acknowledgement after each."""
    made, length = [], 0
    for number, data in enumerate(itertools.cycle(kept)):
        if length >= size:
            return b"".join(made)
        made.append(segment(START | END, number, data) + ack(START | END, number, len(data)))
        length += len(made[-1])


def answers(size):
    """Answers to transfers with IDs from 0 on, which keep all rules, and KEEPALIVEs.

    Each second transfer is acknowledged, and the others are refused.
    """
    made, length = [], 0
    for number in itertools.count(0, 2):
        if length >= size:
            return b"".join(made)
        made.append(ack(START | END, number, 4096) + refuse(1, number + 1) + KEEPALIVE)
        length += len(made[-1])


def recordings(list_size, bundles_size):
    """Yields the name of each recording, and the messages after its SESS_INIT."""
    data = DATA
    yield "long.tcpcl", one_transfer([data], list_size)
    yield "bundles.tcpcl", repeated(segment(START | END, 7, BUNDLE) + ack(START | END, 7, len(BUNDLE)) + KEEPALIVE, list_size)
    yield "short.tcpcl", one_transfer([data[:length] for length in range(1, 17)], list_size)
    yield "answers.tcpcl", answers(list_size)
    kinds = dict(bundles())
    for name in ("plain", "crc16", "crc32"):
        yield name + ".tcpcl", repeated(transfer(7, kinds[name][0], [65536]), bundles_size)
    yield "small.tcpcl", repeated(b"".join(segment(START | END, 7, it) + ack(START | END, 7, len(it)) for it in kinds["small"]), bundles_size)
    yield "kept.tcpcl", kept_transfers(kinds["kept"], bundles_size)
    yield "crumbs.tcpcl", repeated(transfer(7, kinds["plain"][0], range(1, 17)), bundles_size)
    yield "grains.tcpcl", repeated(transfer(7, BUNDLE, range(1, 17)), bundles_size)


def write(folder, list_size=LIST_SIZE, bundles_size=BUNDLES_SIZE):
    """Writes the files into the folder: those for list of some `list_size` bytes, and the others."""
    for name, messages in recordings(list_size, bundles_size):
        (folder / name).write_bytes(CONTACT + SESS_INIT + messages)
    for name, kind in bundles():
        (folder / f"{name}.bundles").write_bytes(repeated(b"".join(kind), bundles_size))


if __name__ == "__main__":
    write(Path(sys.argv[1]))
