"""What the tests of scripts/ share: the examples, recordings that are made here, and runs."""

import bisect
import glob
import os
import random
import shutil
import subprocess
import tempfile
from typing import NamedTuple

import make

from . import TOP

PROGRAM = f"{TOP}/crates/tcpclkit/out/tcpclkit"
PATHS = sorted(glob.glob(f"{TOP}/examples/*.tcpcl"))
EXAMPLES = [os.path.splitext(os.path.basename(path))[0] for path in PATHS]
SECONDS = 60
SEED = 1

START, END, BOTH = make.START, make.END, make.START | make.END
HEAD = make.CONTACT + make.sess_init()
NO_MESSAGE = b"\x16"

# The offset and the data of each transfer of each example.
TRANSFERS = {
    "every-block": [(38, make.EVERY_BLOCK), (209, make.MALFORMED), (306, make.DAMAGED_HOPS)],
    "every-message": [(49, make.BUNDLE)],
    "late-transfers": [(38 + 56 * number + 3 * (number > 12), make.BUNDLE) for number in range(30)],
    "order-faults": [
        (6, make.BUNDLE[:10]),
        (70, make.BUNDLE),
        (158, make.BUNDLE),
        (277, make.BUNDLE),
    ],
    "prelude-and-transfer": [(38, make.BUNDLE)],
    "session-a": [
        (38, make.BUNDLE),
        (125, make.DAMAGED),
        (184, make.BUNDLE[:17]),
        (223, make.BUNDLE),
        (305, make.BUNDLE),
    ],
    "session-b": [(123, make.FRAGMENT)],
    "status-reports": list(zip((38, 140, 235, 301), make.RECORDS)),
    "transfers": [
        (38, make.BUNDLE),
        (126, make.DAMAGED),
        (185, make.BUNDLE[:10]),
        (217, make.BUNDLE),
    ],
}

# What a line says of the answer.
ACKED, LOST, COMPLETED = "acknowledged", "lost", "refused reason=01/completed"
UNANSWERED = "unanswered"
REFUSED = "refused reason=02/no-resources"


# ---- recordings


class Recording:
    """A recording in the making, and the offsets of its messages."""

    def __init__(self):
        self.content, self.offsets = bytearray(HEAD), [len(make.CONTACT)]

    def add(self, message):
        """Adds a message. Returns its offset."""
        self.offsets.append(len(self.content))
        self.content += message
        return self.offsets[-1]

    def first(self, cut):
        """Returns the offset of the first message at or after an offset."""
        return self.offsets[bisect.bisect_left(self.offsets, cut)]

    def whole(self, begin, end):
        """Returns how many messages lie between two offsets."""
        ends = [*self.offsets[1:], len(self.content)]
        return sum(begin <= at and after <= end for at, after in zip(self.offsets, ends))


class Sent(NamedTuple):
    """A transfer that was sent: what is in its segments, and what the lines say of it."""

    ident: int
    offset: int
    data: bytes
    is_abandoned: bool
    said: str

    def line(self):
        """Returns the line of `pair`."""
        return f"transfer {self.ident} offset={self.offset} length={len(self.data)} {self.said}\n"

    def report(self, start):
        """Returns the line of `unpack`. The data is no bundle."""
        judgement = "bad=B3 byte=0" if self.data else "bad=B1 byte=0"
        judgement = "abandoned" if self.is_abandoned else judgement
        size = len(self.data)
        return f"transfer {self.ident} start={start} written={size} length={size} {judgement}\n"


def flags_of(count):
    """Returns the flags of that many segments."""
    flags = [0] * count
    flags[0] |= START
    flags[-1] |= END
    return flags


def answered(draw, said, ident, lengths):
    """Draws how it comes to what the line says of a transfer. Returns how many of its segments are
    sent, and the answers."""
    sums = [sum(lengths[: number + 1]) for number in range(len(lengths))]
    acks = [make.xfer_ack(flags, ident, it) for flags, it in zip(flags_of(len(sums)), sums)]
    if said == ACKED:
        return len(lengths), acks
    if said == LOST:
        return len(lengths), []
    before = draw.randrange(len(lengths))
    sent = draw.randrange(before + 1, len(lengths) + 1)
    refusal = make.xfer_refuse(1 if said == COMPLETED else 2, ident)
    return sent, acks[:before] + [refusal] * (sent - before)


def session(count):
    """Makes both sides of a session, and the list of its transfers.

    IDs come again and again, but for those of lost transfers. The answers of two transfers may
    change places.
    """
    draw, a, b, transfers, answers = random.Random(SEED), Recording(), Recording(), [], []
    for number in range(count):
        lengths = [draw.randrange(300) for _ in range(draw.randrange(1, 5))]
        said = draw.choice([ACKED] * 5 + [LOST, COMPLETED, REFUSED])
        ident = count + number if said == LOST else number % (count // 7)
        sent, replies = answered(draw, said, ident, lengths)
        pieces = [(b"%d." % number * 300)[:length] for length in lengths[:sent]]
        flags = flags_of(len(lengths))[:sent]
        segments = [make.xfer_segment(it, ident, piece) for it, piece in zip(flags, pieces)]
        offset = a.add(segments[0])
        for segment in segments[1:]:
            a.add(make.KEEPALIVE)
            a.add(segment)
        is_abandoned = not flags[-1] & END
        transfers.append(Sent(ident, offset, b"".join(pieces), is_abandoned, said))
        answers.insert(len(answers) - (draw.randrange(9) == 0), replies)
    for replies in answers:
        for reply in replies:
            b.add(reply)
        b.add(make.xfer_segment(BOTH, 0, b"other"))
    b.add(make.sess_term(0, 0))
    return a, b, transfers


def large_segments(path, block, count):
    """Writes a recording of transfers with 16 segments each, all with this data. Returns the
    offset of each message."""
    offsets = [len(make.CONTACT)]
    with open(path, "wb") as it:
        it.write(HEAD)
        for number in range(count):
            offsets.append(it.tell())
            flags = flags_of(16)[number % 16]
            it.write(make.xfer_segment(flags, number // 16, block))
    return offsets


def block_of(size):
    """Returns bytes without any order."""
    return random.Random(SEED).getrandbits(8 * size).to_bytes(size, "big")


# ---- runs


def run(room, name, *words, stdin=subprocess.DEVNULL, stdout=subprocess.PIPE, path=None):
    """Runs a script, or another program, in a folder. Returns its status, output and errors."""
    script = name if "/" in name else f"{TOP}/scripts/{name}"
    path = path or f"{os.path.dirname(PROGRAM)}:{os.environ.get('PATH', os.defpath)}"
    ended = subprocess.run(
        [script, *words],
        cwd=room,
        env={"PATH": path, "LANG": "C.UTF-8"},
        timeout=SECONDS,
        stdin=stdin,
        stdout=stdout,
        stderr=subprocess.PIPE,
        encoding="utf-8",
    )
    return ended.returncode, ended.stdout, ended.stderr


# Runs a script, and writes how many KiB of memory it took at most.
PEAK = """
import runpy, sys
sys.argv = sys.argv[1:]
try:
    runpy.run_path(sys.argv[0], run_name="__main__")
finally:
    with open("/proc/self/status") as it:
        print(next(line.split()[1] for line in it if line.startswith("VmHWM:")), file=sys.stderr)
"""


def install(at, *names):
    """Puts scripts and their packages into a folder, as ./install does."""
    os.makedirs(f"{at}/bin", exist_ok=True)
    for name in names:
        shutil.copy(f"{TOP}/scripts/{name}", f"{at}/bin/tcpclkit-{name}")
    for package in ("tcpclkit_scripts", "both_sides"):
        os.makedirs(f"{at}/share/tcpclkit/python/{package}", exist_ok=True)
        for path in glob.glob(f"{TOP}/scripts/{package}/*.py"):
            shutil.copy(path, f"{at}/share/tcpclkit/python/{package}")


def write(path, content, mode=0o644):
    """Writes a file."""
    with open(path, "wb") as it:
        it.write(content)
    os.chmod(path, mode)


def read(path):
    """Returns what a file holds."""
    with open(path, "rb") as it:
        return it.read()


def example(name):
    """Returns an example."""
    return read(f"{TOP}/examples/{name}.tcpcl")


def empty_room():
    """Returns a folder that is there for the time of a check."""
    return tempfile.TemporaryDirectory(prefix="tcpclkit-scripts-")

