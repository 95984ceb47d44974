"""Streams that no case thought of: those of the cases and of `scripts/faults`, changed at random."""

import glob
import random

from tcpclkit_scripts.messages import CONTACT_LENGTH, MAGIC, Cut, Fault, Messages

from . import wire
from .planned import is_planned

# How long a stream may be, and how many changes it gets at most
LONGEST, CHANGES = 1 << 16, 4

# How many parts at the beginning get no change: mostly the contact header and the SESS_INIT, since after
# another one a node reads no further
KEPT = (0, 1, 1, 1, 2, 2, 2, 2, 2, 2)

# Bytes that matter more than others
EDGES = b"\x00\x01\x02\x03\x04\x05\x06\x07\x08\x7f\x80\xfe\xff"


def cut(stream, rng, _):
    """Leaves out the end, or some bytes in the middle."""
    begin = rng.randrange(len(stream) + 1)
    return stream[:begin] + (stream[begin + rng.randrange(1, 20) :] if rng.random() < 0.7 else b"")


def repeat(stream, rng, _):
    """Repeats some bytes, or a message."""
    begin, end = span(stream, rng)
    return stream[:end] + stream[begin:end] * rng.randrange(1, 4) + stream[end:]


def swap(stream, rng, _):
    """Lets two messages change places."""
    parts = messages(stream)
    if len(parts) < 2:
        return stream
    one, other = rng.sample(range(len(parts)), 2)
    parts[one], parts[other] = parts[other], parts[one]
    return b"".join(parts)


def change(stream, rng, _):
    """Changes some bytes, mostly near the beginning of a message."""
    data = bytearray(stream)
    for _ in range(rng.randrange(1, 4)):
        if data:
            begin, end = span(bytes(data), rng)
            at = min(rng.randrange(begin, min(end, begin + 40) + 1), len(data) - 1)
            data[at] = rng.choice(EDGES) if rng.random() < 0.6 else rng.randrange(256)
    return bytes(data)


def insert(stream, rng, others):
    """Inserts a message of another stream."""
    parts, found = messages(stream), messages(rng.choice(others))
    if found:
        parts.insert(rng.randrange(len(parts) + 1), rng.choice(found))
    return b"".join(parts)


WAYS = (cut, repeat, swap, change, change, change, insert)


def span(stream, rng):
    """Returns where a message of a stream begins and ends."""
    parts = messages(stream)
    number = rng.randrange(len(parts)) if parts else 0
    begin = sum(map(len, parts[:number]))
    return begin, begin + (len(parts[number]) if parts else 0)


def messages(stream):
    """Returns the contact header, if there is one, and the messages of a stream. The last part is what is
    none."""
    at = CONTACT_LENGTH if stream[:4] == MAGIC else 0
    parts, found = [stream[:at]], Messages(stream)
    try:
        while at < len(stream):
            end = found.end(at)
            parts.append(stream[at:end])
            at = end
    except (Cut, Fault):
        parts.append(stream[at:])
    return [it for it in parts if it]


def readdressed(stream, data):
    """Returns a stream whose segments have the bytes of a bundle of the probe as their data."""
    parts = []
    for part in messages(stream):
        try:
            if part[0] == wire.XFER_SEGMENT:
                begin, end = Messages(part).data_of_segment(0)
                at = len(data) // 2 if not part[1] & wire.START else 0
                to = len(data) if part[1] & wire.END else len(data) // 2
                piece = data[at:to] if end > begin else b""
                part = part[: begin - 8] + len(piece).to_bytes(8, "big") + piece
        except (Cut, Fault):
            pass
        parts.append(part)
    return b"".join(parts)


class Corpus:
    """What streams are made from. `seed` decides which streams these are."""

    def __init__(self, probe, seeds, faults, seed):
        data = probe.bundle() if probe.route is not None else b"no bundle"
        files = sorted(glob.glob(f"{faults}/*.tcpcl") + glob.glob(f"{faults}/sessions/*.tcpcl"))
        self.streams = [it for it in seeds if it] + [readdressed(read(path), data) for path in files]
        self.probe, self.seed = probe, seed

    def stream(self, number):
        """Returns a stream by its number. All bundles in it are those that are planned."""
        rng = random.Random(f"{self.seed} {number}")
        while True:
            parts = messages(rng.choice(self.streams))
            kept = rng.choice(KEPT)
            stream = b"".join(parts[kept:])
            for _ in range(rng.randrange(1, CHANGES + 1)):
                stream = rng.choice(WAYS)(stream, rng, self.streams)[:LONGEST]
            stream = b"".join(parts[:kept]) + stream
            if stream and is_planned(stream, self.probe.route):
                return stream


def read(path):
    """Returns the bytes of a file."""
    with open(path, "rb") as file:
        return file.read()
