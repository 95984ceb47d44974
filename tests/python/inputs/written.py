"""Inputs for those who write: texts of endpoint IDs, bundles, and the answers to transfers."""

import random
import struct

from model import texts

from .randoms import bundle, damage, endpoint
from .spelling import CONTACT

# Texts at a limit, and texts that another spelling would be right for
WORTH_TRYING = [
    "dtn:none", "dtn:nonE", "dtn:none/", "dtn:", "dtn", "DTN:none", "dtn://a/", "dtn:a b", "dtn:é",
    r"dtn:\x", r"dtn:\x2", r"dtn:\x20", r"dtn:\x2F", r"dtn:\x2f", r"dtn:\x5c", r"dtn:\x5C", r"dtn:\\",
    r"dtn:\x61", r"dtn:\xff\x00", r"dtn:\x7f", "dtn:~!", "dtn:" + 1024 * "n", "dtn:" + 1025 * "n",
    "dtn:" + 1024 * r"\x00", "dtn:" + 1025 * r"\x00", "dtn:" + 1024 * r"\x00" + "n",
    "ipn:0.0", "ipn:1", "ipn:1.", "ipn:.1", "ipn:1.2", "ipn:1.2.3", "ipn:1.2.3.4", "ipn:01.2", "ipn:1.00",
    "ipn:1.2 ", " ipn:1.2", "ipn:-1.2", "ipn:+1.2", "ipn:1.2\n", "ipn:!", "Ipn:1.2", "ipn:1..2", "ipn:1,2",
    f"ipn:{2**64 - 1}.{2**64 - 1}.{2**64 - 1}", f"ipn:{2**64}.0", f"ipn:0.{2**64}", f"ipn:0.0.{10**30}",
    "", "x", "ipn:", "dtn:\x00", "ipn:1.2\x00",
]


def eid_texts(seed, count):
    """Yields the texts above, and random texts of endpoint IDs, of which some are damaged."""
    yield from (it.encode() for it in WORTH_TRYING)
    for rng in generators(seed, count):
        text = texts.endpoint(endpoint(rng)).encode()
        yield damage(rng, text) if rng.random() < 0.4 else text


def bundles(seed, count):
    """Yields random bundles, of which most are good."""
    return map(bundle, generators(seed, count))


def answers(seed, count):
    """Yields recordings of a few answers to two transfers of a few bytes."""
    for rng in generators(seed, count):
        stream = CONTACT
        for _ in range(rng.randint(1, 9)):
            transfer = rng.choice((7, 7, 7, 8))
            flags, length = rng.choice((0, 1, 2, 3, 0x80)), rng.randint(0, 5)
            stream += rng.choice((
                struct.pack(">BBQQ", 0x02, flags, transfer, length),
                struct.pack(">BBQQ", 0x02, flags, transfer, length),
                struct.pack(">BBQ", 0x03, rng.randint(0, 8), transfer),
            ))
        yield stream


def generators(seed, count):
    """Yields a generator of random numbers for each input."""
    return (random.Random(f"{seed} {number}") for number in range(count))
