#!/usr/bin/env python3
"""Makes files of recipes/, which docs/GUIDE.md uses: `python3 recipes.py [FOLDER]`.

They are captures of two hops and the recordings of their senders, a capture of three sessions, and one of UDP datagrams
with bundles. `tls.py` makes the other files. Only python's standard library is used.
"""

import struct
import sys
from pathlib import Path

from capture import RESET, datagrams, ends, frames, pcap, stream
from make import (
    BUNDLE,
    CHECKED,
    CONTACT,
    DAMAGED,
    END,
    START,
    sess_init,
    sess_term,
    xfer_ack,
    xfer_refuse,
    xfer_segment,
)

# 2026-01-01 00:00 UTC, in milliseconds after 2000-01-01
TIME = 820540800000

# Bundle processing control flags (RFC 9171 section 4.2.3): the bundle is a fragment
IS_FRAGMENT = 0x01


def ipn(node, service):
    """An endpoint ID of the ipn scheme (section 4.2.5.1.2), with numbers below 24."""
    return bytes([0x82, 0x02, 0x82, node, service])


def bundle(source, sequence, payload, *fragment, lifetime=3600000):
    """A bundle (RFC 9171 section 4) to ipn:3.1 with at most 23 bytes of payload and no check, which lives for an hour, or
    this many milliseconds.

    `fragment` is empty, or the offset and the total length of a fragment (section 4.3.1). Without it, the bundle has 41
    bytes and the payload, and with it 2 more.
    """
    primary = bytes([0x88 + len(fragment), 7, IS_FRAGMENT if fragment else 0, 0])
    endpoints = ipn(3, 1) + source + bytes([0x82, 0x01, 0x00])
    creation = bytes([0x82, 0x1B]) + struct.pack(">Q", TIME) + bytes([sequence])
    lifetime = bytes([0x1A]) + struct.pack(">I", lifetime)
    content = bytes([0x85, 1, 1, 0, 0, 0x40 + len(payload)]) + payload
    return b"\x9f" + primary + endpoints + creation + lifetime + bytes(fragment) + content + b"\xff"


# Three bundles of one endpoint, and the three fragments of a bundle of another
READINGS = [bundle(ipn(1, 1), sequence, b"x" * length) for sequence, length in enumerate([10, 15, 20])]
HELLO, COMMA, WORLD = [
    bundle(ipn(1, 2), 0, payload, offset, 12) for offset, payload in [(0, b"hello"), (5, b", "), (7, b"world")]
]
STATUS = bundle(ipn(2, 1), 0, b"ready")


def opening(node, other):
    """The turns in which two nodes begin a session."""
    return [("a", CONTACT, 1), ("b", CONTACT, 1), ("a", sess_init(node=node), 1), ("b", sess_init(node=other), 1)]


def transfer(number, content, reason=None):
    """The turns in which a bundle is sent in one segment, and acknowledged or refused for a reason."""
    whole = xfer_ack(START | END, number, len(content))
    answer = whole if reason is None else xfer_refuse(reason, number)
    return [("a", xfer_segment(START | END, number, content), 1), ("b", answer, 1)]


def session(node, other, sent):
    """The turns of a session in which a node sends bundles, each with the reason for which it is refused, or None."""
    turns = opening(node, other)
    for number, (content, reason) in enumerate(sent):
        turns += transfer(number, content, reason)
    return turns + [("a", sess_term(0x00, 0x00), 1), ("b", sess_term(0x01, 0x00), 1)]


# Reasons of XFER_REFUSE (RFC 9174 section 5.2.4)
COMPLETED, NO_RESOURCES = 0x01, 0x02

# On the second hop, a reading and a fragment are not there, another reading is refused, and there is a bundle of the node
# between.
HOPS = {
    "first": session(b"ipn:1.0", b"ipn:2.0", [(it, None) for it in [READINGS[0], WORLD, READINGS[1], HELLO, COMMA, READINGS[2]]]),
    "second": session(
        b"ipn:2.0",
        b"ipn:3.0",
        [(STATUS, None), (READINGS[2], NO_RESOURCES), (READINGS[0], None), (WORLD, None), (HELLO, None)],
    ),
}

# Three sessions in three minutes: a reading is refused and delivered later, one is sent twice, and one has expired. The
# second is ended by an RST, and the third is open at the end.
OLD = bundle(ipn(1, 3), 0, b"old", lifetime=90000)
MINUTES = [
    frames(session(b"ipn:1.0", b"ipn:2.0", [(READINGS[0], None), (READINGS[1], NO_RESOURCES), (READINGS[2], None)])),
    frames(
        session(b"ipn:1.0", b"ipn:2.0", [(READINGS[1], None), (READINGS[2], COMPLETED)])[:-2], ends(port=49153), RESET
    ),
    frames(session(b"ipn:3.0", b"ipn:2.0", [(OLD, None), (STATUS, None)])[:-3], ends(a=3), []),
]
STARTS = {sum(map(len, MINUTES[:number])): 60 * number for number in (1, 2)}

# The packet that acknowledges the last reading of the first session comes late.
STARTS[12] = 2

# A datagram has a bundle, or four zeros to keep the path open (RFC 7122)
DATAGRAMS = [BUNDLE, bytes(4), CHECKED, DAMAGED]

FILES = {
    **{f"{name}-hop.tcpcl": stream(turns, "a") for name, turns in HOPS.items()},
    **{f"{name}-hop.pcap": pcap(frames(turns)) for name, turns in HOPS.items()},
    "minutes.pcap": pcap([it for connection in MINUTES for it in connection], STARTS),
    "datagrams.pcap": pcap(datagrams(DATAGRAMS)),
}


def main():
    folder = Path(sys.argv[1]) if len(sys.argv) > 1 else Path(__file__).resolve().parent / "recipes"
    for name, content in FILES.items():
        (folder / name).write_bytes(content)


if __name__ == "__main__":
    main()
