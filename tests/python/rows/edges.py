"""`unpack` and `pack`: numbers at their bounds."""

import make

from . import Row
from .lines import BOTH, ENDPOINTS, HEAD, PAYLOAD

# A fragment of 32 bytes, whose offset and total length are 0
OF_NOTHING = bytes.fromhex(f"9f 8a 07 01 00 {ENDPOINTS} 82 00 00 00 00 00 {PAYLOAD} ff")
IDENTITY = "source=ipn:1.1 time=0 sequence=0 destination=ipn:2.1 payload=1 fragment=0/0"


def packed(name, content, report, status, **limits):
    """A run of `pack` whose output is the contact header and the SESS_INIT alone."""
    return Row(name, "pack", {"node": "ipn:1.0", **limits}, content, HEAD, [report], status)


def rows():
    """The rows of this file."""
    segment = make.xfer_segment(BOTH, 0, OF_NOTHING)
    line = f"transfer 0 start=0 written=32 length=32 good {IDENTITY}"
    yield Row("a fragment of nothing", "unpack", {}, HEAD + segment, OF_NOTHING, [line], 0)
    # The limit is looked at before the byte
    limit = "P1 longer than the peer's transfer limit"
    yield packed("no byte fits, and none begins a bundle", b"\x00", f"tcpclkit: bundle 0 byte 0: {limit}", 3, peer_transfer=0)
    yield packed("one byte fits, and begins no bundle", b"\x00", "tcpclkit: bundle 0 byte 0: B3 not a bundle", 3, peer_transfer=1)
    yield packed("one byte of two fits", b"\x9f\x00", f"tcpclkit: bundle 0 byte 1: {limit}", 3, peer_transfer=1)
