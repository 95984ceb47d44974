"""The bundles of the probe (RFC 9171): for the node itself, and without any report."""

import re
import time
from typing import NamedTuple

# The times of bundles count milliseconds from the start of 2000 (RFC 9171 section 4.2.6).
EPOCH = 946684800

# How long a bundle lives, in milliseconds, and the flag that forbids to fragment it (RFC 9171 section 4.2.3)
LIFETIME, NOT_TO_FRAGMENT = 10_000, 0x04

# Of an endpoint ID: what the probe can write
IPN = re.compile(r"ipn:(\d+)\.(\d+)(?:\.(\d+))?", re.ASCII)
DTN = re.compile(r"dtn:(//[!-~]+)", re.ASCII)


def head(major, number):
    """Returns the head of a CBOR item in the fewest bytes (RFC 8949 section 3)."""
    if number < 24:
        return bytes([major << 5 | number])
    size = next(it for it in range(4) if number < 1 << (8 << it))
    return bytes([major << 5 | 24 + size]) + number.to_bytes(1 << size, "big")


def array(*parts):
    """Returns a CBOR array of items."""
    return head(4, len(parts)) + b"".join(parts)


def endpoint(text):
    """Returns an endpoint ID (RFC 9171 section 4.2.5.1), or None if the probe cannot write it."""
    named, numbered = DTN.fullmatch(text), IPN.fullmatch(text)
    if text == "dtn:none":
        return array(head(0, 1), head(0, 0))
    if named:
        return array(head(0, 1), head(3, len(named[1])) + named[1].encode())
    numbers = [int(it) for it in numbered.groups() if it is not None] if numbered else []
    if not numbers or max(numbers) >= 1 << 64:
        return None
    return array(head(0, 2), array(*(head(0, it) for it in numbers)))


def crc16(data):
    """Returns the CRC16 of X.25 (RFC 9171 section 4.2.1)."""
    value = 0xFFFF
    for byte in data:
        value ^= byte
        for _ in range(8):
            value = value >> 1 ^ (0x8408 if value & 1 else 0)
    return value ^ 0xFFFF


def block(*parts):
    """Returns a block that ends with its CRC16, which is computed with zeros in its place."""
    before = head(4, len(parts) + 1) + b"".join(parts) + b"\x42"
    return before + crc16(before + b"\0\0").to_bytes(2, "big")


class Route(NamedTuple):
    """Where bundles are from and where they go, as endpoint IDs of CBOR."""

    source: bytes
    destination: bytes


def bundle(route, sequence, payload=b"tcpclkit-probe", now=None):
    """Returns a bundle."""
    since = int(((time.time() if now is None else now) - EPOCH) * 1000)
    primary = block(
        head(0, 7), head(0, NOT_TO_FRAGMENT), head(0, 1), route.destination, route.source, endpoint("dtn:none"),
        array(head(0, since), head(0, sequence)), head(0, LIFETIME),
    )
    fields = [head(0, it) for it in (1, 1, 0, 1)]
    return b"\x9f" + primary + block(*fields, head(2, len(payload)) + payload) + b"\xff"


def with_wrong_check(data):
    """Returns a bundle whose last check value is wrong."""
    return data[:-2] + bytes([data[-2] ^ 0x01]) + data[-1:]
