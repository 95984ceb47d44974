"""Bundles of RFC 9171 as the node sends them: a primary block and a payload, each with a CRC-32C."""

import re
import struct
import time

# Seconds from 1970 to 2000, where DTN time begins (RFC 9171, 4.2.6)
DTN_EPOCH = 946684800
MUST_NOT_FRAGMENT = 0x04
CRC_32C = 2
LIFETIME = 3_600_000
DESTINATION = "ipn:2.1"
IPN = re.compile(r"ipn:(0|[1-9]\d{0,18})\.(0|[1-9]\d{0,18})")
DTN = re.compile(r"dtn:(//[^/?#\s]+/.*)")


def crc_32c(data):
    """Returns the CRC-32C of some bytes."""
    crc = 0xFFFFFFFF
    for byte in data:
        crc ^= byte
        for _ in range(8):
            crc = crc >> 1 ^ (0x82F63B78 if crc & 1 else 0)
    return crc ^ 0xFFFFFFFF


def head(major, number):
    """Returns the shortest head of a CBOR item."""
    if number < 24:
        return bytes([major << 5 | number])
    for code, form, limit in ((24, ">B", 1 << 8), (25, ">H", 1 << 16), (26, ">I", 1 << 32), (27, ">Q", 1 << 64)):
        if number < limit:
            return bytes([major << 5 | code]) + struct.pack(form, number)
    raise ValueError("a number of more than 64 bits")


def unsigned(number):
    """Returns an unsigned integer."""
    return head(0, number)


def octets(data):
    """Returns a byte string."""
    return head(2, len(data)) + data


def array(*items):
    """Returns an array of these encoded items."""
    return head(4, len(items)) + b"".join(items)


def endpoint(name):
    """Returns an endpoint ID: that of a URI of scheme ipn or dtn, or else dtn:none."""
    ipn, dtn = IPN.fullmatch(name), DTN.fullmatch(name)
    if ipn:
        return array(unsigned(2), array(unsigned(int(ipn[1])), unsigned(int(ipn[2]))))
    if dtn:
        part = dtn[1].encode()
        return array(unsigned(1), head(3, len(part)) + part)
    return array(unsigned(1), unsigned(0))


def block(*items):
    """Returns a block of these items and its CRC, for which the CRC's own bytes count as zeros."""
    crc = crc_32c(array(*items, octets(bytes(4))))
    return array(*items, octets(struct.pack(">I", crc)))


def bundle(source, sequence, payload, now=None):
    """Returns a bundle from the node `source`. `now` is its creation time in seconds since 1970."""
    created = int(((time.time() if now is None else now) - DTN_EPOCH) * 1000)
    primary = block(
        unsigned(7), unsigned(MUST_NOT_FRAGMENT), unsigned(CRC_32C), endpoint(DESTINATION),
        endpoint(source), endpoint("dtn:none"), array(unsigned(created), unsigned(sequence)), unsigned(LIFETIME))
    data = block(unsigned(1), unsigned(1), unsigned(0), unsigned(CRC_32C), octets(payload))
    return b"\x9f" + primary + data + b"\xff"
