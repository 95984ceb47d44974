"""Captures in the pcap format: Ethernet, IPv4, and one TCP connection or UDP datagrams, with their checksums.

Packet by packet the same bytes each time: the addresses, the first sequence numbers and the times are constants. It is no
program: `make.py`, `recipes.py` and `tls.py` use it.
"""

import struct
from dataclasses import dataclass

# Flags of TCP (RFC 9293 section 3.1)
FIN, SYN, RST, PSH, ACK = 0x01, 0x02, 0x04, 0x08, 0x10

# Protocol numbers of IPv4
TCP, UDP = 6, 17

# 2026-01-01 00:00:00 UTC, in seconds; a packet each 10 milliseconds
BEGIN = 1767225600
MICROSECONDS = 10_000


@dataclass
class End:
    """One end of the connection: its addresses (of RFC 5737), its port, and the next byte that it sends."""

    mac: bytes
    address: bytes
    port: int
    next: int


def checksum(data):
    """The Internet checksum (RFC 1071): the complement of the ones' complement sum of words of 16 bits."""
    padded = data + b"\0" * (len(data) % 2)
    total = sum(struct.unpack(f">{len(padded) // 2}H", padded))
    while total > 0xFFFF:
        total = (total & 0xFFFF) + (total >> 16)
    return ~total & 0xFFFF


def ipv4(sender, receiver, protocol, content, at, number):
    """An Ethernet frame with an IPv4 packet. `at` is where the checksum of the content is; `number` is the identification."""
    pseudo = sender.address + receiver.address + struct.pack(">BBH", 0, protocol, len(content))
    content = content[:at] + struct.pack(">H", checksum(pseudo + content)) + content[at + 2 :]
    ip = struct.pack(">BBHHHBBH", 0x45, 0, 20 + len(content), number, 0x4000, 64, protocol, 0) + sender.address + receiver.address
    ip = ip[:10] + struct.pack(">H", checksum(ip)) + ip[12:]
    return receiver.mac + sender.mac + struct.pack(">H", 0x0800) + ip + content


def frame(sender, receiver, flags, data, number):
    """The frame of a TCP segment."""
    seen = receiver.next if flags & ACK else 0
    tcp = struct.pack(">HHIIBBHHH", sender.port, receiver.port, sender.next, seen, 5 << 4, flags, 65535, 0, 0) + data
    return ipv4(sender, receiver, TCP, tcp, 16, number)


def ends(a=1, b=2, port=49152):
    """The two ends: `a`, which connects from this port or sends datagrams, and `b`. An address ends with the number."""
    mac = bytes.fromhex("0200000000")
    first = End(mac + bytes([a]), bytes([192, 0, 2, a]), port, 1000)
    return first, End(mac + bytes([b]), bytes([192, 0, 2, b]), 4556, 2000)


# How a connection is opened, and how it is closed: by both sides, or by an RST of one
OPENING = [("a", SYN, b"", 1), ("b", SYN | ACK, b"", 1), ("a", ACK, b"", 1)]
CLOSING = [("a", FIN | ACK, b"", 1), ("b", FIN | ACK, b"", 1), ("a", ACK, b"", 1)]
RESET = [("b", RST | ACK, b"", 1)]


def frames(turns, between=None, closing=CLOSING):
    """The frames of a connection: three to open it, those of the turns, and those to close it.

    A turn is (side, data, times): `a`, which connects, or `b`, and how many times the packet is seen. The connection is
    between these two ends, or those of `ends()`.
    """
    a, b = between or ends()
    made = []
    for side, flags, data, times in OPENING + [(side, PSH | ACK, data, times) for side, data, times in turns] + closing:
        sender, receiver = (a, b) if side == "a" else (b, a)
        for _ in range(times):
            made.append(frame(sender, receiver, flags, data, len(made) + 1))
        sender.next += len(data) + (1 if flags & (SYN | FIN) else 0)
    return made


def datagrams(contents):
    """The frames of UDP datagrams from `a` to `b`, one of each content (RFC 768)."""
    a, b = ends()
    udp = [struct.pack(">HHHH", a.port, b.port, 8 + len(it), 0) + it for it in contents]
    return [ipv4(a, b, UDP, it, 6, number) for number, it in enumerate(udp, 1)]


def pcap(packets, begins=None):
    """The file: the header of pcap, for Ethernet and with times in microseconds, and each frame with its own.

    `begins` has for some packets, by number from 0 on, how many seconds after BEGIN they come. Each other one comes 10
    milliseconds after the one before it.
    """
    out, time = struct.pack("<IHHiIII", 0xA1B2C3D4, 2, 4, 0, 0, 65535, 1), -MICROSECONDS
    for number, it in enumerate(packets):
        time = (begins or {}).get(number, 0) * 10**6 or time + MICROSECONDS
        out += struct.pack("<IIII", BEGIN + time // 10**6, time % 10**6, len(it), len(it)) + it
    return out


def stream(turns, side):
    """What one side sent."""
    return b"".join(data for it, data, _ in turns if it == side)
