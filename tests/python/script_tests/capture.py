"""Tests of scripts/capture.

The captures are made here, packet by packet, or are examples/session.pcap with packets taken out.
When which bytes had come is worked out in another way than the script does it: each byte that a
packet has is marked, and the marks are counted.
"""

import glob
import gzip
import os
import random
import re
import shutil
import struct
import sys
from typing import NamedTuple

import make
from capture import ACK, BEGIN, FIN, MICROSECONDS, RST, SYN, End, frame

from .common import (
    ACKED,
    END,
    HEAD,
    LOST,
    PEAK,
    PROGRAM,
    REFUSED,
    SEED,
    START,
    TOP,
    UNANSWERED,
    empty_room,
    example,
    install,
    read,
    run,
    write,
)

SESSION = f"{TOP}/examples/session.pcap"
WHOSE = "source=ipn:1.1 time=0 sequence=0 destination=ipn:2.1"
GOOD, BAD = f"good {WHOSE}", f"bad=B13 byte=33 {WHOSE}"
EARLY = "refused before the end"
NUMBERS = 1 << 32

# What is shown of examples/session.pcap, without its times. Those are the times of the packets in
# examples/make.py: when the last byte of the transfer was sent, and how much later the answer, in
# hundredths of a second.
FRAGMENT = "source=ipn:2.1 time=820540800000 sequence=0 destination=ipn:1.1 fragment=7/12"
MADE = "created=1767225600.000000 expires=1767229200.000000"
SHOWN = [
    (f"a transfer 0 offset=38 length=34 acknowledged {GOOD}", 9, 2),
    (f"a transfer 1 offset=125 length=37 acknowledged {BAD}", 13, 1),
    (f"a transfer 2 offset=184 length=17 {REFUSED} abandoned", 15, 1),
    (
        "a transfer 3 offset=223 length=34 refused reason=05/extension-failure bad-length-item "
        + WHOSE,
        17,
        1,
    ),
    (
        "a transfer 4 offset=305 length=34 refused reason=04/not-acceptable length-differs "
        f"announced=35 {WHOSE}",
        19,
        1,
    ),
    (f"b transfer 0 offset=123 length=48 acknowledged good {FRAGMENT} {MADE}", 22, 1),
]
LINES = "".join(
    f"stream 0 {line} sent=1767225600.{sent:02}0000 answered=+0.{later:02}0000\n"
    for line, sent, later in SHOWN
)
ENDS = "a-end=fin a-term=01/idle-timeout b-end=fin b-term=01/idle-timeout"
STREAMS = (
    "stream 0 a=192.0.2.1:49152 b=192.0.2.2:4556 a-node=ipn:1.0 b-node=ipn:2.0 "
    f"first=1767225600.000000 last=1767225600.300000 {ENDS}\n"
)


OPEN = "open at the end of the capture: stream 0"
NONE = "no TCPCL connection"


def noted(*notes):
    """Returns what is on standard error."""
    return "".join(f"tcpclkit-capture: {note}\n" for note in notes)


def strays(folder):
    """Returns what is noted of the session: one of a's answers is to no transfer."""
    a, b = f"{folder}/0000-a.tcpcl", f"{folder}/0000-b.tcpcl"
    return noted(f"{a}: answers to no transfer of {b}: 1, the first at byte 393; refusals: 0; IDs: 9")


# ---- captures


class Link(NamedTuple):
    """A TCP connection: the port and the first sequence number of each side."""

    a: tuple
    b: tuple


class Segment(NamedTuple):
    """A TCP segment: its data from an offset on, and how many bytes of the other side it has seen.

    The offset of a SYN is -1.
    """

    link: Link
    side: str
    offset: int
    data: bytes = b""
    flags: int = ACK
    seen: int = 0

    def has(self, link, side, offset):
        """Returns whether the data has the byte at an offset."""
        is_one = self.link is link and self.side == side
        return is_one and self.offset <= offset < self.offset + len(self.data)

    def frame(self, number):
        """Returns the Ethernet frame."""
        ends = {}
        for name, byte, (port, first) in (("a", 1, self.link.a), ("b", 2, self.link.b)):
            offset = self.offset if name == self.side else self.seen
            mac, address = bytes([2, 0, 0, 0, 0, byte]), bytes([192, 0, 2, byte])
            ends[name] = End(mac, address, port, (first + 1 + offset) % NUMBERS)
        other = ends["b" if self.side == "a" else "a"]
        return frame(ends[self.side], other, self.flags, self.data, number % 65536)


def opening(link):
    """Returns the segments that open a connection."""
    return [
        Segment(link, "a", -1, flags=SYN),
        Segment(link, "b", -1, flags=SYN | ACK),
        Segment(link, "a", 0),
    ]


def seconds(number):
    """Returns when packet number N was captured."""
    return f"{BEGIN + number * MICROSECONDS // 10**6}.{number * MICROSECONDS % 10**6:06}"


def pcap(frames, numbers=None, kept=1 << 18):
    """Returns a capture of these frames, which keeps that many bytes of each.

    The times are those of packets of these numbers, or from 0 on.
    """
    out = [struct.pack("<IHHiIII", 0xA1B2C3D4, 2, 4, 0, 0, kept, 1)]
    for number, it in zip(numbers or range(1 << 30), frames):
        time = divmod(number * MICROSECONDS, 10**6)
        head = (BEGIN + time[0], time[1], min(kept, len(it)), len(it))
        out.append(struct.pack("<IIII", *head) + it[:kept])
    return b"".join(out)


def block(kind, body):
    """Returns a block of pcapng."""
    body += bytes(-len(body) % 4)
    size = struct.pack("<I", len(body) + 12)
    return struct.pack("<I", kind) + size + body + size


def pcapng(frames):
    """Returns a capture in the other format, with nanoseconds: 1 more in each time."""
    out = block(0x0A0D0D0A, struct.pack("<IHHq", 0x1A2B3C4D, 1, 0, -1))
    out += block(1, struct.pack("<HHI", 1, 0, 0) + struct.pack("<HHBxxxHH", 9, 1, 9, 0, 0))
    for number, it in enumerate(frames):
        time = BEGIN * 10**9 + number * MICROSECONDS * 1000 + 1
        head = struct.pack("<IIIII", 0, time >> 32, time % NUMBERS, len(it), len(it))
        out += block(6, head + it)
    return out


def frames_of(content):
    """Returns the frames of a capture in the pcap format."""
    frames, at = [], 24
    while at < len(content):
        size = struct.unpack_from("<I", content, at + 8)[0]
        frames.append(content[at + 16 : at + 16 + size])
        at += 16 + size
    return frames


def over_ipv6(it):
    """Returns a frame with IPv6 in place of IPv4, in a VLAN. The checksum of TCP is wrong by it."""
    addresses = bytes.fromhex("20010db8") + bytes(11)
    ip = struct.pack(">IHBB", 6 << 28, len(it) - 34, 6, 64)
    ip += addresses + it[29:30] + addresses + it[33:34]
    return it[:12] + bytes.fromhex("8100000786dd") + ip + it[34:]


def refusal(it):
    """Returns an error message of ICMP about a frame, which quotes it. Its data is another one."""
    quoted = it[14:54] + b"\xff" * (len(it) - 54)
    ip = struct.pack(">BBHHHBBH", 0x45, 0, 28 + len(quoted), 0, 0, 64, 1, 0) + it[30:34] + it[26:30]
    return it[6:12] + it[:6] + it[12:14] + ip + struct.pack(">BBHI", 3, 4, 0, 0) + quoted


# ---- sessions


class Talk:
    """A session in the making: who sends what, and what the lines have to say.

    A row is (ID, offset, length, answer, judgement, end, end of the answer).
    """

    def __init__(self, draw, count):
        self.draw, self.turns, self.sent = draw, [], {"a": b"", "b": b""}
        self.rows = {"a": [], "b": []}
        self.say("a", HEAD)
        self.say("b", HEAD)
        for ident in range(count):
            self.transfer("a", "b", ident)
            self.transfer("b", "a", ident)

    def say(self, side, message):
        """Adds a message. Returns the offset after it."""
        self.turns.append((side, message))
        self.sent[side] += message
        return len(self.sent[side])

    def transfer(self, side, other, ident):
        """Adds a transfer of two segments, and its answers."""
        said = self.draw.choice([ACKED, ACKED, REFUSED, EARLY, LOST])
        data, judgement = self.draw.choice([(make.BUNDLE, GOOD), (make.DAMAGED, BAD)])
        cut, offset = self.draw.randrange(len(data)), len(self.sent[side])
        refusal, answer = make.xfer_refuse(2, ident), None
        item = [make.length_item(len(data))] * self.draw.randrange(2)
        self.say(side, make.xfer_segment(START, ident, data[:cut], *item))
        if said == EARLY:
            answer = self.say(other, refusal)
        end = self.say(side, make.xfer_segment(END, ident, data[cut:]))
        if said == ACKED:
            answer = self.say(other, make.xfer_ack(END, ident, len(data)))
        elif said != LOST:
            last = self.say(other, refusal)
            answer = answer or last
        said = REFUSED if said == EARLY else said
        self.rows[side].append((ident, offset, len(data), said, judgement, end, answer))

    def segments(self, link):
        """Returns the packets of the session: repeated, cut in other places, and out of order.

        Some are probes, which repeat the last byte with another value.
        """
        draw, sent, out = self.draw, {"a": 0, "b": 0}, []
        for side, message in self.turns:
            cut, other = draw.randrange(len(message) - 1), "b" if side == "a" else "a"
            for piece in filter(None, (message[:cut], message[cut:])):
                out.append(Segment(link, side, sent[side], piece, seen=sent[other]))
                sent[side] += len(piece)
            begin = draw.randrange(sent[side])
            again = self.sent[side][begin : sent[side]][:1400]
            extra = [Segment(link, side, begin, again, seen=sent[other])]
            extra.append(Segment(link, side, sent[side] - 1, b"\0", seen=sent[other]))
            out += draw.choice([[], [], [], extra, extra[:1], extra[1:]])
        for at in range(len(out) - 4):
            if draw.randrange(5) == 0:
                out.insert(at + draw.randrange(1, 4), out.pop(at))
        ends = [
            Segment(link, side, sent[side], flags=FIN | ACK, seen=sent[other])
            for side, other in ("ab", "ba")
        ]
        return opening(link) + out + ends

    def lines(self, side, begins, came, answers):
        """Returns the lines of the transfers of a side.

        `came` and `answers` have when the bytes of the side and of the other one had come.
        """
        out, count = [], came[-1][0]
        for ident, offset, length, said, judgement, end, answer in self.rows[side]:
            if end > count:
                break
            later = time_of(answers, answer) if answer is not None else None
            said = LOST if later is None else said
            sent = time_of(came, end)
            words = f"transfer {ident} offset={offset} length={length} {said} {judgement}"
            times = f"sent={seconds(sent)}"
            if later is not None:
                sign, apart = "-" if later < sent else "+", abs(later - sent) * MICROSECONDS
                times += f" answered={sign}{apart // 10**6}.{apart % 10**6:06}"
            out.append(f"{begins} {words} {times}\n")
        return "".join(out)


def came_of(segments, link, side, size):
    """Returns how many bytes had come without a gap, and by which packet, each time they grew."""
    marks, count, out = bytearray(size), 0, []
    for number, it in enumerate(segments):
        if it.link is link and it.side == side and it.data:
            marks[it.offset : it.offset + len(it.data)] = b"\1" * len(it.data)
            found = marks.find(0)
            count, before = size if found < 0 else found, count
            out += [(count, number)] if count > before else []
    return out


def time_of(came, offset):
    """Returns the number of the packet by which the bytes before an offset had come, or None."""
    return next((number for count, number in came if count >= offset), None)


def merged(draw, *lists):
    """Returns the packets of several connections in one capture."""
    order = [number for number, it in enumerate(lists) for _ in it]
    draw.shuffle(order)
    rests = [iter(it) for it in lists]
    return [next(rests[number]) for number in order]


# ---- tests


def example_session():
    """The example: its recordings, their times, and the lines."""
    with empty_room() as at:
        got = run(at, "capture", "made", SESSION)
        yield "capture: the example", (1, LINES, strays("made")), got
        names = [f"0000-{side}.{kind}" for side in "ab" for kind in ("tcpcl", "times")]
        yield "capture: its files", [*names, "streams"], sorted(os.listdir(f"{at}/made"))
        for side in "ab":
            recording = read(f"{at}/made/0000-{side}.tcpcl")
            yield f"capture: its recording {side}", example(f"session-{side}"), recording
        text = "6 {0}.030000\n38 {0}.050000\n90 {0}.070000\n125 {0}.090000\n147 {0}.120000\n"
        times = read(f"{at}/made/0000-a.times").decode()
        yield "capture: its times", text.format(BEGIN), times[: len(text.format(BEGIN))]
        yield "capture: its streams", STREAMS, read(f"{at}/made/streams").decode()


def merged_sessions():
    """Two sessions on two ports: packets repeated, out of order and in pieces."""
    draw = random.Random(SEED)
    links = [Link((49152, NUMBERS - 100), (4556, NUMBERS - 1)), Link((4556, 5), (6000, 1 << 31))]
    talks = {link: Talk(draw, 300) for link in links}
    packets = merged(draw, *[talk.segments(link) for link, talk in talks.items()])
    with empty_room() as at:
        write(f"{at}/both.pcap", pcap([it.frame(number) for number, it in enumerate(packets)]))
        status, shown, errors = run(at, "capture", "made", "both.pcap")
        yield "capture: two sessions", 1, status
        lines, notes = "", ""
        for number, link in enumerate(dict.fromkeys(it.link for it in packets)):
            talk, path = talks[link], f"made/{number:04}"
            came = {side: came_of(packets, link, side, len(talk.sent[side])) for side in "ab"}
            for side, other in ("ab", "ba"):
                name = f"capture: session {links.index(link)} {side}"
                yield name, talk.sent[side], read(f"{at}/{path}-{side}.tcpcl")
                times = "".join(f"{end} {seconds(it)}\n" for end, it in came[side])
                yield f"{name}: times", times, read(f"{at}/{path}-{side}.times").decode()
                lines += talk.lines(side, f"stream {number} {side}", came[side], came[other])
            for one, other in ("ab", "ba"):
                names = f"{path}-{one}.tcpcl", f"{path}-{other}.tcpcl"
                notes += run(at, "pair", *names)[2].replace("-pair:", "-capture:")
        wanted, got = lines.splitlines(), shown.splitlines()
        yield "capture: two sessions: lines", sorted(wanted), sorted(got)
        lost = [line for line in wanted if f" {LOST} " in line]
        yield "capture: two sessions: the lost ones come last", lost, got[-len(lost) :]
        notes = [*dict.fromkeys(notes.splitlines())]
        yield "capture: two sessions: notes", notes, errors.splitlines()


def one_side():
    """The packets of one side are not in the capture, or it sends nothing."""
    link = Link((49152, 1), (4556, 2))
    silent = [*opening(link), Segment(link, "a", 0, HEAD), Segment(link, "b", 0, seen=len(HEAD))]
    frames = frames_of(read(SESSION))
    with empty_room() as at:
        write(f"{at}/a.pcap", pcap([it for it in frames if it[34:36] == b"\xc0\x00"]))
        a, b = "made/0000-a.tcpcl", "made/0000-b.tcpcl"
        left = f"{a}: answers to no transfer of {b}: 2, the first at byte 375; "
        left += "refusals: 0; IDs: 0, 9"
        notes = noted("stream 0 b: gap at 0", left, OPEN)
        status, shown, errors = run(at, "capture", "made", "a.pcap")
        yield "capture of one side", (3, 5, notes), (status, shown.count(" unanswered "), errors)
        yield "capture of one side: a", example("session-a"), read(f"{at}/made/0000-a.tcpcl")
        yield "capture of one side: b", b"", read(f"{at}/made/0000-b.tcpcl")
        write(f"{at}/silent.pcap", pcap([it.frame(number) for number, it in enumerate(silent)]))
        notes = noted("stream 0 b: nothing was captured", OPEN)
        yield "capture: b is silent", (3, "", notes), run(at, "capture", "silent", "silent.pcap")


def formats():
    """Other captures of the example: pcapng, a pipe, compressed, IPv6, another port."""
    frames, made = frames_of(read(SESSION)), "capture"
    with empty_room() as at:
        write(f"{at}/s.pcapng", pcapng(frames))
        finer = LINES.replace("0000 answered", "0000001 answered")
        yield "capture of pcapng", (1, finer, strays("ng")), run(at, made, "ng", "s.pcapng")
        write(f"{at}/s.gz", gzip.compress(read(SESSION)))
        yield "capture of a .gz", (1, LINES, strays("gz")), run(at, made, "gz", "s.gz")
        with open(SESSION, "rb") as stdin:
            got = run(at, made, "--", "-in", "-", stdin=stdin)
        yield "capture of standard input", (1, LINES, strays("-in")), got
        write(f"{at}/6.pcap", pcap([over_ipv6(it) for it in frames]))
        yield "capture of IPv6", (1, LINES, strays("6")), run(at, made, "6", "6.pcap")
        streams = STREAMS
        for byte in "12":
            streams = streams.replace(f"192.0.2.{byte}", f"[2001:db8::{byte}]")
        yield "capture of IPv6: streams", streams, read(f"{at}/6/streams").decode()
        errors = [refusal(it) for it in frames[3:5]]
        numbers = [*range(3), 2, 2, *range(3, len(frames))]
        write(f"{at}/icmp.pcap", pcap(frames[:3] + errors + frames[3:], numbers))
        yield "capture with ICMP errors", (1, LINES, strays("i")), run(at, made, "i", "icmp.pcap")
        other = [it.replace(b"\x11\xcc", b"\xc0\x00") for it in frames]
        write(f"{at}/same.pcap", pcap(other))
        yield "capture of one port", (1, LINES, strays("s")), run(at, made, "s", "same.pcap")
        write(f"{at}/snap.pcap", pcap(frames, kept=80))
        status, _, errors = run(at, made, "snap", "snap.pcap")
        noted_gaps = [f"stream 0 {it} gaps, the first at 32" in errors for it in ("a: 7", "b: 2")]
        yield "capture of 80 bytes", (3, [True, True]), (status, noted_gaps)
        for side in "ab":
            wanted = example(f"session-{side}")[:32]
            yield f"capture of 80 bytes: {side}", wanted, read(f"{at}/snap/0000-{side}.tcpcl")


def cut_transfers():
    """A recording ends inside a transfer: after its first segment."""
    link = Link((49152, 1), (4556, 2))
    sent = HEAD + make.xfer_segment(START, 7, make.BUNDLE[:9]) + b"\x01"
    packets = [*opening(link), Segment(link, "a", 0, sent), Segment(link, "b", 0, HEAD)]
    line = f"stream 0 a transfer 7 offset=38 length=9 unanswered cut sent={seconds(3)}\n"
    with empty_room() as at:
        write(f"{at}/cut.pcap", pcap([it.frame(number) for number, it in enumerate(packets)]))
        notes = noted(f"made/0000-a.tcpcl: byte {len(sent) - 1}: truncated", OPEN)
        yield "capture: a cut transfer", (3, line, notes), run(at, "capture", "made", "cut.pcap")


def identities():
    """The bundle is named wherever the primary block was read, which has 22 bytes with its array."""
    link = Link((49152, 1), (4556, 2))
    sent, lines = HEAD, ""
    for ident, length, words in [(0, 21, "abandoned"), (1, 22, f"abandoned {WHOSE}")]:
        line = f"stream 0 a transfer {ident} offset={len(sent)} length={length} unanswered {words}"
        lines += f"{line} sent={seconds(3)}\n"
        sent += make.xfer_segment(START, ident, make.BUNDLE[:length])
    head = make.xfer_segment(START | END, 2, make.BUNDLE)[: -len(make.BUNDLE)]
    line = f"stream 0 a transfer 2 offset={len(sent)} length=22 unanswered cut {WHOSE}"
    lines += f"{line} sent={seconds(3)}\n"
    sent += head + make.BUNDLE[:22]
    packets = [*opening(link), Segment(link, "a", 0, sent), Segment(link, "b", 0, HEAD)]
    with empty_room() as at:
        write(f"{at}/cut.pcap", pcap([it.frame(number) for number, it in enumerate(packets)]))
        status, shown, _ = run(at, "capture", "made", "cut.pcap")
        yield "capture: identities", (3, lines), (status, shown)


def resets():
    """An RST ends both sides, and a FIN one, unless its number is wrong, or data follows it."""
    link, data = Link((49152, 1), (4556, 2)), make.xfer_segment(START | END, 0, make.BUNDLE)
    before = [*opening(link), Segment(link, "a", 0, HEAD + data), Segment(link, "b", 0, HEAD)]
    rest = Segment(link, "b", len(HEAD), make.KEEPALIVE)
    cases = [
        ("of b", [Segment(link, "b", len(HEAD), flags=RST)], LOST, "peer-rst rst"),
        ("of a", [Segment(link, "a", len(HEAD + data), flags=RST)], LOST, "rst peer-rst"),
        ("of b, too early", [Segment(link, "b", 3, flags=RST)], UNANSWERED, "open open"),
        ("of b, too late", [Segment(link, "b", 99, flags=RST)], UNANSWERED, "open open"),
        ("of b, a FIN", [Segment(link, "b", len(HEAD), flags=FIN | ACK)], LOST, "open fin"),
        ("of b, a FIN too early", [Segment(link, "b", 3, flags=FIN | ACK)], UNANSWERED, "open open"),
        ("of b, and data", [Segment(link, "b", len(HEAD), flags=RST), rest], UNANSWERED, "open open"),
    ]
    with empty_room() as at:
        for name, after, said, ends in cases:
            frames = [it.frame(number) for number, it in enumerate(before + after)]
            write(f"{at}/{name}.pcap", pcap(frames))
            status, shown, _ = run(at, "capture", name, f"{name}.pcap")
            wanted = int(said == LOST), said
            yield f"capture: an end {name}", wanted, (status, shown.split()[7])
            found = re.findall("[ab]-end=(\\S+)", read(f"{at}/{name}/streams").decode())
            yield f"capture: an end {name}: ends", ends, " ".join(found)


def many_sessions():
    """300 sessions at the same time, and connections that are none of TCPCL."""
    draw = random.Random(SEED)
    talks = {Link((20000 + it, 99 * it), (4556, 77 * it)): Talk(draw, 3) for it in range(300)}
    other, text = Link((20000, 9), (80, 9)), b"GET / HTTP/1.1\r\n\r\n"
    packets = merged(draw, *[talk.segments(link) for link, talk in talks.items()])
    packets += [*opening(other), Segment(other, "a", 0, text), Segment(other, "b", 0, b"HTTP")]
    with empty_room() as at:
        write(f"{at}/many.pcap", pcap([it.frame(number) for number, it in enumerate(packets)]))
        counting = f'#!/bin/sh\necho "$1" >> {at}/runs\nexec {PROGRAM} "$@"\n'
        write(f"{at}/counting", counting.encode(), 0o755)
        words = ["--tcpclkit", "counting", "made", "many.pcap"]
        status, shown, errors = run(at, "capture", *words)
        runs = sorted(read(f"{at}/runs").split())
        yield "capture of 300 sessions: runs of tcpclkit", [b"blocks", b"list", b"list"], runs
        yield "capture of 300 sessions", (1, "", 1800), (status, errors, shown.count("\n"))
        differing = []
        for number, link in enumerate(dict.fromkeys(it.link for it in packets[:-5])):
            sent = talks[link].sent
            differing += [
                (number, side)
                for side in "ab"
                if read(f"{at}/made/{number:04}-{side}.tcpcl") != sent[side]
            ]
        yield "capture of 300 sessions: recordings", [], differing
        yield "capture of 300 sessions: files", 4 * 300 + 1, len(os.listdir(f"{at}/made"))


def far_ahead():
    """Packets far ahead of a gap: 40 MiB of data take less than 64 MiB of memory."""
    link, data = Link((49152, 1), (4556, 2)), bytes(4096)
    packets = [*opening(link), Segment(link, "a", 0, HEAD), Segment(link, "b", 0, HEAD)]
    packets += [Segment(link, "a", 10**6 + 5000 * it, data) for it in range(10240)]
    packets.append(Segment(link, "a", len(HEAD), make.KEEPALIVE))
    with empty_room() as at:
        write(f"{at}/far.pcap", pcap([it.frame(number) for number, it in enumerate(packets)]))
        words = [sys.executable, "-c", PEAK, f"{TOP}/scripts/capture", "made", "far.pcap"]
        status, shown, errors = run(at, *words)
        *notes, peak = errors.splitlines(True)
        text = f"stream 0 a: 10240 gaps, the first at {len(HEAD)}"
        gap = noted(f"{text}; no message is found in {10240 * len(data)} bytes", OPEN)
        yield "capture: packets far ahead", (3, "", gap), (status, shown, "".join(notes))
        yield "capture: packets far ahead: less than 64 MiB", True, int(peak) < 64 * 1024
        yield "capture: packets far ahead: a", HEAD, read(f"{at}/made/0000-a.tcpcl")


def no_sessions():
    """Captures without a session, and what is none."""
    link = Link((49152, 1), (4556, 2))
    packets = [*opening(link), Segment(link, "a", 0, b"SSH-2.0"), Segment(link, "b", 0, b"dtn!")]
    with empty_room() as at:
        cases = [("another protocol", packets), ("no data", packets[:3]), ("nothing", [])]
        for name, kept in cases:
            write(f"{at}/{name}", pcap([it.frame(number) for number, it in enumerate(kept)]))
            got = run(at, "capture", f"made of {name}", name)
            yield f"capture of {name}", (3, "", noted(NONE)), got
            yield f"capture of {name}: no files", [], os.listdir(f"{at}/made of {name}")
        write(f"{at}/cut", read(SESSION)[:30])
        status, shown, errors = run(at, "capture", "made of cut", "cut")
        yield "capture that is cut in its first packet", (4, ""), (status, shown)
        yield "capture that is cut in its first packet: it says so", True, "cut short" in errors
        status, shown, errors = run(at, "capture", "made of none", "none")
        yield "capture that is not there", (4, ""), (status, shown)
        yield "capture that is not there: its name", True, '"none"' in errors
        write(f"{at}/short", read(SESSION)[:-10])
        status, shown, errors = run(at, "capture", "made of short", "short")
        yield "capture that is cut short", (3, LINES), (status, shown)
        yield "capture that is cut short: it says so", True, "cut short" in errors


def failures():
    """A folder that cannot be taken, a full device, and a tshark that is killed."""
    with empty_room() as at:
        write(f"{at}/file", b"")
        for folder, text in [
            (".", "the folder is not empty"),
            ("file", "File exists"),
            ("no/made", "No such file or directory"),
        ]:
            got = run(at, "capture", folder, SESSION)
            yield f"capture: {folder}: {text}", (4, "", noted(f"{folder}: {text}")), got
        for words in [["--port", "0"], ["--port", "65536"], ["--port", "x"], ["--port"]]:
            yield f"capture {' '.join(words)}", 2, run(at, "capture", *words, "made", SESSION)[0]
        yield "capture: nothing is written", ["file"], os.listdir(at)
        os.mkdir(f"{at}/made")
        with open("/dev/full", "wb") as full:
            got = run(at, "capture", "made", SESSION, stdout=full)
        yield "capture: a full device", (4, None, noted("No space left on device")), got
        write(f"{at}/tshark", b"#!/bin/sh\nkill -9 $$\n", 0o755)
        path = f"{at}:{os.environ['PATH']}"
        got = run(at, "capture", "killed", SESSION, "--tcpclkit", PROGRAM, path=path)
        yield "capture: tshark is killed", (4, "", noted("tshark ended with status -9")), got


def no_tshark():
    """Without tshark, nothing is written."""
    with empty_room() as at:
        os.symlink(sys.executable, f"{at}/python3")
        text = "tshark is not found; `apt-get install tshark` installs it on Debian"
        got = run(at, "capture", "--tcpclkit", PROGRAM, "made", SESSION, path=at)
        yield "capture: no tshark", (4, "", noted(text)), got
        yield "capture: no tshark: nothing is written", ["python3"], os.listdir(at)


def installed():
    """The script finds its package and the program where ./install puts them."""
    with empty_room() as at:
        install(at, "capture")
        shutil.copy(PROGRAM, f"{at}/bin/tcpclkit")
        before = sorted(glob.glob(f"{at}/**", recursive=True))
        words, path = (f"{at}/bin/tcpclkit-capture", "made", SESSION), os.environ["PATH"]
        got = run(at, *words, path=path)
        yield "capture: installed", (1, LINES, strays("made")), got
        shutil.rmtree(f"{at}/made")
        yield "capture: installed: files", before, sorted(glob.glob(f"{at}/**", recursive=True))


PARTS = [
    no_tshark,
    installed,
    example_session,
    merged_sessions,
    one_side,
    formats,
    cut_transfers,
    identities,
    resets,
    many_sessions,
    far_ahead,
    no_sessions,
    failures,
]

# The tools that a part needs.
TOOLS = {part: ["tshark"] for part in PARTS[1:]}
