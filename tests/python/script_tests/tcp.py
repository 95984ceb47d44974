"""Tests of scripts/capture --check: what acknowledgements and windows of TCP prove, and what they do
not. The lines were worked out by hand from docs/SESSIONS.md.

Each session is written packet by packet. The sequence numbers of both sides wrap.
"""

import os
import random
import sys
from typing import NamedTuple, Optional

import make
from capture import ACK, FIN, RST, SYN

from .capture import NUMBERS, Link, Segment, noted, pcap
from .common import SEED, TOP, empty_room, run, write

sys.path[:0] = [f"{TOP}/tests/python", f"{TOP}/scripts"]

from tcpclkit_scripts.shown import Arrived
from rows.sessions import A, ACKED, ALIVE, B, HEADER, REPLIED, SIZE, START, TERM, acked, first, last, refused, whole

LINK = Link((49152, NUMBERS - 70), (4556, NUMBERS - 60))
WIDE, OTHER = 65535, {"a": "b", "b": "a"}


class Turn(NamedTuple):
    """A packet: when it was captured, in seconds, its side and its data.

    `at` is the offset of the data, and `seen` how many bytes of the other side it acknowledges.
    Without them, the data goes on, and all bytes before are acknowledged. A packet that `is_lost` is
    not in the capture.
    """

    second: float
    side: str
    data: bytes = b""
    at: Optional[int] = None
    seen: Optional[int] = None
    window: int = WIDE
    flags: int = ACK
    is_lost: bool = False


def frames(turns, link=LINK):
    """Returns the frames of a connection and the numbers of their times."""
    sent, made = {"a": 0, "b": 0}, []
    for number, it in enumerate(turns):
        at = sent[it.side] if it.at is None else it.at
        seen = sent[OTHER[it.side]] if it.seen is None else it.seen
        sent[it.side] = max(sent[it.side], at + len(it.data) + (1 if it.flags & FIN else 0))
        frame = Segment(link, it.side, at, it.data, it.flags, seen).frame(number)
        if not it.is_lost:
            made.append((with_window(frame, it.window), round(100 * it.second)))
    return made


def with_window(frame, window):
    """Returns a frame with another window. The checksum of TCP is wrong by it."""
    return frame[:48] + window.to_bytes(2, "big") + frame[50:]


def capture(*connections):
    """Returns the capture of these frames and times."""
    made = sorted((it for each in connections for it in each), key=lambda it: it[1])
    return pcap([it for it, _ in made], [number for _, number in made])


# The packets that open a connection and a session. Each message of a session begins at 38.
OPENING = [Turn(0, "a", at=-1, flags=SYN), Turn(0, "b", at=-1, flags=SYN | ACK), Turn(0, "a")]
OPENED = [*OPENING, Turn(0.1, "a", HEADER), Turn(0.2, "b", HEADER), Turn(0.3, "a", A), Turn(0.4, "b", B)]
FIRST = len(HEADER + A)
ACKNOWLEDGED = [*OPENED, Turn(0.5, "a")]


def ended(second):
    """Returns the packets that end a session and a connection."""
    turns = [("a", TERM, ACK), ("b", REPLIED, ACK), ("a", b"", FIN | ACK), ("b", b"", FIN | ACK), ("a", b"", ACK)]
    return [Turn(second + number / 10, side, data, flags=flags) for number, (side, data, flags) in enumerate(turns)]


def rules(turns, link=LINK):
    """Returns the lines of rules of a session without the words before the side, and how to run it."""
    with empty_room() as at:
        write(f"{at}/capture", capture(frames(turns, link)))
        _, shown, errors = run(at, "capture", "--check", "made", "capture")
        lines = [line for line in shown.splitlines() if line.split()[3] != "transfer"]
        if errors:
            lines.append(errors)
        return [line.partition("stream 0 ")[2] or line for line in lines]


# ---- ack-early

SEGMENT, ANSWER = whole(), acked()
CUT = len(SEGMENT) // 2
END = FIRST + len(SEGMENT)

# A transfer in two segments, and an XFER_ACK of the first one that counts the second one too
MIDDLE, WHOLE_SUM = FIRST + len(first()), acked(0, START, SIZE)
SECOND = [Turn(1.2, "a", last()), Turn(1.3, "b", ACKED[1])]


def early(seen):
    """Returns the line of an XFER_ACK that came when that many bytes had arrived."""
    return [f"b {FIRST} must ack-early id=0 seen={seen} peer-at={FIRST}"]


# How a segment and its answer were captured, and the lines
EARLY = {
    "the capture lacks the first copy of the segment": (
        [Turn(1, "b", ANSWER, seen=END), Turn(1.2, "a", SEGMENT)], []
    ),
    "the capture lacks the first copy of its second half": (
        [Turn(1, "a", SEGMENT[:CUT]), Turn(1.1, "b", ANSWER, seen=END), Turn(1.3, "a", SEGMENT[CUT:])], []
    ),
    "the last byte had not arrived": (
        [Turn(1, "b", ANSWER, seen=END - 1), Turn(1.2, "a", SEGMENT)], early(END - 1)
    ),
    "the last byte had not arrived, but was captured before": (
        [Turn(1, "a", SEGMENT), Turn(1.1, "b", ANSWER, seen=END - 1)], early(END - 1)
    ),
    "there is a hole before the bytes that had arrived": (
        [
            Turn(1, "a", SEGMENT[:CUT], is_lost=True), Turn(1.1, "a", SEGMENT[CUT:]),
            Turn(1.2, "b", ANSWER, seen=FIRST), Turn(1.3, "a", SEGMENT[:CUT], at=FIRST),
        ],
        early(FIRST),
    ),
    "the answer came twice, later with more bytes": (
        [
            Turn(1, "b", ANSWER, seen=FIRST + 9), Turn(1.1, "a", SEGMENT),
            Turn(1.2, "b", ANSWER, at=FIRST, seen=END),
        ],
        early(FIRST + 9),
    ),
    "the answer came twice, captured in the wrong order": (
        [
            Turn(1, "a", SEGMENT), Turn(1.1, "b", ANSWER, seen=END),
            Turn(1.2, "b", ANSWER, at=FIRST, seen=FIRST + 9),
        ],
        early(FIRST + 9),
    ),
    "the capture lacks the first copy of the answer": (
        [
            Turn(1, "b", ANSWER, seen=FIRST, is_lost=True), Turn(1.1, "a", SEGMENT),
            Turn(1.2, "b", ANSWER, at=FIRST, seen=END),
        ],
        [],
    ),
    "its last byte came when all had arrived": (
        [
            Turn(1, "b", ANSWER[:-1], seen=FIRST), Turn(1.1, "a", SEGMENT),
            Turn(1.2, "b", ANSWER[-1:], seen=END),
        ],
        [],
    ),
    "its last byte came before": (
        [
            Turn(1, "a", SEGMENT), Turn(1.1, "b", ANSWER[-1:], at=FIRST + len(ANSWER) - 1, seen=FIRST),
            Turn(1.2, "b", ANSWER[:-1], at=FIRST, seen=END),
        ],
        early(FIRST),
    ),
    "it counts the next segment, of which no byte had arrived": (
        [Turn(1, "a", first()), Turn(1.1, "b", WHOLE_SUM, seen=MIDDLE), *SECOND],
        [f"b {FIRST} must ack-early id=0 seen={MIDDLE} peer-at={MIDDLE}"],
    ),
    "it counts the next segment, of which a byte had arrived": (
        [Turn(1, "a", first()), Turn(1.1, "b", WHOLE_SUM, seen=MIDDLE + 1), *SECOND], []
    ),
    "an empty segment is acknowledged before the one that it follows": (
        [
            Turn(1, "a", first()), Turn(1.05, "a", make.xfer_segment(0, 0, b"")),
            Turn(1.1, "b", acked(0, 0, SIZE // 2)), Turn(1.15, "b", ACKED[0]), *SECOND,
        ],
        [f"b {FIRST} should answer-order id=0 fault=not-in-order"],
    ),
}


# How a refusal and its transfer, or a reply and its SESS_TERM were captured, and the lines. The SESS_TERM
# begin at 38 too.
ASKED = FIRST + len(TERM)
BEFORE = {
    "a refusal, and no byte of the transfer had arrived": (
        [Turn(1, "b", refused(), seen=FIRST), Turn(1.1, "a", whole()), *ended(2)], [f"b {FIRST} must refuse-unknown id=0"]
    ),
    "a refusal, and a byte of the transfer had arrived": (
        [Turn(1, "b", refused(), seen=FIRST + 1), Turn(1.1, "a", whole()), *ended(2)], []
    ),
    "a reply, and a byte of the SESS_TERM had not arrived": (
        [Turn(1, "b", REPLIED, seen=ASKED - 1), Turn(1.1, "a", TERM), *ended(2)[2:]], [f"b {FIRST} must reply-alone"]
    ),
    "a reply, and the SESS_TERM had arrived": (
        [Turn(1, "b", REPLIED, seen=ASKED), Turn(1.1, "a", TERM), *ended(2)[2:]], []
    ),
}


def early_answers():
    """An XFER_ACK is early if its packet does not acknowledge the whole segment, whatever the times."""
    for name, (turns, lines) in EARLY.items():
        yield f"capture --check: ack-early: {name}", lines, rules([*OPENED, *turns, *ended(2)])
    for name, (turns, lines) in BEFORE.items():
        yield f"capture --check: {name}", lines, rules([*OPENED, *turns])


# ---- keepalive-late

# The second by which a KEEPALIVE of a side that is silent from second 0.3 on is late: the interval
# of 60 seconds and 5 more after b's SESS_INIT was acknowledged. Then the byte of b that a acknowledges.
DUE, LATER = 65.5, 70


def late(level, before=0.4, until=80, at=FIRST):
    """Returns the line of a message of side a that came late."""
    return [f"a {at} {level} keepalive-late seconds={until - before:.6f} interval=60"]


def silence(*turns, until=80):
    """Returns the packets of a session in which side a sends only these until it sends a KEEPALIVE."""
    return [*turns, Turn(until, "a", ALIVE), *ended(until + 1)]


def asked(second, **words):
    """Returns a KEEPALIVE of b and the packet of a that acknowledges it and has no data."""
    return Turn(second, "b", ALIVE, **words), Turn(second + 0.01, "a")


ALL = Turn(30, "b", ALIVE), Turn(30.01, "a")

# The packets of a silence, and its lines
LATE = {
    "nothing to send": (silence(*ACKNOWLEDGED, *ALL, *asked(LATER)), late("must")),
    "b asked just in time": (silence(*ACKNOWLEDGED, *ALL, *asked(DUE + 0.01)), late("must")),
    "b asked just too early": (silence(*ACKNOWLEDGED, *ALL, *asked(DUE)), late("should")),
    "the window was closed": (
        silence(*ACKNOWLEDGED, Turn(1, "b", window=0), *ALL, Turn(60, "b"), *asked(LATER)), late("should")
    ),
    "the window was closed before": (
        silence(
            *OPENED, Turn(0.5, "b", window=0), Turn(1, "a", ALIVE), Turn(1.1, "b"), *ALL, *asked(LATER), until=90
        ),
        late("should", 1, 90, FIRST + 1),
    ),
    "the window was narrow": (
        silence(*ACKNOWLEDGED, *ALL, *asked(LATER, window=WIDE // 2)), late("should")
    ),
    "half of the window was open": (
        silence(*ACKNOWLEDGED, *ALL, *asked(LATER, window=WIDE // 2 + 1)), late("must")
    ),
    "all was lost for a while": (silence(*ACKNOWLEDGED, Turn(30, "b", ALIVE)), late("should")),
    "b's message was not acknowledged": (silence(*ACKNOWLEDGED, *ALL, Turn(LATER, "b", ALIVE)), late("should")),
    "b had asked before": (silence(*ACKNOWLEDGED, *ALL, Turn(LATER, "a")), late("should")),
    "b asked again": (
        silence(*ACKNOWLEDGED, Turn(30, "b", ALIVE), Turn(LATER, "b", ALIVE, at=FIRST), Turn(LATER, "a")),
        late("should"),
    ),
    "a sent something again": (
        silence(*ACKNOWLEDGED, Turn(1, "a", A[1:], at=len(HEADER) + 1), *ALL, *asked(LATER)), late("should")
    ),
    "b lacks a byte of a": (
        silence(*ACKNOWLEDGED, *ALL, *asked(LATER, seen=FIRST - 1)), late("should")
    ),
    "the capture lacks a KEEPALIVE that is sent again": (
        silence(
            *ACKNOWLEDGED, *ALL, Turn(59, "a", ALIVE, is_lost=True), *asked(LATER, seen=FIRST),
            Turn(71, "a", ALIVE, at=FIRST),
        ),
        late("should", until=71),
    ),
    "b's SESS_INIT arrived late": (
        silence(*OPENED, Turn(20, "a"), *asked(LATER)), late("should")
    ),
    "b's SESS_INIT arrived late, and a was silent for longer": (
        silence(*OPENED, Turn(20, "a"), *asked(85.1), until=90), late("must", until=90)
    ),
    "after another message": (
        silence(*ACKNOWLEDGED, Turn(1, "a", ALIVE), *asked(60), *asked(67), until=70),
        late("must", 1, 70, FIRST + 1),
    ),
    "no silence": (silence(*ACKNOWLEDGED, *asked(30), *asked(60), until=65.4), []),
}


def late_keepalives():
    """A silence is a must only if a had nothing to send, although TCP could have carried it."""
    for name, (turns, lines) in LATE.items():
        got = [line for line in rules(turns) if not line.startswith("b ")]
        yield f"capture --check: keepalive-late: {name}", lines, got


# ---- connections that ended early

DROPPED = {
    "an RST of b": [*OPENING, Turn(0.1, "a", HEADER), Turn(0.2, "b", flags=RST | ACK)],
    "an RST of b, after a SESS_INIT": [*OPENING, Turn(0.1, "a", HEADER + A), Turn(0.2, "b", flags=RST | ACK)],
    "an RST of b, which does not know the connection": [*OPENING, Turn(0.1, "a", HEADER + A), Turn(0.2, "b", flags=RST)],
    "both FIN": [
        *OPENING, Turn(0.1, "a", HEADER + A), Turn(0.2, "b", flags=FIN | ACK), Turn(0.3, "a", flags=FIN | ACK)
    ],
}


def checked(at, *connections):
    """Runs the script on several connections. Returns its status, its lines and what it reports."""
    write(f"{at}/capture", capture(*connections))
    return run(at, "capture", "--check", f"made{len(os.listdir(at))}", "capture")


def left_early():
    """A connection that ended before any byte of a side is counted, and breaks no rule."""
    text = "connections that ended before any byte of a side: "
    with empty_room() as at:
        for name, turns in DROPPED.items():
            got = checked(at, frames(turns))
            yield f"capture --check: left early: {name}", (0, "", noted(f"{text}1; stream 0")), got
        several = [*DROPPED.values(), [*ACKNOWLEDGED, *ended(1)], *DROPPED.values()]
        links = [Link((49152 + number, 1), (4556, 2)) for number in range(len(several))]
        got = checked(at, *(frames(turns, link) for turns, link in zip(several, links)))
        yield "capture --check: several left early", (0, "", noted(f"{text}8; streams 0-3, 5-8")), got
        sent = [*OPENING, Turn(0.1, "a", HEADER), Turn(0.2, "b", HEADER), Turn(0.3, "b", flags=RST | ACK)]
        got = checked(at, frames(sent))
        yield "capture --check: a byte was sent before the RST", (1, "stream 0 b 6 should reset\n", ""), got
        is_open = noted("stream 0 b: nothing was captured", "open at the end of the capture: stream 0")
        got = checked(at, frames([*OPENING, Turn(0.1, "a", HEADER + A)]))
        yield "capture --check: the connection is open", (3, "", is_open), got


# ---- the numbers of all packets


def drawn(draw):
    """Returns packets in any order: the offsets of their bytes, and what they acknowledge."""
    begins = [draw.randrange(-1, 60) for _ in range(draw.randrange(1, 30))]
    return [(begin, begin + draw.randrange(1, 15), draw.randrange(12)) for begin in begins]


def least(packets, offset):
    """Returns the least acknowledgement of the packets that have the byte at an offset, or None."""
    return min((count for begin, end, count in packets if begin <= offset < end), default=None)


def numbers():
    """Each byte has the least acknowledgement of its packets, in whatever order they were captured."""
    draw, wrong = random.Random(SEED), []
    for _ in range(1000):
        packets, arrived = drawn(draw), Arrived()
        for it in packets:
            arrived.add(*it)
        wrong += [packets for offset in range(80) if arrived.at(offset) != least(packets, offset)]
    yield "capture --check: the least acknowledgements of 1,000 sets of packets", [], wrong


PARTS = [numbers, early_answers, late_keepalives, left_early]

# The tools that a part needs.
TOOLS = {part: ["tshark"] for part in PARTS[1:]}
