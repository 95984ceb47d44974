"""Tests of scripts/capture --check. The lines were worked out by hand from docs/SESSIONS.md.

A turn is a side and the data of its packet. In a line, `{b3}` is the offset of turn 3 of side b,
counted from 0, and `{b-end}` the length of its recording.
"""

import os
import sys
from typing import NamedTuple

from capture import ACK, CLOSING, FIN, PSH, RESET, RST, ends, frames, pcap

from .common import PROGRAM, TOP, empty_room, read, run, write

sys.path[:0] = [f"{TOP}/tests/python"]

from rows.sessions import A, ACKED, ALIVE, B, DATA, HEADER, REPLIED, TERM, Pair, acked, first, init, last, whole

# The turns that open a session, a transfer that is acknowledged, and what ends a session
OPENED = [("a", HEADER), ("b", HEADER), ("a", A), ("b", B)]
SENT = [("a", whole()), ("b", acked())]
ENDED = [("a", TERM), ("b", REPLIED)]

# How a connection may be closed
B_ALONE = [("b", FIN | ACK, b"", 1)]
B_THEN_DATA = [*B_ALONE, ("a", PSH | ACK, whole() + REPLIED, 1), ("a", FIN | ACK, b"", 1)]
ANSWER_OF_NONE = [("b", RST, b"", 1)]
B_TWICE = [*B_ALONE, ("b", RST | ACK, b"", 1)]
BOTH_RESET = [*RESET, ("a", RST | ACK, b"", 1)]


# The program, without the option --own: its value is noted
NOTING = """#!/usr/bin/env python3
import os, sys
words = sys.argv[1:]
if "--own" in words:
    at = words.index("--own")
    with open("{at}/nodes", "a") as it:
        it.write(words[at + 1] + "\\n")
    del words[at : at + 2]
os.execv("{program}", ["tcpclkit", *words])
"""


class Row(NamedTuple):
    """A session: its turns, the lines, how it is closed, and the packets that the capture lacks."""

    turns: list
    lines: list = []
    closing: list = CLOSING
    missing: tuple = ()

    def capture(self):
        """Returns the capture."""
        made = frames([(side, data, 1) for side, data in self.turns], closing=self.closing)
        return pcap([it for number, it in enumerate(made) if number not in self.missing])

    def shown(self):
        """Returns the lines as they are written."""
        sides = [[data for side, data in self.turns if side == name] for name in "ab"]
        return [f"stream 0 {line}\n" for line in Pair(*sides, self.lines).shown()]


# The rules that need a capture. The first three packets open the connection.
RULES = {
    "contact-order": Row([OPENED[1], OPENED[0], *OPENED[2:], *SENT, *ENDED], ["b 0 must contact-order seen=0"]),
    "contact-order: a part has come": Row(
        [("a", HEADER[:5]), ("b", HEADER), ("a", HEADER[5:] + A), ("b", B), *ENDED],
        ["b 0 must contact-order seen=5"],
    ),
    "unanswered-at-close": Row(
        [*OPENED, ("a", whole()), ("b", TERM), ("a", REPLIED)],
        ["b {b-end} should unanswered-at-close id=0 peer-at={a2}"],
    ),
    "reset": Row([*OPENED, *SENT, *ENDED], ["b {b-end} should reset"], RESET),
    "reset: no SESS_TERM": Row([*OPENED, *SENT], ["b {b-end} should reset"], RESET),
}

# What a capture shows beside two recordings: that a side has sent all, and when
SHOWN = {
    "a SESS_TERM without an answer": Row(
        [*OPENED, *SENT, ("a", TERM)], ["b {b-end} should term-unanswered peer-at={a3}"]
    ),
    "a transfer that is left open": Row(
        [*OPENED, ("a", first()), ("b", ACKED[0])], ["a {a2} should unfinished transfer=0 length=%d" % (len(DATA) // 2)]
    ),
    "acknowledgements of TCP": Row(
        [*OPENED, ("b", acked()), ("a", ALIVE), ("a", ALIVE), ("a", whole()), *ENDED],
        ["b {b2} must ack-early id=0 seen=%d peer-at={a4}" % len(HEADER + A)],
    ),
    "a limit of 0": Row(
        [("a", HEADER), ("b", HEADER), ("a", A), ("b", init(b"ipn:2.0", segment=0)), *SENT, *ENDED],
        ["a {a2} must peer-segment length=%d limit=0" % len(DATA)],
    ),
}

# Nobody is accused.
SILENT = {
    "all is kept": Row([*OPENED, *SENT, *ENDED]),
    "a refused transfer may be left": Row([*OPENED, *SENT, *ENDED], closing=B_ALONE),
    "who connected is not in the capture": Row(RULES["contact-order"].turns, missing=(0, 1, 2)),
    "the segment came after the FIN": Row([*OPENED, ("b", TERM)], closing=B_THEN_DATA),
    "the connection is open": Row([*OPENED, ("a", whole()), ("a", TERM), ("b", REPLIED)], closing=[]),
    "an answer after a SESS_TERM is missing": Row(
        [*OPENED, ("a", whole()), ("a", TERM), ("b", REPLIED), ("b", acked())], missing=(10,)
    ),
    "an answer before a gap is missing": Row(
        [*OPENED, ("a", whole()), ("a", whole(1)), ("b", acked()), ("b", acked(1)), *ENDED], missing=(9,)
    ),
    "the RST answers a packet": Row([*OPENED, *SENT, *ENDED], closing=ANSWER_OF_NONE),
    "the RST comes after a FIN": Row([*OPENED, *SENT, *ENDED], closing=B_TWICE),
    "both sent an RST": Row([*OPENED, *SENT, *ENDED], closing=BOTH_RESET),
    "the other side sent the RST": Row([*OPENED, *SENT, ("a", TERM)], closing=[("a", RST, b"", 1)]),
}


def rules_of(at, content):
    """Runs the script on a capture. Returns its status, and its lines of rules."""
    write(f"{at}/capture", content)
    status, shown, _ = run(at, "capture", "--check", f"made{len(os.listdir(at))}", "capture")
    return status, [line for line in shown.splitlines(True) if " transfer " not in line]


def rows():
    """What a capture shows is judged, and nobody is accused by what it lacks."""
    with empty_room() as at:
        for name, row in {**RULES, **SHOWN}.items():
            yield f"capture --check: {name}", (1, row.shown()), rules_of(at, row.capture())
        for name, row in SILENT.items():
            yield f"capture --check: {name}", [], rules_of(at, row.capture())[1]


def several():
    """The sessions of a capture have their lines in order, and the status is the highest."""
    broken = RULES["reset"]
    made = []
    for port in (49152, 49153, 49154):
        closing = CLOSING if port == 49153 else RESET
        turns = [(side, data, 1) for side, data in broken.turns]
        made += frames(turns, ends(port=port), closing)
    wanted = [line.replace("stream 0", f"stream {number}") for number in (0, 2) for line in broken.shown()]
    with empty_room() as at:
        yield "capture --check: three sessions", (1, wanted), rules_of(at, pcap(made))
        status, shown, _ = run(at, "capture", "without", "capture")
        yield "capture: no rules", (0, []), (status, [it for it in shown.splitlines() if " must " in it])


def own():
    """`check` gets the node of each side's first SESS_INIT. A side that names none is named."""
    nameless = [("a", HEADER), ("b", HEADER), ("a", A), ("b", init(b"dtn:none")), *ENDED]
    cases = {"of both": ([*OPENED, *SENT, *ENDED], ["ipn:1.0", "ipn:2.0"], ""), "of a": (nameless, ["ipn:1.0"], "b")}
    told = "tcpclkit-capture: stream 0 b: the first SESS_INIT names no node, so bundles of all nodes are judged\n"
    with empty_room() as at:
        for name, (turns, nodes, who) in cases.items():
            write(f"{at}/noting", NOTING.format(at=at, program=PROGRAM).encode(), 0o755)
            write(f"{at}/capture", Row(turns).capture())
            words = ["--tcpclkit", "noting", "--check", "--own", f"made {name}", "capture"]
            errors = run(at, "capture", *words)[2]
            got = read(f"{at}/nodes").decode().split()
            yield f"capture --check --own: {name}", (nodes, told if who else ""), (sorted(got), errors)
            os.remove(f"{at}/nodes")
        yield "capture --own", 2, run(at, "capture", "--own", "made", "capture")[0]


TOOLS = {part: ["tshark"] for part in (rows, several, own)}
PARTS = [rows, several, own]
