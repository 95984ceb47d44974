"""What scripts/both_sides says of two recordings, in this process.

It starts `tcpclkit list` and `check` for each recording. Here it may get what the model of
tests/python/model says instead, which takes no process. Everything else is its own code.
"""

import io
import os
import sys
import tempfile
from typing import NamedTuple

from model import checking, wire

TOP = os.path.dirname(os.path.dirname(os.path.dirname(os.path.dirname(os.path.abspath(__file__)))))
sys.path.append(f"{TOP}/scripts")

from both_sides import facts, judging

PROGRAM = os.environ.get("TCPCLKIT", f"{TOP}/crates/tcpclkit/out/tcpclkit")
FOLDER = "/dev/shm" if os.path.isdir("/dev/shm") else None

# Names of reasons mean nothing to the judge
NAME = "?"


def items_of(items):
    """ITEMS of a line."""
    return "".join([f" items={len(items)}", *(f" item={it.flags:02x}:{it.kind:04x}:{len(it.value)}" for it in items)])


def escaped(node):
    """A node ID as escaped text."""
    return "".join(chr(it) if 0x21 <= it <= 0x7E and it != 0x5C else f"\\x{it:02x}" for it in node)


LINES = {
    wire.SessInit: lambda it: f"sess-init keepalive={it.keepalive} segment-mru={it.segment_mru} "
                              f"transfer-mru={it.transfer_mru} node={escaped(it.node)}{items_of(it.items)}",
    wire.Segment: lambda it: f"xfer-segment flags={it.flags:02x} id={it.id}"
                             f"{'' if it.items is None else items_of(it.items)} length={it.length}",
    wire.Ack: lambda it: f"xfer-ack flags={it.flags:02x} id={it.id} length={it.length}",
    wire.Refuse: lambda it: f"xfer-refuse reason={it.reason:02x}/{NAME} id={it.id}",
    wire.Keepalive: lambda it: "keepalive",
    wire.SessTerm: lambda it: f"sess-term flags={it.flags:02x} reason={it.reason:02x}/{NAME}",
    wire.Reject: lambda it: f"msg-reject reason={it.reason:02x}/{NAME} header={it.header:02x}",
}


def listing(content):
    """The lines of `list`, its fault line, and its status (docs/FORMATS.md, "Report lines")."""
    read = wire.reading(content)
    lines = [] if read.contact is None else [f"0 contact version=4 flags={read.contact:02x}"]
    lines += [f"{at} {LINES[type(it)](it)}" for at, it in read.messages if not wire.is_cut(it)]
    report = [f"tcpclkit: byte {read.fault[0]}: {read.fault[1]}"] if read.fault else []
    return lines, report, 3 if read.fault else 0


class Model:
    """A run of `tcpclkit list` or `check` as subprocess.Popen shows it, made by the model."""

    def __init__(self, words, **_):
        with open(words[-1], "rb") as file:
            content = file.read()
        if words[1] == "list":
            lines, report, self.returncode = listing(content)
        else:
            limits = {words[at][2:].replace("-", "_"): int(words[at + 1]) for at in range(2, len(words) - 2, 2)}
            shown, reported, self.returncode = checking.checking(content, **limits)
            lines, report = shown.decode().splitlines(), reported.decode().splitlines()
        self.stdout = io.StringIO("".join(f"{it}\n" for it in lines))
        self.stderr = io.StringIO("".join(f"{it}\n" for it in report))

    def __enter__(self):
        return self

    def __exit__(self, *_):
        self.stdout.close()
        self.stderr.close()

    def kill(self):
        """Ends the run."""


class Pipes:
    """The module subprocess, as far as the judge uses it."""
    PIPE, Popen = None, Model


SUBPROCESS = facts.subprocess

# Is called with the recordings, times, closed sides and lines of each pair that is judged
observer = None


class Line(NamedTuple):
    """A line of the judge."""
    side: str
    offset: int
    level: str
    rule: str
    words: str

    def __str__(self):
        return f"{self.side} {self.offset} {self.level} {self.rule} {self.words}".rstrip()


def write(path, content):
    """Writes a file."""
    with open(path, "wb") as file:
        file.write(content)


def judged(recordings, times=None, closed="", by_program=False):
    """The lines of both sides. `times` are texts of files of times."""
    facts.subprocess = SUBPROCESS if by_program else Pipes
    with tempfile.TemporaryDirectory(dir=FOLDER) as at:
        paths, clocks = [f"{at}/a", f"{at}/b"], [f"{at}/a.times", f"{at}/b.times"]
        for path, content in zip(paths, recordings):
            write(path, content)
        for path, text in zip(clocks, times or ()):
            write(path, text.encode())
        verdict = judging.judged(PROGRAM, paths, clocks if times else None, closed)
    found = [Line(name, it.offset, it.level, it.rule, it.words) for name, lines in verdict.lines for it in lines]
    if observer:
        observer(recordings, times, closed, found)
    return found
