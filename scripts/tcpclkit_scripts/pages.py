"""The page of a session: the frame that page/make makes, with the lines of its recordings."""

import base64
import html
import os
import subprocess
import sys
from typing import NamedTuple, Optional

from .paired import paired
from .pairing import line
from .running import FAULT, Failure

# The frame, from the folder of the script: where it is installed, and in the repository
PLACES = ["../share/tcpclkit/page/page.html", "../page/out/page.html"]
# Where the lines go
LINES = "<!-- lines -->"

# The greatest length of a recording whose bytes are in the page, and how many are read at once
MOST_BYTES, PIECE = 2 << 20, 3 << 15

# What the program says of a recording: the arguments, the stream that is kept, and a heading
RUNS = {
    "list": (["list"], "stdout", "Messages"),
    "unpack": (["unpack", "--keep-going"], "stderr", "Transfers"),
    "blocks": (["blocks", "--keep-going"], "stdout", "Blocks"),
    "check": (["check"], "stdout", "Broken rules"),
}
ENTITIES = [(b"&", b"&amp;"), (b"<", b"&lt;"), (b">", b"&gt;")]


class Recorded(NamedTuple):
    """A recording of a side: its path, that of its times, and how its side ended."""

    path: str
    times: Optional[str] = None
    end: Optional[str] = None


class Texts:
    """What is reported while a page is made, which the page shows: once, and without folders."""

    def __init__(self, paths):
        self.paths, self.texts = [it for it in paths if "/" in it], []

    def report(self, text, _status=0):
        """Takes a text."""
        text = str(text)
        for path in self.paths:
            text = text.replace(path, os.path.basename(path))
        if text not in self.texts:
            self.texts.append(text)


def frame():
    """Returns the frame: what comes before the lines, and what comes after them."""
    folder = os.path.dirname(os.path.realpath(sys.argv[0]))
    path = next(filter(os.path.isfile, (os.path.join(folder, it) for it in PLACES)), None)
    if path is None:
        raise Failure("the page is not found; page/make makes it, and ./install installs it")
    with open(path, encoding="utf-8") as it:
        before, _, after = it.read().partition(LINES)
    return before, after


def show(text):
    """Shows on a terminal how far the work is."""
    if sys.stderr.isatty():
        sys.stderr.write(f"\r\033[K{text}")
        sys.stderr.flush()


class Page:
    """A page that is written to a file of bytes."""

    def __init__(self, output, tcpclkit):
        self.output, self.tcpclkit = output, tcpclkit

    def put(self, text):
        """Writes markup."""
        self.output.write(text.encode("utf-8", "replace"))

    def text(self, name, heading, pieces):
        """Writes a part of the lines. What is in its pieces is text, and no markup."""
        self.put(f'<h4>{heading}</h4>\n<pre data-of="{name}">')
        for piece in pieces:
            for letter, entity in ENTITIES:
                piece = piece.replace(letter, entity)
            self.output.write(piece)
        self.put("</pre>\n")

    def run(self, name, path):
        """Writes what the program says of a recording. Returns the report of the fault, if any."""
        words, kept, heading = RUNS[name]
        show(f"{os.path.basename(path)}: {words[0]}")
        pipes = {"stdout": subprocess.DEVNULL, kept: subprocess.PIPE}
        pipes.setdefault("stderr", subprocess.PIPE if name == "list" else subprocess.DEVNULL)
        process = subprocess.Popen([self.tcpclkit, *words, "--", path], **pipes)
        pieces = iter(lambda: getattr(process, kept).read(PIECE), b"")
        self.text(name, f"{heading}: tcpclkit {' '.join(words)}", pieces)
        fault = process.stderr.read() if name == "list" else b""
        if process.wait() not in (0, 1, FAULT):
            why = fault.decode().strip() or f"tcpclkit ended with status {process.returncode}"
            raise Failure(f"{path}: {why}")
        return fault

    def side(self, name, recorded, is_alone):
        """Writes the lines of a recording."""
        path, times, end = recorded
        length, shown = os.path.getsize(path), html.escape(os.path.basename(path))
        ending = "" if end is None else f' data-end="{html.escape(end)}"'
        self.put(f'<section data-side="{name}" data-file="{shown}" data-length="{length}"{ending}>')
        self.put(f"\n<h3>Side {name}: {shown}, {length} bytes</h3>\n")
        fault = self.run("list", path)
        if fault:
            self.text("fault", "Fault", [fault])
        for it in ["unpack", "blocks", *(["check"] if is_alone else [])]:
            self.run(it, path)
        if times is not None:
            with open(times, "rb") as it:
                self.text("times", "Times", iter(lambda: it.read(PIECE), b""))
        if length <= MOST_BYTES:
            self.bytes(path)
        self.put("</section>\n")

    def bytes(self, path):
        """Writes the bytes of a recording, in base64."""
        self.put('<script type="text/plain" data-of="bytes">')
        with open(path, "rb") as it:
            for piece in iter(lambda: it.read(PIECE), b""):
                self.output.write(base64.b64encode(piece))
        self.put("</script>\n")

    def both(self, sides, closed, verdict):
        """Writes the lines of both recordings together."""
        paths = [it.path for it in sides]
        notes = Texts(paths)
        self.put(f'<section data-both data-closed="{closed}">\n<h3>Both sides</h3>\n')
        for name, (a, b) in (("a", paths), ("b", paths[::-1])):
            show(f"{os.path.basename(a)}: pair")
            names = closed if name == "a" else closed.translate(SWAPPED)
            lines = [line(*it) for it in paired(self.tcpclkit, a, b, names, notes)]
            self.text(f"pair-{name}", f"Answers to side {name}: tcpclkit-pair", spelled(lines))
        show("check-session")
        found = verdict()
        self.text("rules", "Broken rules: tcpclkit-check-session", spelled(found.shown()))
        for it in found.notes:
            notes.report(it)
        if notes.texts:
            self.text("notes", "Reports", spelled(notes.texts))
        self.put("</section>\n")

    def write(self, sides, closed="", verdict=None):
        """Writes the page of one recording, or of two and the verdict on both."""
        before, after = frame()
        self.put(before)
        for name, recorded in zip("ab", sides):
            self.side(name, recorded, len(sides) == 1)
        if len(sides) > 1:
            self.both(sides, closed, verdict)
        self.put(after)
        show("")


SWAPPED = str.maketrans("ab", "ba")


def spelled(lines):
    """Returns lines as bytes."""
    return [f"{line}\n".encode("utf-8", "replace") for line in lines]
