"""Tests of scripts/page, and of the pages of scripts/capture. tests/gate/browser opens pages."""

import base64
import json
import os
import pty
import re
import shutil
import subprocess
from html.parser import HTMLParser

from model import checking

from .common import PROGRAM, TOP, empty_room, install, read, run, write

EXAMPLES = f"{TOP}/examples"
SESSIONS = f"{EXAMPLES}/faults/sessions"
FRAME = f"{TOP}/page/out/page.html"
BOTH = [f"{EXAMPLES}/session-a.tcpcl", f"{EXAMPLES}/session-b.tcpcl"]
LARGEST = 2 << 20


class Rules(HTMLParser):
    """The rules of a page: the texts of their cells, by the sides that they need, name and part."""

    def __init__(self, text):
        super().__init__()
        self.rule, self.part, self.cells, self.sentences = None, None, {}, {}
        self.feed(text.partition('<details id="rules">')[2])

    def handle_starttag(self, tag, attributes):
        found = dict(attributes)
        if "data-rule" in found:
            self.rule, self.part = (found["data-sides"], found["data-rule"]), None
            self.cells[self.rule], self.sentences[self.rule] = {}, []
        if self.rule and tag == "td":
            self.part = found.get("data-part", "level")
            self.cells[self.rule][self.part] = ""
        if self.rule and tag == "blockquote":
            self.sentences[self.rule].append("")

    def handle_endtag(self, tag):
        self.rule = None if tag == "tr" else self.rule

    def handle_data(self, data):
        if self.rule and self.part and data.strip():
            self.cells[self.rule][self.part] += data
            if self.part == "quotes":
                self.sentences[self.rule][-1] += data


class Lines(HTMLParser):
    """The parts of the lines of a page: their texts by side and name, and the names of elements."""

    def __init__(self, text):
        super().__init__()
        self.side, self.name, self.parts, self.files, self.elements = None, None, {}, {}, set()
        self.feed(text.partition('<details id="lines"')[2].partition('<details id="rules">')[0])

    def handle_starttag(self, tag, attributes):
        found = dict(attributes)
        self.elements.add(tag)
        if tag == "section":
            self.side = found.get("data-side", "both")
            self.files[self.side] = found.get("data-file")
        if "data-of" in found:
            self.name = found["data-of"]
            self.parts[self.side, self.name] = ""

    def handle_endtag(self, tag):
        self.name = None if tag in ("pre", "script") else self.name

    def handle_data(self, data):
        if self.name:
            self.parts[self.side, self.name] += data


def made(at, *words):
    """Returns the lines of the page that the script makes."""
    status, text, errors = run(at, "page", *words)
    return (status, errors), Lines(text)


def said(*words):
    """Returns the output and the report of the program."""
    ended = subprocess.run([PROGRAM, *words], capture_output=True, encoding="latin-1")
    return ended.stdout, ended.stderr


def one_recording():
    """The page of a recording has what the program writes of it, and its bytes."""
    with empty_room() as at:
        for name in ("every-block", "order-faults", "faults/rule-contact-flags"):
            path = f"{EXAMPLES}/{name}.tcpcl"
            ended, lines = made(at, path)
            wanted = {
                "list": said("list", path)[0], "unpack": said("unpack", "--keep-going", path)[1],
                "blocks": said("blocks", "--keep-going", path)[0], "check": said("check", path)[0],
                "bytes": base64.b64encode(read(path)).decode(),
            }
            yield f"page {name}", (0, ""), ended
            yield f"page {name}: its parts", {("a", it): text for it, text in wanted.items()}, lines.parts


def two_recordings():
    """That of two recordings has what the scripts write of both, the times and the ends."""
    with empty_room() as at:
        ended, lines = made(at, *BOTH)
        yield "page of two", (0, ""), ended
        for name, paths in (("a", BOTH), ("b", BOTH[::-1])):
            yield f"page of two: the answers to {name}", run(at, "pair", *paths)[1], lines.parts["both", f"pair-{name}"]
        yield "page of two: the rules", run(at, "check-session", *BOTH)[1], lines.parts["both", "rules"]
        yield "page of two: the reports", True, "answers to no transfer" in lines.parts["both", "notes"]
        yield "page of two: no rules of one side", [], [it for it in lines.parts if it[1] == "check"]
        stem = f"{SESSIONS}/rule-idle"
        paths, times = [f"{stem}-{it}.tcpcl" for it in "ab"], [f"{stem}-{it}.times" for it in "ab"]
        ended, lines = made(at, "--times", *times, *paths)
        got = [lines.parts[it, "times"].encode() for it in "ab"]
        yield "page --times", ((0, ""), list(map(read, times))), (ended, got)
        yield "page --times: the rules", run(at, "check-session", "--times", *times, *paths)[1], lines.parts["both", "rules"]
        closed = ["--closed", "ab", *[f"{SESSIONS}/rule-term-unanswered-{it}.tcpcl" for it in "ab"]]
        _, lines = made(at, *closed)
        yield "page --closed: the rules", run(at, "check-session", *closed)[1], lines.parts["both", "rules"]


def faults_and_sizes():
    """A fault is in the page. The bytes of a large recording are not, and an empty one has a page."""
    with empty_room() as at:
        write(f"{at}/cut", read(BOTH[0])[:50])
        write(f"{at}/empty", b"")
        write(f"{at}/large", read(BOTH[0])[:38] + b"\x04" * LARGEST)
        for name in ("cut", "empty"):
            ended, lines = made(at, name)
            yield f"page {name}", ((0, ""), said("list", f"{at}/{name}")[1]), (ended, lines.parts["a", "fault"])
        ended, lines = made(at, "large")
        yield "page large", ((0, ""), False, 2 + LARGEST), (ended, ("a", "bytes") in lines.parts, lines.parts["a", "list"].count("\n"))


def hostile_names():
    """What is in a recording or in the name of a file is never markup."""
    with empty_room() as at:
        node = b"<script>alert(1)</script>&lt;\"'" + bytes(range(256))
        head = b"dtn!\x04\x00\x07" + bytes(18) + len(node).to_bytes(2, "big") + node + bytes(4)
        name = "<img src=x onerror=alert(1)>&amp;\"'"
        write(f"{at}/{name}", head)
        ended, lines = made(at, name)
        yield "page: a hostile recording", (0, ""), ended
        yield "page: its file name", name, lines.files["a"]
        yield "page: its lines", said("list", f"{at}/{name}")[0], lines.parts["a", "list"]
        yield "page: its elements", {"summary", "h2", "h3", "h4", "section", "pre", "script"}, lines.elements


def outputs():
    """The page goes to a file with -o. What cannot be read or written is reported."""
    with empty_room() as at:
        _, text, _ = run(at, "page", BOTH[0])
        yield "page -o", (0, "", ""), run(at, "page", "-o", "made.html", BOTH[0])
        yield "page -o: the file", text, read(f"{at}/made.html").decode()
        status, _, errors = run(at, "page", "none.tcpcl")
        yield "page: no recording", (4, True), (status, "none.tcpcl: No such file" in errors)
        wanted = (4, "", "tcpclkit-page: none/made.html: No such file or directory\n")
        yield "page: no folder", wanted, run(at, "page", "-o", "none/made.html", BOTH[0])
        wanted = (4, "", "tcpclkit-page: No space left on device\n")
        yield "page: a full device", wanted, run(at, "page", "-o", "/dev/full", BOTH[0])
        for words in ([*BOTH, BOTH[0]], ["-"], ["--times", "a", "b", BOTH[0]]):
            yield f"page {words}", 2, run(at, "page", *words)[0]


def on_a_terminal():
    """On a terminal, the script shows how far it is."""
    with empty_room() as at:
        ours, theirs = pty.openpty()
        script = [f"{TOP}/scripts/page", "--tcpclkit", PROGRAM, "-o", f"{at}/made.html", *BOTH]
        status = subprocess.run(script, stderr=theirs).returncode
        os.close(theirs)
        shown = os.read(ours, 1 << 16).decode()
        os.close(ours)
        wanted = ["session-a.tcpcl: list", "session-b.tcpcl: blocks", "session-a.tcpcl: pair", "check-session"]
        yield "page on a terminal", (0, []), (status, [it for it in wanted if it not in shown])


def installed():
    """The installed script finds the frame. Without it, it writes nothing."""
    with empty_room() as at:
        install(f"{at}/prefix", "page")
        script = f"{at}/prefix/bin/tcpclkit-page"
        status, text, errors = run(at, script, "--tcpclkit", PROGRAM, BOTH[0])
        yield "page: no frame", (4, "", True), (status, text, "the page is not found" in errors)
        os.makedirs(f"{at}/prefix/share/tcpclkit/page")
        shutil.copy(FRAME, f"{at}/prefix/share/tcpclkit/page/page.html")
        wanted = run(at, "page", BOTH[0])
        yield "page: installed", wanted, run(at, script, "--tcpclkit", PROGRAM, BOTH[0])


def of_a_capture():
    """capture --page writes the page of a session, with its times and the rules of a capture."""
    with empty_room() as at:
        run(at, "capture", "--page", "--check", "made", f"{EXAMPLES}/session.pcap")
        lines = Lines(read(f"{at}/made/0000.html").decode())
        _, shown, _ = run(at, "capture", "--check", "other", f"{EXAMPLES}/session.pcap")
        rules = [it.partition("stream 0 ")[2] for it in shown.splitlines() if " transfer " not in it]
        yield "capture --page: the rules", rules, lines.parts["both", "rules"].splitlines()
        for side in "ab":
            yield f"capture --page: the times of {side}", read(f"{at}/made/0000-{side}.times").decode(), lines.parts[side, "times"]


def all_rules():
    """Each rule of the documents has its sentence, its sections, advice, and a sentence of each section."""
    rules = Rules(read(FRAME).decode())
    yield "page: rules of one side and of two", (True, True), tuple(sum(sides == it for sides, _ in rules.cells) > 30 for it in ("one", "two"))
    lacking = [(name, part) for name, cells in rules.cells.items() for part in ("level", "section", "binds", "sentence", "advice", "quotes") if not cells.get(part)]
    yield "page: each rule has all parts, and `bundle` has the sentences of its fault", [(("one", "bundle"), "quotes")], lacking
    codes = re.findall(r'<td data-quotes="B\d+">(<blockquote>)?', read(FRAME).decode())
    yield "page: each fault of a bundle has its sentences", (17, True), (len(codes), all(codes))
    written = read(f"{TOP}/docs/FORMATS.md").partition(b"\n## Broken rules\n")[2].partition(b"\n## ")[0] + read(f"{TOP}/docs/SESSIONS.md")
    spans = [it for it in re.findall("`([^`]*)`", written.decode()) if it.startswith(" ")]
    words = {word for span in spans for word in re.findall(" ([a-z-]+)=", span)}
    known = re.findall(r'^  "(?:[a-z-]+ )?([a-z-]+)":', read(f"{TOP}/page/script/words.js").decode(), re.MULTILINE)
    yield "page: each word of a rule has a meaning", (True, set()), (len(words) > 30, words - set(known))
    of_two = {name: cells for name, cells in rules.cells.items() if name[0] == "two" and ("one", name[1]) not in rules.cells}
    wrong = []
    for name, cells in of_two.items():
        listed = re.findall(r"\d+(?:\.\d+)*", cells["section"].partition(": ")[2])
        quoted = [re.match(r"RFC \d+, ([\d.]+): ", it)[1] for it in rules.sentences[name]]
        if not set(listed) <= set(quoted):
            wrong.append((name, listed, quoted))
    yield "page: each section of a rule of two sides has a sentence", [], wrong


def changed_lines():
    """The page knows each rule whose lines of `check` check-session changes, by docs/SESSIONS.md."""
    written = read(f"{TOP}/docs/SESSIONS.md").decode()
    changes = written.partition("Some lines of `check` change:\n")[2].partition("\n- If both")[0]
    changes += written.partition("The recording itself also gets no ")[2].partition(". Of the rules")[0]
    named = {it.name for it in checking.RULES}.intersection(re.findall("`([a-z-]+)`", changes))
    script = read(f"{TOP}/page/script/session.js").decode()
    lists = re.findall(r"^const OF_(?:BOTH|BEGINNING) = (\[[^]]*\]);$", script, re.MULTILINE)
    known = {name for it in lists for name in json.loads(it)} | {"peer-segment", "peer-transfer"}
    yield "page: the lines of `check` that change", (2, known), (len(lists), named)


PARTS = [
    all_rules, changed_lines, one_recording, two_recordings, faults_and_sizes, hostile_names, outputs, on_a_terminal,
    installed, of_a_capture,
]
TOOLS = {of_a_capture: ["tshark"]}
