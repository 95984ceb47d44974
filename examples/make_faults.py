#!/usr/bin/env python3
"""Makes the streams of faults/ and a table of them: `python3 faults.py [FOLDER]`.

A stream has a fault of docs/FORMATS.md, or breaks a rule of `tcpclkit check`, or just keeps one.
The streams are those of tests/python/rows, where the lines of `check` were worked out by hand. The
table has what the model of tests/python/model says of them, and nothing from the program. Only
python's standard library is used.
"""

import re
import sys
from pathlib import Path
from typing import NamedTuple

TOP = Path(__file__).resolve().parent.parent

sys.path.insert(0, str(TOP / "tests/python"))

from model import checking, tools
from rows import corpus, faults

TABLE = "expected"
COLUMNS = "file shows kind rfc options list-status list unpack-status unpack check-status check".split()

# What divides the lines in a cell, which has no other space before `|`, and an empty cell
LINES, NOTHING = " | ", "-"


class Stream(NamedTuple):
    """A stream of the folder: the name of its file, what it shows, its kind, and the RFC and section.

    `options` are those of `check`. The kind is a word that the help of scripts/faults explains.
    """
    file: str
    shows: str
    kind: str
    rfc: str
    content: bytes
    options: dict


def sections():
    """The RFC and the sections of each rule of `check`, by the tables of docs/FORMATS.md."""
    found, rfc = {}, ""
    for line in (TOP / "docs" / "FORMATS.md").read_text(encoding="utf-8").splitlines():
        rule, level, where, *_ = [cell.strip() for cell in line.split("|")[1:4]] + [""] * 3
        if (rule, level) == ("Rule", "Level"):
            rfc = where.replace("RFC", "").strip()
        elif level.startswith(("must", "should")):
            found[rule.strip("`")] = where if re.match(r"\d{4} ", where) else f"{rfc} {where}"
    return found


def of_faults():
    """The streams with a fault of the wire, of the order of messages, or of a bundle."""
    for it in faults.ALL:
        group, name = it.name.split("-", 1)
        shows = name.split("-")[0] if group == "bundle" else name
        yield Stream(f"{it.name}.tcpcl", shows, it.kind, it.rfc, it.content, {})


def of_rules():
    """For each rule of `check` and each cause, a stream that breaks it alone, and one that just keeps it."""
    named = sections()
    for it in corpus.pairs():
        level, kept = it.lines[0].split(" ")[1], "answer" if it.is_answer else "kept"
        for word, kind, content in [("rule", level, it.broken), ("keeps", kept, it.kept)]:
            yield Stream(f"{word}-{it.name}.tcpcl", it.rule, kind, named[it.rule], content, it.options)


def words(options):
    """Options as words of the command line."""
    return " ".join(f"--{name.replace('_', '-')} {value}" for name, value in options.items())


def cells(*results):
    """The two cells of a tool: its status, and its lines, as (lines, .., status)."""
    *texts, status = results
    return [str(status), LINES.join(b"".join(texts).decode().splitlines()) or NOTHING]


def row(it):
    """The row of a stream: what it is, and what `list` and `unpack` report and `check` writes."""
    reports = [tools.listing(it.content)[1:], tools.unpacking(it.content)[1:]]
    said = [*reports, checking.checking(it.content, **it.options)]
    what = [it.file, it.shows, it.kind, it.rfc, words(it.options) or NOTHING]
    return [*what, *(cell for result in said for cell in cells(*result))]


def files():
    """The content of each file by its name."""
    streams = [*of_faults(), *of_rules()]
    table = "".join("\t".join(it) + "\n" for it in [COLUMNS, *map(row, streams)])
    return {**{it.file: it.content for it in streams}, TABLE: table.encode()}


def main():
    folder = Path(sys.argv[1]) if len(sys.argv) > 1 else TOP / "examples" / "faults"
    folder.mkdir(exist_ok=True)
    for name, content in files().items():
        (folder / name).write_bytes(content)


if __name__ == "__main__":
    main()
