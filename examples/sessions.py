#!/usr/bin/env python3
"""Makes the pairs of recordings of faults/sessions and a table of them: `python3 sessions.py [FOLDER]`.

For each rule of two sides of docs/FORMATS.md, a pair breaks it, and another one just keeps it. The
pairs and their lines are those of tests/python/rows, where they were worked out by hand. Only
python's standard library is used.
"""

import sys
from pathlib import Path

TOP = Path(__file__).resolve().parent.parent

sys.path.insert(0, str(TOP / "tests/python"))

from rows.sessions import RULES

TABLE = "expected"
COLUMNS = "pair shows kind rfc options status lines".split()

# What divides the lines in a cell, and an empty cell
LINES, NOTHING = " | ", "-"


def sections():
    """The section of RFC 9174 of each rule of two sides, by the table of docs/FORMATS.md."""
    text = (TOP / "docs" / "SESSIONS.md").read_text(encoding="utf-8").partition("\n## Rules of a session\n")[2]
    rows = [[cell.strip() for cell in line.split("|")[1:3]] for line in text.partition("\n## ")[0].splitlines()]
    named = [cells for cells in rows if cells and cells[0].startswith("`")]
    return {rule.strip("` "): where for names, where in named for rule in names.split(",")}


def pairs():
    """Each pair by its name, with its rule and whether it keeps it."""
    for rule, (breaking, keeping) in RULES.items():
        yield f"rule-{rule}", rule, breaking, False
        yield f"keeps-{rule}", rule, keeping, True


def row(name, rule, pair, is_kept):
    """The row of a pair in the table."""
    lines = pair.shown()
    kind = "kept" if is_kept else next(line.split(" ")[2] for line in lines if line.split(" ")[3] == rule)
    options = pair.options.split() + (["--times", f"{name}-a.times", f"{name}-b.times"] if pair.times else [])
    cells = [" ".join(options) or NOTHING, str(pair.status), LINES.join(lines) or NOTHING]
    return [name, rule, kind, f"9174 {sections()[rule]}", *cells]


def files():
    """The content of each file by its name."""
    found = {}
    for name, _, pair, _ in pairs():
        for side, content in zip("ab", pair.recordings()):
            found[f"{name}-{side}.tcpcl"] = content
        for side, content in zip("ab", pair.captured()):
            found[f"{name}-{side}.times"] = content
    table = "".join("\t".join(it) + "\n" for it in [COLUMNS, *(row(*it) for it in pairs())])
    return {**found, TABLE: table.encode()}


def main():
    folder = Path(sys.argv[1]) if len(sys.argv) > 1 else TOP / "examples" / "faults" / "sessions"
    folder.mkdir(exist_ok=True)
    for name, content in files().items():
        (folder / name).write_bytes(content)


if __name__ == "__main__":
    main()
