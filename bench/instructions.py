#!/usr/bin/env python3
"""Counts the instructions of tcpclkit: bench/instructions.py [OPTIONS].

The rows are those of bench/run.sh, over the same kinds of files, which are made here with fewer
bytes. callgrind (a tool of valgrind) counts the instructions outside the kernel. What a run takes
from start to end on a contact header, or for bundles on an empty input, is printed apart. The rest
is printed per byte of the file.

With --other, another program with the same command line is counted beside it. Then the last column
is the ratio of both numbers, with 0.5 added to each: the kernel takes about as much for a byte.

The numbers hardly vary from run to run, on a busy machine too. Times do, and are for run.sh.
"""

import argparse
import os
import re
import shutil
import subprocess
import sys
import tempfile
from pathlib import Path

sys.dont_write_bytecode = True

import make
from measure import MEASURED, has_failed

BUILT = Path(__file__).resolve().parent.parent / "crates/tcpclkit/out/tcpclkit"
MIB = 1 << 20

# What the kernel takes to copy a byte, in instructions of a program
KERNEL = 0.5


def counted(program, words, path):
    """Returns how many instructions a run takes. Its standard input is the file."""
    with tempfile.NamedTemporaryFile("r") as log, open(path, "rb") as given:
        valgrind = ["valgrind", "--tool=callgrind", "--callgrind-out-file=/dev/null"]
        run = subprocess.run(
            [*valgrind, f"--log-file={log.name}", program, *words],
            stdin=given, stdout=subprocess.DEVNULL, stderr=subprocess.DEVNULL,
        )
        found = re.search(r"Collected : (\d+)", log.read())
    if has_failed(words, run.returncode) or not found:
        sys.exit(f"{program} {' '.join(words)}: it ended with {run.returncode}, or was not counted")
    return int(found[1])


def row(numbers):
    """Returns the columns of numbers per byte. With two of them, their ratio is the third."""
    columns = [f"{number:8.3f}" for number in numbers]
    if len(numbers) > 1:
        columns.append(f"{(numbers[0] + KERNEL) / (numbers[1] + KERNEL):8.2f}")
    return "".join(columns)


def measure(programs, folder, only):
    """Counts each row whose command or file has the text `only`, and prints it."""
    starts = {}
    print("instructions a byte:")
    print("".join(f"{name:>8}" for name in ("program", "other", "ratio")[: 3 * len(programs) - 2]))
    for least, content in (("least.tcpcl", make.CONTACT), ("least.bundles", b"")):
        (folder / least).write_bytes(content)
    for command, name, what, *_ in MEASURED:
        if only not in f"{command} {name}":
            continue
        words, path = command.split(), folder / name
        least = folder / f"least{path.suffix}"
        tool = command if "--bundles" in words else words[0]
        if tool not in starts:
            starts[tool] = [counted(it, words, least) for it in programs]
        counts = [counted(it, words, path) for it in programs]
        size = path.stat().st_size - least.stat().st_size
        numbers = [(count - start) / size for count, start in zip(counts, starts[tool])]
        print(f"{row(numbers)}  {command}, {what}", flush=True)
    print("millions of instructions from start to end:")
    for tool, counts in starts.items():
        columns = "".join(f"{count / 1e6:8.3f}" for count in counts)
        print(f"{columns}  {tool}")


def read_words():
    """Reads the command line."""
    words = argparse.ArgumentParser(
        description=__doc__, formatter_class=argparse.RawDescriptionHelpFormatter
    )
    words.add_argument("--program", default=os.path.relpath(BUILT), help="default: the one that was built")
    words.add_argument("--other", metavar="PROGRAM", help="another program, which is counted beside it")
    words.add_argument("--size", type=int, default=2, metavar="MIB", help="the size of each file, 2 MiB by default")
    words.add_argument("--only", default="", metavar="TEXT", help="only rows whose command or file has this text")
    return words.parse_args()


def main():
    """Makes the files, and counts."""
    given = read_words()
    programs = [given.program] + ([given.other] if given.other else [])
    for program in (*programs, "valgrind"):
        if not shutil.which(program):
            sys.exit(f"{program} is no program on this machine")
    with tempfile.TemporaryDirectory(prefix="instructions-") as folder:
        make.write(Path(folder), given.size * MIB, given.size * MIB)
        measure(programs, Path(folder), given.only)


if __name__ == "__main__":
    main()
