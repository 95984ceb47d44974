#!/usr/bin/env python3
"""Measures a run from start to end on a contact header: `bench/start.py [PROGRAM [ROUNDS]]`.

The program and `true` are started in turn, in the same way. The medians of their times are
compared. PROGRAM is by default the one that `./build` leaves in crates/tcpclkit/out.
"""

import os
import statistics
import sys
import tempfile
import time
from pathlib import Path

# RFC 9174 section 4.2: `dtn!`, version 4, flags 00
CONTACT = b"dtn!" + bytes([4, 0x00])
MOST = 3


def seconds(words):
    """Returns the time from the start of a program to its end, with its output to /dev/null."""
    start = time.perf_counter()
    process = os.posix_spawn(words[0], words, os.environ, file_actions=[(os.POSIX_SPAWN_OPEN, 1, os.devnull, os.O_WRONLY, 0)])
    _, status = os.waitpid(process, 0)
    if status != 0:
        sys.exit(f"{' '.join(words)} ended with {status}")
    return time.perf_counter() - start


def main():
    """Prints the ratio, and the size of the program."""
    built = Path(__file__).resolve().parent.parent / "crates/tcpclkit/out/tcpclkit"
    program = sys.argv[1] if len(sys.argv) > 1 else str(built)
    rounds = int(sys.argv[2]) if len(sys.argv) > 2 else 500
    if not os.access(program, os.X_OK):
        sys.exit(f"{program} is no program: build it first, by ./build")
    with tempfile.NamedTemporaryFile() as recording:
        recording.write(CONTACT)
        recording.flush()
        calls = [[program, "list", recording.name], ["/bin/true"]]
        times = [[seconds(words) for words in calls] for _ in range(rounds)]
    ours, others = (statistics.median(column) for column in zip(*times))
    print(f"start to end on a contact header, to `true`: {ours / others:.2f}, at most {MOST} wanted")
    print(f"the program's file: {os.path.getsize(program)} bytes")


if __name__ == "__main__":
    main()
