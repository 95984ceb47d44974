#!/usr/bin/env python3
"""Measures bundle scans and checks: `bench/scan.py [PROGRAM [ROUNDS]]`.

Each line is a ratio of user and system times, over 64 MiB each. They are taken in turn in the same
run. PROGRAM is by default the one that `rt run` leaves in crates/bench_scan/out.
"""

import os
import sys
from pathlib import Path

from measure import seconds

# the name of what is measured, a word of the program, the word that it is compared with, and the
# greatest ratio wanted
MEASURED = (
    ("crc16 in slices, to byte by byte", "crc16-slices", "crc16-bytes", 0.25),
    ("crc32 in slices, to byte by byte", "crc32-slices", "crc32-bytes", 0.25),
    ("a payload under crc32, to crc32 in slices", "scan", "crc32-slices", 1.15),
    ("a payload without a check, to crc32 in slices", "plain", "crc32-slices", 0.1),
    ("bundles of 200 bytes under crc32, to crc32 byte by byte", "bundles", "crc32-bytes", 0.8),
)


def main():
    built = Path(__file__).resolve().parent.parent / "crates/bench_scan/out/bench_scan"
    program = sys.argv[1] if len(sys.argv) > 1 else str(built)
    rounds = int(sys.argv[2]) if len(sys.argv) > 2 else 3
    if not os.access(program, os.X_OK):
        sys.exit(f"{program} is no program: build it first, by 'rt run' in crates/bench_scan")
    words = {word for _, one, other, _ in MEASURED for word in (one, other)}
    times = dict.fromkeys(words, 0.0)
    for _ in range(rounds):
        for word in words:
            times[word] += seconds([program, word])
    for name, one, other, most in MEASURED:
        print(f"{name}: {times[one] / times[other]:.2f}, at most {most} wanted")


if __name__ == "__main__":
    main()
