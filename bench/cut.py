#!/usr/bin/env python3
"""Measures a cutter: `bench/cut.py [PROGRAM [ROUNDS]]`.

The program pushes 64 MiB through Cutter::push_slice, in pieces of 4,096 bytes and with segments of
65,536 bytes. It copies the same pieces into a buffer of that size. It does each of these sixteen
times, and the ratio of the times is printed. PROGRAM is by default the one that `rt run -- cut`
left in crates/bench_cut/out.
"""

import os
import sys
from pathlib import Path

from measure import seconds


def main():
    built = Path(__file__).resolve().parent.parent / "crates/bench_cut/out/bench_cut"
    program = sys.argv[1] if len(sys.argv) > 1 else str(built)
    rounds = int(sys.argv[2]) if len(sys.argv) > 2 else 5
    if not os.access(program, os.X_OK):
        sys.exit(f"{program} is no program: build it first, by 'rt run -- cut' in crates/bench_cut")
    cut = copy = 0.0
    for _ in range(rounds):
        cut += seconds([program, "cut"])
        copy += seconds([program, "copy"])
    print(f"64 MiB in pieces of 4,096 bytes: {cut / copy:.2f} times copying them, at most 2 wanted")


if __name__ == "__main__":
    main()
