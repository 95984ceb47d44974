#!/usr/bin/env python3
"""Draws the chain of crates on which `./build` waits longest: `./build | bench/chain.py [CRATES]`.

No crate is proved before those that it uses. So a build takes at least as long as a chain of crates
in which each uses the one before it. The script reads what a first `./build` prints into a pipe or
a file, with the seconds of each crate, and prints a table of the longest chain, lowest first.
CRATES is the list of crates and what they use, by default crates.txt.
"""

import os
import re
import sys

TOP = os.path.dirname(os.path.dirname(os.path.realpath(__file__)))
LINE = re.compile(r"(\w+): (\d+) functions, (\d+) s\n?")


def read_uses(path):
    """Returns for each crate the words after its colon: the crates that it uses, and libraries."""
    with open(path, encoding="utf-8") as file:
        rows = [row.partition("#")[0].partition(":") for row in file]
    return {head.split()[0]: words.split() for head, colon, words in rows if colon}


def read_times(lines):
    """Returns the functions and the seconds of each crate that was built."""
    found = filter(None, map(LINE.fullmatch, lines))
    return {it[1]: (int(it[2]), int(it[3])) for it in found}


def longest(crate, uses, times, known):
    """Returns the seconds of the longest chain that ends with a crate, and the chain.

    Both are kept in `known`.
    """
    if crate not in known:
        lower = [longest(it, uses, times, known) for it in uses[crate] if it in times]
        seconds, chain = max(lower, key=lambda it: it[0], default=(0, []))
        known[crate] = seconds + times[crate][1], [*chain, crate]
    return known[crate]


def main():
    """Prints the table, and the sum of all crates beside that of the chain."""
    uses = read_uses(sys.argv[1] if len(sys.argv) > 1 else f"{TOP}/crates.txt")
    times = read_times(sys.stdin)
    if not times:
        sys.exit("no line has the seconds of a crate: `./build | bench/chain.py` with no crate built")
    known = {}
    total, chain = max((longest(it, uses, times, known) for it in times), key=lambda it: it[0])
    print("| Crate | Functions | Seconds | Seconds so far |\n|---|---|---|---|")
    for crate in chain:
        functions, seconds = times[crate]
        print(f"| `{crate}` | {functions} | {seconds} | {known[crate][0]} |")
    every = sum(seconds for _, seconds in times.values())
    print(f"\n{len(chain)} of {len(times)} crates take {total} of {every} seconds.")


if __name__ == "__main__":
    main()
