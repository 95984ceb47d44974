#!/usr/bin/env python3
"""Measures how many lines a second tcpclkit-json writes: `bench/lines.py [ROUNDS]`.

The lines are those of `list` for segments with an item and for acknowledgements, and those of
`unpack` for good and for bad bundles. The time is that of the process, user and system, and the
least of the rounds (5 by default). The python is the one that runs this script.
"""

import os
import resource
import subprocess
import sys
import tempfile

TOP = os.path.dirname(os.path.dirname(os.path.realpath(__file__)))
COUNT = 200000
IDENTITY = "source=ipn:1.1 time=820540800000 sequence={0} destination=ipn:2.1 payload=100"
LINES = {
    "segments": "{0} xfer-segment flags=03 id={0} items=1 item=00:0001:8 length=166",
    "acknowledgements": "{0} xfer-ack flags=01 id={0} length=166",
    "good bundles": "transfer {0} start={0} written=166 length=166 good " + IDENTITY,
    "bad bundles": "transfer {0} start={0} written=166 length=166 bad=B13 byte=33",
}


def seconds(path):
    """Returns the time that the script takes for the lines of a file."""
    before = resource.getrusage(resource.RUSAGE_CHILDREN)
    words = [sys.executable, f"{TOP}/scripts/json", path]
    subprocess.run(words, stdout=subprocess.DEVNULL, check=True)
    after = resource.getrusage(resource.RUSAGE_CHILDREN)
    return after.ru_utime + after.ru_stime - before.ru_utime - before.ru_stime


def main():
    """Prints a row for each kind of lines."""
    rounds = int(sys.argv[1]) if len(sys.argv) > 1 else 5
    with tempfile.TemporaryDirectory(prefix="tcpclkit-json-") as room:
        for name, form in LINES.items():
            with open(f"{room}/lines", "w", encoding="ascii") as it:
                it.writelines(f"{form.format(number)}\n" for number in range(COUNT))
            taken = min(seconds(f"{room}/lines") for _ in range(rounds))
            print(f"{name:20} {COUNT / taken:10.0f} lines a second", flush=True)


if __name__ == "__main__":
    main()
