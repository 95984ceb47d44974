#!/usr/bin/env python3
"""usage: many.py [--files N] [--transfers N] [--workers N..] [FOLDER]

Measures how long it takes to judge many recordings, in the ways of docs/GUIDE.md: `xargs` with a
shell for each file, `xargs` with a shell for 200 files, and examples/archive.py with 1, 2 and 4
workers. The recordings are made in FOLDER, or in a folder that is removed at the end. Each has
--transfers bundles of 34 bytes; by default there are 10,000 files of 64 transfers.

The time is that on the clock, the least of three runs. That of examples/archive.py is its own, from
when its workers are there. Build the program and the C library (package/library) first. The script
runs examples/archive.py by a python that has dask.distributed.
"""

import argparse
import glob
import os
import re
import subprocess
import sys
import tempfile
import time

TOP = os.path.dirname(os.path.dirname(os.path.realpath(__file__)))
PROGRAM = f"{TOP}/crates/tcpclkit/out/tcpclkit"
ROUNDS = 3

sys.path.insert(0, f"{TOP}/examples")

import make

JUDGE = 'tcpclkit unpack "$it" > /dev/null 2>&1; echo "$? $it"'
FIND = "find . -name '*.tcpcl' -type f -print0 | xargs -0"
LOOPS = {
    "xargs -n 1 -P 4": f"{FIND} -n 1 -P 4 sh -c 'for it; do {JUDGE}; done' sh",
    "xargs -n 200 -P 4": f"{FIND} -n 200 -P 4 sh -c 'for it; do {JUDGE}; done' sh",
}


def environment():
    """Returns the environment in which the program, the module and the library are found."""
    [library] = glob.glob(f"{TOP}/package/out/libtcpclkit.so.*")
    path = f"{os.path.dirname(PROGRAM)}:{os.environ['PATH']}"
    module = {"TCPCLKIT_LIBRARY": library, "PYTHONPATH": f"{TOP}/bindings/python"}
    return {**os.environ, "PATH": path, **module}


def make_files(folder, count, transfers):
    """Makes recordings, 1,000 in a folder. Returns the number of their bytes."""
    segments = (
        make.xfer_segment(make.START | make.END, it, make.BUNDLE) for it in range(transfers)
    )
    content = b"".join([make.CONTACT, make.sess_init(), *segments])
    for number in range(count):
        os.makedirs(f"{folder}/{number // 1000}", exist_ok=True)
        with open(f"{folder}/{number // 1000}/{number}.tcpcl", "wb") as it:
            it.write(content)
    return count * len(content)


def seconds_of_loop(command, folder, count):
    """Returns how many seconds a command takes, which has to write a line for each file."""
    begun = time.monotonic()
    ended = subprocess.run(
        ["bash", "-c", command], cwd=folder, env=environment(), stdout=subprocess.PIPE, check=True
    )
    taken = time.monotonic() - begun
    if ended.stdout.count(b"\n") != count:
        sys.exit(f"many.py: a line for each file was not written: {command}")
    return taken


def seconds_of_archive(workers, folder, count):
    """Returns how many seconds examples/archive.py takes, which has to judge each file."""
    python = "/usr/bin/python3" if os.path.exists("/usr/bin/python3") else sys.executable
    words = [python, f"{TOP}/examples/archive.py", "--workers", str(workers), folder]
    ended = subprocess.run(
        words,
        env=environment(),
        stdout=subprocess.PIPE,
        stderr=subprocess.DEVNULL,
        encoding="utf-8",
    )
    rows = dict(re.findall(r"^(files|seconds) +([0-9.]+)$", ended.stdout, re.MULTILINE))
    if ended.returncode != 0 or int(rows["files"]) != count:
        sys.exit(f"many.py: examples/archive.py ended with status {ended.returncode}")
    return float(rows["seconds"])


def measure(folder, given):
    """Prints a row for each way."""
    size = make_files(folder, given.files, given.transfers)
    print(f"{given.files} files, {size} bytes")
    print(f"{'':20} {'seconds':>8} {'files/s':>10} {'MB/s':>8}")
    ways = {name: (seconds_of_loop, command) for name, command in LOOPS.items()}
    for count in given.workers:
        ways[f"archive.py, {count}"] = seconds_of_archive, count
    for name, (measured, what) in ways.items():
        taken = min(measured(what, folder, given.files) for _ in range(ROUNDS))
        rates = f"{given.files / taken:10.0f} {size / taken / 1e6:8.1f}"
        print(f"{name:20} {taken:8.2f} {rates}", flush=True)


def main():
    """Measures, and prints a table."""
    parser = argparse.ArgumentParser(usage=__doc__.splitlines()[0].replace("usage: ", ""))
    parser.format_help = lambda: __doc__
    parser.add_argument("--files", type=int, default=10000)
    parser.add_argument("--transfers", type=int, default=64)
    parser.add_argument("--workers", type=int, nargs="+", default=[1, 2, 4])
    parser.add_argument("folder", nargs="?")
    given = parser.parse_args()
    if given.folder:
        measure(given.folder, given)
        return
    with tempfile.TemporaryDirectory(prefix="tcpclkit-many-") as folder:
        measure(folder, given)


if __name__ == "__main__":
    main()
