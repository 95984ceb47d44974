#!/usr/bin/env python3
"""Measures tcpclkit against `cat`: `python3 measure.py PROGRAM FOLDER [ROUNDS]`.

A time is the user and system time of the process alone. In each round the program and `cat` run in
turn. The printed ratio is that of the sums of their times. The output and the report go to
/dev/null. The peak memory is that of the program after it was given all of its input.
"""

import os
import subprocess
import sys
import time
from pathlib import Path


def has_failed(words, status):
    """Whether a command did not do its work. `check` ends with 1 where a rule is broken."""
    return status not in ((0, 1) if "check" in words else (0,))


def seconds(words, path=None):
    """User plus system time of a command. Its standard input is the file, if one is given."""
    with open(path or os.devnull, "rb") as given, open(os.devnull, "wb") as nowhere:
        process = subprocess.Popen(words, stdin=given, stdout=nowhere, stderr=nowhere)
        _, status, usage = os.wait4(process.pid, 0)
        process.returncode = os.waitstatus_to_exitcode(status)
    if has_failed(words, process.returncode):
        sys.exit(f"{words[0]}: exit status {process.returncode}")
    return usage.ru_utime + usage.ru_stime


def peak_kilobytes(words, path):
    """The most memory that the program held, read once it has its input and waits for more."""
    with open(os.devnull, "wb") as nowhere, open(path, "rb") as given:
        process = subprocess.Popen(words, stdin=subprocess.PIPE, stdout=nowhere, stderr=nowhere)
        while piece := given.read(1 << 20):
            process.stdin.write(piece)
        process.stdin.flush()
        time.sleep(0.5)
        lines = Path(f"/proc/{process.pid}/status").read_text().splitlines()
        process.stdin.close()
        process.wait()
    return next(int(line.split()[1]) for line in lines if line.startswith("VmHWM:"))


def ratio(words, path, rounds):
    """The time that the program takes for the file, as a multiple of the time of `cat`."""
    ours = theirs = 0.0
    for _ in range(rounds):
        ours += seconds(words, path)
        theirs += seconds(["cat", path])
    return ours / theirs


# the words of `pack`
PACK = "pack --node ipn:1.0"

# the words, the file, what it has, the greatest ratio wanted, and the memory wanted in MB
MEASURED = (
    ("list", "long.tcpcl", "segments of 64 KiB", 1.3),
    ("list", "bundles.tcpcl", "one small bundle a transfer, with acknowledgements and keepalives", 2.5),
    ("list", "short.tcpcl", "segments of 1 to 16 bytes", 7),
    ("list", "answers.tcpcl", "acknowledgements, refusals and keepalives", 18),
    ("unpack", "plain.tcpcl", "bundles of 1 MiB in segments of 64 KiB", 1.6),
    ("unpack", "crc16.tcpcl", "the same with a CRC-16 over each payload", 5.5),
    ("unpack", "crc32.tcpcl", "the same with a CRC-32C over each payload", 5.5),
    ("unpack", "small.tcpcl", "one bundle of 100 to 300 bytes a transfer, with acknowledgements", 11),
    ("unpack", "crumbs.tcpcl", "bundles of 1 MiB in segments of 1 to 16 bytes", 6),
    ("unpack", "grains.tcpcl", "bundles of 200 bytes in segments of 1 to 16 bytes", 12),
    ("unpack", "answers.tcpcl", "no transfers", 5),
    ("blocks", "plain.tcpcl", "bundles of 1 MiB in segments of 64 KiB", 1.8),
    ("blocks", "crc32.tcpcl", "the same with a CRC-32C over each payload", 6),
    ("blocks", "small.tcpcl", "one bundle of 100 to 300 bytes a transfer, with acknowledgements", 22),
    ("blocks", "kept.tcpcl", "the same, and no rule is broken", 22),
    ("blocks", "crumbs.tcpcl", "bundles of 1 MiB in segments of 1 to 16 bytes", 6.6),
    ("blocks", "grains.tcpcl", "bundles of 200 bytes in segments of 1 to 16 bytes", 16),
    ("blocks --bundles", "plain.bundles", "bundles of 1 MiB", 1.8),
    ("blocks --bundles", "small.bundles", "bundles of 100 to 300 bytes", 24),
    ("check", "answers.tcpcl", "acknowledgements, refusals and keepalives", 24),
    ("check", "plain.tcpcl", "bundles of 1 MiB in segments of 64 KiB", 1.8),
    ("check", "crc32.tcpcl", "the same with a CRC-32C over each payload", 6),
    ("check", "small.tcpcl", "one bundle of 100 to 300 bytes a transfer, with acknowledgements", 32),
    ("check", "kept.tcpcl", "the same, and no rule is broken", 24),
    ("check", "crumbs.tcpcl", "bundles of 1 MiB in segments of 1 to 16 bytes", 26),
    ("check", "grains.tcpcl", "bundles of 200 bytes in segments of 1 to 16 bytes", 30),
    ("blocks --bundles", "kept.bundles", "the same, and no rule is broken", 24),
    ("check --bundles", "plain.bundles", "bundles of 1 MiB", 1.8),
    ("check --bundles", "small.bundles", "bundles of 100 to 300 bytes", 30),
    ("check --bundles", "kept.bundles", "the same, and no rule is broken", 26),
    (PACK, "plain.bundles", "bundles of 1 MiB", 1.6),
    (PACK, "crc16.bundles", "the same with a CRC-16 over each payload", 5.5),
    (PACK, "crc32.bundles", "the same with a CRC-32C over each payload", 5.5),
    (PACK + " --announce 1048576", "plain.bundles", "bundles of 1 MiB whose length is announced", 2.2, 6),
    (PACK, "small.bundles", "bundles of 100 to 300 bytes", 12),
)


def main():
    program, folder = os.path.abspath(sys.argv[1]), sys.argv[2]
    rounds = int(sys.argv[3]) if len(sys.argv) > 3 else 5
    print(f"user and system time of tcpclkit, to that of `cat`, over {rounds} rounds:")
    for command, name, what, most, *memory_wanted in MEASURED:
        path, words = os.path.join(folder, name), [program, *command.split()]
        seconds(words, path)  # the file is in memory from here on
        memory = peak_kilobytes(words, path) / 1024
        room = memory_wanted[0] if memory_wanted else 4
        print(f"  {command}, {what}: {ratio(words, path, rounds):.2f}, at most {most} wanted; peak memory {memory:.1f} MB, below {room} wanted", flush=True)


if __name__ == "__main__":
    main()
