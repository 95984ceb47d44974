#!/usr/bin/env python3
"""usage: archive.py [OPTIONS] [NAME..]

Judges an archive of recordings on a cluster of dask.distributed, and shows a
table of what was found. NAME is a recording, or a folder: then each `*.tcpcl`
below it is judged. Without NAME, standard input has the names, one a line.

Without --scheduler, the script starts workers on this machine, and ends them.
The workers of a cluster need the files under the same names, the program
`tcpclkit` on the PATH, and the Python module with its C library
(docs/LIBRARIES.md).

Each recording is judged as `tcpclkit unpack --keep-going` does. Up to 1 MiB, it
is read and judged by the library. A larger one is judged by the program, which
reads it as a stream. A file that cannot be read has a line in the table.

The table has the number of files, bytes and transfers, of good transfers, and
of each fault; then the slowest and the largest files, and those that could not
be read.

options:
  --scheduler ADDRESS  the scheduler of a cluster, such as tcp://a.example:8786
  --workers N          how many workers to start on this machine; 2 by default
  --batch N            how many files are one task of a worker; by default at
                       most 200, and so few that each worker gets some tasks
  --top N              how many of the slowest and largest are shown; 5 by
                       default
  -h, --help           write this text, and do nothing else

exit status: the highest that applies
  0  each transfer of each recording is good
  1  some transfer is not, or some message was out of order
  2  the arguments are wrong
  3  a recording has a fault of the stream
  4  a file could not be read, or there are no workers
"""

import argparse
import asyncio
import glob
import heapq
import os
import re
import subprocess
import sys
import time
from collections import Counter

NAME = "archive.py"
DEVICES = 4

# How many bytes a recording has at most that is read whole
SMALL = 1 << 20
# About how many bytes of a report are counted at once
PIECE = 1 << 20
# A line of the report: the judgement of a transfer, or the text of a fault
LINE = re.compile(rb"^(?:transfer (?:\S+ ){4}(\S+)|tcpclkit: byte \d+: (.+))", re.MULTILINE)
# How many files are one task at most, and how many tasks each worker gets at least, if nothing is
# said of it
BATCH, TASKS = 200, 8
# How many seconds there are between two lines that show how far the run is
PACE = 1.0
# How many seconds the script waits for the first worker of a cluster
PATIENCE = 60


# ---- in a worker


class Summary:
    """What was found in some files."""

    def __init__(self, top):
        self.top, self.status = top, 0
        self.counts, self.found = Counter(), Counter()
        self.slowest, self.largest, self.not_read = [], [], []

    def add_lines(self, lines):
        """Counts lines of the report of `unpack`."""
        for (judgement, fault), count in Counter(LINE.findall(lines)).items():
            self.counts["transfers"] += count if judgement else 0
            self.found[(judgement or fault).decode()] += count

    def add_file(self, name, size, seconds, status):
        """Counts a file that was judged."""
        self.counts.update(files=1, bytes=size)
        self.status = max(self.status, status)
        self.slowest = heapq.nlargest(self.top, [*self.slowest, (seconds, name)])
        self.largest = heapq.nlargest(self.top, [*self.largest, (size, name)])

    def add_unread(self, name, text):
        """Counts a file that could not be judged."""
        self.counts.update(files=1, **{"not read": 1})
        self.status = DEVICES
        self.not_read.append((name, text))

    def merge(self, other):
        """Counts what was found in other files."""
        self.counts += other.counts
        self.found += other.found
        self.status = max(self.status, other.status)
        self.slowest = heapq.nlargest(self.top, self.slowest + other.slowest)
        self.largest = heapq.nlargest(self.top, self.largest + other.largest)
        self.not_read += other.not_read


def judge_small(content, summary):
    """Judges a recording by the library. Returns the status."""
    import tcpclkit  # only a worker needs it

    run = tcpclkit.unpack(content, keep_going=True)
    summary.add_lines(run.report)
    return run.exit_status


def judge_large(name, summary):
    """Judges a recording by the program, and its report as it comes. Returns the status."""
    words = ["tcpclkit", "unpack", "--keep-going", "--", name]
    pipes = {"stdout": subprocess.DEVNULL, "stderr": subprocess.PIPE}
    lines = rest = b""
    with subprocess.Popen(words, **pipes) as process:
        for piece in iter(lambda: process.stderr.read(PIECE), b""):
            lines, _, rest = (rest + piece).rpartition(b"\n")
            summary.add_lines(lines)
    status = process.returncode
    if status not in (0, 1, 3):
        last = lines.rpartition(b"\n")[2].decode()
        raise OSError(last or f"tcpclkit ended with status {status}")
    return status


def judge(name, summary):
    """Judges a file."""
    begun, found = time.perf_counter(), Summary(summary.top)
    try:
        if not os.path.isfile(name):
            os.stat(name)
            raise OSError("not a regular file")
        with open(name, "rb") as it:
            size = os.fstat(it.fileno()).st_size
            content = it.read(SMALL + 1)
        is_small = len(content) <= SMALL
        status = judge_small(content, found) if is_small else judge_large(name, found)
    except (OSError, ValueError) as error:
        summary.add_unread(name, getattr(error, "strerror", None) or str(error))
        return
    found.add_file(name, len(content) if is_small else size, time.perf_counter() - begun, status)
    summary.merge(found)


def summary_of(names, top):
    """Judges some files. Returns what was found."""
    summary = Summary(top)
    for name in names:
        judge(name, summary)
    return summary


# ---- beside the scheduler


class Progress:
    """Shows on standard error how far the run is: in place on a terminal, or else in lines."""

    def __init__(self, total):
        self.total, self.begun, self.shown = total, time.monotonic(), 0.0
        self.end = "\r" if sys.stderr.isatty() else "\n"

    def seconds(self):
        """Returns for how long the run has gone on."""
        return time.monotonic() - self.begun

    def show(self, done):
        """Shows how many files are done, if that was not shown for a while, or all are."""
        if done < self.total and self.seconds() - self.shown < PACE:
            return
        self.shown = self.seconds()
        rate = done / max(self.shown, 1e-9)
        end = "\n" if done == self.total else self.end
        text = f"{done} of {self.total} files, {rate:.0f} a second"
        print(text, end=end, file=sys.stderr, flush=True)


def judged(client, names, given, progress):
    """Has the workers judge the files. Returns what was found."""
    import dask.bag
    from dask.distributed import as_completed

    size = given.batch or fitting(len(names), sum(client.nthreads().values()))
    bag = dask.bag.from_sequence(names, partition_size=size)
    tasks = client.compute(bag.map_partitions(summary_of, given.top).to_delayed())
    batches = {task.key: names[at * size :][:size] for at, task in enumerate(tasks)}
    total, waiting = Summary(given.top), as_completed(tasks)
    for task in waiting:
        batch = batches.pop(task.key)
        if task.status == "finished":
            total.merge(task.result())
        elif task.status != "error":
            raise OSError("the scheduler has gone")
        elif len(batch) == 1:
            total.add_unread(batch[0], f"{type(task.exception()).__name__} of its worker")
        else:  # Some file of the batch ends its worker, so each gets a task of its own.
            for name in batch:
                alone = client.submit(summary_of, [name], given.top, pure=False)
                batches[alone.key] = [name]
                waiting.add(alone)
        progress.show(total.counts["files"])
    return total


def fitting(count, workers):
    """Returns how many of that many files are one task, for that many workers."""
    return max(1, min(BATCH, count // (TASKS * workers)))


def names_of(words):
    """Yields the names of the files that the words ask for."""
    for word in words or (line.rstrip("\n") for line in sys.stdin):
        if os.path.isdir(word):
            folder = glob.escape(os.path.abspath(word))
            yield from sorted(glob.iglob(f"{folder}/**/*.tcpcl", recursive=True))
        else:
            yield os.path.abspath(word)


def show(total, seconds):
    """Writes the table."""
    rows = [(name, total.counts[name]) for name in ("files", "bytes", "transfers", "not read")]
    rows += [("good", total.found.pop("good", 0)), *sorted(total.found.items())]
    for name in ("files", "bytes"):
        rows.append((f"{name} a second", round(total.counts[name] / seconds)))
    rows.append(("seconds", f"{seconds:.2f}"))
    width = max(len(name) for name, _ in rows)
    for name, count in rows:
        print(f"{name:{width}} {count:>14}")
    print("\nslowest, in seconds")
    for taken, name in total.slowest:
        print(f"{taken:14.6f} {name}")
    print("\nlargest, in bytes")
    for size, name in total.largest:
        print(f"{size:14} {name}")
    if total.not_read:
        print("\nnot read")
    for name, text in sorted(total.not_read):
        print(f"{name}: {text}")


def arguments(words):
    """Returns what the words of the command line ask for."""
    usage = __doc__.splitlines()[0].replace("usage: ", "")
    parser = argparse.ArgumentParser(prog=NAME, usage=usage, allow_abbrev=False)
    parser.format_help = lambda: __doc__
    parser.add_argument("--scheduler", metavar="ADDRESS")
    parser.add_argument("--workers", type=int, default=2)
    parser.add_argument("--batch", type=int)
    parser.add_argument("--top", type=int, default=5)
    parser.add_argument("names", metavar="NAME", nargs="*")
    given = parser.parse_args(words)
    if min(given.workers, given.top, 1 if given.batch is None else given.batch) < 1:
        parser.error("a number is at least 1")
    return given


def cluster(given):
    """Returns a client of the cluster that is named, or of workers that are started here."""
    from dask.distributed import Client

    if not given.scheduler:
        return Client(n_workers=given.workers, threads_per_worker=1, dashboard_address=None)
    client = Client(given.scheduler)
    client.wait_for_workers(1, timeout=PATIENCE)
    return client


def main(words):
    """Does what the words ask for. Returns the exit status."""
    given = arguments(words)
    sys.stdout.reconfigure(errors="backslashreplace")
    names = list(names_of(given.names))
    try:
        with cluster(given) as client:
            progress = Progress(len(names))
            total = judged(client, names, given, progress) if names else Summary(given.top)
            show(total, progress.seconds())
    except ImportError as error:
        print(f"{NAME}: {error}; apt-get install python3-distributed", file=sys.stderr)
        return DEVICES
    except asyncio.TimeoutError:
        print(f"{NAME}: the scheduler has no workers", file=sys.stderr)
        return DEVICES
    except OSError as error:
        print(f"{NAME}: {error}", file=sys.stderr)
        return DEVICES
    return total.status


if __name__ == "__main__":
    sys.exit(main(sys.argv[1:]))
