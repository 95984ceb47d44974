"""Tests of scripts/split."""

import os
import sys

import make

from .common import (
    END,
    EXAMPLES,
    HEAD,
    NO_MESSAGE,
    PEAK,
    START,
    TOP,
    TRANSFERS,
    block_of,
    empty_room,
    example,
    large_segments,
    read,
    run,
    session,
    write,
)

# The examples with a transfer that is not good.
NOT_GOOD = {"every-block", "session-a", "transfers"}

# The examples with a fault of the order: how many transfers are over before the first, the lines
# that the transfers have in the report of `unpack --keep-going`, and what the first fault is.
FAULTY = {
    "late-transfers": (
        13,
        [*range(1, 14), *range(15, 48, 2)],
        "byte 769: start after session termination",
    ),
    "order-faults": (0, [3, 4, 7, 9], "byte 6: segment before session initiation"),
}


def made_files(folder):
    """Returns the files of the transfers by number, the output, and the report."""
    names = [name for name in os.listdir(folder) if name not in ("output", "report")]
    files = {name: read(f"{folder}/{name}") for name in names}
    return files, read(f"{folder}/output"), read(f"{folder}/report").decode()


def files_of(datas, numbers=None):
    """Returns what the files of transfers with this data are, and the output.

    Without `numbers`, the files are numbered from 1 on.
    """
    numbers = numbers or range(1, len(datas) + 1)
    files = {f"{number}.bundle": data for number, data in zip(numbers, datas)}
    return files, b"".join(datas)


def split_examples():
    """Each transfer of each example is in the file of its number, up to a fault of the order."""
    yield "split: the examples", EXAMPLES, sorted(TRANSFERS)
    with empty_room() as at:
        for name in EXAMPLES:
            path = f"{TOP}/examples/{name}.tcpcl"
            got = run(at, "split", path, name)
            status = 3 if name in FAULTY else int(name in NOT_GOOD)
            errors = f"tcpclkit-split: {path}: {FAULTY[name][2]}\n" if name in FAULTY else ""
            yield f"split {name}", (status, "", errors), got
            *files, report = made_files(f"{at}/{name}")
            datas = [data for _, data in TRANSFERS[name]]
            datas = datas[:FAULTY[name][0]] if name in FAULTY else datas
            yield f"split {name}: files", list(files_of(datas)), files
            lines = len(datas) + (name in FAULTY)
            yield f"split {name}: lines of the report", lines, report.count("\n")
        with open(f"{TOP}/examples/transfers.tcpcl", "rb") as stdin:
            got = run(at, "split", "-", "of stdin", stdin=stdin)
        yield "split of standard input", (1, "", ""), got
        same = made_files(f"{at}/transfers") == made_files(f"{at}/of stdin")
        yield "split of standard input: files", True, same


def split_examples_to_the_end():
    """With --keep-going, each transfer of each example is in the file of its line's number."""
    with empty_room() as at:
        for name in EXAMPLES:
            words = ["--keep-going", f"{TOP}/examples/{name}.tcpcl", name]
            status = int(name in NOT_GOOD or name in FAULTY)
            yield f"split --keep-going {name}", (status, "", ""), run(at, "split", *words)
            *files, _ = made_files(f"{at}/{name}")
            datas = [data for _, data in TRANSFERS[name]]
            numbers = FAULTY[name][1] if name in FAULTY else None
            yield f"split --keep-going {name}: files", list(files_of(datas, numbers)), files


def split_many_late():
    """10,000 transfers after a SESS_TERM, and a segment of none of them."""
    a, _, transfers = session(10000)
    term, stray = make.sess_term(0, 0), make.xfer_segment(END, 1 << 40, b"stray")
    lines, left, start = [], [], 0
    for it in transfers:
        fault = f"tcpclkit: byte {it.offset + len(term)}: start after session termination\n"
        line = [it.report(start)]
        lines += [fault, *left] + ([] if it.is_abandoned else line)
        left = line if it.is_abandoned else []
        start += len(it.data)
    lines += [f"tcpclkit: byte {len(a.content) + len(term)}: no such open transfer\n", *left]
    numbers = [number for number, line in enumerate(lines, 1) if line.startswith("transfer ")]
    with empty_room() as at:
        write(f"{at}/a", HEAD + term + a.content[len(HEAD):] + stray)
        got = run(at, "split", "--keep-going", "a", "made")
        yield "split 10,000 late transfers", (1, "", ""), got
        *files, report = made_files(f"{at}/made")
        wanted = list(files_of([it.data for it in transfers], numbers))
        yield "split 10,000 late transfers: report", True, report == "".join(lines)
        yield "split 10,000 late transfers: files", True, files == wanted


def split_many():
    """10,000 transfers, of which many have the same ID, and one that a fault leaves open."""
    a, _, transfers = session(10000)
    opened = make.xfer_segment(START, 1 << 40, b"open")
    datas, start, lines = [it.data for it in transfers], 0, []
    for it in transfers:
        lines.append(it.report(start))
        start += len(it.data)
    lines.append(f"tcpclkit: byte {len(a.content) + len(opened)}: unknown message type 16\n")
    with empty_room() as at:
        write(f"{at}/-a", a.content + opened + NO_MESSAGE)
        text = lines[-1].replace("tcpclkit: ", "tcpclkit-split: -a: ")
        yield "split 10,000 transfers", (3, "", text), run(at, "split", "--", "-a", "-made")
        files, output, report = made_files(f"{at}/-made")
        wanted, joined = files_of(datas)
        yield "split 10,000 transfers: report", True, report == "".join(lines)
        yield "split 10,000 transfers: files", True, files == wanted
        yield "split 10,000 transfers: output", True, output == joined + b"open"


def split_large():
    """64 MiB in segments of 64 KiB, with less than 32 MiB of memory."""
    block = block_of(65536)
    with empty_room() as at:
        large_segments(f"{at}/a", block, 1024)
        words = [sys.executable, "-c", PEAK, f"{TOP}/scripts/split", "a", "made"]
        status, _, peak = run(at, *words)
        yield "split 64 MiB", 1, status
        yield "split 64 MiB: less than 32 MiB of memory", True, int(peak) < 32 * 1024
        numbers = [it for it in range(1, 65) if read(f"{at}/made/{it}.bundle") == block * 16]
        yield "split 64 MiB: files", list(range(1, 65)), numbers


def split_failures():
    """A folder that is there, less output or report than there should be, and a killed program."""
    line = "transfer 0 start=0 written=2 length=2 bad=B3 byte=0"
    fakes = {
        "output": f"printf '%s\\n' '{line}' >&2; printf A",
        "report": f"printf '%s' '{line}' >&2; printf AA",
    }
    with empty_room() as at:
        write(f"{at}/a", example("transfers"))
        os.mkdir(f"{at}/made")
        text = "tcpclkit-split: made: File exists\n"
        yield "split: the folder is there", (4, "", text), run(at, "split", "a", "made")
        yield "split: it stays as it is", [], os.listdir(f"{at}/made")
        for name, script in fakes.items():
            write(f"{at}/short-{name}", f"#!/bin/sh\n{script}\nexit 3\n".encode(), 0o755)
            got = run(at, "split", "--tcpclkit", f"short-{name}", "a", name)
            text = f"{name} lacks some of what tcpclkit wrote: is the device full?"
            yield f"split: the {name} is short", (4, "", f"tcpclkit-split: {text}\n"), got
            yield f"split: the {name} is short: files", {}, made_files(f"{at}/{name}")[0]
        write(f"{at}/killed", b"#!/bin/sh\nkill -9 $$\n", 0o755)
        got = run(at, "split", "--tcpclkit", "killed", "a", "of-killed")
        text = "tcpclkit-split: a: SIGKILL ended tcpclkit\n"
        yield "split: the program is killed", (137, "", text), got
        yield "split: the program is killed: no folder", False, os.path.exists(f"{at}/of-killed")


def split_unread():
    """What was not read leaves no folder, and what was read in part leaves one."""
    with empty_room() as at:
        write(f"{at}/a", example("transfers"))
        text = "tcpclkit-split: nothing: cannot open the input\n"
        yield "split: no such recording", (4, "", text), run(at, "split", "nothing", "made")
        text = "tcpclkit-split: .: read failed\n"
        yield "split: a folder", (4, "", text), run(at, "split", ".", "made")
        with open(f"{at}/a", "ab") as stdin:
            got = run(at, "split", "-", "made", stdin=stdin)
        text = "tcpclkit-split: standard input: read failed\n"
        yield "split: standard input that cannot be read", (4, "", text), got
        yield "split: no folder is left", ["a"], os.listdir(at)
        write(f"{at}/cut", example("transfers")[:150])
        text = "tcpclkit-split: cut: byte 126: truncated\n"
        yield "split: a recording that is cut", (3, "", text), run(at, "split", "cut", "made")
        files = ["1.bundle", "output", "report"]
        yield "split: a recording that is cut: files", files, sorted(os.listdir(f"{at}/made"))


PARTS = [
    split_examples,
    split_examples_to_the_end,
    split_many,
    split_many_late,
    split_large,
    split_failures,
    split_unread,
]
