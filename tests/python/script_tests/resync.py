"""Tests of scripts/resync.

Only data of an example that looks like messages is not known from how the example was made. There,
the offsets that `resync` finds are those that the model of tests/python/model finds, which tries
each offset. `tcpclkit list` reads on from each of them.
"""

import bisect
import importlib.machinery
import importlib.util
import os
import random
import struct
import subprocess

import make
from model import wire

from .common import (
    END,
    EXAMPLES,
    NO_MESSAGE,
    PROGRAM,
    SECONDS,
    SEED,
    START,
    TOP,
    block_of,
    empty_room,
    example,
    large_segments,
    read,
    run,
    session,
    write,
)

# How many bytes a segment can have that the end cuts; what is reported if there is no offset; and
# the beginning of what is written.
LONGEST = 1 << 24
NONE = "tcpclkit-resync: from no offset do messages follow one another to the end\n"
WRITTEN = make.CONTACT + b"\x07" + bytes(24)


def load(name):
    """Returns a script as a module."""
    loader = importlib.machinery.SourceFileLoader(name, f"{TOP}/scripts/{name}")
    module = importlib.util.module_from_spec(importlib.util.spec_from_loader(name, loader))
    loader.exec_module(module)
    return module


def leads_to_the_end(rest):
    """Whether messages follow one another to the end, and the first is whole, by the model."""
    found = wire.reading(make.CONTACT + rest)
    messages = [it for _, it in found.messages]
    if not messages or wire.is_cut(messages[0]):
        return False
    if found.fault and found.fault[1] != "truncated":
        return False
    return not wire.is_cut(messages[-1]) or messages[-1].length <= LONGEST


def listed(content):
    """Returns how many messages `tcpclkit list` lists, and whether it reads up to the end."""
    ended = subprocess.run([PROGRAM, "list"], input=content, capture_output=True, timeout=SECONDS)
    is_clean = (ended.returncode, ended.stderr) == (0, b"")
    is_cut = ended.returncode == 3 and ended.stderr.endswith(b": truncated\n")
    return ended.stdout.count(b"\n") - 1, is_clean or is_cut


def resync_examples():
    """What is found in each example that is cut at each offset."""
    script = load("resync")
    for name in EXAMPLES:
        content, differing = example(name), []
        ends = [at for at in range(len(content)) if leads_to_the_end(content[at:])]
        starts = [at for at in ends if content[at] == 1 and content[at + 1] & START]
        for cut in range(len(content) + 1):
            messages = script.Messages(content[cut:], LONGEST)
            for pattern, offsets in [(script.ANY, ends), (script.WITH_START, starts)]:
                wanted = next((at - cut for at in offsets if at >= cut), None)
                got = script.find(messages, pattern)
                if got != wanted:
                    differing.append((cut, wanted, got))
        yield f"resync {name}, cut at each offset", [], differing
        results = {at: listed(make.CONTACT + content[at:]) for at in ends}
        bad = [at for at, (count, is_read) in results.items() if count < 1 or not is_read]
        yield f"resync {name}: tcpclkit reads on from what is found", [], bad


# Where session-a is cut, the words, the offset that is found, and what is written before the rest.
CUTS = [
    (100, [], 125, WRITTEN),
    (100, ["--start"], 125, WRITTEN),
    (41, ["--start"], 125, WRITTEN),
    (0, ["--start"], 38, WRITTEN),
    (0, [], 6, make.CONTACT),
    (3, [], 6, make.CONTACT),
    (38, [], 38, WRITTEN),
    (90, [], 90, WRITTEN),
    (376, [], 393, WRITTEN),
]


def resync_written():
    """What is written: a contact header, a SESS_INIT where there is none, and the rest."""
    content = example("session-a")
    with empty_room() as at:
        for cut, words, found, head in CUTS:
            name = " ".join(["resync from", str(cut), *words])
            write(f"{at}/late", content[cut:])
            got = run(at, "resync", *words, "-o", "whole", "late")
            yield name, (0, f"{found - cut}\n", ""), got
            yield f"{name}: output", head + content[found:], read(f"{at}/whole")
            with open(f"{at}/late", "rb") as stdin:
                yield f"{name}: standard input", got, run(at, "resync", *words, stdin=stdin)
            command = 'cat late | "$@"'
            piped = ["-c", command, "bash", f"{TOP}/scripts/resync", *words, "-"]
            yield f"{name}: a pipe", got, run(at, "/bin/bash", *piped)
        write(f"{at}/late", content[41:])
        run(at, "resync", "--start", "-o", "whole", "late")
        status, _, report = run(at, PROGRAM, "unpack", "whole", stdout=subprocess.DEVNULL)
        yield "resync --start: tcpclkit unpacks the output", (1, 4), (status, report.count("\n"))


def with_node(size):
    """Returns a SESS_INIT with a node ID of that many bytes. No other field is like a message."""
    return b"\x07" + b"\xff" * 18 + struct.pack(">H", size) + b"\xff" * size + bytes(4)


def with_list(length, *sizes):
    """Returns an XFER_SEGMENT with START whose list has this length and items of these sizes."""
    items = b"".join(make.item(0xFF, 0xFFFF, b"\xff" * size) for size in sizes)
    return b"\x01\xfe" + b"\xff" * 8 + struct.pack(">I", length) + items + bytes(8)


# Messages at the limits of docs/FORMATS.md, and whether they are within them.
LIMITS = [
    ("a node ID of 1,024 bytes", with_node(1024), True),
    ("a node ID of 1,025 bytes", with_node(1025), False),
    ("a list of 65,536 bytes", with_list(65536, 65000, 526), True),
    ("a list of 65,537 bytes", with_list(65537, 65000, 527), False),
    ("64 items", with_list(320, *[0] * 64), True),
    ("65 items", with_list(325, *[0] * 65), False),
    ("an item that fills its list", with_list(7, 2), True),
    ("an item past the end of its list", with_list(6, 2), False),
    ("a list that ends inside the head of an item", with_list(4, 0), False),
    ("a list that ends inside the head of its second item", with_list(9, 0, 0), False),
]


# Messages that the end of the input cuts. A KEEPALIVE is before each: that is found, at 0, if no
# field breaks its rule; otherwise a byte of the message that is like a KEEPALIVE, or nothing.
ENDS = [
    ("a length of a node ID of 1,024", with_node(1024)[:21], 0),
    ("a length of a node ID of 1,025", with_node(1025)[:21], 20),
    ("a length of a list of 65,536", with_list(65536)[:14], 0),
    ("a length of a list of 65,537", with_list(65537)[:14], None),
    ("a length of a list of 5", with_list(5)[:14], 0),
    ("a length of a list of 4", with_list(4)[:14], 14),
    ("a part of an item, with a fault after it", with_list(18, 10)[:25], 0),
]


def resync_limits():
    """A message is found if it is within the limits. The KEEPALIVE after it always is."""
    script = load("resync")
    for name, message, is_within in LIMITS:
        content = b"\xff" + message + make.KEEPALIVE
        wanted = 1 if is_within else 1 + len(message)
        yield f"resync: {name}", wanted, script.find(script.Messages(content, LONGEST), script.ANY)
        count, is_read = listed(make.CONTACT + content[1:])
        yield f"resync: {name}: tcpclkit lists it", is_within, is_read and count == 2
    for name, message, wanted in ENDS:
        content = make.KEEPALIVE + message
        got = script.find(script.Messages(content, LONGEST), script.ANY)
        yield f"resync: the input ends after {name}", wanted, got
        is_read = listed(make.CONTACT + content)[1]
        yield f"resync: the input ends after {name}: tcpclkit lists it", wanted == 0, is_read


def resync_segments():
    """The end cuts a segment, or not. The length of one that is cut is at most --longest."""
    segment = make.xfer_segment(END, 0, bytes(100))
    before = b"end of data"
    with empty_room() as at:
        write(f"{at}/whole", before + segment)
        write(f"{at}/cut", before + make.KEEPALIVE + segment[:50])
        found = (0, f"{len(before)}\n", "")
        yield "resync: a cut segment", found, run(at, "resync", "cut")
        yield "resync --longest 100", found, run(at, "resync", "--longest", "100", "cut")
        yield "resync --longest 99", (1, "", NONE), run(at, "resync", "--longest", "99", "cut")
        got = run(at, "resync", "--longest", "99", "whole")
        yield "resync --longest 99: a whole segment", found, got
        with open(f"{at}/whole", "rb", buffering=0) as stdin:
            stdin.seek(4)
            got = run(at, "resync", stdin=stdin)
        yield "resync: standard input from byte 4 on", (0, f"{len(before) - 4}\n", ""), got


def resync_failures():
    """What leads to no offset, and what cannot be read or written."""
    with empty_room() as at:
        for name, content in [
            ("empty", b""),
            ("text", b"no recording"),
            ("a cut message", b"\x05\x00"),
            ("a fault", make.KEEPALIVE + NO_MESSAGE),
        ]:
            write(f"{at}/late", content)
            yield f"resync: {name}", (1, "", NONE), run(at, "resync", "-o", "whole", "late")
        yield "resync: nothing is written", ["late"], os.listdir(at)
        write(f"{at}/late", example("session-a")[100:])
        text = "tcpclkit-resync: nothing: No such file or directory\n"
        yield "resync: the input is not there", (4, "", text), run(at, "resync", "nothing")
        text = "tcpclkit-resync: late is the input\n"
        got = run(at, "resync", "-o", "late", "late")
        yield "resync: the output is the input", (2, "", text), got
        yield "resync: the input stays", example("session-a")[100:], read(f"{at}/late")
        for words in [["--longest", "x"], ["--longest", "-1"], ["--longest"], ["-o"]]:
            yield f"resync {' '.join(words)}", 2, run(at, "resync", *words)[0]
        text = "tcpclkit-resync: No space left on device\n"
        got = run(at, "resync", "-o", "/dev/full", "late")
        yield "resync: the output on a full device", (4, "", text), got
        with open("/dev/full", "wb") as full:
            got = run(at, "resync", "late", stdout=full)
        yield "resync: the offset on a full device", (4, None, text), got


def resync_many():
    """A session of 10,000 transfers that lacks its beginning, or its end too, or has a gap."""
    a, _, _ = session(10000)
    size, draw = len(a.content), random.Random(SEED)
    with empty_room() as at:
        for cut in [7, 39, 777, *(draw.randrange(size - 9999) for _ in range(5))]:
            found = a.first(cut)
            for end in [size, size - 5]:
                name = f"resync 10,000 transfers from {cut} to {end}"
                write(f"{at}/late", a.content[cut:end])
                got = run(at, "resync", "-o", "whole", "late")
                yield name, (0, f"{found - cut}\n", ""), got
                wanted = a.whole(found, end) + 1, True
                yield f"{name}: tcpclkit lists the output", wanted, listed(read(f"{at}/whole"))
        end, begin = a.offsets[999] + 9, a.offsets[2000] + 9
        write(f"{at}/gap", a.content[:end] + a.content[begin:])
        found = a.first(begin) - begin + end
        yield "resync 10,000 transfers with a gap", (0, f"{found}\n", ""), run(at, "resync", "gap")


def resync_large():
    """64 MiB in segments of 64 KiB, and bytes of which each can be a message, before a fault."""
    with empty_room() as at:
        offsets = large_segments(f"{at}/a", block_of(65536), 1024)
        content, count = memoryview(read(f"{at}/a")), len(offsets)
        for cut in [39, offsets[1] + 40000, offsets[500] + 22, offsets[777] + 65000]:
            write(f"{at}/late", content[cut:])
            found = offsets[bisect.bisect_left(offsets, cut)]
            got = run(at, "resync", "-o", "whole", "late")
            name = f"resync 64 MiB from {cut}"
            yield name, (0, f"{found - cut}\n", ""), got
            wanted = count - offsets.index(found) + 1, True
            yield f"{name}: tcpclkit lists the output", wanted, listed(read(f"{at}/whole"))
        before = make.KEEPALIVE * (1 << 20) + NO_MESSAGE
        write(f"{at}/late", before + example("session-b")[38:])
        got = run(at, "resync", "late")
        yield "resync after 1,048,576 KEEPALIVEs and a fault", (0, f"{len(before)}\n", ""), got


PARTS = [
    resync_examples,
    resync_written,
    resync_limits,
    resync_segments,
    resync_failures,
    resync_many,
    resync_large,
]
