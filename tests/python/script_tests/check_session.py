"""Tests of scripts/check-session. The pairs and their lines are those of tests/python/rows."""

import contextlib
import os
import sys

import make

from .common import PEAK, PROGRAM, TOP, empty_room, install, read, run, write

sys.path[:0] = [f"{TOP}/tests/python", f"{TOP}/scripts"]

import sessions
from rows import full_sessions
from rows.fair_sessions import DOUBTS, FAIR
from rows.more_sessions import BROKEN, KEPT, LONG, NOT_WHOLE
from rows.sessions import (
    A, ACKED, B, HEADER, REPLIED, RULES, SIZE, TERM, acked, bare, bundle, first, init, last, pair, refused,
    whole,
)
from both_sides import judging
from both_sides.captured import Captured

FOLDER = f"{TOP}/examples/faults/sessions"
COUNT, SECONDS = 100000, 5


def prepared(at, it):
    """Writes the recordings of a pair. Returns the words of its run."""
    for name, content in zip("ab", it.recordings()):
        write(f"{at}/{name}", content)
    for name, content in zip("ab", it.captured()):
        write(f"{at}/{name}.times", content)
    times = ["--times", "a.times", "b.times"] if it.times else []
    return [*it.options.split(), *times, "a", "b"]


def text_of(lines):
    """Returns lines as one text."""
    return "".join(f"{line}\n" for line in lines)


def ran(at, it, *words):
    """Runs the script on a pair. Returns its status and output."""
    return run(at, "check-session", *words, *prepared(at, it))[:2]


def rule_pairs():
    """For each rule, a pair breaks it, and one keeps it."""
    with empty_room() as at:
        for rule, (breaking, keeping) in RULES.items():
            for word, it in (("broken", breaking), ("kept", keeping)):
                yield f"check-session: {rule}, {word}", (it.status, text_of(it.shown())), ran(at, it)
            must = [line for line in breaking.shown() if " must " in line]
            status = breaking.status if breaking.status == 3 else int(bool(must))
            yield f"check-session --must: {rule}", (status, text_of(must)), ran(at, breaking, "--must")


def other_pairs():
    """What the RFC permits, what may only be missing, and other ways to break a rule."""
    with empty_room() as at:
        for name, it in {**KEPT, **NOT_WHOLE, **BROKEN}.items():
            yield f"check-session: {name}", (it.status, text_of(it.shown())), ran(at, it)
        silent = [name for name, it in {**KEPT, **NOT_WHOLE}.items() if it.lines]
        yield "check-session: pairs that are to have no line", [], silent


def fair_pairs():
    """What accuses nobody, and beside it what still does."""
    with empty_room() as at:
        for name, pairs in {**FAIR, **DOUBTS}.items():
            for word, it in zip(("permitted", "beside it"), pairs):
                yield f"check-session: {name}, {word}", (it.status, text_of(it.shown())), ran(at, it)
    musts = {name: [" must " in "".join(line for line in it.lines if line[0] == "b") for it in pairs]
             for name, pairs in FAIR.items()}
    wrong = [name for name, (permitted, _) in musts.items() if permitted]
    broken = ["an answer is missing, and a later transfer was refused"]
    yield "check-session: pairs in which side b breaks a must, and may do the rest", broken, wrong


def judged(at, it, connection=(), **patched):
    """Returns the lines of a pair, judged in this process with other bounds: the name of a module, and
    of a constant in it."""
    write(f"{at}/a", it.recordings()[0])
    write(f"{at}/b", it.recordings()[1])
    closed = it.options.replace("--closed ", "")
    with contextlib.ExitStack() as stack:
        for name, value in patched.items():
            stack.enter_context(bounded(*name.split("__"), value))
        return judging.judged(PROGRAM, (f"{at}/a", f"{at}/b"), closed=closed, connection=connection).shown()


@contextlib.contextmanager
def bounded(name, constant, value):
    """Gives a constant of a module of both_sides another value."""
    module = sys.modules[f"both_sides.{name}"]
    usual = getattr(module, constant)
    setattr(module, constant, value)
    try:
        yield
    finally:
        setattr(module, constant, usual)


def full():
    """What did not fit into memory accuses nobody."""
    with empty_room() as at:
        for name, (it, bound, value, lines) in full_sessions.FULL.items():
            yield f"check-session: {name}", it.shown(), judged(at, it)
            wanted = [line.format(**it.offsets()) for line in lines]
            yield f"check-session: {name}, and a full memory", wanted, judged(at, it, **{bound: value})


def accepted():
    """What a capture shows of the beginning and the end of the connection makes a line a must."""
    higher = bare([b"dtn!\x05\x00"], [HEADER, make.sess_term(0, 4)])
    other = bare([b"HTTP/1.1 400 Bad Request\r\n"], [HEADER, B])
    late = bare([A[-10:], TERM], [HEADER, B, REPLIED])
    passive, active = [shows(), shows(seen=6)], [shows(), shows()]
    with empty_room() as at:
        for it, text, of_active in (
            (higher, "version type=05 version=5", []),
            (other, "after-bad-contact type=07", ["b 6 should after-bad-contact type=07"]),
        ):
            yield f"check-session: side b accepted, {text}", [f"b 6 must {text}"], judged(at, it, passive)
            yield f"check-session: side b connected, {text}", of_active, judged(at, it, active)
        yield "check-session: side b accepted, the end of a message", 1, len(judged(at, late, passive))
        yield "check-session: side b connected, the end of a message", [], judged(at, late, active)
        yield from closings(at)


def closings(at):
    """The FIN of side b shows by its acknowledgement whether the FIN of side a had come before."""
    it = pair([whole(), whole(1)], [refused(1)], options="--closed ab")
    length, end = len(it.recordings()[0]), it.offsets()["b-end"]
    missing = f"b {end} must ack-missing id=0 peer-at={it.offsets()['a2']}"
    for taken, line in ((length, missing), (length + 1, "b 38 must refuse-order id=1 unanswered=0")):
        connection = [shows(taken=0), shows(taken=taken)]
        yield f"check-session: a FIN after {taken} bytes of {length}", [line], judged(at, it, connection)


def shows(**known):
    """Returns what a capture shows of a side: this, and nothing else."""
    return Captured(**{**dict.fromkeys(Captured._fields), **known})


def cut_sessions():
    """However the recordings of a session that keeps all rules are cut, no line comes of it."""
    wrong, a, b = [], LONG.a, LONG.b
    with empty_room() as at:
        for count_a in range(len(a) + 1):
            for count_b in range(len(b) + 1):
                write(f"{at}/a", b"".join(a[:count_a]))
                write(f"{at}/b", b"".join(b[:count_b]))
                found = judging.judged(PROGRAM, (f"{at}/a", f"{at}/b")).lines
                wrong += [(count_a, count_b, lines) for _, lines in found if lines]
    yield "check-session: a session that is cut", [], wrong[:3]


def folder():
    """The folder has what examples/sessions.py makes, and each rule of the formats has its pairs."""
    wanted = sessions.files()
    yield "check-session: the names in the folder", sorted(wanted), sorted(os.listdir(FOLDER))
    for name, content in wanted.items():
        yield f"check-session: {name}", True, read(f"{FOLDER}/{name}") == content
    yield "check-session: the rules of the formats", sorted(sessions.sections()), sorted(RULES)
    named = {it for each in RULES.values() for line in each[0].lines for it in line.split(" ")[3:4]}
    yield "check-session: rules without a line", [], sorted(set(RULES) - named)
    rows = [line.split("\t") for line in read(f"{FOLDER}/{sessions.TABLE}").decode().splitlines()[1:]]
    for name, _, _, _, options, status, lines in rows:
        words = [] if options == sessions.NOTHING else options.split(" ")
        got = run(FOLDER, "check-session", *words, f"{name}-a.tcpcl", f"{name}-b.tcpcl")[:2]
        text = "" if lines == sessions.NOTHING else text_of(lines.split(sessions.LINES))
        yield f"check-session: the row of {name}", (int(status), text), got


def many(at, count, step=1):
    """Writes both sides of a session of transfers in two segments, of both sides."""
    half = SIZE // 2
    sides = {name: [HEADER, init] for name, init in (("a", A), ("b", B))}
    for number in range(count):
        ident = number * step
        for name, other in ("ab", "ba"):
            sides[name] += [first(ident), last(ident)]
            sides[other] += [acked(ident, make.START, half), acked(ident, make.END, SIZE)]
    for name, end in (("a", TERM), ("b", REPLIED)):
        write(f"{at}/{name}", b"".join([*sides[name], end]))


def peak(at):
    """Returns the status of a run, its output, and its peak of memory in KiB."""
    status, shown, errors = run(at, sys.executable, "-c", PEAK, f"{TOP}/scripts/check-session", "a", "b")
    return status, shown, int(errors or 0)


def large():
    """Memory does not grow with the recordings, and many transfers take seconds."""
    with empty_room() as at:
        peaks = []
        for count in (2000, 20000):
            many(at, count)
            status, shown, taken = peak(at)
            yield f"check-session: {count} transfers of each side", (0, ""), (status, shown)
            peaks.append(taken)
        yield "check-session: KiB more for ten times as many", True, peaks[1] - peaks[0] < 2048
        write(f"{at}/a", b"".join([HEADER, A, *(whole(number) for number in range(COUNT)), TERM]))
        write(f"{at}/b", b"".join([HEADER, B, *(acked(number) for number in range(COUNT)), REPLIED]))
        began = os.times()
        got = run(at, "check-session", "a", "b")
        ended = os.times()
        spent = ended.children_user + ended.children_system - began.children_user - began.children_system
        yield f"check-session: {COUNT} transfers", (0, "", ""), got
        yield f"check-session: at most {SECONDS} s of processor time, {spent:.1f}", True, spent <= SECONDS


# What stands for the program: it keeps the words of `check`, and gives the others to the program
STUB = """#!/bin/sh
[ "$1" = check ] && echo "$@" >> words
while [ "$2" = --own ]; do command=$1; shift 3; set -- "$command" "$@"; done
exec '{program}' "$@"
"""

# Node IDs of a SESS_INIT that name a node, and others
NODES = (
    b"ipn:1.0", b"ipn:0.0", b"ipn:977000.1.0", b"ipn:01.7", b"IPN:2.0", b"dtn://node/", b"dtn://node/in", b"dtn:///",
    b"DTN://a%41/", b"dtn://n/?x=[1]#y",
)
NO_NODES = (
    b"", b"dtn:none", b"dtn://node", b"ipn:1", b"ipn:1.2.3.4", b"ipn:!", b"ipn:!.0", b"ipn:a.0", b"http://node/",
    b"dtn://a b/", b"dtn://n/%4", b"dtn://n/\\", b"dtn://n/^",
)


def own_words():
    """With --own, `check` gets the node ID of each side that names a node."""
    with empty_room() as at:
        write(f"{at}/tcpclkit", STUB.format(program=PROGRAM).encode(), 0o755)
        for node in NODES + NO_NODES:
            it = bare([HEADER, init(node)], [HEADER, B])
            errors = run(at, "check-session", "--own", "--tcpclkit", "tcpclkit", *prepared(at, it))[2]
            words = read(f"{at}/words").decode().splitlines()
            given = [line.partition(" --own ")[2].split(" -- ")[0] for line in words]
            os.remove(f"{at}/words")
            is_named = node in NODES
            yield f"check-session --own, {node}", sorted([node.decode() if is_named else "", "ipn:2.0"]), sorted(given)
            text = "tcpclkit-check-session: a: the first SESS_INIT names no node, so bundles of all nodes are judged\n"
            yield f"check-session --own, {node}: errors", "" if is_named else text, errors
        run(at, "check-session", "--tcpclkit", "tcpclkit", *prepared(at, pair([], [])))
        yield "check-session without --own", False, b"--own" in read(f"{at}/words")


def own_bundles():
    """With --own, a bundle of another node is not judged, and one of the own node is."""
    with empty_room() as at:
        for own, node in ((True, b"ipn:1.0"), (False, b"ipn:9.0")):
            reserved = bundle(b"hello", 0x8)
            it = bare([HEADER, init(node), whole(0, reserved), TERM], [HEADER, B, acked(0, 3, len(reserved)), REPLIED])
            line = f"a {it.offsets()['a2']} should bundle-flags transfer=0 flags=08\n"
            yield f"check-session, {node}", (1, line), ran(at, it)
            yield f"check-session --own, {node}", (1, line) if own else (0, ""), ran(at, it, "--own")


def statuses():
    """Faults, what cannot be read or written, and wrong words."""
    name = "tcpclkit-check-session"
    with empty_room() as at:
        words = prepared(at, pair([first()], [ACKED[0]]))
        write(f"{at}/cut", read(f"{at}/a")[:-1])
        got = run(at, "check-session", "cut", "b")
        yield "check-session: a is cut", (3, "", f"{name}: cut: byte 38: truncated\n"), got
        got = run(at, "check-session", "b", "cut")
        yield "check-session: b is cut", (3, "", f"{name}: cut: byte 38: truncated\n"), got
        for given in (["nothing", "b"], ["a", "nothing"]):
            got = run(at, "check-session", *given)
            yield f"check-session {given}", (4, "", f"{name}: nothing: cannot open the input\n"), got
        got = run(at, "check-session", "--times", "a", "nothing", *words)
        yield "check-session: no times", (4, "", f"{name}: nothing: No such file or directory\n"), got
        got = run(at, "check-session", "--times", "a", "b", *words)
        yield "check-session: other files than times", (4, "", f"{name}: a: not a file of times\n"), got
        for given in (["a"], ["--closed", "c", "a", "b"], ["--times", "a", "a", "b"], ["-", "b"]):
            yield f"check-session {given}", 2, run(at, "check-session", *given)[0]
        prepared(at, RULES["ack-flags"][0])
        with open("/dev/full", "wb") as full:
            got = run(at, "check-session", "a", "b", stdout=full)
        yield "check-session: a full device", (4, None, f"{name}: No space left on device\n"), got
        install(f"{at}/prefix", "check-session")
        wanted = 1, text_of(RULES["ack-flags"][0].shown()), ""
        yield "check-session: installed", wanted, run(at, f"{at}/prefix/bin/{name}", "a", "b")


def resynced():
    """A recording that tcpclkit-resync mended lacks its beginning."""
    with empty_room() as at:
        prepared(at, pair([whole(), whole(1), TERM], [acked(), acked(1), REPLIED]))
        write(f"{at}/late", read(f"{at}/a")[50:])
        yield "resync", 0, run(at, "resync", "-o", "again", "late")[0]
        text = "tcpclkit-check-session: again: without its beginning, the rules of two sides are not judged\n"
        yield "check-session: a mended recording", (0, "", text), run(at, "check-session", "again", "b")
        yield from rest_of_transfer(at, text)


def rest_of_transfer(at, text):
    """The rest of a transfer whose beginning is missing accuses nobody. A later segment that belongs to
    no transfer does. `tcpclkit-resync` puts 31 bytes before the rest: a contact header and a SESS_INIT."""
    at_stray = 31 + len(last()) + len(whole(1))
    for stray, lines in (([], []), ([last(7)], [f"a {at_stray} must order fault=no-such-open-transfer"])):
        it = pair([first(), last(), whole(1), *stray, TERM], [ACKED[0], ACKED[1], acked(1), REPLIED])
        prepared(at, it)
        write(f"{at}/late", read(f"{at}/a")[it.offsets()["a3"] - 5:])
        run(at, "resync", "-o", "again", "late")
        name = f"check-session: the rest of a transfer, and {len(stray)} stray segments"
        yield name, (int(bool(stray)), text_of(lines), text), run(at, "check-session", "again", "b")


PARTS = [
    rule_pairs, other_pairs, fair_pairs, full, accepted, cut_sessions, folder, large, own_words, own_bundles, statuses,
    resynced,
]
