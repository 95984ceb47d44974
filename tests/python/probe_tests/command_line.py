"""Options, statuses, the file of JUnit, an interrupt, and --listen."""

import asyncio
import contextlib
import io
import os
import re
import signal
import socket
import subprocess
import sys
import threading
import time
import types
import xml.etree.ElementTree as ElementTree

from probing import addresses, run, table

from .nodes import NODE, PROGRAMS, Fragile, connecting, free_port, needs, node, probe, room, words_of

# For nodes that never answer, and for right ones
QUICK, PATIENT = ["--timeout", "0.5", "--patience", "1"], ["--timeout", "3", "--patience", "1"]
COUNTS = re.compile(r"(\d+) ok, (\d+) must, (\d+) should, (\d+) lost, (\d+) skipped")

# Arguments that are refused, which all are status 2
WRONG = [
    [], ["made"], ["made", "127.0.0.1:1", "more"], ["--listen", "127.0.0.1:1", "made", "127.0.0.1:1"],
    ["--only", "nothing", "made", "127.0.0.1:1"], ["--only", "good,nothing", "made", "127.0.0.1:1"],
    ["--only", "9.9", "made", "127.0.0.1:1"], ["--timeout", "0", "made", "127.0.0.1:1"],
    ["--timeout", "x", "made", "127.0.0.1:1"], ["--jobs", "0", "made", "127.0.0.1:1"],
    ["--keepalive", "65536", "made", "127.0.0.1:1"], ["--node", "ipn:1", "made", "127.0.0.1:1"],
    ["--destination", "http://a", "made", "127.0.0.1:1"], ["made", "::1"], ["made", "127.0.0.1:0"],
]


@needs(PROGRAMS)
def arguments():
    """Wrong arguments are status 2, and nothing is made."""
    with room() as at:
        for words in WRONG:
            words = [it.replace("made", f"{at}/made") for it in words]
            ran = probe(*words)
            yield f"{words}: status", (2, ""), (ran.status, ran.output)
        yield "nothing is made", [], os.listdir(at)


def listed():
    """--list writes a line for each case."""
    ran = probe("--list")
    names = [case.name for case in table.CASES if case.group not in table.APART]
    yield "--list", (0, names), (ran.status, [line.split()[0] for line in ran.output.splitlines()])
    for only, wanted in [
        ("slow", [case.name for case in table.CASES if case.group == "slow"]),
        ("magic,type-00", ["magic", "type-00"]),
        ("4.8", ["item-unknown", "item-flags", "item-critical"]),
        ("5.2.5", [case.name for case in table.CASES if case.line in (2265, 2266, 2269, 2315, 2339)]),
    ]:
        shown = probe("--list", "--only", only).output.splitlines()
        yield f"--list --only {only}", wanted, [line.split()[0] for line in shown]
    shown = probe("--list", "--only", "crowd", "--only", "good").output.splitlines()
    yield "--only twice", ["good", "crowd"], [line.split()[0] for line in shown]


@needs(PROGRAMS)
def without_session():
    """Without a session, no case runs, and the status is 4."""
    with room() as at:
        ran = probe(*QUICK, f"{at}/none", f"127.0.0.1:{free_port()}")
        yield "no node", (4, ["no session: Connection refused"]), (ran.status, ran.lines("no"))
        for name, answer, why in [
            ("silent", b"", "no contact header within 0.5 s"),
            ("another protocol", b"HTTP/1.1 400 Bad Request\r\n\r\n", "no contact header: the node sent other bytes"),
            ("TLS is required", b"dtn!\4\1\5\0\4", "the node sent a SESS_TERM with reason 04"),
            ("version 3", b"dtn!\3\0", "the node speaks version 3"),
        ]:
            with answering(answer) as address:
                ran = probe(*QUICK, f"{at}/{name}", address)
            lines = [f"no session: {why}"]
            yield f"{name}: line", (4, lines, "0 ok, 0 must, 0 should, 0 lost, 0 skipped"), (
                ran.status, ran.lines("no"), ran.output.splitlines()[-1]
            )


class answering:
    """Something that answers each connection with these bytes."""

    def __init__(self, answer):
        self.answer, self.listener = answer, socket.create_server(("127.0.0.1", 0))

    def __enter__(self):
        threading.Thread(target=self.work, daemon=True).start()
        return f"127.0.0.1:{self.listener.getsockname()[1]}"

    def work(self):
        """Answers, and keeps the connections open."""
        kept = []
        try:
            while True:
                sock = self.listener.accept()[0]
                sock.sendall(self.answer)
                kept.append(sock)
        except OSError:
            pass

    def __exit__(self, *_):
        self.listener.shutdown(socket.SHUT_RDWR)
        self.listener.close()


@needs(PROGRAMS, NODE)
def files():
    """Each case has its recordings, their times and lines.txt. --junit has a testcase for each case."""
    with node("--send", "1") as address, room() as at:
        ran = probe(*PATIENT, "--only", "contact,second-init,crowd", "--junit", f"{at}/junit", f"{at}/made", address)
        names = sorted(os.listdir(f"{at}/made"))
        numbers = {case.name: number for number, case in enumerate(table.CASES, 1)}
        wanted = sorted(f"{numbers[it]:03}-{it}" for it in ran.names("ok"))
        yield "folders", wanted, names
        yield "files", [["a.tcpcl", "a.times", "b.tcpcl", "b.times", "lines.txt"]] * len(names), [
            sorted(os.listdir(f"{at}/made/{name}")) for name in names
        ]
        with open(f"{at}/made/{numbers['good']:03}-good/lines.txt", encoding="utf-8") as file:
            shown = [line.split() for line in file]
        times = [float(it[0]) for it in shown]
        yield "lines.txt: in the order of time", sorted(times), times
        yield "lines.txt: both sides", {("a", "contact"), ("b", "contact"), ("a", "sess-init"), ("b", "sess-init")}, {
            (it[1], it[3]) for it in shown[:4]
        }
        yield from junit(f"{at}/junit", ran)
        again = probe(*PATIENT, f"{at}/made", address)
        yield "the folder is not empty", 4, again.status


def junit(path, ran):
    """Yields the checks of a file of JUnit."""
    suite = ElementTree.parse(path).getroot()
    counts = dict(zip(("ok", "must", "should", "lost", "skipped"), COUNTS.search(ran.output).groups()))
    tests = {it.get("name") for it in suite.iter("testcase")}
    yield "JUnit: cases", ran.names("ok") | ran.names("skipped"), tests
    yield "JUnit: skipped", counts["skipped"], suite.get("skipped")
    yield "JUnit: failures", "0", suite.get("failures")


@needs(PROGRAMS, NODE)
def lost():
    """A case after which the node has gone has the line `lost`, and those after it are skipped."""
    with node() as address, Fragile(address, lambda sent: sent == b"dtn?\4\0") as fragile, room() as at:
        ran = probe(*PATIENT, "--only", "contact-flags,magic,segments", f"{at}/made", fragile.address)
    yield "lost: lines", [
        "ok good", "ok contact-flags", "lost magic seconds=1", "skipped segments: the node has not served since magic",
        "2 ok, 0 must, 0 should, 1 lost, 1 skipped",
    ], ran.output.splitlines()
    yield "lost: status", 1, ran.status


@needs(PROGRAMS, NODE)
def interrupt():
    """After an interrupt, the counts are written, and the status is 130."""
    with node() as address, room() as at:
        process = subprocess.Popen(
            words_of("--only", "good,silence-connected", "--junit", f"{at}/junit", f"{at}/made", address),
            stdout=subprocess.PIPE, stderr=subprocess.PIPE, encoding="utf-8",
        )
        first = process.stdout.readline()
        time.sleep(0.3)
        process.send_signal(signal.SIGINT)
        shown, errors = process.communicate(timeout=20)
        counts = "1 ok, 0 must, 0 should, 0 lost, 0 skipped\n"
        yield "interrupt: lines", ("ok good\n", counts, ""), (first, shown, errors)
        yield "interrupt: status", 130, process.returncode
        yield "interrupt: JUnit", True, os.path.exists(f"{at}/junit")


@needs(PROGRAMS, NODE)
def listens():
    """With --listen, the first line says where. If the node does not come, the run ends."""
    with room() as at:
        process = subprocess.Popen(
            words_of(*PATIENT, "--wait", "3", "--listen", "127.0.0.1:0", "--only", "magic", f"{at}/made"),
            stdout=subprocess.PIPE, encoding="utf-8",
        )
        first = process.stdout.readline()
        address = first.split()[-1]
        yield "the first line", True, first.startswith("listening on 127.0.0.1:") and not address.endswith(":0")
        with connecting(address):
            rest, _ = process.communicate(timeout=30)
        yield "lines", ["ok good", "ok magic", "2 ok, 0 must, 0 should, 0 lost, 0 skipped"], rest.splitlines()
        ran = probe(*QUICK, "--wait", "0.5", "--listen", "127.0.0.1:0", f"{at}/other")
        line = "no session: the node has not connected within 0.5 s"
        yield "nobody comes", (4, [line]), (ran.status, ran.lines("no"))


@needs(PROGRAMS, NODE)
def bundles():
    """Without a node ID, cases with bundles are skipped; --destination names one."""
    with node("--node", "") as address, room() as at:
        ran = probe(*PATIENT, "--only", "good,segments,contact-flags", f"{at}/none", address)
        yield "no node ID: skipped", {"segments"}, ran.names("skipped")
        yield "no node ID: others", {"good", "contact-flags"}, ran.names("ok")
        ran = probe(*PATIENT, "--only", "good,segments", "--destination", "ipn:2.0", f"{at}/named", address)
        yield "--destination", {"good", "segments"}, ran.names("ok")


@needs(PROGRAMS, NODE)
def commands():
    """--send runs a command, without a shell, in each case that needs a bundle of the node, and ends it."""
    with node() as address, room() as at:
        script = "import os, sys, time; open(sys.argv[1], 'a').write(f'{os.getpid()} {sys.argv[2]}\\n'); time.sleep(60)"
        words = f"{sys.executable} -c \"{script}\" {at}/ran '$HOME *'"
        ran = probe(*QUICK, "--only", "good,sent-segment-1,refuse-last", "--send", words, f"{at}/made", address)
        yield "--send: lines", (0, {"good", "sent-segment-1"}, {"refuse-last"}), (
            ran.status, ran.names("ok"), ran.names("skipped")
        )
        with open(f"{at}/ran", encoding="utf-8") as file:
            lines = [line.split(" ", 1) for line in file.read().splitlines()]
        yield "--send: words", ["$HOME *"] * 2, [line[1] for line in lines]
        yield "--send: ended", [], [line[0] for line in lines if os.path.exists(f"/proc/{line[0]}")]
        ran = probe(*QUICK, "--send", "no-such-program", f"{at}/other", address)
        yield "--send: no program", (4, ""), (ran.status, ran.output)


@needs(PROGRAMS, NODE)
def levels():
    """What `good` breaks has its line there alone. --must writes no should, and gives it no status."""
    # RFC 9174 section 5.1.1: no shorter than 30 seconds
    with node("--keepalive", "29") as address, room() as at:
        only = ["--only", "good,segments"]
        ran = probe(*PATIENT, *only, f"{at}/all", address)
        must = probe(*PATIENT, *only, "--must", f"{at}/must", address)
    lines = ran.output.splitlines()
    yield "a should", (1, "should good keepalive-interval expected=kept got=", "ok segments"), (
        ran.status, lines[0].partition("got=")[0] + "got=", lines[1]
    )
    yield "counts", "1 ok, 0 must, 1 should, 0 lost, 0 skipped", lines[-1]
    yield "--must", (0, ["ok good", "ok segments", "2 ok, 0 must, 0 should, 0 lost, 0 skipped"]), (
        must.status, must.output.splitlines()
    )


def strangers():
    """With --listen, a peer that is not allowed is closed before a byte is sent."""
    given = types.SimpleNamespace(
        timeout=1, patience=1, node="", send=[], keepalive=1, segment_mru=1, transfer_mru=1, listen="", mine=False,
        wait=5,
    )

    async def work():
        it = run.Probe(given, None, [(socket.AF_INET, ("127.0.0.1", 0))], None)
        it.role = table.CONNECTS
        with contextlib.redirect_stdout(io.StringIO()):
            await it.start()
        port = it.coming.getsockname()
        stranger = socket.create_connection(port, source_address=("127.0.0.2", 0))
        friend = socket.create_connection(port, source_address=("127.0.0.3", 0))
        taken = await it.accept()
        peer = taken.getpeername()[0]
        stranger.settimeout(5)
        found = stranger.recv(10), peer
        for sock in (stranger, friend, taken, it.coming):
            sock.close()
        return found

    real, addresses.is_private = addresses.is_private, lambda number: number == "127.0.0.3"
    try:
        yield "a stranger, and then another peer", (b"", "127.0.0.3"), asyncio.run(work())
    finally:
        addresses.is_private = real


PARTS = [arguments, listed, without_session, files, lost, interrupt, listens, bundles, commands, levels, strangers]
