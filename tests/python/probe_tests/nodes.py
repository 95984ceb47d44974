"""The nodes that the probe is tested with, and runs of the probe."""

import contextlib
import os
import shutil
import socket
import subprocess
import sys
import tempfile
import threading
from typing import NamedTuple

from . import TOP

PROBE, PROGRAM = f"{TOP}/scripts/probe", f"{TOP}/crates/tcpclkit/out/tcpclkit"
ARCHIVE, PEERS, RFC_NODE = f"{TOP}/package/out/libtcpclkit.a", f"{TOP}/examples/peers", f"{TOP}/tests/python/rfc_node"
SECONDS = 600

# What a part may need, and what is said without it
PROGRAMS, C, NODE = "program", "c", "node"


def needs(*names):
    """Lets a part be skipped where something is missing."""

    def keep(part):
        part.needs = names
        return part

    return keep


def missing(part):
    """Returns what a part needs and is not there, or None."""
    reasons = {
        PROGRAMS: None if os.path.isfile(PROGRAM) else "crates/tcpclkit/out/tcpclkit is not there",
        C: None if shutil.which("cc") and os.path.isfile(ARCHIVE) else "cc or package/out/libtcpclkit.a is not there",
        NODE: None if os.path.isdir(RFC_NODE) else "tests/python/rfc_node is not there",
    }
    return next((reasons[it] for it in getattr(part, "needs", ()) if reasons[it]), None)


class Ran(NamedTuple):
    """A run of the probe: its status, its output and its errors."""

    status: int
    output: str
    errors: str

    def lines(self, *words):
        """Returns the lines that begin with one of these words."""
        return [line for line in self.output.splitlines() if line.split(" ")[0] in words]

    def names(self, word):
        """Returns the names of the cases with a word."""
        return {line.split()[1].rstrip(":") for line in self.lines(word)}


def words_of(*options):
    """Returns the words of a run of the probe."""
    return [sys.executable, "-B", PROBE, "--tcpclkit", PROGRAM, *options]


def probe(*options):
    """Runs the probe."""
    ended = subprocess.run(words_of(*options), capture_output=True, encoding="utf-8", timeout=SECONDS)
    return Ran(ended.returncode, ended.stdout, ended.stderr)


@contextlib.contextmanager
def room():
    """Makes an empty folder, which is removed."""
    with tempfile.TemporaryDirectory() as at:
        yield at


def free_port():
    """Returns a port that nobody has now."""
    with socket.socket() as it:
        it.bind(("127.0.0.1", 0))
        return it.getsockname()[1]


@contextlib.contextmanager
def running(words):
    """Runs a command, and ends it."""
    process = subprocess.Popen(words, stdout=subprocess.PIPE, stderr=subprocess.DEVNULL, encoding="utf-8")
    try:
        yield process
    finally:
        process.kill()
        process.communicate()


@contextlib.contextmanager
def node(*options):
    """Runs the node of tests/python that listens. Gives its address."""
    words = [sys.executable, "-B", f"{RFC_NODE}/__main__.py", "--listen", "127.0.0.1:0", *options]
    with running(words) as process:
        yield process.stdout.readline().split()[-1]


def connecting(address, *options):
    """Runs the node of tests/python that connects."""
    return running([sys.executable, "-B", f"{RFC_NODE}/__main__.py", "--connect", address, *options])


def compiled(name, at):
    """Compiles a program of examples/peers. Returns its path."""
    path = f"{at}/{name}"
    subprocess.run(["cc", "-O2", f"-I{TOP}/include", f"{PEERS}/{name}.c", ARCHIVE, "-o", path], check=True)
    return path


@contextlib.contextmanager
def again(words):
    """Runs a command again and again, until the end."""
    is_over, current = threading.Event(), []

    def work():
        while not is_over.is_set():
            process = subprocess.Popen(words, stdout=subprocess.DEVNULL, stderr=subprocess.DEVNULL)
            current[:] = [process]
            process.wait()

    thread = threading.Thread(target=work)
    thread.start()
    try:
        yield
    finally:
        is_over.set()
        while thread.is_alive():
            if current:
                current[0].kill()
            thread.join(0.1)


class Fragile:
    """A node before the real one that passes all on, and that is gone for ever once the probe has sent
    bytes that a test finds. `found` has what it had sent by then."""

    def __init__(self, address, test):
        host, _, port = address.rpartition(":")
        self.behind, self.test, self.found = (host, int(port)), test, None
        self.listener, self.open = socket.create_server(("127.0.0.1", 0)), set()
        self.address = f"127.0.0.1:{self.listener.getsockname()[1]}"

    def __enter__(self):
        threading.Thread(target=self.accept, daemon=True).start()
        return self

    def __exit__(self, *_):
        self.end()

    def accept(self):
        """Takes connections."""
        with contextlib.suppress(OSError):
            while True:
                near, far = self.listener.accept()[0], socket.create_connection(self.behind)
                self.open |= {near, far}
                for pair in ((near, far, self.test), (far, near, None)):
                    threading.Thread(target=self.relay, args=pair, daemon=True).start()

    def relay(self, source, target, test):
        """Passes on what one side sends."""
        sent = b""
        with contextlib.suppress(OSError):
            for data in iter(lambda: source.recv(65536), b""):
                sent += data
                if test is not None and test(sent):
                    self.found = sent
                    self.end()
                target.sendall(data)
            target.shutdown(socket.SHUT_WR)

    def end(self):
        """Is gone."""
        for it in (self.listener, *self.open):
            with contextlib.suppress(OSError):
                it.shutdown(socket.SHUT_RDWR)
            it.close()
