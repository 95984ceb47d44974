"""Right nodes get no line. What the programs of examples/peers leave out is listed."""

import re

from probing import table

from . import TOP
from .nodes import C, NODE, PROGRAMS, again, compiled, connecting, free_port, needs, node, probe, room

# Cases that are for nodes of one role
OF_ACCEPTS = {case.name for case in table.CASES if case.role == table.ACCEPTS and case.group not in table.APART}
OF_CONNECTS = {case.name for case in table.CASES if case.role == table.CONNECTS}
FROM_NODE = {case.name for case in table.CASES if table.SENDS in case.needs}

# What is used for nodes that answer at once
QUICK = ["--timeout", "2", "--patience", "5"]


def kept(name, ran, skipped):
    """Yields the checks of a run with a right node."""
    yield f"{name}: no line", [], ran.lines("must", "should", "lost")
    yield f"{name}: status and errors", (0, ""), (ran.status, ran.errors)
    yield f"{name}: skipped", sorted(skipped), sorted(ran.names("skipped"))


@needs(PROGRAMS, NODE)
def accepting():
    """A node that accepts, and sends nothing by itself."""
    with node() as address, room() as at:
        ran = probe(*QUICK, "--jobs", "4", at, address)
    yield from kept("accepts", ran, OF_CONNECTS | FROM_NODE | {"term-both"})


@needs(PROGRAMS, NODE)
def sending():
    """A node that accepts, and sends a bundle in each session."""
    with node("--send", "1") as address, room() as at:
        ran = probe(*QUICK, "--jobs", "4", at, address)
    yield from kept("accepts and sends", ran, OF_CONNECTS | {"term-both"})


@needs(PROGRAMS, NODE)
def with_defaults():
    """A node that accepts, with the defaults of all options."""
    with node("--send", "1") as address, room() as at:
        ran = probe(at, address)
    yield from kept("defaults", ran, OF_CONNECTS | {"term-both"})


@needs(PROGRAMS, NODE)
def limited():
    """A node with small limits and another ID."""
    with node("--segment-mru", "200", "--transfer-mru", "3000", "--node", "dtn://small/") as address, room() as at:
        ran = probe(*QUICK, "--jobs", "4", "--only", "to,end", at, address)
    yield "limits: no line", [], ran.lines("must", "should", "lost")


@needs(PROGRAMS, NODE)
def connects():
    """A node that connects, and sends a bundle in each session."""
    address = f"127.0.0.1:{free_port()}"
    with connecting(address, "--send", "1"), room() as at:
        ran = probe(*QUICK, "--listen", address, at)
    yield from kept("connects", ran, OF_ACCEPTS)


def left_out(name):
    """Returns the lines of a program of examples/peers that the documents list."""
    with open(f"{TOP}/docs/TESTING.md", encoding="utf-8") as file:
        found = re.search(rf"`examples/peers/{name}\.c`[^`]*:\n\n((?:    .*\n)+)", file.read())
    return [line.strip() for line in found[1].splitlines()] if found else []


@needs(PROGRAMS, C)
def receiver():
    """The receiver of examples/peers."""
    port = free_port()
    with room() as at, again([compiled("receiver", at), str(port)]):
        ran = probe(*QUICK, f"{at}/tried", f"127.0.0.1:{port}")
    yield "receiver: lines", left_out("receiver"), ran.lines("must", "should", "lost")


@needs(PROGRAMS, C)
def sender():
    """The sender of examples/peers."""
    port = free_port()
    with room() as at, again([compiled("sender", at), "127.0.0.1", str(port)]):
        ran = probe(*QUICK, "--listen", f"127.0.0.1:{port}", f"{at}/tried")
    yield "sender: lines", left_out("sender"), ran.lines("must", "should", "lost")


PARTS = [accepting, sending, with_defaults, limited, connects, receiver, sender]
