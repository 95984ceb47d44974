"""Streams of the fuzzer: which are sent, and what a node that does not survive one comes to."""

import asyncio
import os
import types

from probing import bundles, dry, fuzz, planned, run, wire

from . import TOP
from .nodes import NODE, PROGRAMS, Fragile, needs, node, probe, room

QUICK = ["--timeout", "3", "--patience", "2"]
ROUTE = bundles.Route(bundles.endpoint("dtn://probe/"), bundles.endpoint("ipn:2.0"))
GOOD = bundles.bundle(ROUTE, 7, now=1.8e9)


def other(source="dtn://probe/", destination="ipn:2.0"):
    """Returns a bundle of another route."""
    return bundles.bundle(bundles.Route(bundles.endpoint(source), bundles.endpoint(destination)), 7, now=1.8e9)


def stream(*pieces):
    """Returns a stream with a transfer in pieces."""
    return wire.contact() + wire.sess_init(60, 9, 9, b"") + b"".join(wire.transfer(0, pieces))


# The primary block of a bundle begins `88 07 04 01`: eight elements, version 7, flags, type of check
PRIMARY = GOOD[1:]
NOT_SENT = {
    "another destination": stream(other(destination="ipn:3.0")),
    "another service": stream(other(destination="ipn:2.1")),
    "another source": stream(other(source="ipn:1.0")),
    "no source": stream(other(source="dtn:none")),
    "a report-to": stream(GOOD.replace(b"\x82\x01\x00", b"\x82\x02\x82\x01\x00", 1)),
    "report flags": stream(b"\x9f\x88\x07\x1a\x00\x04\x00\x04" + PRIMARY[3:]),
    "the time of a status": stream(b"\x9f\x88\x07\x18\x44" + PRIMARY[3:]),
    "an acknowledgement": stream(b"\x9f\x88\x07\x18\x24" + PRIMARY[3:]),
    "in pieces": stream(other(destination="ipn:3.0")[:12], other(destination="ipn:3.0")[12:]),
    "in pieces of two transfers": stream(other(destination="ipn:3.0")[:12]) + b"".join(
        wire.transfer(0, [other(destination="ipn:3.0")[12:]])
    ),
    "among other bytes": stream(b"junk" + other(destination="ipn:3.0") + b"junk"),
    "in a message that is cut": stream(other(destination="ipn:3.0"))[:-8],
    "long heads": stream(b"\x9f\x98\x08\x18\x07" + other(destination="ipn:3.0")[3:]),
    "an array without a length": stream(b"\x9f\x9f\x07" + other(destination="ipn:3.0")[3:]),
}
SENT = {
    "the planned bundle": stream(GOOD), "in pieces": stream(GOOD[:12], GOOD[12:]), "twice": stream(GOOD, GOOD),
    "no bundle": stream(b"no bundle"), "nothing": b"", "another version": stream(
        b"\x9f\x88\x06" + other(destination="ipn:3.0")[3:]
    ), "cut in its destination": stream(other(destination="ipn:3.0")[:8]),
}


def judged():
    """No stream is sent that holds another bundle than the planned one."""
    yield "not sent", [], [name for name, it in NOT_SENT.items() if planned.is_planned(it, ROUTE)]
    yield "sent", [], [name for name, it in SENT.items() if not planned.is_planned(it, ROUTE)]
    yield "without a route", False, planned.is_planned(stream(GOOD), None)


def idle_probe():
    """Returns what the streams need of a probe."""
    given = types.SimpleNamespace(
        timeout=1, patience=1, node="dtn://probe/", send=[], keepalive=60, segment_mru=65536, transfer_mru=65536,
        listen=None, destination=None,
    )
    it = run.Probe(given, None, [], None)
    it.base.limits, it.base.answer, it.route, it.now = (60, 65536, 65536), "ack", ROUTE, 1.8e9
    return it


def corpus(seed):
    """Returns streams of a seed."""
    it = idle_probe()
    seeds = asyncio.run(dry.streams(it))
    it.count, made = 0, fuzz.Corpus(it, seeds, f"{TOP}/examples/faults", seed)
    return [made.stream(number) for number in range(600)]


def made():
    """The streams are those of the seed, all are planned, and they are of many kinds."""
    streams = corpus(5)
    yield "the same seed", True, streams == corpus(5)
    yield "another seed", False, streams == corpus(6)
    yield "planned", [], [it for it in streams if not planned.is_planned(it, ROUTE)]
    firsts = {it[6] for it in streams if it[:6] == wire.contact() and len(it) > 6}
    yield "first messages", set(), set(range(1, 8)) - firsts
    yield "with a contact header", True, 400 < sum(it[:6] == wire.contact() for it in streams) < 600


@needs(PROGRAMS, NODE)
def survived():
    """A right node survives all streams."""
    with node("--send", "1") as address, room() as at:
        ran = probe(*QUICK, "--fuzz", "150", "--seed", "3", f"{at}/made", address)
        yield "survived", ["ok good", "ok fuzz streams=150 seed=3"], ran.lines("ok", "must", "should", "lost")
        yield "nothing is kept", ["001-good"], os.listdir(f"{at}/made")


@needs(PROGRAMS, NODE)
def not_survived():
    """The stream after which a node does not serve is kept, and --play sends it again."""
    # A second SESS_INIT after a transfer, which no case sends
    is_fatal = lambda sent: b"\x01\x03" in sent and sent.rfind(b"\x07\x00\x3c") > sent.find(b"\x01\x03") > 0
    with node() as address, room() as at:
        with Fragile(address, is_fatal) as fragile:
            ran = probe(*QUICK, "--fuzz", "2000", f"{at}/made", fragile.address)
        line = ran.lines("lost")
        yield "lost", (1, 1), (ran.status, len(line))
        name = line[0].split()[1]
        path = f"{at}/made/{name}.tcpcl"
        with open(path, "rb") as file:
            yield "kept", True, is_fatal(file.read())
        with Fragile(address, is_fatal) as fragile:
            ran = probe(*QUICK, "--play", path, f"{at}/again", fragile.address)
        yield "--play", (1, ["ok good", "lost play seconds=2"]), (ran.status, ran.lines("ok", "lost"))
        ran = probe(*QUICK, "--play", path, f"{at}/right", address)
        yield "--play to a right node", (0, ["ok good", "ok play"]), (ran.status, ran.lines("ok", "lost"))


PARTS = [judged, made, survived, not_survived]
