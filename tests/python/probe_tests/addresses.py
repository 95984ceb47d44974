"""Which addresses are allowed. A name of the wrong ones leads to nowhere: nothing may be sent."""

import os
import socket

from probing import addresses

from .nodes import PROGRAMS, needs, probe, room

# By RFC 1918, RFC 4193, RFC 4291 and RFC 1122
PRIVATE = [
    "127.0.0.1", "127.255.255.254", "10.0.0.1", "10.255.255.255", "172.16.0.0", "172.31.255.255", "192.168.0.1",
    "::1", "fc00::1", "fdff::1", "fe80::1", "febf::1", "fe80::1%lo", "::ffff:127.0.0.1", "::ffff:10.1.2.3",
]
PUBLIC = [
    "0.0.0.0", "9.255.255.255", "11.0.0.0", "126.0.0.1", "128.0.0.1", "172.15.255.255", "172.32.0.0", "192.167.0.1",
    "192.169.0.1", "169.254.0.1", "224.0.0.1", "255.255.255.255", "100.64.0.1", "192.0.2.1", "198.18.0.1",
    "::", "fbff::1", "fe00::1", "fec0::1", "ff02::1", "2001:db8::1", "::ffff:8.8.8.8", "::ffff:172.32.0.1", "::8.8.8.8",
    "64:ff9b::7f00:1",
]
SPLIT = {
    "127.0.0.1:4600": ("127.0.0.1", 4600), "127.0.0.1": ("127.0.0.1", 4556), "[::1]:4600": ("::1", 4600),
    "[::1]": ("::1", 4556), "node:1": ("node", 1), "node": ("node", 4556), "[fe80::1%lo]:2": ("fe80::1%lo", 2),
}
WRONG = ["::1", "::1:4556", "127.0.0.1:", "127.0.0.1:x", "127.0.0.1:65536", ":4556", "[]:1", "[::1]4556", "a:-1", "a:٣"]


def numbers():
    """Addresses of private networks and others."""
    yield "private", [], [it for it in PRIVATE if not addresses.is_private(it)]
    yield "public", [], [it for it in PUBLIC if addresses.is_private(it)]


def split():
    """Hosts and ports."""
    yield "hosts and ports", SPLIT, {text: addresses.split(text) for text in SPLIT}
    for text in WRONG:
        try:
            got = addresses.split(text)
        except addresses.Refused:
            got = None
        yield f"no address: {text}", None, got


def names():
    """A name is looked up once. Each of its numbers is judged, and the connection goes to a number."""
    asked, real = [], socket.getaddrinfo

    def answer(host, port, **_):
        asked.append(host)
        known = {"mixed": ["127.0.0.1", "192.0.2.1"], "mapped": ["::ffff:192.0.2.1"], "near": ["10.1.2.3", "::1"]}
        return [(socket.AF_INET6 if ":" in it else socket.AF_INET, 1, 6, "", (it, port)) for it in known[host]]

    socket.getaddrinfo = answer
    try:
        for host in ("mixed", "mapped"):
            try:
                got = addresses.allowed(f"{host}:1", False)
            except addresses.Refused as error:
                got = str(error).split()[0]
            yield f"{host}: refused", {"mixed": "192.0.2.1", "mapped": "::ffff:192.0.2.1"}[host], got
        near = [(socket.AF_INET, ("10.1.2.3", 1)), (socket.AF_INET6, ("::1", 1))]
        yield "near: allowed", near, addresses.allowed("near:1", False)
        yield "mixed, --mine", 2, len(addresses.allowed("mixed:1", True))
        yield "asked once each", ["mixed", "mapped", "near", "mixed"], asked
    finally:
        socket.getaddrinfo = real


@needs(PROGRAMS)
def refused():
    """An address that is not allowed is status 2, and no folder is made."""
    with room() as at:
        for text in ("192.0.2.1:4556", "[::ffff:192.0.2.1]:4556", "[2001:db8::1]", "255.255.255.255:1", "0.0.0.0:4556"):
            ran = probe(f"{at}/made", text)
            yield f"{text}: status and output", (2, "", False), (ran.status, ran.output, os.path.exists(f"{at}/made"))
            yield f"{text}: why", True, "neither loopback nor private; --mine" in ran.errors


PARTS = [numbers, split, names, refused]
