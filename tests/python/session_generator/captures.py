"""Captures of sessions: two nodes of `nodes` over the TCP of `stack`.

A stream is a session as it was captured. What a node receives, and when, is what its socket delivers: a
node that stalls closes its window, and packets get lost, late, or are missed by the capture alone.
"""

import math
import random
import struct
from typing import NamedTuple

from capture import BEGIN, RST, SYN, End

from model import wire

from . import talks
from .messages import START, Raw, spelled
from .nodes import FIN, RESET, Node
from .stack import OTHER, Line, Network, Settings, Socket, frame

STEPS, AFTERWARDS, LONG = 60000, 100, 5
PORTS = [4556, 4556, 4556, 49000]


class Stream(NamedTuple):
    """A captured session: its packets with their times.

    `first` has the first sequence number of each side, `sent` what its node wrote, and `port` is the one of b.
    `interval` is the negotiated one.
    """
    name: str
    captured: list
    first: dict
    sent: dict
    port: int
    interval: int

    def recordings(self):
        """What the capture has of each side without a gap, or None if it lacks a SYN."""
        known = {"a": Known(), "b": Known()}
        for _, packet in self.captured:
            known[packet.side].take(packet)
        begun = {packet.side for _, packet in self.captured if packet.flags & SYN}
        return {side: self.sent[side][:it.end] for side, it in known.items()} if begun == {"a", "b"} else None

    def features(self):
        """What the capture shows of TCP."""
        return {name for name, is_so in FEATURES.items() if is_so(self)}


def is_begun(end, it, read):
    """Whether the first segment of a transfer has come up to its data, and the data has not."""
    return isinstance(it, wire.Segment) and it.flags & START and end - it.length <= read < end


class Application:
    """Carries the messages of a node over its socket. It is a carrier as `nodes.Carrier`."""

    def __init__(self, node, socket):
        self.node, self.socket, self.marks, self.is_told = node, socket, [], False
        socket.app, node.wake = self, math.inf

    def put(self, it, now):
        """Sends a message, or closes the connection."""
        if it is FIN:
            self.socket.finish(now)
        else:
            content = spelled(it)
            self.marks.append((len(self.socket.out) + len(content), it))
            self.socket.write(content, now)
        return 0.0

    def drain(self, now):
        """The node reads all that has come."""
        read, other = self.socket.drain(now), self.node.peer.carrier
        while other.marks and other.marks[0][0] <= read:
            it = other.marks.pop(0)[1]
            self.node.inbox += [(now, it)] if not isinstance(it, Raw) else []
        if other.marks and is_begun(*other.marks[0], read) and self.node.peek(other.marks[0][1], now):
            other.marks[0] = other.marks[0][0], Raw(b"")
        if self.socket.fin_at == read and not self.is_told:
            self.is_told = True
            self.node.inbox.append((now, FIN))

    def connected(self, now):
        """The connection is open: the node begins."""
        if self.node.wake == math.inf:
            self.node.now = self.node.wake = self.node.last_in = now

    def arrived(self, now):
        """Bytes have come."""
        if self.node.wake < math.inf and now >= self.node.stall:
            self.drain(now)

    def was_cut(self, now):
        """An RST has come."""
        self.node.inbox.append((now, RESET))


def settings(rng, shift):
    """The settings of a socket."""
    first = rng.choice([rng.getrandbits(32), (1 << 32) - rng.randrange(1, 3000)])
    size = rng.choice([400, 600, 1000, 2000, 60000])
    return Settings(first, rng.choice([100, 536, 1000, 1460]), size, shift, rng.choice([0, 0.04, 0.2]),
                    rng.choice([0.2, 1, 3]), rng.random() < 0.5, rng.random() < 0.5)


def lines(rng):
    """The network before and after the capture."""
    is_good = rng.random() < 0.4
    for _ in "ab":
        begun = rng.uniform(2, 60)
        outages = ((begun, begun + rng.uniform(1, 4)),) if rng.random() < 0.1 else ()
        loss, late, twice = (0, 0, 0) if is_good else (rng.choice([0, 0.02, 0.1]) for _ in range(3))
        yield Line(rng.choice([0.0002, 0.02, 0.2]), loss, late, twice, outages)


def longer(it):
    """SESS_INIT that takes long transfers, and mostly has an interval."""
    interval = it.line.interval if it.rng.random() < 0.9 else it.init.keepalive
    segment = it.rng.choice([100, 1000, 3000, 1 << 20])
    return it.init._replace(keepalive=interval, segment_mru=segment, transfer_mru=1 << 20)


# Traits of the nodes: long bundles, and some that do not read for a while
TRAITS = {
    "init": longer, "is_strict": False, "vanishes": 0, "peeks": lambda it: it.rng.choice([0, 0, 0.5]),
    "stalls": lambda it: it.rng.choice([0, 1, 1, 1]),
    "bundles": lambda it: [it.rng.randint(0, 4000) for _ in range(it.rng.choice([0, 3, 6, 10]))],
    "longest": lambda it: it.rng.choice([60, 500, 3000]),
}


def stream(name):
    """A captured session of that name."""
    rng = random.Random(name)
    network = Network(rng, lines(rng), rng.choice([0, 0, 0.01, 0.05]))
    shifts = rng.choice([(None, None), (0, 0), (3, 7), (7, 2), (4, None)])
    for side, shift in zip("ab", shifts):
        Socket(network, side, settings(rng, shift))
    line = talks.Line(0, talks.shared_items(rng), rng.choice([3, 10, 30]))

    def carrier(node):
        return Application(node, network.sockets["a" if node.traits.is_active else "b"])
    nodes = talks.nodes_of(rng, line, (), carrier, TRAITS)
    network.sockets["a"].connect(0.0)
    if rng.random() < 0.04:
        network.at(rng.uniform(1, 60), network.break_off)
    run(network, nodes)
    first = {side: it.set.isn for side, it in network.sockets.items()}
    sent = {side: bytes(it.out) for side, it in network.sockets.items()}
    return Stream(name, cut(rng, network.captured), first, sent, rng.choice(PORTS), nodes[0].interval())


def run(network, nodes):
    """Lets a session happen, and what TCP does after it."""
    limit = math.inf
    for _ in range(STEPS):
        acting = [it for it in nodes if not it.is_closed]
        if not acting:
            limit = min(limit, network.now + AFTERWARDS)
        wakes = min((it.wakes() for it in acting), default=math.inf)
        if min(network.next(), wakes) > limit or min(network.next(), wakes) == math.inf:
            break
        if network.next() <= wakes:
            network.step()
        else:
            network.now = wakes
            min(acting, key=Node.wakes).turn()


def cut(rng, captured):
    """Some captures begin late, or end early."""
    way = rng.random()
    if way < 0.04:
        return captured[rng.randrange(len(captured)):]
    return captured[:rng.randrange(len(captured))] if way < 0.08 else captured


# ---- features


def closed_for(it):
    """For how long a side had a closed window, as the capture shows it."""
    longest, since = 0, {}
    for time, packet in it.captured:
        if packet.window or packet.flags & (RST | SYN):
            longest = max(longest, time - since.pop(packet.side, time))
        else:
            since.setdefault(packet.side, time)
    return longest


class Known:
    """Which bytes of a side the capture has so far: those before `end`, and some after a gap."""

    def __init__(self):
        self.end, self.early = 0, []

    def take(self, packet):
        """Takes a packet of the side."""
        self.early.append((packet.offset, packet.end()))
        while any(one <= self.end < two for one, two in self.early):
            self.end = max(two for one, two in self.early if one <= self.end)
        self.early = [it for it in self.early if it[1] > self.end]


def was_held_back(it):
    """Whether a closed window held a KEEPALIVE back: nothing new of its side came for the interval and LONG."""
    known, last = {"a": Known(), "b": Known()}, {}
    for time, packet in it.captured:
        before = known[packet.side].end
        known[packet.side].take(packet)
        if known[packet.side].end > before:
            if it.interval and before and time - last[packet.side] > it.interval + LONG:
                return closed_for(it) > it.interval
            last[packet.side] = time
    return False


def was_missed(it):
    """Whether a side acknowledges bytes that the capture lacks then."""
    known = {"a": Known(), "b": Known()}
    for _, packet in it.captured:
        if packet.seen > known[OTHER[packet.side]].end and not packet.flags & (RST | SYN):
            return True
        known[packet.side].take(packet)
    return False


def is_disordered(it):
    """Whether a packet with data comes before one that was sent earlier for the first time."""
    furthest = {"a": 0, "b": 0}
    for _, packet in it.captured:
        if packet.data and not packet.is_again and packet.offset < furthest[packet.side]:
            return True
        furthest[packet.side] = max(furthest[packet.side], packet.end())
    return False


def is_duplicated(it):
    """Whether the very same packet comes twice."""
    packets = [packet for _, packet in it.captured if packet.data]
    return any(packet in packets[max(0, n - 5):n] for n, packet in enumerate(packets))


FEATURES = {
    "a window that is closed for long": lambda it: closed_for(it) > LONG,
    "a KEEPALIVE that a closed window holds back": was_held_back,
    "a packet that is sent again": lambda it: any(packet.is_again and packet.data for _, packet in it.captured),
    "a packet that the capture missed and the other side got": was_missed,
    "packets in another order": is_disordered,
    "the same packet twice": is_duplicated,
    "an RST": lambda it: any(packet.flags & RST for _, packet in it.captured),
}

# How many of 500 streams show a feature at least
FLOORS = dict(zip(FEATURES, (50, 15, 50, 50, 100, 100, 50)))


# ---- files


def ends(number, port_of_b):
    """Both ends of a stream of that number."""
    found = {}
    for side, byte, port in (("a", 1, 49152 + number), ("b", 2, port_of_b)):
        found[side] = End(bytes([2, 0, 0, 0, 0, byte]), bytes([192, 0, 2, byte]), port, 0)
    return found


def pcap(streams, begins):
    """The capture of some streams, each from its second on. Returns it, and the streams by their first packets."""
    packets = [(begin + each.time, number, each.packet) for number, (it, begin) in enumerate(zip(streams, begins))
               for each in it.captured]
    packets.sort(key=lambda it: it[0])
    out = [struct.pack("<IHHiIII", 0xA1B2C3D4, 2, 4, 0, 0, 65535, 1)]
    for count, (time, number, packet) in enumerate(packets):
        content = frame(packet, ends(number, streams[number].port), streams[number].first, count)
        whole = round(time * 10**6)
        out.append(struct.pack("<IIII", BEGIN + whole // 10**6, whole % 10**6, len(content), len(content)) + content)
    return b"".join(out), [streams[number] for number in dict.fromkeys(number for _, number, _ in packets)]
