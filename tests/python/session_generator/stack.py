"""A small TCP (RFC 9293, RFC 7323): two sockets, the network between them, and a capture at some point of it.

Sequence numbers are counted as offsets in what a side sends: its SYN is at -1, its first byte at 0, and
its FIN after its last byte. A `Packet` is as it was sent. The capture sees it where it passes, if it
passes, and unless it misses it.
"""

import heapq
import itertools
import struct
from typing import NamedTuple

from capture import ACK, FIN, PSH, RST, SYN, TCP, ipv4

NUMBERS, LONGEST_WAIT = 1 << 32, 20
OTHER = {"a": "b", "b": "a"}


class Packet(NamedTuple):
    """A TCP segment: the side that sent it, where it begins, and what it acknowledges.

    `window` is as it is in the header. `is_again` says that it has bytes which were sent before.
    """
    side: str
    offset: int
    seen: int
    flags: int
    window: int
    data: bytes = b""
    options: bytes = b""
    is_again: bool = False

    def end(self):
        """The offset after it."""
        return self.offset + len(self.data) + bool(self.flags & (SYN | FIN))


class Captured(NamedTuple):
    """A packet, and when it was captured."""
    time: float
    packet: Packet


class Line(NamedTuple):
    """The network on one side of the capture: its latency, and how often it does what to a packet."""
    latency: float
    loss: float
    late: float
    twice: float
    outages: tuple

    def delays(self, rng, now):
        """How long each copy of a packet is under way."""
        is_lost = rng.random() < self.loss or any(one <= now < two for one, two in self.outages)
        copies = 0 if is_lost else 2 if rng.random() < self.twice else 1
        return [self.latency * rng.uniform(1, 1.1) + (rng.uniform(0, 0.3) if rng.random() < self.late else 0)
                for _ in range(copies)]


class Network:
    """What is between two sockets: a line from `a` to the capture, and one from there to `b`."""

    def __init__(self, rng, lines, missed):
        self.rng, self.lines, self.missed = rng, dict(zip("ab", lines)), missed
        self.events, self.count, self.now = [], itertools.count(), 0.0
        self.sockets, self.captured, self.last = {}, [], {}

    def at(self, time, call, *words):
        """Calls a function at a time."""
        heapq.heappush(self.events, (time, next(self.count), call, words))

    def next(self):
        """When something happens next."""
        return self.events[0][0] if self.events else float("inf")

    def step(self):
        """Lets the next thing happen."""
        self.now, _, call, words = heapq.heappop(self.events)
        call(*words)

    def send(self, packet, now):
        """A socket sends a packet."""
        self.carry(packet, packet.side, now, self.passes)

    def passes(self, packet):
        """A packet comes to the capture."""
        if self.rng.random() >= self.missed:
            self.captured.append(Captured(self.now, packet))
        self.carry(packet, OTHER[packet.side], self.now, self.sockets[OTHER[packet.side]].receive)

    def break_off(self):
        """A middlebox ends the connection: each side gets an RST that seems to come from the other one."""
        for side, it in self.sockets.items():
            if it.una >= 0 and not it.is_dead:
                self.passes(Packet(side, it.nxt, 0, RST, 0))

    def carry(self, packet, line, now, arrives):
        """Carries a packet over a line. Packets keep their order, unless one is late."""
        for delay in self.lines[line].delays(self.rng, now):
            is_late = delay > self.lines[line].latency * 1.1
            way = packet.side, line
            time = now + delay if is_late else max(now + delay, self.last.get(way, 0.0))
            self.last[way] = self.last.get(way, 0.0) if is_late else time
            self.at(time, arrives, packet)


class Settings(NamedTuple):
    """What sets a socket apart: its first sequence number, its limits, and its habits.

    `shift` is the window scale, or None. `ack_delay` is in seconds. `has_byte` says that a probe of a
    closed window has a byte.
    """
    isn: int
    mss: int
    size: int
    shift: object
    ack_delay: float
    rto: float
    has_byte: bool
    lingers: bool


class Socket:
    """One end of a connection. `una` and `nxt` are those of RFC 9293, and `taken` is RCV.NXT."""

    def __init__(self, network, side, settings):
        self.network, self.side, self.set = network, side, settings
        self.out, self.una, self.nxt, self.edge, self.is_finished = bytearray(), -1, -1, 0, False
        self.taken, self.read, self.advertised, self.early, self.fin_at = -1, 0, 0, {}, None
        self.mss, self.shift, self.peer_shift, self.owes_ack = settings.mss, 0, 0, False
        self.rto, self.timer, self.is_armed, self.is_dead, self.is_app_gone = settings.rto, 0, False, False, False
        self.app = None
        network.sockets[side] = self

    # ---- sending

    def connect(self, now):
        """Sends SYN."""
        self.nxt = 0
        self.transmit(-1, b"", SYN, now)
        self.arm(now)

    def write(self, data, now):
        """The application writes."""
        self.out += data
        self.push(now)

    def finish(self, now):
        """The application closes the connection."""
        self.is_finished = self.is_app_gone = True
        self.drain(now)
        self.push(now)

    def last(self):
        """The offset after all that it will send, as far as it is known."""
        return len(self.out) + self.is_finished

    def push(self, now):
        """Sends what the window allows."""
        if self.una < 0 or self.taken < 0 or self.is_dead:
            return
        while self.nxt < min(len(self.out), self.edge):
            data = bytes(self.out[self.nxt:min(self.nxt + self.mss, self.edge)])
            is_part = len(data) < self.mss and self.nxt + len(data) < len(self.out)
            if is_part and self.una < self.nxt:
                break
            self.nxt += len(data)
            self.transmit(self.nxt - len(data), data, PSH | ACK, now)
        if self.is_finished and self.nxt == len(self.out):
            self.nxt += 1
            self.transmit(len(self.out), b"", FIN | ACK, now)
        self.arm(now)

    def options(self):
        """The options of SYN: the largest segment, and the window scale if it has one."""
        found = struct.pack(">BBH", 2, 4, self.set.mss)
        return found + (struct.pack(">BBBB", 3, 3, self.set.shift, 1) if self.offers_scale() else b"")

    def offers_scale(self):
        """Whether its SYN has a window scale: `b` has one only if that of `a` had one."""
        other = self.network.sockets[OTHER[self.side]].set.shift
        return self.set.shift is not None and (self.side == "a" or other is not None)

    def window(self):
        """The window that it advertises. Its right edge never moves back (RFC 9293 section 3.8.6)."""
        taken = max(self.taken, 0)
        free = self.set.size - (taken - self.read)
        if free >= min(self.mss, self.set.size // 2):
            self.advertised = max(self.advertised, taken + free)
        shift = self.shift if self.una >= 0 else 0
        return min(65535, self.advertised - taken + (1 << shift) - 1 >> shift)

    def seen(self):
        """The offset of the next byte that it expects."""
        return self.taken + (self.fin_at is not None and self.taken == self.fin_at)

    def transmit(self, offset, data, flags, now, is_again=False):
        """Sends a packet."""
        if self.taken >= 0:
            flags, self.owes_ack = flags | ACK, False
        options = self.options() if flags & SYN else b""
        self.network.send(Packet(self.side, offset, self.seen(), flags, self.window(), data, options, is_again), now)

    def acknowledge(self, now):
        """Sends what it has received, and its window."""
        if not self.is_dead:
            self.transmit(min(self.nxt, self.last()), b"", ACK, now)

    # ---- timers

    def arm(self, now):
        """Starts the timer, unless it runs: to send again, or to probe a closed window."""
        is_blocked = self.una >= 0 and self.nxt < len(self.out) and self.edge <= self.nxt
        if not self.is_armed and not self.is_dead and (self.una < self.nxt or is_blocked):
            self.is_armed = True
            self.network.at(now + self.rto, self.expire, self.timer)

    def disarm(self):
        """Stops the timer: something was acknowledged, or the window has opened."""
        self.timer, self.is_armed, self.rto = self.timer + 1, False, self.set.rto

    def expire(self, timer):
        """Sends the first packet again that is not acknowledged, or probes a closed window."""
        if timer != self.timer or self.is_dead:
            return
        now, self.rto, self.is_armed = self.network.now, min(2 * self.rto, LONGEST_WAIT), False
        if self.una < 0:
            self.transmit(-1, b"", SYN, now, True)
        elif self.una < self.nxt:
            data = bytes(self.out[self.una:min(self.una + self.mss, self.nxt)])
            is_last = self.una + len(data) == len(self.out) and self.nxt > len(self.out)
            self.transmit(self.una, data, ACK | (FIN if is_last else 0) | (PSH if data else 0), now, True)
        elif self.set.has_byte:
            self.transmit(self.nxt, bytes(self.out[self.nxt:self.nxt + 1]), ACK, now)
        else:
            self.transmit(self.nxt - 1, b"", ACK, now)
        self.arm(now)

    # ---- receiving

    def receive(self, packet):
        """Takes a packet."""
        now = self.network.now
        if self.is_dead:
            self.reset(packet, now)
        elif packet.flags & RST:
            self.is_dead = True
            self.app.was_cut(now)
        elif packet.flags & SYN:
            self.receive_syn(packet, now)
        elif self.taken >= 0 and packet.flags & ACK:
            self.receive_ack(packet)
            self.receive_data(packet, now)
            if not self.is_dead:
                self.push(now)

    def reset(self, packet, now):
        """Answers what comes to a connection that is no more (RFC 9293 section 3.10.7.1)."""
        if packet.flags & ACK and (packet.data or packet.flags & FIN):
            self.network.send(Packet(self.side, packet.seen, 0, RST, 0), now)

    def receive_syn(self, packet, now):
        """The connection begins. What is scaled is known by the options of both SYN."""
        is_first = self.taken < 0
        self.taken = max(self.taken, 0)
        mss = struct.unpack(">H", packet.options[2:4])[0]
        self.mss = min(self.set.mss, mss)
        peer = self.network.sockets[packet.side].set.shift
        if self.set.shift is not None and peer is not None:
            self.shift, self.peer_shift = self.set.shift, peer
        self.edge = max(self.edge, packet.window)
        if self.side == "b" and self.una < 0:
            self.nxt = 0
            self.transmit(-1, b"", SYN, now, not is_first)
            self.arm(now)
        else:
            self.una = max(self.una, 0)
            self.disarm()
            self.acknowledge(now)
            self.app.connected(now)
            self.push(now)

    def receive_ack(self, packet):
        """What is acknowledged, and how much may be sent."""
        was_open, edge = self.una >= 0, self.edge
        was_probed = self.set.has_byte and self.nxt < len(self.out)
        if self.una < packet.seen <= max(self.nxt, self.una + 1, self.nxt + was_probed):
            self.una = packet.seen
            self.nxt = max(self.nxt, self.una)
            self.disarm()
        if packet.seen >= self.una:
            self.edge = max(self.edge, packet.seen + (packet.window << self.peer_shift))
        if self.edge > edge and self.una == self.nxt:
            self.disarm()
        if not was_open and self.una >= 0:
            self.app.connected(self.network.now)

    def receive_data(self, packet, now):
        """Takes the bytes that are new and that it has room for, in any order."""
        is_new = packet.end() > self.seen()
        if packet.data and is_new and self.is_app_gone and not self.set.lingers:
            self.is_dead = True
            self.reset(packet, now)
            return
        room = self.advertised + (1 << self.shift) - 1
        if packet.data[:max(0, room - packet.offset)] and is_new:
            self.early[packet.offset] = packet.data[:max(0, room - packet.offset)]
        if packet.flags & FIN:
            self.fin_at = packet.offset + len(packet.data)
        before = self.seen()
        while any(at <= self.taken < at + len(data) for at, data in self.early.items()):
            self.taken = max(at + len(data) for at, data in self.early.items() if at <= self.taken)
        self.early = {at: data for at, data in self.early.items() if at + len(data) > self.taken}
        if packet.data or packet.flags & FIN or packet.end() < self.seen():
            self.owe(now, self.seen() == before)
        self.app.arrived(now)

    def owe(self, now, is_at_once):
        """An acknowledgement is due, at once or within the delay."""
        if is_at_once or not self.set.ack_delay or self.owes_ack:
            self.acknowledge(now)
        else:
            self.owes_ack = True
            self.network.at(now + self.set.ack_delay, self.pay)

    def pay(self):
        """Sends an acknowledgement that is due."""
        if self.owes_ack:
            self.acknowledge(self.network.now)

    def drain(self, now):
        """The application reads all that has come. Returns up to where."""
        limit = min(self.mss, self.set.size // 2)
        was_closed = self.advertised - max(self.taken, 0) < limit
        self.read = max(self.taken, 0)
        if was_closed and self.taken >= 0 and self.una >= 0:
            self.acknowledge(now)
        return self.read


def frame(packet, ends, first, number):
    """The Ethernet frame of a packet. `first` has the first sequence number of each side."""
    sender, receiver = ends[packet.side], ends[OTHER[packet.side]]
    numbers = first[packet.side] + 1 + packet.offset, first[OTHER[packet.side]] + 1 + packet.seen
    numbers = [it % NUMBERS for it in numbers] if packet.flags & ACK else [numbers[0] % NUMBERS, 0]
    length, ports = 5 + len(packet.options) // 4, (sender.port, receiver.port)
    head = struct.pack(">HHIIBBHHH", *ports, *numbers, length << 4, packet.flags, packet.window, 0, 0)
    return ipv4(sender, receiver, TCP, head + packet.options + packet.data, 16, number % 65536)
