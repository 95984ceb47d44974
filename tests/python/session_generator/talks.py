"""A session of two nodes, as two recordings with times."""

import random
from typing import NamedTuple

from model import wire

from .messages import CAN_TLS, CRITICAL, EXPERIMENTS, SMALLEST, spelled
from .nodes import Carrier, Node
from .receiver import NO_RESOURCES, NOT_ACCEPTABLE, ORDERS, REFUSED, REJECTED, SUMS, TAKEN

STEPS = 20000
SMALL, USUAL = [1, 2, 3, 7, 20], [40, 64, 100, 1000, 1 << 16, (1 << 64) - 1]


class Side(NamedTuple):
    """What one side sent, and whether it closed the connection after that."""
    sent: list
    is_closed: bool

    def ends(self):
        """The offset of the end of each message."""
        found, at = [], 0
        for it in self.sent:
            at += len(spelled(it.it))
            found.append(at)
        return found

    def content(self):
        """The recording."""
        return b"".join(spelled(it.it) for it in self.sent)


class Talk(NamedTuple):
    """Both sides of a session. `near` says how near to side a it was captured, from 0 to 1."""
    a: Side
    b: Side
    near: float

    def closed(self):
        """The names of the sides that closed the connection."""
        return "".join(name for name, side in zip("ab", self[:2]) if side.is_closed)

    def captured(self):
        """When each message of each side was captured."""
        found = []
        for side, part in zip(self[:2], (self.near, 1 - self.near)):
            times = []
            for it in side.sent:
                times.append(max(it.time + part * it.delay, times[-1] if times else 0))
            found.append(times)
        return found

    def times(self, shifted=None):
        """The files of times."""
        texts = []
        for side, seconds in zip(self[:2], shifted or self.captured()):
            texts.append("".join(f"{end} {1e9 + each:.6f}\n" for end, each in zip(side.ends(), seconds)))
        return texts

    def changed(self, name, sent=None, is_closed=None):
        """The session with another side of that name."""
        side = getattr(self, name)
        sent, is_closed = side.sent if sent is None else sent, side.is_closed if is_closed is None else is_closed
        return self._replace(**{name: Side(sent, is_closed)})


class Traits:
    """What sets a node apart: its parameters, and how likely it does what. It keeps its way of answering."""

    def __init__(self, rng, line, is_active, name):
        self.rng, self.line, self.is_active, self.name = rng, line, is_active, name
        self.flags = 0
        self.init = init(rng, line)
        self.is_strict = rng.random() < 0.5
        self.leaves_early = rng.random() < 0.03
        self.is_hasty, self.drops, self.aborts = rng.random() < 0.15, rng.choice([0, 0.5, 1]), rng.random() < 0.04
        self.refusals = rng.choice([0, 0, 0.03, 0.1, 0.3])
        self.reasons = [0, 1, NO_RESOURCES, 3, NOT_ACCEPTABLE, rng.randint(0xF0, 0xFF)]
        self.refuses_at_once, self.repeats = rng.random() < 0.5, rng.choice([0, 0, 0.1])
        self.rejects, self.segment_rejections = rng.choice([0, 0, 0, 0.3]), rng.choice([0, 0, 0, 0.05, 0.3])
        self.above = rng.choice([REJECTED, REJECTED, REFUSED, TAKEN])
        self.after_rejection = rng.choice([REJECTED, REFUSED, TAKEN])
        self.order, self.sums = rng.choice(ORDERS), rng.choice(SUMS)
        self.late_acks, self.begins_late = rng.choice([0, 0, 0.5]), rng.random() < 0.5
        self.replies_before_end, self.stops = rng.random() < 0.5, rng.choice([0, 0, 1])
        self.stalls, self.vanishes, self.peeks = 0, 0.2, 0
        self.answers, self.replies = rng.choice([0.3, 1, 3, 10]), rng.choice([0.03, 0.3, 1, 5])
        self.ends, self.pace = rng.choice([0.002, 0.02, 0.1]), rng.choice([0.5, 3, 20])
        self.empty = rng.choice([0, 0, 0.1, 0.4])
        self.announces = rng.choice([0, 0.5, 1])
        self.bundles = [rng.randint(0, 60) for _ in range(rng.choice([0, 1, 2, 5, 9]))]
        self.counts_up, self.longest = rng.random() < 0.7, rng.choice([5, 25, 60, 1000])
        self.with_items = rng.choice([0, 0, 0.3])

    def delay(self):
        """How long a message is under way. Some packets are lost, and sent again."""
        lost = self.rng.uniform(0.2, 1) if self.rng.random() < 0.02 else 0
        return self.line.latency * self.rng.uniform(1, 1.5) + lost

    def ident(self, count):
        """The ID of the next transfer (section 5.2.1)."""
        return count if self.counts_up else self.rng.choice([self.rng.getrandbits(64), self.rng.randrange(40)])

    def size(self, limit):
        """The length of a segment."""
        return self.rng.randint(1, min(limit, self.longest))

    def items(self):
        """Items of a transfer: of unknown types, and few of them critical."""
        while self.rng.random() < self.with_items:
            flags = CRITICAL if self.rng.random() < 0.1 else 0
            yield wire.Item(flags, self.rng.choice(EXPERIMENTS), self.rng.randbytes(self.rng.randint(0, 5)))


class Line(NamedTuple):
    """What both nodes have in common: the latency, and items that both may know."""
    latency: float
    known: list
    interval: int


def init(rng, line):
    """SESS_INIT (section 4.6)."""
    items = list(line.known)
    if rng.random() < 0.15:
        items.append(wire.Item(0, rng.choice(EXPERIMENTS), rng.randbytes(3)))
    if rng.random() < 0.03:
        items.append(wire.Item(CRITICAL, 0x8010 + rng.randrange(4), b""))
    node = rng.choice([b"", b"ipn:1.0", b"ipn:2.0", b"dtn://node/"])
    segment = rng.choice(SMALL + USUAL * 2) if rng.random() > 0.05 else 0
    limit = rng.choice([1, SMALLEST - 1, SMALLEST, SMALLEST + 20, 1000, 1 << 20, 1 << 20, (1 << 64) - 1])
    interval = rng.choice([0, line.interval, line.interval, line.interval + rng.randint(0, 9)])
    return wire.SessInit(interval, segment, limit if rng.random() > 0.05 else 0, node, items)


def nodes_of(rng, line, bugs, carrier, fixed):
    """Two nodes that are connected."""
    is_active = rng.random() < 0.5
    traits = [Traits(rng, line, is_active, "a"), Traits(rng, line, not is_active, "b")]
    for it in traits:
        vars(it).update({name: value(it) if callable(value) else value for name, value in fixed.items()})
    if rng.random() < 0.1:
        rng.choice(traits).flags = CAN_TLS
    bugs = set(bugs) - {"patient"}, set(bugs) & {"patient"}
    nodes = [Node(rng, *it, carrier) for it in zip(traits, bugs)]
    nodes[0].peer, nodes[1].peer = nodes[1], nodes[0]
    return nodes


def talk(seed, bugs=(), **fixed):
    """A session. Side a has the bugs, but `patient` is one of side b. `fixed` sets traits of both."""
    rng = random.Random(seed)
    line = Line(rng.choice([0.001, 0.03, 0.3, 0.6]), shared_items(rng), rng.choice([1, 2, 5, 30, 60, 600]))
    nodes, steps = nodes_of(rng, line, bugs, Carrier, fixed), STEPS
    while steps and not all(it.is_closed for it in nodes):
        min((it for it in nodes if not it.is_closed), key=Node.wakes).turn()
        steps -= 1
    sides = [Side(it.sent, it.is_closed and not it.was_reset) for it in nodes]
    return Talk(*sides, rng.random())


def shared_items(rng):
    """Session items that both nodes send, and so know."""
    kinds = rng.sample(EXPERIMENTS, 2)
    return [wire.Item(rng.randint(0, 1), it, b"x") for it in kinds] if rng.random() < 0.15 else []
