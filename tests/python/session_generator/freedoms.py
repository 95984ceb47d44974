"""Which freedoms of RFC 9174 a session uses, as its messages show. tests/gate/random-sessions counts them.

A freedom is a function of a `Half`: a node as the receiver of the other's transfers. `KEPT` has those of
sessions that keep all rules, and `ABOVE` those of sessions in which one side is above a limit or announces
a wrong length. A floor says how many of 1,000 sessions use a freedom at least, so that a generator that
makes nothing fails.
"""

from typing import NamedTuple

from model import wire

from .messages import CRITICAL, END, LENGTH, REPLY, START, Contact, Raw
from .receiver import EXTENSION_FAILURE, NOT_ACCEPTABLE, TERMINATING, UNSUPPORTED

KEPT, ABOVE = {}, {}


class Incoming(NamedTuple):
    """A transfer that a half receives: its segments and answers, as pairs of a position and a message."""
    segments: list
    acks: list
    refusals: list


class Half:
    """A node: its messages and those of the other side, and the transfers that it receives."""

    def __init__(self, mine, theirs):
        self.mine, self.theirs, self.is_closed = mine.sent, theirs.sent, mine.is_closed
        self.transfers = {}
        for n, each in enumerate(self.theirs):
            if isinstance(each.it, wire.Segment):
                self.transfers.setdefault(each.it.id, Incoming([], [], [])).segments.append((n, each.it))
        for n, each in enumerate(self.mine):
            if isinstance(each.it, (wire.Ack, wire.Refuse)) and each.it.id in self.transfers:
                transfer = self.transfers[each.it.id]
                (transfer.acks if isinstance(each.it, wire.Ack) else transfer.refusals).append((n, each.it))
        self.term, self.peer_term = term_of(self.mine), term_of(self.theirs)

    def of(self, *kinds):
        """Its messages of these kinds, with their positions."""
        return [(n, each.it) for n, each in enumerate(self.mine) if isinstance(each.it, kinds)]

    def has_seen(self, position, other):
        """Whether it had processed that message of the other side before it sent its own one."""
        return self.mine[position].seen > other

    def is_ending(self, position):
        """Whether it had sent its SESS_TERM before that message."""
        return self.term is not None and self.term < position

    def answers(self):
        """How many segments of the other side it has answered, at most."""
        rejections = sum(it.header == 1 for _, it in self.of(wire.Reject))
        refused = sum(len(it.segments) for it in self.transfers.values() if it.refusals)
        return rejections + refused + sum(len(it.acks) for it in self.transfers.values() if not it.refusals)


def term_of(sent):
    """The position of the SESS_TERM, or None."""
    return next((n for n, each in enumerate(sent) if isinstance(each.it, wire.SessTerm)), None)


def freedom(floor, table=KEPT):
    """Names a freedom by the text of its function."""
    def named(judge):
        table[judge.__doc__.rstrip(".")] = floor, judge
        return judge
    return named


def of(talk, table=KEPT):
    """The names of the freedoms of a table that a session uses."""
    halves = Half(talk.a, talk.b), Half(talk.b, talk.a)
    return {name for name, (_, judge) in table.items() if any(judge(it) for it in halves)}


# ---- acknowledgements


@freedom(45)
def out_of_order(half):
    """XFER_ACK of a transfer in another order than its segments."""
    for it in half.transfers.values():
        flags = [ack.flags for _, ack in it.acks]
        if any(each & START for each in flags[1:]) or any(each & END for each in flags[:-1]):
            return True
    return False


@freedom(40)
def mixed(half):
    """XFER_ACK of two transfers mixed."""
    ids = [it.id for _, it in half.of(wire.Ack)]
    runs = [one for one, two in zip(ids, ids[1:] + [None]) if one != two]
    return len(runs) > len(set(runs))


@freedom(110)
def further(half):
    """an XFER_ACK whose length goes beyond its own segment."""
    return any(ack.flags & START and ack.length > it.segments[0][1].length
               for it in half.transfers.values() for _, ack in it.acks)


@freedom(7)
def acknowledged_late(half):
    """an XFER_ACK after an XFER_REFUSE of its transfer."""
    return any(it.refusals and it.acks and it.acks[-1][0] > it.refusals[0][0] for it in half.transfers.values())


# ---- refusals and rejections


def refusals(half):
    """The first refusal of each transfer: its position, and how many of the segments had come."""
    for it in half.transfers.values():
        if it.refusals:
            n = it.refusals[0][0]
            yield it, n, sum(half.has_seen(n, position) for position, _ in it.segments)


@freedom(130)
def in_the_middle(half):
    """an XFER_REFUSE before END has come."""
    return any(not it.segments[count - 1][1].flags & END for it, _, count in refusals(half) if count)


@freedom(100)
def at_the_end(half):
    """an XFER_REFUSE after END has come."""
    return any(it.segments[count - 1][1].flags & END for it, _, count in refusals(half) if count)


@freedom(13)
def more_refusals(half):
    """more XFER_REFUSE than the transfer has segments without XFER_ACK."""
    return any(len(it.refusals) > max(1, len(it.segments) - len(it.acks)) for it in half.transfers.values())


@freedom(22)
def crossing_refusal(half):
    """an XFER_REFUSE that crosses with a segment of its transfer."""
    return any(not half.has_seen(n, position) and half.theirs[position].seen <= n
               for it, n, _ in refusals(half) for position, _ in it.segments)


@freedom(65)
def rejected(half):
    """a segment that gets MSG_REJECT, and the session goes on."""
    found = [n for n, it in half.of(wire.Reject) if it.header == 1 and it.reason == UNSUPPORTED]
    return bool(found) and found[0] + 3 < len(half.mine)


def refused_while_ending(reason):
    """Whether an XFER_REFUSE has that reason after the SESS_TERM of its sender."""
    return lambda half: any(it.reason == reason and half.is_ending(n) for n, it in half.of(wire.Refuse))


@freedom(85)
def terminating(half):
    """an XFER_REFUSE with 06."""
    return any(it.reason == TERMINATING for _, it in half.of(wire.Refuse))


@freedom(9)
def unacceptable_while_ending(half):
    """an XFER_REFUSE with 04 in the Ending state."""
    return refused_while_ending(NOT_ACCEPTABLE)(half)


@freedom(6)
def extension_while_ending(half):
    """an XFER_REFUSE with 05 in the Ending state."""
    return refused_while_ending(EXTENSION_FAILURE)(half)


# ---- transfers


@freedom(60)
def both_at_once(half):
    """transfers of both sides at once."""
    for n, it in half.of(wire.Segment):
        last = [each for each in half.theirs[:half.mine[n].seen] if isinstance(each.it, wire.Segment)][-1:]
        if last and not last[0].it.flags & END and not it.flags & START:
            return True
    return False


@freedom(100)
def goes_on(half):
    """a transfer that goes on after the SESS_TERM of its sender."""
    return any(not it.flags & START and half.is_ending(n) for n, it in half.of(wire.Segment))


@freedom(45)
def begins_late(half):
    """a transfer that begins after the SESS_TERM of the other side has come."""
    return any(it.flags & START and half.peer_term is not None and half.has_seen(n, half.peer_term)
               for n, it in half.of(wire.Segment))


@freedom(70)
def stopped(half):
    """a transfer that its sender does not finish after its SESS_TERM."""
    runs = [(n, it) for n, it in half.of(wire.Segment)]
    return bool(runs) and not runs[-1][1].flags & END and half.term is not None and half.term > runs[-1][0]


@freedom(50)
def empty(half):
    """a segment of length 0."""
    return any(it.length == 0 for _, it in half.of(wire.Segment))


def items(half):
    """The items of its transfers."""
    return [each for _, it in half.of(wire.Segment) for each in it.items or ()]


@freedom(180)
def announced(half):
    """a transfer that announces its length."""
    return any(it.kind == LENGTH for it in items(half))


@freedom(60)
def unknown_item(half):
    """a transfer with an unknown item."""
    return any(it.kind != LENGTH for it in items(half))


@freedom(7)
def critical_item(half):
    """a transfer with an unknown critical item."""
    return any(it.kind != LENGTH and it.flags & CRITICAL for it in items(half))


@freedom(300)
def kept_alive(half):
    """a KEEPALIVE."""
    return bool(half.of(wire.Keepalive))


# ---- the end


def is_clean(half):
    """Whether both sides sent SESS_TERM and each segment has its answer."""
    return half.is_closed and half.term is not None and half.peer_term is not None and is_answered(half)


def is_answered(half):
    """Whether each segment that had come at the end has its answer."""
    seen = half.mine[-1].seen if half.mine else 0
    count = sum(position < seen for it in half.transfers.values() for position, _ in it.segments)
    return half.answers() >= count


@freedom(500)
def clean(half):
    """a clean end."""
    return is_clean(half) and not any(isinstance(each.it, Raw) for each in half.mine)


@freedom(100)
def unclean(half):
    """an unclean end after SESS_TERM, before the SESS_TERM of the other side has come."""
    if half.term is None or not half.is_closed or not half.transfers:
        return False
    return half.peer_term is None or half.mine[-1].seen <= half.peer_term


@freedom(15)
def unanswered(half):
    """an unclean end without an answer to a segment that has come."""
    return half.is_closed and half.term is not None and not is_answered(half)


@freedom(11)
def crossing_terms(half):
    """two SESS_TERM that cross."""
    own, other = half.term, half.peer_term
    return None not in (own, other) and not (half.mine[own].it.flags | half.theirs[other].it.flags) & REPLY


@freedom(9)
def inside(half):
    """an end inside a message."""
    return any(isinstance(each.it, Raw) for each in half.mine) and bool(half.of(wire.SessInit))


@freedom(7)
def another_version(half):
    """a contact header with another version, and SESS_TERM."""
    return any(it.version != 4 for _, it in half.of(Contact)) and half.peer_term is not None


# ---- what is above a limit


def excesses(half):
    """The transfers of the other side with a segment, or a sum of segments, that is above a limit of this one."""
    limits = [it for _, it in half.of(wire.SessInit)]
    for it in half.transfers.values() if limits else ():
        lengths = [segment.length for _, segment in it.segments]
        if max(lengths) > limits[0].segment_mru or sum(lengths) > limits[0].transfer_mru:
            yield it


@freedom(100, ABOVE)
def excess_rejected(half):
    """a segment above a limit that gets MSG_REJECT."""
    return any(excesses(half)) and any(it.header == 1 for _, it in half.of(wire.Reject))


@freedom(80, ABOVE)
def excess_refused(half):
    """a transfer above a limit that gets XFER_REFUSE."""
    return any(it.refusals for it in excesses(half))


@freedom(12, ABOVE)
def excess_taken(half):
    """a transfer above a limit that gets an XFER_ACK for each segment."""
    return any(len(it.acks) == len(it.segments) for it in excesses(half))


@freedom(40, ABOVE)
def goes_on_after(half):
    """an XFER_ACK after a MSG_REJECT of a segment."""
    rejections = [n for n, it in half.of(wire.Reject) if it.header == 1]
    return any(n > rejections[0] for n, _ in half.of(wire.Ack)) if rejections else False


@freedom(12, ABOVE)
def wrong_length_while_ending(half):
    """a wrong length that is refused with 04 in the Ending state."""
    return any(it.reason == NOT_ACCEPTABLE and half.is_ending(n) and is_wrong(half.transfers.get(it.id))
               for n, it in half.of(wire.Refuse))


def is_wrong(transfer):
    """Whether a transfer has another length than it announced."""
    first = transfer.segments[0][1]
    announced = [int.from_bytes(each.value, "big") for each in first.items or () if each.kind == LENGTH]
    return bool(announced) and sum(it.length for _, it in transfer.segments) != announced[0]
