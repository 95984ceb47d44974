"""Sessions that break one rule. Each kind changes a session that keeps all rules, or has a bug in a node.

A change takes its chance and a session. It returns the session, the side that then breaks the rule,
and the times if they are changed; or None if the session has nothing to change.
"""

from typing import NamedTuple

from model import wire

from .messages import CAN_TLS, CRITICAL, END, LENGTH, REPLY, START, Raw, length_item, segment
from .receiver import IN_ORDER, OWN

OTHER = {"a": "b", "b": "a"}
UNKNOWN = wire.Item(CRITICAL, 0x8020, b"")

# Whole sessions, both ways
USUAL = {"is_hasty": False, "aborts": False, "leaves_early": False, "bundles": lambda it: it.bundles or [20, 30],
         "is_strict": False, "ends": 0.005}

# Each segment has its answer in order, since another answer may excuse one that is missing
ORDERLY = {"order": IN_ORDER, "segment_rejections": 0, "late_acks": 0, "repeats": 0, "begins_late": False, "stops": 0}

# Each XFER_ACK of a transfer has its own sum. Otherwise one that is changed may be a right one of another
# segment
EXACT = {**ORDERLY, "sums": OWN, "empty": 0}

# Side a sends many short transfers, and side b few long ones
TALKATIVE = {**ORDERLY, "sums": OWN, "longest": lambda it: 1000 if it.name == "a" else 3,
             "bundles": lambda it: [10] * 20 if it.name == "a" else [60] * 2}


class Changed(NamedTuple):
    """A session that breaks a rule, the side that does, and times that differ."""
    talk: object
    side: str
    times: object = None


class Kind(NamedTuple):
    """A kind of mutation. `others` has each other `must` that is right too: the side (`same` or `peer`),
    the rule, and the section and sentence of RFC 9174 by which it is.

    `level` is `should` where recordings and times do not prove that a SHALL was broken: after its SESS_TERM a side
    may close the connection at once, and need not send what it owes (section 6.1), a recording may begin late,
    and TCP may hold back what was sent in time (section 5.1.1). `bugs` and `traits` are those of the session that
    is changed.
    """
    rule: str
    change: object
    level: str = "must"
    others: tuple = ()
    bugs: tuple = ()
    traits: dict = {}
    is_timed: bool = False


class Transfer(NamedTuple):
    """A transfer: the side that sends it, and the positions of its segments and answers."""
    side: str
    id: int
    segments: list
    acks: list
    refusals: list

    def is_answered(self):
        """Whether each segment has its XFER_ACK."""
        return len(self.acks) == len(self.segments) and not self.refusals


def side(talk, name):
    """The messages of a side."""
    return getattr(talk, name).sent


def at(messages, *kinds):
    """The positions of the messages of these kinds."""
    return [n for n, it in enumerate(messages) if isinstance(it.it, kinds)]


def of_id(messages, kind, ident):
    """The positions of the messages of a kind with that ID."""
    return [n for n in at(messages, kind) if messages[n].it.id == ident]


def transfers(talk, name):
    """The transfers that a side sends."""
    mine, theirs = side(talk, name), side(talk, OTHER[name])
    starts = [n for n in at(mine, wire.Segment) if mine[n].it.flags & START]
    ids = [mine[n].it.id for n in starts]
    kinds = (mine, wire.Segment), (theirs, wire.Ack), (theirs, wire.Refuse)
    return [Transfer(name, it, *(of_id(messages, kind, it) for messages, kind in kinds)) for it in ids]


def answered(talk, rng, count=1):
    """Transfers of which each segment is acknowledged, of both sides, with so many segments at least."""
    them = [it for name in "ab" for it in transfers(talk, name)]
    them = [it for it in them if it.is_answered() and len(it.segments) >= count and has_ended(talk, it)]
    rng.shuffle(them)
    return them


def has_ended(talk, it):
    """Whether a transfer has its END."""
    return bool(side(talk, it.side)[it.segments[-1]].it.flags & END)


def replaced(talk, name, position, **fields):
    """The session with other fields in a message."""
    sent = list(side(talk, name))
    sent[position] = sent[position]._replace(it=sent[position].it._replace(**fields))
    return talk.changed(name, sent)


def without(talk, name, positions):
    """The session without these messages."""
    gone = set(positions)
    return talk.changed(name, [it for n, it in enumerate(side(talk, name)) if n not in gone])


def inserted(talk, name, position, it):
    """The session with a message more before that position."""
    sent = list(side(talk, name))
    near = sent[min(position, len(sent)) - 1]
    sent.insert(position, near._replace(it=it))
    return talk.changed(name, sent)


def moved(talk, name, position, to):
    """The session with a message before an earlier one of its side."""
    sent = list(side(talk, name))
    sent.insert(to, sent[to]._replace(it=sent.pop(position).it))
    return talk.changed(name, sent)


def after(talk, name, position):
    """Where the other side may answer a message of this side: once it has received it."""
    theirs = side(talk, OTHER[name])
    found = [n for n, it in enumerate(theirs) if it.seen > position]
    return found[0] if found else len(theirs)


def established(talk, name):
    """The positions in a side after both SESS_INIT, or none."""
    mine = side(talk, name)
    inits = at(mine, wire.SessInit)
    if not inits or not at(side(talk, OTHER[name]), wire.SessInit):
        return []
    return [n for n in range(inits[0] + 1, len(mine) + 1) if n == len(mine) or mine[n].seen > 1]


def any_side(talk, rng):
    """A side of a session that both closed, where it has been established."""
    name = rng.choice("ab")
    return name if talk.closed() == "ab" and established(talk, name) else None


def first_init(talk, name):
    """The position of the SESS_INIT of a side, and the message."""
    position = at(side(talk, name), wire.SessInit)[0]
    return position, side(talk, name)[position].it


# ---- acknowledgements


def ack_flags(rng, talk):
    """An XFER_ACK lacks a flag of its segment, or has another one."""
    for it in answered(talk, rng):
        receiver, n = OTHER[it.side], rng.choice(it.acks)
        flags = side(talk, receiver)[n].it.flags ^ rng.choice([START, END, START | END])
        return Changed(replaced(talk, receiver, n, flags=flags), receiver)
    return None


def ack_reserved(rng, talk):
    """A segment has a reserved flag, which its XFER_ACK lacks."""
    for it in answered(talk, rng):
        n = rng.choice(it.segments)
        flags = side(talk, it.side)[n].it.flags | 0x40
        return Changed(replaced(talk, it.side, n, flags=flags), OTHER[it.side])
    return None


def ack_sum(rng, talk):
    """An XFER_ACK has a length that is no sum of the lengths of segments."""
    for it in answered(talk, rng):
        lengths = [side(talk, it.side)[n].it.length for n in it.segments]
        sums = {sum(lengths[:count]) for count in range(len(lengths) + 1)}
        wrong = [each for each in range(sum(lengths)) if each not in sums]
        if wrong:
            receiver, n = OTHER[it.side], rng.choice(it.acks)
            return Changed(replaced(talk, receiver, n, length=rng.choice(wrong)), receiver)
    return None


def ack_missing(rng, talk):
    """One XFER_ACK of a transfer is left out, and a later one is there."""
    for it in answered(talk, rng, 2):
        if talk.closed() == "ab":
            receiver = OTHER[it.side]
            return Changed(without(talk, receiver, [rng.choice(it.acks[:-1])]), receiver)
    return None


def all_missing(rng, talk):
    """All XFER_ACK of a transfer are left out, and one of a later transfer is there."""
    for it in answered(talk, rng):
        later = [each for each in answered(talk, rng) if each.side == it.side and each.segments[0] > it.segments[-1]]
        if talk.closed() == "ab" and later:
            receiver = OTHER[it.side]
            return Changed(without(talk, receiver, it.acks), receiver)
    return None


def ack_twice(rng, talk):
    """An XFER_ACK is sent twice."""
    for it in answered(talk, rng):
        receiver, n = OTHER[it.side], rng.choice(it.acks)
        return Changed(inserted(talk, receiver, n + 1, side(talk, receiver)[n].it), receiver)
    return None


def ack_too_long(rng, talk):
    """The last XFER_ACK has a length above that of the transfer."""
    for it in answered(talk, rng):
        receiver, n = OTHER[it.side], it.acks[-1]
        length = side(talk, receiver)[n].it.length + rng.randint(1, 5)
        return Changed(replaced(talk, receiver, n, length=length), receiver)
    return None


def swapped(rng, talk):
    """Two XFER_ACK of a transfer change their places."""
    for it in answered(talk, rng, 2):
        receiver = OTHER[it.side]
        one, two = sorted(rng.sample(it.acks, 2))
        first, second = side(talk, receiver)[one].it, side(talk, receiver)[two].it
        if first.flags != second.flags:
            talk = replaced(talk, receiver, one, **second._asdict())
            return Changed(replaced(talk, receiver, two, **first._asdict()), receiver)
    return None


def unknown(kind, header):
    """An XFER_ACK or XFER_REFUSE has an ID that was never begun. The other side rejects it, as it has to."""
    def change(rng, talk):
        name = any_side(talk, rng)
        if name is None:
            return None
        n, ident = rng.choice(established(talk, name)), 1 << 40 | rng.getrandbits(20)
        it = wire.Ack(START | END, ident, 7) if kind is wire.Ack else wire.Refuse(rng.randint(0, 4), ident)
        place = after(talk, name, n - 1)
        return Changed(inserted(inserted(talk, OTHER[name], place, wire.Reject(3, header)), name, n, it), name)
    return change


# ---- refusals


def refuse_order(rng, talk):
    """A transfer is refused before the last XFER_ACK of an earlier one."""
    for name in rng.sample("ab", 2):
        theirs = side(talk, OTHER[name])
        mine = transfers(talk, name)
        for n, it in enumerate(mine):
            for before in mine[:n]:
                if not it.refusals or not before.acks or before.refusals:
                    continue
                ack, refusal = before.acks[-1], it.refusals[0]
                between = [theirs[place].it for place in range(ack, refusal)]
                is_known = theirs[ack].seen > it.segments[0]
                if ack < refusal and is_known and all(isinstance(each, (wire.Ack, wire.Keepalive)) for each in between):
                    sent = list(theirs)
                    sent.insert(ack, theirs[ack]._replace(it=sent.pop(refusal).it))
                    return Changed(talk.changed(OTHER[name], sent), OTHER[name])
    return None


def seen_by_ack(talk, name, position):
    """The positions in the messages of the other side of which side `name` acknowledged one before."""
    mine = side(talk, name)
    ids = {}
    for n in at(mine[:position], wire.Ack):
        ids[mine[n].it.id] = ids.get(mine[n].it.id, 0) + 1
    theirs = side(talk, OTHER[name])
    return max((of_id(theirs, wire.Segment, it)[count - 1] for it, count in ids.items()), default=0)


def continued(rng, talk):
    """Side a goes on with a transfer after it has answered a message that came after the refusal."""
    for it in transfers(talk, "a"):
        for n in it.segments:
            if it.refusals and seen_by_ack(talk, "a", n) > it.refusals[0]:
                return Changed(talk, "a")
    return None


def retried(rng, talk):
    """Side a sends a bundle again that was refused for resources, after it has seen that."""
    mine, theirs = side(talk, "a"), side(talk, "b")
    them = [it for it in transfers(talk, "a") if has_ended(talk, it)]
    data = [b"".join(mine[n].it.data for n in it.segments) for it in them]
    for n, it in enumerate(them):
        again = next((them[later] for later in range(n + 1, len(them)) if data[later] == data[n]), None)
        if again and it.refusals and len(it.acks) < len(it.segments) and theirs[it.refusals[0]].it.reason == 2:
            if seen_by_ack(talk, "a", again.segments[0]) > it.refusals[0]:
                return Changed(talk, "a")
    return None


def refused_acknowledged(rng, talk):
    """A segment is acknowledged after its transfer was refused."""
    for name in rng.sample("ab", 2):
        for it in transfers(talk, name):
            if len(it.refusals) < 2 or it.acks and it.acks[-1] > it.refusals[0]:
                continue
            mine, receiver = [side(talk, name)[n].it for n in it.segments], OTHER[name]
            count = len(it.acks) + 1
            sent = list(side(talk, receiver))
            of = mine[min(count, len(mine) - 1)]
            length = sum(each.length for each in mine[:min(count, len(mine) - 1) + 1])
            sent[it.refusals[1]] = sent[it.refusals[1]]._replace(it=wire.Ack(of.flags, it.id, length))
            return Changed(talk.changed(receiver, sent), receiver)
    return None


def refuse_reason(rng, talk):
    """A transfer without items is refused because of its items."""
    for name in rng.sample("ab", 2):
        for it in transfers(talk, name):
            is_due = it.refusals and len(it.acks) < len(it.segments)
            if is_due and not side(talk, name)[it.segments[0]].it.items:
                for n in it.refusals:
                    talk = replaced(talk, OTHER[name], n, reason=5)
                return Changed(talk, OTHER[name])
    return None


# ---- transfers


def announces_wrong(rng, talk):
    """A transfer announces another length, and each segment is acknowledged."""
    for it in answered(talk, rng, 2):
        first = side(talk, it.side)[it.segments[0]].it
        total = sum(side(talk, it.side)[n].it.length for n in it.segments)
        items = [each for each in first.items if each.kind != LENGTH]
        if talk.closed() == "ab" and not any(each.flags & CRITICAL for each in items):
            items.append(length_item(total - rng.randint(1, 9)))
            return Changed(replaced(talk, it.side, it.segments[0], items=items), OTHER[it.side])
    return None


def interleaved(rng, talk):
    """A transfer is left without END, and the next one begins."""
    for it in answered(talk, rng, 2):
        later = [each for each in transfers(talk, it.side) if each.segments[0] > it.segments[-1]]
        if later and talk.closed() == "ab":
            keep = rng.randrange(1, len(it.segments))
            talk = without(talk, it.side, it.segments[keep:])
            return Changed(without(talk, OTHER[it.side], it.acks[keep:]), it.side)
    return None


def unfinished(rng, talk):
    """A side closes the connection inside a transfer, and nobody ended the session."""
    for it in answered(talk, rng, 2):
        receiver = OTHER[it.side]
        is_last = it.segments[-1] == at(side(talk, it.side), wire.Segment)[-1]
        late = [n for name in "ab" for n in at(side(talk, name), wire.Refuse) if side(talk, name)[n].it.reason == 6]
        if is_last and talk.closed() == "ab" and not late:
            keep = rng.randrange(1, len(it.segments))
            talk = without(talk, it.side, it.segments[keep:])
            talk = without(talk, receiver, it.acks[keep:])
            for name in "ab":
                talk = without(talk, name, at(side(talk, name), wire.SessTerm))
            return Changed(talk, it.side)
    return None


def limited(field):
    """A segment or a transfer is longer than the other side takes."""
    def change(rng, talk):
        for it in answered(talk, rng):
            lengths = [side(talk, it.side)[n].it.length for n in it.segments]
            longest = sum(lengths) if field == "transfer_mru" else max(lengths)
            if longest > 0:
                n, _ = first_init(talk, OTHER[it.side])
                return Changed(replaced(talk, OTHER[it.side], n, **{field: longest - 1}), it.side)
        return None
    return change


def stray_taken(rng, talk):
    """A segment without START that continues no transfer is acknowledged."""
    for it in answered(talk, rng):
        n = it.segments[-1] + 1
        limit = min(9, first_init(talk, OTHER[it.side])[1].segment_mru)
        stray = segment(END, 1 << 41 | rng.getrandbits(20), b"x" * rng.randint(0, limit))
        place = after(talk, it.side, n - 1)
        talk = inserted(talk, OTHER[it.side], place, wire.Ack(END, stray.id, stray.length))
        return Changed(inserted(talk, it.side, n, stray), OTHER[it.side])
    return None


# ---- MSG_REJECT and SESS_INIT


def reject_header(rng, talk):
    """A MSG_REJECT is about a message that was not sent."""
    name = any_side(talk, rng)
    if name is None:
        return None
    kinds = [(wire.Refuse, 3), (wire.Segment, 1), (wire.Keepalive, 4), (wire.Ack, 2)]
    absent = [header for kind, header in kinds if not at(side(talk, OTHER[name]), kind)]
    if not absent:
        return None
    return Changed(inserted(talk, name, rng.choice(established(talk, name)), wire.Reject(3, rng.choice(absent))), name)


def not_rejected(rng, talk):
    """A second SESS_INIT is not rejected, and a later segment is acknowledged."""
    for it in answered(talk, rng):
        if talk.closed() == "ab":
            again = first_init(talk, it.side)[1]
            return Changed(inserted(talk, it.side, it.segments[-1], again), OTHER[it.side])
    return None


def critical_session(rng, talk):
    """A SESS_INIT has a critical item that nobody knows, and the session goes on."""
    for it in answered(talk, rng):
        n, init = first_init(talk, it.side)
        if any(each.it.reason == 4 for each in side(talk, OTHER[it.side]) if isinstance(each.it, wire.SessTerm)):
            continue
        return Changed(replaced(talk, it.side, n, items=[*init.items, UNKNOWN]), OTHER[it.side])
    return None


def critical_transfer(rng, talk):
    """A transfer has a critical item that nobody knows, and is acknowledged."""
    for it in answered(talk, rng):
        items = side(talk, it.side)[it.segments[0]].it.items
        return Changed(replaced(talk, it.side, it.segments[0], items=[*items, UNKNOWN]), OTHER[it.side])
    return None


def keepalive(rng, talk):
    """A KEEPALIVE is sent to a side that disabled them."""
    name = any_side(talk, rng)
    if name is None or first_init(talk, OTHER[name])[1].keepalive or not first_init(talk, name)[1].keepalive:
        return None
    return Changed(inserted(talk, name, rng.choice(established(talk, name)), wire.Keepalive()), name)


# ---- SESS_TERM


def terms(talk, name):
    """The position of the SESS_TERM of a side, and the message."""
    found = at(side(talk, name), wire.SessTerm)
    return (found[0], side(talk, name)[found[0]].it) if found else (None, None)


def replier(talk):
    """The side that replied to a SESS_TERM, or None."""
    found = [name for name in "ab" if terms(talk, name)[1] and terms(talk, name)[1].flags & REPLY]
    return found[0] if found and talk.closed() == "ab" else None


def reply_alone(rng, talk):
    """A SESS_TERM has REPLY, and the other side has sent none."""
    name = replier(talk)
    if name is None:
        return None
    n, _ = terms(talk, OTHER[name])
    talk = without(talk, name, [terms(talk, name)[0]])
    return Changed(replaced(talk, OTHER[name], n, flags=REPLY), OTHER[name])


def reply_differs(rng, talk):
    """The reply has another reason."""
    name = replier(talk)
    if name is None:
        return None
    n, it = terms(talk, name)
    return Changed(replaced(talk, name, n, reason=it.reason ^ rng.choice([1, 8])), name)


def term_unanswered(rng, talk):
    """A SESS_TERM has no answer."""
    name = replier(talk)
    return name and Changed(without(talk, name, [terms(talk, name)[0]]), name)


def accepts_late(rng, talk):
    """A side acknowledges a transfer that begins after the reply to its own SESS_TERM."""
    name = replier(talk)
    for it in answered(talk, rng):
        if name != it.side:
            continue
        own, theirs = terms(talk, OTHER[name]), terms(talk, name)
        is_last = it.segments[-1] == at(side(talk, name), wire.Segment)[-1] and it.segments[-1] < theirs[0]
        others = at(side(talk, OTHER[name]), wire.Segment), at(side(talk, name), wire.Refuse)
        is_free = max(others[0], default=0) < it.acks[0] and max(others[1], default=0) < it.segments[0]
        if is_last and is_free and own[0] > it.acks[0]:
            talk = moved(talk, OTHER[name], own[0], it.acks[0])
            return Changed(moved(talk, name, theirs[0], it.segments[0]), OTHER[name])
    return None


# ---- beginnings


def tls(rng, talk):
    """Both sides have CAN_TLS, and no TLS begins."""
    name = any_side(talk, rng)
    if name is None:
        return None
    for each in "ab":
        talk = replaced(talk, each, 0, flags=CAN_TLS)
    return Changed(talk, name)


def plain_tls(rng, talk):
    """TLS begins, and the other side lacks CAN_TLS."""
    name = any_side(talk, rng)
    if name is None:
        return None
    talk = talk.changed(name, [side(talk, name)[0], side(talk, name)[0]._replace(it=Raw(b"\x16\x03\x01\x00\x05hello"))])
    return Changed(talk.changed(OTHER[name], side(talk, OTHER[name])[:1]), name)


def version(rng, talk):
    """A contact header has another version, and the session goes on."""
    name = any_side(talk, rng)
    if name is None:
        return None
    talk = talk.changed(OTHER[name], side(talk, OTHER[name])[:1])
    talk = replaced(talk, OTHER[name], 0, version=rng.choice([3, 5]))
    return Changed(talk.changed(name, side(talk, name)[:2]), name)


def bad_contact(rng, talk):
    """What came is no contact header, and a SESS_TERM answers it."""
    name = any_side(talk, rng)
    if name is None:
        return None
    header = side(talk, name)[0]
    content = rng.choice([b"GET / HTTP/1.1\r\n\r\n", b"dtn?\x04\x00", b"SSH-2.0-x\r\n"])
    talk = talk.changed(OTHER[name], [side(talk, OTHER[name])[0]._replace(it=Raw(content))])
    return Changed(talk.changed(name, [header, header._replace(it=wire.SessTerm(0, 4))]), name)


def no_session(rng, talk):
    """A segment is sent to a side that ended before its SESS_INIT."""
    for it in answered(talk, rng):
        if talk.closed() == "ab":
            mine, theirs = side(talk, it.side), side(talk, OTHER[it.side])
            reply = mine[-1]._replace(it=wire.SessTerm(REPLY, 3))
            sent = [*mine[:at(mine, wire.SessInit)[0] + 1], mine[it.segments[0]], reply]
            talk = talk.changed(OTHER[it.side], [theirs[0], theirs[0]._replace(it=wire.SessTerm(0, 3))])
            return Changed(talk.changed(it.side, sent), it.side)
    return None


# ---- times


def gap(talk, name):
    """The longest time between two messages of a side since both SESS_INIT, less the interval."""
    seconds = talk.captured()["ab".index(name)]
    begun = max(talk.captured()[n][first_init(talk, each)[0]] for n, each in enumerate("ab"))
    times = [it for it in seconds if it > begun]
    return max((two - one for one, two in zip(times, times[1:])), default=0), times


def intervals(talk):
    """The negotiated interval, or 0."""
    if not all(at(side(talk, name), wire.SessInit) for name in "ab"):
        return 0
    return min(first_init(talk, name)[1].keepalive for name in "ab")


def silent(rng, talk):
    """Side a lets more than the interval pass."""
    interval = intervals(talk)
    return Changed(talk, "a") if interval and gap(talk, "a")[0] > interval + 5.1 else None


def patient(rng, talk):
    """Side b goes on though nothing came for more than twice the interval."""
    interval = intervals(talk)
    if not interval or gap(talk, "a")[0] <= 2 * interval + 5.1:
        return None
    _, times = gap(talk, "a")
    own = terms(talk, "b")[0]
    seconds = talk.captured()[1][:own]
    for one, two in zip(times, times[1:]):
        if two - one > 2 * interval + 5.1 and any(one + 2 * interval + 5.1 < it < two for it in seconds):
            return Changed(talk, "b")
    return None


def ack_early(rng, talk):
    """An XFER_ACK comes before its segment."""
    seconds = talk.captured()
    for it in answered(talk, rng):
        mine, theirs = ("ab".index(it.side), 1 - "ab".index(it.side))
        for n, ack in zip(it.segments, it.acks):
            early = seconds[mine][n] - 0.05
            if seconds[theirs][ack - 1] < early and seconds[theirs][ack] < early + 2:
                seconds[theirs][ack] = early
                return Changed(talk, OTHER[it.side], talk.times(seconds))
    return None


STRAY = ("peer", "order", "5.2.2: The START flag SHALL be set to 1 when transmitting the first segment of a "
                          "transfer.")
LATE = ("peer", "order", "6.1: an entity SHALL NOT begin any new outgoing transfer for the remainder of the session.")
RESERVED = ("peer", "segment-flags", "5.2.2: All reserved header flag bits SHALL be set to 0 by the sender.")
DIFFERS = ("peer", "length-differs", "5.2.5.1: Total Length: A 64-bit unsigned integer indicating the size of the data "
                                     "to be transferred.")
UNSETTLED = ("same", "refuse-order", "5.2.4: The receiver MUST, for each transfer preceding the one to be refused, "
                                     "have either acknowledged all XFER_SEGMENT messages or refused the bundle "
                                     "transfer.")
BOTH = ("peer", "tls", "4.4.3: the session entities SHALL begin a TLS handshake.")
KINDS = {
    "ack-flags": Kind("ack-flags", ack_flags, traits=EXACT),
    "ack-reserved": Kind("ack-flags", ack_reserved, "should", (RESERVED,), traits=EXACT),
    "ack-sum": Kind("ack-sum", ack_sum, traits=EXACT),
    "ack-missing": Kind("ack-missing", ack_missing, "should", (UNSETTLED,), traits=EXACT),
    "all-missing": Kind("ack-missing", all_missing, "should", (UNSETTLED,), traits=ORDERLY),
    "ack-twice": Kind("ack-beyond", ack_twice, traits=ORDERLY),
    "ack-too-long": Kind("ack-beyond", ack_too_long, traits=ORDERLY),
    "swapped": Kind("answer-order", swapped, "should", traits=EXACT),
    "ack-unknown": Kind("ack-unknown", unknown(wire.Ack, 2)),
    "refuse-unknown": Kind("refuse-unknown", unknown(wire.Refuse, 3)),
    "refuse-order": Kind("refuse-order", refuse_order, traits={**ORDERLY, "refusals": 0.3, "answers": 0.3}),
    "continued": Kind("refused-continued", continued, bugs=("continues",),
                      traits={**EXACT, "refusals": 0.2, "longest": 5}),
    "retried": Kind("retried", retried, "should", bugs=("retries",),
                    traits={**TALKATIVE, "refusals": 0.3, "reasons": [2]}),
    "refused-acknowledged": Kind("refused-acknowledged", refused_acknowledged, "should",
                                 traits={**ORDERLY, "refusals": 0.2}),
    "refuse-reason": Kind("refuse-reason", refuse_reason, "should", traits={**ORDERLY, "refusals": 0.2}),
    "announces-wrong": Kind("length-not-refused", announces_wrong, "should", (DIFFERS,), traits=ORDERLY),
    "interleaved": Kind("interleaved", interleaved, traits=EXACT),
    "unfinished": Kind("unfinished", unfinished, "should", traits=EXACT),
    "peer-segment": Kind("peer-segment", limited("segment_mru")),
    "peer-transfer": Kind("peer-transfer", limited("transfer_mru")),
    "stray-taken": Kind("taken-out-of-order", stray_taken, "should", (STRAY,), traits=ORDERLY),
    "reject-header": Kind("reject-header", reject_header),
    "not-rejected": Kind("not-rejected", not_rejected, "should", traits=ORDERLY),
    "critical-session": Kind("critical-ignored", critical_session, "should", traits=ORDERLY),
    "critical-transfer": Kind("critical-ignored", critical_transfer, "should", traits=ORDERLY),
    "keepalive": Kind("keepalive", keepalive, "should"),
    "reply-alone": Kind("reply-alone", reply_alone),
    "reply-differs": Kind("reply-differs", reply_differs),
    "term-unanswered": Kind("term-unanswered", term_unanswered, "any"),
    "accepts-late": Kind("ending", accepts_late, others=(LATE,), traits=ORDERLY),
    "tls": Kind("tls", tls, others=(BOTH,)),
    "plain-tls": Kind("tls", plain_tls),
    "version": Kind("version", version),
    "bad-contact": Kind("after-bad-contact", bad_contact, "should"),
    "no-session": Kind("no-session", no_session, traits=ORDERLY),
    "silent": Kind("keepalive-late", silent, "should", bugs=("silent",), is_timed=True),
    "patient": Kind("idle", patient, "should", bugs=("silent", "patient"), is_timed=True),
    "ack-early": Kind("ack-early", ack_early, "should", traits=EXACT, is_timed=True),
}
