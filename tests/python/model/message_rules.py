"""Rules of messages (RFC 9174): a function for each, which takes a `Turn`, or a header's flags.

It returns None if the message keeps the rule, and otherwise the words of its line.
"""

from typing import NamedTuple, Optional

from . import names, tools, wire
from .rules import MUST, SHOULD, Rules

# The flags that are defined: of a contact header (section 4.2), of an extension item (sections 4.8
# and 5.2.5), of XFER_SEGMENT (section 5.2.2) and of SESS_TERM (section 6.1)
CAN_TLS = 0x01
CRITICAL = 0x01
REPLY = 0x01

# The type bytes of messages (section 4.5)
TYPES = {
    wire.Segment: 0x01, wire.Ack: 0x02, wire.Refuse: 0x03, wire.Keepalive: 0x04, wire.SessTerm: 0x05, wire.Reject: 0x06,
    wire.SessInit: 0x07,
}

# Reasons of MSG_REJECT: the type is unknown, the message is unsupported, or unexpected (section
# 5.1.2). A reason of XFER_REFUSE: the bundle is not acceptable (section 5.2.4).
TYPE_UNKNOWN, UNSUPPORTED, UNEXPECTED = 0x01, 0x02, 0x03
# The type byte that no message has, now or later (section 8.5)
RESERVED = 0x00
NOT_ACCEPTABLE = 0x04

# The reasons that are neither assigned nor for private use, by the type of the message (sections
# 8.6 to 8.8)
UNASSIGNED = {wire.Reject: {0x00, *range(0x04, 0xF0)}, wire.Refuse: range(0x07, 0xF0), wire.SessTerm: range(0x06, 0xF0)}

# The seconds between KEEPALIVEs that are recommended (section 5.1.1)
INTERVALS = range(30, 601)

# Extension types from here on are for private use. 0000 is reserved, and only the Transfer Length
# item has a type between the two (sections 8.3 and 8.4).
PRIVATE_ITEMS = 0x8000

# How many runs of transfer IDs are remembered
RUNS = 64

RULES = Rules()


class Turn(NamedTuple):
    """A message in its turn: its head, the heads before it, and the limits of the peer, or None."""
    head: tools.Head
    before: list
    peer_segment: Optional[int]
    peer_transfer: Optional[int]


def earlier(turn, kind):
    """The messages of a kind before this one."""
    return [head.it for head in turn.before if isinstance(head.it, kind)]


def is_start(it):
    """Whether a message begins a transfer."""
    return isinstance(it, wire.Segment) and bool(it.flags & wire.START)


def kind_of(it):
    """The words for the type of a message."""
    return f"type={TYPES[type(it)]:02x}"


def turn_before(turn, number):
    """The turn of an earlier message."""
    return turn._replace(head=turn.before[number], before=turn.before[:number])


def is_first(turn, holds):
    """Whether something holds of a message and of none before it."""
    return holds(turn) and not any(holds(turn_before(turn, number)) for number in range(len(turn.before)))


@RULES.rule(MUST)
def contact_flags(flags):
    """A contact header, of these flags, has no flag but CAN_TLS (section 4.2)."""
    return f"flags={flags:02x}" if flags & ~CAN_TLS else None


@RULES.rule(MUST)
def node_id(turn):
    """A node ID is empty or a URI (section 4.6), with the syntax of its scheme.

    (RFC 9171 sections 4.2.5.1.1 and 4.2.5.1.2.)
    """
    it = turn.head.it
    if not isinstance(it, wire.SessInit) or not it.node or names.is_node_id(it.node):
        return None
    return f"length={len(it.node)}"


@RULES.rule(MUST)
def item_flags(turn):
    """An extension item has no flag but CRITICAL (sections 4.8 and 5.2.5)."""
    flags = [item.flags for item in getattr(turn.head.it, "items", None) or []]
    reserved = [f"item={number} flags={it:02x}" for number, it in enumerate(flags) if it & ~CRITICAL]
    return reserved[0] if reserved else None


def parameters(it):
    """The parameters of a session that a SESS_INIT has for every peer (section 4.6)."""
    return it.keepalive, it.segment_mru, it.transfer_mru


def changes_session(turn):
    """Whether a refused message changes the session, or its transfers.

    A later SESS_INIT is a change of parameters (section 4.7) if a message of a transfer shows that
    the session was established, and if they differ. Any other refused message is a change.
    """
    if not isinstance(turn.head.it, wire.SessInit):
        return True
    before = [head.it for head in turn.before]
    first = next(number for number, it in enumerate(before) if isinstance(it, wire.SessInit))
    is_established = any(isinstance(it, (wire.Segment, wire.Ack, wire.Refuse)) for it in before[first:])
    return is_established and parameters(turn.head.it) != parameters(before[first])


@RULES.rule(changes_session)
def order(turn):
    """Messages are in order (sections 4, 4.7, 5.1.2, 5.2, 5.2.1, 5.2.2 and 6.1)."""
    return turn.head.why and f"fault={turn.head.why.replace(' ', '-')}"


@RULES.rule(SHOULD)
def before_session(turn):
    """No XFER_ACK, XFER_REFUSE or KEEPALIVE comes before the first SESS_INIT.

    (Sections 4 and 5.1.2.)
    """
    it = turn.head.it
    is_due = isinstance(it, (wire.Ack, wire.Refuse, wire.Keepalive)) and not earlier(turn, wire.SessInit)
    return kind_of(it) if is_due else None


@RULES.rule(SHOULD)
def interleaved(turn):
    """A transfer does not begin while one of another ID is open (sections 5.2 and 5.2.2).

    The other recording may have a refusal of the open one. So its sender may be right.
    """
    it = turn.head.it
    if not is_start(it):
        return None
    opened = tools.open_transfer([head.it for head in turn.before if not head.is_stray])
    return None if opened in (None, it.id) else f"id={it.id} open={opened}"


@RULES.rule(MUST)
def segment_flags(turn):
    """A segment has no flag but END and START (section 5.2.2)."""
    it = turn.head.it
    is_wrong = isinstance(it, wire.Segment) and it.flags & ~(wire.END | wire.START)
    return f"flags={it.flags:02x}" if is_wrong else None


def runs(ids):
    """The longest stretches in which each ID is one more than the ID before it."""
    found = []
    for it in ids:
        if found and found[-1][-1] + 1 == it:
            found[-1].append(it)
        else:
            found.append([it])
    return found


def starts(turn):
    """The IDs of the STARTs before this message."""
    return [it.id for it in earlier(turn, wire.Segment) if is_start(it)]


@RULES.rule(MUST)
def transfer_id(turn):
    """The ID of a transfer is new (section 5.2.1), as far as the last runs of IDs show."""
    it = turn.head.it
    if not is_start(it):
        return None
    return f"id={it.id}" if any(it.id in run for run in runs(starts(turn))[-RUNS:]) else None


@RULES.rule(MUST)
def peer_segment(turn):
    """A segment's data is no longer than the peer's segment MRU (sections 4.6 and 5.2)."""
    it, limit = turn.head.it, turn.peer_segment
    if limit is None or not isinstance(it, wire.Segment) or it.length <= limit:
        return None
    return f"length={it.length} limit={limit}"


def segments_so_far(turn):
    """The segments of a segment's transfer up to this one, or none if it is part of no transfer."""
    if turn.head.is_stray or not isinstance(turn.head.it, wire.Segment):
        return []
    return [head.it for head in tools.transfers_of([*turn.before, turn.head])[-1]]


@RULES.rule(MUST)
def peer_transfer(turn):
    """A transfer is no longer than the peer's transfer MRU (section 4.6), as announced and as sent.

    It is broken once in a transfer: by a START that announces too much, or otherwise by the first
    segment that passes the limit.
    """
    limit = turn.peer_transfer
    segments = [] if limit is None else segments_so_far(turn)
    if not segments:
        return None
    announced = tools.announced(segments[0].items)
    if announced is not None and announced > limit:
        return f"announced={announced} limit={limit}" if len(segments) == 1 else None
    lengths = [it.length for it in segments]
    return f"length={sum(lengths)} limit={limit}" if sum(lengths[:-1]) <= limit < sum(lengths) else None


@RULES.rule(SHOULD)
def ack_length(turn):
    """An acknowledged length does not fall within a transfer (section 5.2.3)."""
    it = turn.head.it
    last = earlier(turn, wire.Ack)[-1:] if isinstance(it, wire.Ack) and not it.flags & wire.START else []
    falls = [each for each in last if each.id == it.id and it.length < each.length]
    return f"length={it.length} before={falls[0].length}" if falls else None


@RULES.rule(SHOULD)
def keepalive(turn):
    """No KEEPALIVE comes after a SESS_INIT whose interval is 0 (sections 4.7 and 5.1.1).

    The first one breaks the rule, and no other in the recording. It does so too if another interval
    was sent in between, since a second SESS_INIT changes nothing.
    """
    if not isinstance(turn.head.it, wire.Keepalive):
        return None
    before = [head.it for head in turn.before]
    zeros = [at for at, each in enumerate(before) if isinstance(each, wire.SessInit) and each.keepalive == 0]
    is_first = zeros and not any(isinstance(each, wire.Keepalive) for each in before[zeros[0]:])
    return "" if is_first else None


@RULES.rule(MUST)
def term_flags(turn):
    """A SESS_TERM has no flag but REPLY (section 6.1). A reply repeats what it answers."""
    it = turn.head.it
    return f"flags={it.flags:02x}" if isinstance(it, wire.SessTerm) and it.flags and not it.flags & REPLY else None


def demux_of(node):
    """The demux of a dtn name (RFC 9171 section 4.2.5.1.1), or None for another node ID."""
    scheme, rest = names.parts_of(node)
    return names.demux_of(rest) if scheme == names.DTN else None


def names_node(node):
    """Whether a node ID that has the syntax of its scheme names the node itself.

    An ipn name that begins with `!` may.
    """
    scheme, rest = names.parts_of(node)
    if scheme == names.IPN:
        return rest.startswith(b"!") or int(names.IPN_NUMBERS.fullmatch(rest)[3]) == 0
    return demux_of(node) == b""


def is_no_singleton(turn):
    """Whether the node ID of a SESS_INIT names a group (RFC 9171 section 4.2.5.1.1)."""
    return (demux_of(turn.head.it.node) or b"").startswith(b"~")


@RULES.rule(is_no_singleton)
def node_name(turn):
    """A node ID is the endpoint ID of the node's administrative endpoint (section 4.6).

    (RFC 9171 sections 4.2.5.1 and 4.2.5.2.) One of another scheme than dtn and ipn is not known to be.
    """
    it = turn.head.it
    is_due = isinstance(it, wire.SessInit) and it.node and names.is_node_id(it.node)
    return f"length={len(it.node)}" if is_due and not names_node(it.node) else None


@RULES.rule(SHOULD)
def keepalive_interval(turn):
    """The interval of a SESS_INIT is 0, or neither short nor long (section 5.1.1)."""
    it = turn.head.it
    is_wrong = isinstance(it, wire.SessInit) and it.keepalive and it.keepalive not in INTERVALS
    return f"interval={it.keepalive}" if is_wrong else None


@RULES.rule(SHOULD)
def item_type(turn):
    """The type of an extension item is assigned, or for private use (sections 8.3 and 8.4)."""
    it = turn.head.it
    known = [tools.TRANSFER_LENGTH] if isinstance(it, wire.Segment) else []
    kinds = [item.kind for item in getattr(it, "items", None) or []]
    others = [f"item={at} type={kind:04x}" for at, kind in enumerate(kinds) if kind < PRIVATE_ITEMS and kind not in known]
    return others[0] if others else None


def jumps(turn):
    """Whether a new transfer ID is not one more than the last, or the first is not 0.

    Only a START after a SESS_INIT counts.
    """
    it = turn.head.it
    if not is_start(it) or transfer_id(turn) is not None or not earlier(turn, wire.SessInit):
        return False
    before = starts(turn)
    return it.id != (before[-1] + 1 if before else 0)


@RULES.rule(SHOULD)
def transfer_id_order(turn):
    """Transfer IDs begin at 0 and count up (section 5.2.1). The first that does not counts."""
    return f"id={turn.head.it.id}" if is_first(turn, jumps) else None


def answer_fault(it, before):
    """Why an XFER_ACK or XFER_REFUSE does not follow those before it, or None."""
    acks = [each for each in before if isinstance(each, wire.Ack)]
    refusals = [at for at, each in enumerate(before) if isinstance(each, wire.Refuse)]
    acked = acks[-1].id if acks else None
    refused = before[refusals[-1]].id if refusals else None
    has_ended = bool(acks and acks[-1].flags & wire.END) and it.id == acked
    if isinstance(it, wire.Refuse):
        return "refused-after-end" if it.reason != NOT_ACCEPTABLE and has_ended else None
    if it.flags & wire.START:
        return "start-repeats" if it.id == acked else None
    if it.id not in (acked, refused):
        return "not-the-last"
    if has_ended:
        return "after-end"
    since = before[refusals[-1]:] if refusals else []
    is_acked = any(isinstance(each, wire.Ack) and each.id == it.id for each in since)
    return "after-refusal" if it.id == refused and not is_acked else None


@RULES.rule(SHOULD)
def answer_order(turn):
    """The segments of a transfer are answered one after another (sections 5.2.3 and 5.2.4)."""
    it = turn.head.it
    if not isinstance(it, (wire.Ack, wire.Refuse)) or not earlier(turn, wire.SessInit):
        return None
    fault = answer_fault(it, [head.it for head in turn.before])
    return fault and f"id={it.id} fault={fault}"


def comes_after_reject(turn):
    """Whether a MSG_REJECT before this message says that a type is unknown, which ends the session."""
    return any(it.reason == TYPE_UNKNOWN for it in earlier(turn, wire.Reject))


def begins_anew(turn):
    """Whether a message after such a MSG_REJECT begins or ends the session, or begins a transfer."""
    it = turn.head.it
    return comes_after_reject(turn) and (is_start(it) or isinstance(it, (wire.SessInit, wire.SessTerm)))


@RULES.rule(begins_anew)
def after_reject(turn):
    """No message comes after a MSG_REJECT that ends the session (sections 5.1.2 and 8.5).

    The first one counts, and the first that begins something.
    """
    is_due = is_first(turn, comes_after_reject) or is_first(turn, begins_anew)
    return kind_of(turn.head.it) if is_due else None


@RULES.rule(SHOULD)
def reject_known(turn):
    """A MSG_REJECT calls no type of RFC 9174 unknown, and the reserved one not known (section 5.1.2).

    Any other type may be known to both nodes.
    """
    it = turn.head.it
    if not isinstance(it, wire.Reject):
        return None
    is_wrong = it.header in TYPES.values() and it.reason == TYPE_UNKNOWN
    is_wrong |= it.header == RESERVED and it.reason in (UNSUPPORTED, UNEXPECTED)
    return f"reason={it.reason:02x} header={it.header:02x}" if is_wrong else None


@RULES.rule(SHOULD)
def reason(turn):
    """A reason is assigned, or for private use (sections 8.6 to 8.8). A reply repeats what it answers."""
    it = turn.head.it
    is_reply = isinstance(it, wire.SessTerm) and it.flags & REPLY
    is_wrong = not is_reply and type(it) in UNASSIGNED and it.reason in UNASSIGNED[type(it)]
    return f"{kind_of(it)} reason={it.reason:02x}" if is_wrong else None


@RULES.rule(SHOULD)
def term_order(turn):
    """A session ends once, after it has begun (section 6.1)."""
    it = turn.head.it
    is_term = isinstance(it, wire.SessTerm)
    is_due = is_term or isinstance(it, wire.SessInit) and not earlier(turn, wire.SessInit)
    return kind_of(it) if is_due and earlier(turn, wire.SessTerm) else None
