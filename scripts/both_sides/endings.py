"""What is judged when both recordings were read: beginnings and endings, and what is missing."""

from . import captured
from .answers import acknowledged_after, claim_order, compare, compare_again, judge_refuse, refused_left
from .facts import ACK, CRITICAL, INIT, KEEPALIVE, REFUSE, REJECT, REPLY, START, TERM
from .sending import claim_left, keep_claims
from .sides import MUST, SHOULD
from .tails import BEGINNING, has_messages

# The flag of a contact header (RFC 9174 section 4.2)
CAN_TLS = 0x01

# The version that is read (section 4.2)
VERSION = 4

# Where the first message begins, and the type bytes of records of TLS (RFC 8446 section 5.1)
FIRST, HANDSHAKE, RECORDS = 6, 0x16, range(0x14, 0x18)

# The first type byte that is for private use (RFC 9174 section 8.5)
PRIVATE = 0xF0

# The types of which a side may send the first message after its SESS_TERM
LATE = ACK, REFUSE, KEEPALIVE, REJECT

# Reasons of SESS_TERM (section 6.1)
VERSION_MISMATCH, CONTACT_FAILURE = 0x02, 0x04


def judge_contact(side, are_begun):
    """Judges what a side sends after the contact header of the other one. A header that
    `tcpclkit-resync` wrote does not show whether its side has TLS."""
    listing, other = side.listing, side.other.listing
    if listing.contact is None:
        return
    fault = other.fault
    if other.contact is not None:
        if are_begun:
            tls(side, bool(listing.contact & other.contact & CAN_TLS))
    elif fault is not None and fault.version() is not None and side.first is not None:
        version(side, fault.version())
    elif fault is not None and fault.text == "not a contact header" and side.first is not None:
        after_bad_contact(side)


def tls(side, is_agreed):
    """Judges whether TLS begins after the contact headers, where both can do it, and only there."""
    fault = side.listing.fault
    if side.first is not None and is_agreed and side.first.kind not in (TERM, REJECT):
        side.claim(FIRST, MUST, "tls", f"type={side.first.kind:02x}")
    if fault is not None and fault.offset == FIRST and fault.type_byte() == HANDSHAKE and not is_agreed:
        side.claim(FIRST, MUST, "tls", f"type={HANDSHAKE:02x}")


def version(side, number):
    """Judges the first message after a contact header of another version.

    Either side may refuse the session with an appropriate reason (RFC 9174 section 4.2). Only the side
    that accepted the connection has to give the reason "Version mismatch", for a higher version.
    """
    first, is_failure = side.first, side.first.kind == TERM and side.first.reason == CONTACT_FAILURE
    if first.kind != TERM or is_failure and number > VERSION and side.has_accepted():
        side.claim(first.offset, MUST, "version", f"type={first.kind:02x} version={number}")


def after_bad_contact(side):
    """Judges the first message after bytes that are no contact header.

    If these bytes may be a message, or the zeros of a gap, the beginning may be missing. So it may
    if this side went on as in a session, or rejected a message of their type. Unless a capture shows
    where they begin, they may be the end of a message, too.
    """
    with open(side.other.path, "rb") as file:
        begin = file.read(BEGINNING + 1)
    first, is_begun = side.first, side.has_accepted()
    is_blind = first.kind == TERM and first.reason not in (VERSION_MISMATCH, CONTACT_FAILURE)
    is_message = begin[0] <= INIT or begin[0] in side.rejects
    if is_message or is_blind or side.first_use is not None:
        return
    if is_begun or len(begin) <= BEGINNING and not has_messages(begin):
        level = MUST if is_begun else SHOULD
        side.claim(first.offset, level, "after-bad-contact", f"type={first.kind:02x}")


# ---- a session


def judge_session(side):
    """Judges what a side sent in a session, and what it did not send."""
    no_session(side)
    critical_ignored(side)
    keepalive(side)
    rejects(side)
    terms(side)
    unanswered(side)
    if side.is_over():
        for ident, (offset, words) in side.accepted.items():
            side.claim(offset, side.level_of_missing(), "length-not-refused", f"id={ident} {words}")


def no_session(side):
    """Judges a transfer to a side that has sent no SESS_INIT, or answers before it sends one."""
    if side.first_segment is not None and (side.is_unready or not side.other.inits):
        side.claim(side.first_segment, MUST, "no-session", if_known=not side.is_unready)


def first_init(side):
    """Returns the first SESS_INIT of a side, or None."""
    return side.inits[0] if side.inits else None


def critical_ignored(side):
    """Judges whether a side goes on after a critical session item that it does not send itself."""
    own, init = first_init(side), first_init(side.other)
    if init is None or side.first_use is None:
        return
    known = {it.kind for it in own.items} if own else set()
    is_critical = any(it.flags & CRITICAL and it.kind not in known for it in init.items)
    if is_critical and not any(reason == CONTACT_FAILURE for _, reason in side.terms):
        side.claim(side.first_use, SHOULD, "critical-ignored", f"peer-at={init.offset}")


def keepalive(side):
    """Judges the first KEEPALIVE by the interval of the other side. `check` does so by its own."""
    own, init = first_init(side), first_init(side.other)
    if side.first_keepalive is None or init is None or init.numbers[0] > 0:
        return
    if own is None or own.numbers[0] > 0:
        side.claim(side.first_keepalive, SHOULD, "keepalive", "peer-interval=0")


def rejects(side):
    """Judges the MSG_REJECT of a side, and those that it did not send."""
    other, fault = side.other, side.other.listing.fault
    unknown = fault.type_byte() if fault else None
    for header, offset in side.rejects.items():
        is_late = header in LATE and not other.is_closed and other.seen < offset
        if header not in other.types and header != unknown and not is_late:
            side.claim(offset, MUST, "reject-header", f"header={header:02x}", if_known=True)
    if unknown is not None and unknown not in side.rejects and is_unknown(side, fault):
        not_rejected(side, unknown, fault.offset, SHOULD)
    if len(other.inits) > 1 and INIT not in side.rejects:
        unexpected(side, INIT, other.inits[1].offset)
    for kind, offset in other.unknown.items():
        if kind not in side.rejects:
            unexpected(side, kind, offset)


def is_unknown(side, fault):
    """Returns whether a side should have rejected the message that is the fault of the other one.

    A zero may be that of a gap. A type of private use, or one after session items of both sides,
    may have been negotiated.
    """
    inits = [first_init(each) for each in (side, side.other)]
    is_negotiated = all(init is not None and init.items for init in inits)
    is_tls = fault.offset == FIRST and fault.type_byte() in RECORDS
    if fault.type_byte() == 0 or fault.type_byte() >= PRIVATE or is_negotiated or is_tls:
        return False
    return side.is_over() or bool(side.waiting)


def unexpected(side, kind, offset):
    """Judges that a message out of place was not rejected."""
    if side.is_over():
        not_rejected(side, kind, offset, side.level_of_missing() if side.seen >= offset else SHOULD)


def not_rejected(side, kind, offset, level):
    """Keeps the line of a message that was not rejected."""
    side.claim(side.listing.end, level, "not-rejected", f"type={kind:02x} peer-at={offset}")


def terms(side):
    """Judges SESS_TERM."""
    others, first = side.other.terms.values(), side.first_term()
    asked = [term for term in others if not term.flags & REPLY]
    reply = next((term for term in side.terms.values() if term.flags & REPLY), None)
    if reply is not None and reply is first and not asked:
        side.claim(reply.offset, SHOULD if others else MUST, "reply-alone", if_known=not others)
    if reply is not None and asked:
        judge_reply(side, reply, asked)
    if asked and first is None and side.is_whole():
        level = side.level_of_missing() if side.has_seen(asked[0]) else SHOULD
        side.claim(side.listing.end, level, "term-unanswered", f"peer-at={asked[0].offset}")


def judge_reply(side, reply, asked):
    """Judges a SESS_TERM with REPLY, by those that it may answer. A capture may show that it came before."""
    if reply is side.first_term() and captured.is_before(side, reply, asked[0].end - 1):
        side.claim(reply.offset, MUST, "reply-alone")
    elif not any(repeats(reply, term) for term in asked):
        reply_differs(side, reply, asked[0])


def repeats(reply, term):
    """Returns whether a reply has the content of what it answers."""
    return reply.reason == term.reason and reply.flags == term.flags | REPLY


def reply_differs(side, reply, term):
    """Keeps the line of a reply. It may leave out reserved flags, which have to be 0."""
    is_clear = reply.reason == term.reason and reply.flags == REPLY
    words = f"flags={reply.flags:02x} reason={reply.reason:02x}"
    words += f" peer-flags={term.flags:02x} peer-reason={term.reason:02x}"
    side.claim(reply.offset, SHOULD if is_clear else MUST, "reply-differs", words)


# ---- answers that are missing


def unanswered(side):
    """Judges the transfers of the other side that have no answer, or not all, or were left."""
    excused = side.of_segments
    for transfer in side.other.sent.values():
        is_judged = transfer.is_judged and transfer.refused is None and not transfer.is_early
        left = segments_left(side, transfer) if is_judged else []
        if transfer.left is not None and transfer.refused is None:
            left_open(side, transfer, left)
        if is_judged and not transfer.is_interleaved():
            excused = missing(side, transfer, left, excused)
        keep_claims(side.other, transfer)


def segments_left(side, transfer):
    """Judges the XFER_ACK of a transfer that were not due. Returns its segments without an answer."""
    if transfer.again is None:
        return compare(side, transfer)
    compare_again(side, transfer)
    return []


def left_open(side, transfer, left):
    """Judges a transfer that its sender left without END. If its START may have been rejected, it was
    not begun. Part of a recording that is not closed may have refused it."""
    may_be_refused = not side.is_over() and side.seen < transfer.left.offset
    is_begun = not (side.of_segments and left and left[0].flags & START)
    if is_begun and not may_be_refused:
        claim_left(side.other, transfer, SHOULD if left else MUST)


def missing(side, transfer, left, excused):
    """Judges the segments of a transfer that have no answer. `excused` is how many of them may have
    been rejected. Returns how many of those are left for other transfers."""
    if transfer.extra:
        return excused
    missed = [it for it in left if is_missed(side, it)]
    level = level_of(side, missed[excused]) if len(missed) > excused else None
    if left and transfer.overtaken is not None and level != MUST:
        claim_order(side, transfer, transfer.overtaken[1] - 1)
    if level is not None:
        words = f"id={transfer.ident} peer-at={missed[excused].offset}"
        side.claim(side.listing.end, level, "ack-missing", words)
    elif len(left) > excused and transfer.overtaken is None and captured.is_left(side, transfer, left[excused]):
        words = f"id={transfer.ident} peer-at={left[excused].offset}"
        side.claim(side.listing.end, SHOULD, "unanswered-at-close", words)
    return max(0, excused - len(missed))


def is_missed(side, segment):
    """Returns whether an XFER_ACK is known to be missing: a side has seen the segment, and the
    connection has ended, but the other side is not known to have ended it first."""
    return side.is_over() and side.closed_first() is not False and side.seen > segment.offset


def level_of(side, segment):
    """Returns the level of a missing XFER_ACK. It is a must only if a later segment is answered."""
    return side.level_of_missing() if side.answered > segment.offset else SHOULD


# ---- answers to nothing


def judge_waiting(side):
    """Judges the answers of a side that belong to no segment of the other one."""
    for ident, waiting in side.waiting.items():
        transfer = side.other.sent.get(ident)
        for message, came in waiting:
            if transfer is None:
                judge_other(side, ident, message)
                continue
            side.of_answers.pop(message.offset, None)
            if message.kind == REFUSE and transfer.refused is None:
                refused_late(side, transfer, message, came)
            elif message.kind == ACK and transfer.refused is not None:
                acknowledged_after(side, transfer, message)
            elif message.kind == ACK and transfer.is_judged:
                transfer.strange.append(message)


def refused_late(side, transfer, message, came):
    """Judges an XFER_REFUSE of a transfer that is open at the end, or whose answers cannot be told from
    others."""
    if transfer.is_judged:
        judge_refuse(side, transfer, message, came)
    else:
        transfer.refused = message
        if transfer.left is not None:
            refused_left(side, transfer)


def judge_other(side, ident, message):
    """Judges an answer that belongs to no segment. What does not fit into memory accuses nobody."""
    other, is_ack = side.other, message.kind == ACK
    is_known, is_full = ident in other.over, other.over.is_full or other.strays.is_full
    lines = side.of_answers.pop(message.offset, ())
    if not (is_known or is_full or ident in other.strays):
        side.lines += [line for line in lines if line.rule == "answer-order"]
    if not is_ack:
        side.accepted.pop(ident, None)
    if is_ack and ident in other.refused:
        side.claim(message.offset, SHOULD, "refused-acknowledged", f"id={ident}")
    elif is_ack and is_known and not other.refused.is_full:
        side.claim(message.offset, MUST, "ack-beyond", f"id={ident}", if_known=True)
    elif not (is_known or is_full or ident in other.strays):
        rule = "ack-unknown" if is_ack else "refuse-unknown"
        side.claim(message.offset, MUST, rule, f"id={ident}", if_known=True)
        if other.is_known(message.offset):
            side.unknown.setdefault(ACK if is_ack else REFUSE, message.offset)
