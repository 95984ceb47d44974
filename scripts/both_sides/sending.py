"""The rules of segments, which their sender breaks."""

import hashlib
from typing import NamedTuple

from .bundles import can_be_fragmented
from .facts import CRITICAL, END, SEGMENT, START
from .sides import MUST, SHOULD, SLACK, Segment, Transfer

# The extension type of a Transfer Length item (RFC 9174 section 5.2.5.1)
TRANSFER_LENGTH = 0x0001

# The reasons of XFER_REFUSE after which a sender should not send the same again (section 5.2.4)
NO_RESOURCES, NOT_ACCEPTABLE = 0x02, 0x04

# How many segments of a transfer, and how many refused transfers are compared with later ones.
PIECES = 1024


def take_segment(side, message, came):
    """Takes an XFER_SEGMENT. `came` is when its first and its last byte were captured, or None."""
    opened = side.opened
    is_open, starts = opened is not None and opened.ident == message.ident, message.flags & START
    if not starts and not is_open:
        stray(side, message)
        return
    if starts and not is_open:
        begin(side, message)
    elif starts and opened.again is None:
        opened.again = opened.count
    add(side, side.opened, message, came)


def stray(side, message):
    """Takes a segment that continues no open transfer."""
    side.strays.add(message.ident)
    transfer = side.sent.get(message.ident)
    if transfer is not None and transfer.left is not None:
        transfer.extra += 1


def begin(side, message):
    """Begins a transfer. One that is open is left without END."""
    if side.first_segment is None:
        side.first_segment = message.offset
    transfer = Transfer(message, side.seen)
    if side.opened is not None:
        leave(side, side.opened, transfer, message)
    earlier = side.sent.pop(message.ident, None)
    if earlier is not None:
        replace(side, earlier)
        transfer.is_judged = False
    side.sent[message.ident] = side.opened = transfer
    transfer.is_early = not side.inits
    if side.terms or side.other.terms:
        late(side, transfer)


def late(side, transfer):
    """Notes whether a transfer begins when the session is ending, and judges it before the own
    SESS_TERM. `check` judges it after that."""
    transfer.is_warned = side.has_seen(side.other.first_term())
    transfer.is_late = transfer.is_warned or bool(side.terms)
    if transfer.is_warned and not side.terms:
        side.claim(transfer.offset, SHOULD, "ending", f"id={transfer.ident} type={SEGMENT:02x}")


def replace(side, transfer):
    """Forgets a transfer that has no answer, since another one with its ID begins."""
    if transfer.is_counted:
        side.unanswered -= transfer.unanswered()
    keep_claims(side, transfer)


def claim_left(side, transfer, level):
    """Keeps the line of a transfer that was left without END."""
    words = f"id={transfer.left.ident} open={transfer.ident}"
    side.claim(transfer.left.offset, level, "interleaved", words)


def leave(side, transfer, follower, message):
    """Leaves a transfer without END, since a message begins another one. Its sender may do so if it
    was refused. That may still be found."""
    transfer.left, transfer.is_open = message, False
    if transfer.refused is not None:
        drop(side, transfer)
    else:
        transfer.follower, follower.is_mixed = follower, True


def drop(side, transfer):
    """Forgets a transfer that has all its answers."""
    del side.sent[transfer.ident]
    side.over.add(transfer.ident)
    if transfer.refused is not None:
        side.refused.add(transfer.ident)
    if transfer.claims:
        keep_claims(side, transfer)


def keep_claims(side, transfer):
    """Keeps the lines about a transfer, unless its sender interleaved it."""
    if transfer.claims and not transfer.is_interleaved():
        side.other.claims += transfer.claims


def add(side, transfer, message, came):
    """Adds a segment to its transfer."""
    transfer.count += 1
    if transfer.refused is not None:
        refused_goes_on(side, transfer, message, came)
    transfer.total += message.length
    if len(transfer.pieces) < PIECES:
        transfer.pieces.append((message.end - message.length, message.end))
    if transfer.is_early:
        transfer.extra += 1
    elif transfer.refused is None:
        numbers = message.offset, message.flags, message.length, transfer.total
        transfer.pending.append(Segment(*numbers, came and came.last, message.end))
        transfer.free[message.flags] += 1
        side.unanswered += 1
    if message.flags & END:
        side.opened, transfer.is_open = None, False
        retried(side, transfer)
        if transfer.refused is not None and transfer.goes_on is None:
            drop(side, transfer)


def refused_goes_on(side, transfer, message, came):
    """Judges a segment of a transfer that the other side has refused.

    By times it is no must: the segment may have waited long in the sender's system.
    """
    words = f"id={transfer.ident} peer-at={transfer.refused.offset}"
    if transfer.goes_on is None and side.has_seen(transfer.refused):
        transfer.goes_on = transfer.total
        side.claim(message.offset, MUST, "refused-continued", words)
    elif came and transfer.refused_came and came.first > transfer.refused_came + SLACK:
        transfer.refused_came = None
        side.claim(message.offset, SHOULD, "refused-continued", words)


def is_critical(transfer):
    """Returns whether a transfer has a critical item of a type that not every node knows."""
    return any(it.flags & CRITICAL and it.kind != TRANSFER_LENGTH for it in transfer.items)


# ---- the same bundle again


class Refused(NamedTuple):
    """A refused transfer: its ID, the refusal, and the digest of its extension list."""

    ident: int
    refusal: tuple
    listed: bytes


def digest(side, pieces):
    """Returns the digest of stretches of a recording."""
    if side.file is None:
        side.file = open(side.path, "rb")
    found = hashlib.blake2b(digest_size=16)
    for begin_at, end in pieces:
        side.file.seek(begin_at)
        found.update(side.file.read(end - begin_at))
    return found.digest()


def is_compared(transfer):
    """Returns whether a transfer is over, and has few enough segments to be compared."""
    return transfer.left is None and not transfer.is_open and transfer.count == len(transfer.pieces)


def note_refused(side, transfer):
    """Keeps a whole transfer that was refused, to compare later ones with it."""
    refusal = transfer.refused
    if refusal.reason not in (NO_RESOURCES, NOT_ACCEPTABLE) or not is_compared(transfer):
        return
    found = Refused(transfer.ident, refusal, digest(side, [transfer.listed]))
    side.retries[digest(side, transfer.pieces)] = found
    if len(side.retries) > PIECES:
        del side.retries[next(iter(side.retries))]


def is_to_change(side, transfer, found):
    """Returns whether a bundle should not be sent again as it was. After NO_RESOURCES it should be
    fragmented, if it can be. After NOT_ACCEPTABLE, other extension items are a change."""
    if found.refusal.reason == NO_RESOURCES:
        return can_be_fragmented(side.file, transfer.pieces)
    return digest(side, [transfer.listed]) == found.listed


def retried(side, transfer):
    """Judges a transfer that has the data of a refused one, and keeps it if it was refused."""
    found = side.retries and is_compared(transfer) and side.retries.get(digest(side, transfer.pieces))
    if found and transfer.saw >= found.refusal.offset:
        reason = found.refusal.reason
        if is_to_change(side, transfer, found):
            words = f"id={transfer.ident} before={found.ident} reason={reason:02x}"
            side.claim(transfer.offset, SHOULD, "retried", words)
    if transfer.refused is not None:
        note_refused(side, transfer)
