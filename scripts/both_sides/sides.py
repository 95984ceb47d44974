"""What is kept of each side of a session while both recordings are read."""

from bisect import bisect_right
from collections import Counter, OrderedDict, deque
from typing import NamedTuple, Optional

from .facts import END, REFUSE
from .pairing import TRIED

MUST, SHOULD = "must", "should"

# How many ranges of transfer IDs are kept of a side.
RANGES = 1 << 16

# How much later than it should a message may be captured, in nanoseconds: a packet that was lost is
# sent again.
SLACK = 5 * 10**9

# How many earlier transfers are looked at when a transfer is refused, and how many silences are kept.
KEPT = 1 << 10


class Line(NamedTuple):
    """A line: where, its level and its rule, and the words after them."""

    offset: int
    level: str
    rule: str
    words: str


class Ranges:
    """A set of transfer IDs, as ranges. It is full once it has RANGES of them, and takes no more."""

    def __init__(self):
        self.begins, self.ends, self.is_full = [], [], False

    def __contains__(self, ident):
        at = bisect_right(self.begins, ident)
        return at > 0 and ident < self.ends[at - 1]

    def add(self, ident):
        """Adds an ID."""
        if ident in self:
            return
        at, begins, ends = bisect_right(self.begins, ident), self.begins, self.ends
        is_end, is_begin = at > 0 and ends[at - 1] == ident, at < len(begins) and begins[at] == ident + 1
        if is_end and is_begin:
            ends[at - 1] = ends.pop(at)
            begins.pop(at)
        elif is_end:
            ends[at - 1] = ident + 1
        elif is_begin:
            begins[at] = ident
        elif len(begins) < RANGES:
            begins.insert(at, ident)
            ends.insert(at, ident + 1)
        else:
            self.is_full = True


class Came(NamedTuple):
    """When the first and the last byte of a message were captured, in nanoseconds."""

    first: int
    last: int


class Segment(NamedTuple):
    """A segment that waits for its answer: its offset, its end, its flags and the length of its data,
    and the length of its transfer up to it. `came` is when its last byte was captured, or None."""

    offset: int
    flags: int
    length: int
    total: int
    came: Optional[int]
    end: int


class Claim(NamedTuple):
    """A line that holds under a condition.

    `if_known`: nothing of the other recording is missing that this side could have seen when it sent
    the message at the offset. `rejects`: this side sent no more MSG_REJECT of XFER_SEGMENT than these.
    `unless_asked`: the other side sent no SESS_TERM without REPLY, which may have come before.
    """

    line: Line
    if_known: bool = False
    rejects: Optional[int] = None
    unless_asked: bool = False


class Transfer:
    """A transfer that is open, or has segments without an answer.

    pending    its segments that have no answer; `last` is the last one that has
    free       how many of these no XFER_ACK may answer so far, by their flags
    total      the length of its data so far; `count` is how many segments it has
    items      its extension items
    saw        up to where its sender had seen the other side when it began
    again      how many segments it had when its START came again, or None
    is_early   whether it began before the SESS_INIT of its sender
    extra      how many segments with its ID came before this SESS_INIT, or after it was left
    is_judged  whether its answers can be told from those of others with its ID
    is_late    whether it began after a SESS_TERM of its sender, or one that this is shown to have read;
               `is_warned` is the latter
    strange    answers that wait to be compared, since one of them is not the one that is due
    answered   how many XFER_ACK it has
    is_counted whether its segments without an answer count in those of its side
    refused    the first XFER_REFUSE of it; `refused_came` is when that was captured
    left       where another transfer begins, if this one was left without END; `follower` is that one
    is_mixed   whether it began inside another one that was not refused, or was left for another one
               before it was refused
    goes_on    its length when its sender began a segment after it had seen the refusal
    overtaken  the first XFER_REFUSE of a later transfer that came while segments had no answer, and
               how many segments of earlier transfers had none
    claims     the lines of the other side about it, or None
    """

    __slots__ = (
        "ident", "offset", "pending", "total", "count", "items", "saw", "is_open", "again", "is_early", "extra",
        "is_judged", "is_late", "is_warned", "strange", "answered", "is_counted", "refused", "refused_came", "left",
        "follower", "is_mixed", "goes_on", "overtaken", "claims", "pieces", "listed", "last", "free",
    )

    def __init__(self, message, saw):
        self.ident, self.offset, self.items = message.ident, message.offset, message.items
        self.pending, self.total, self.count = deque(), 0, 0
        self.saw, self.is_open, self.again, self.is_early, self.extra = saw, True, None, False, 0
        self.is_judged, self.is_late, self.is_warned = True, False, False
        self.strange, self.answered, self.is_counted = [], 0, True
        self.refused = self.refused_came = self.left = self.follower = self.goes_on = self.overtaken = None
        self.is_mixed, self.last, self.claims, self.free = False, None, None, Counter()
        self.pieces, self.listed = [], (message.offset + 10, message.end - message.length - 8)

    def unanswered(self):
        """Returns how many segments have no answer."""
        return len(self.pending) - len(self.strange)

    def is_interleaved(self):
        """Returns whether its sender mixed it with another transfer, as far as is known so far."""
        return self.is_mixed or self.left is not None and self.refused is None


class Side:
    """One side of a session: what it sent so far, and what it has answered.

    seen       the greatest offset of a message of the other side that an answer of this one shows
               it to have read. `answered` is the same by XFER_ACK and XFER_REFUSE alone
    sent       its transfers that are open, or have segments without an answer, by their IDs, in
               the order of their beginnings
    unanswered how many segments have no answer, except those that were passed over
    opened     its open transfer, or None
    over       the IDs of its other transfers, and `refused` those among them that were refused
    strays     the IDs of its segments that are out of order and part of no transfer, and `taken`
               those among them that were acknowledged
    waiting    its answers to transfers that the other side has not begun so far, by ID
    terms      its SESS_TERM by their flags and reasons, the first one of each; `asked` is the first
               one without REPLY
    inits      its first two SESS_INIT; `first` is its first message, `first_start` its first START,
               `first_segment` where the first transfer begins, `first_keepalive` its first
               KEEPALIVE, and `first_use` its first segment, XFER_ACK or XFER_REFUSE
    types      the type bytes of its messages, each with its first offset
    rejects    the type bytes that it rejected, each with its first offset, and `of_segments` how
               many MSG_REJECT are of XFER_SEGMENT. `has_given_up` is whether one rejects an unknown
               type, so that this side has to close the connection
    unknown    the type bytes of its answers to nothing, each with its first offset
    accepted   by ID, the other side's transfers of a wrong length that it acknowledged to their END
    retries    its transfers that were refused, by the digest of their data
    differing  by offset, the words of its transfers of a wrong length
    choices    how many segments may be looked at in choices of those that it rejected
    captured   what a capture shows of the connection, or None
    lines      the lines of this side from `check`, and `claims` those of both sides. `of_answers`
               has the lines of `check` that the other recording decides, by offset
    """

    def __init__(self, name, listing, is_closed):
        self.name, self.listing, self.is_closed = name, listing, is_closed
        self.path, self.messages = listing.path, iter(listing.messages)
        self.other, self.clock, self.captured, self.is_unready = None, None, None, False
        self.unfinished = None
        self.seen = self.answered = -1
        self.sent, self.unanswered, self.opened = OrderedDict(), 0, None
        self.over, self.refused, self.strays, self.taken = Ranges(), Ranges(), Ranges(), Ranges()
        self.waiting, self.terms, self.asked, self.types, self.rejects, self.of_segments = {}, {}, None, {}, {}, 0
        self.accepted, self.retries, self.differing, self.choices = {}, {}, {}, TRIED
        self.has_given_up = False
        self.inits, self.first, self.first_start, self.first_segment, self.first_use = [], None, None, None, None
        self.refused_ending, self.first_keepalive, self.file = None, None, None
        self.lines, self.claims, self.of_answers, self.unknown = [], [], {}, {}
        self.next, self.waited = next(self.messages, None), 0

    def advance(self):
        """Takes the next message."""
        message = self.next
        self.next, self.waited = next(self.messages, None), 0
        return message

    def close(self):
        """Closes the files that were opened."""
        if self.file is not None:
            self.file.close()
        if self.clock is not None:
            self.clock.times.close()

    def claim(self, offset, level, rule, words="", about=None, **conditions):
        """Keeps a line, with the conditions of Claim. One that is about a transfer of the other side
        waits until it is known whether that was interleaved."""
        claim = Claim(Line(offset, level, rule, words), **conditions)
        if about is None:
            self.claims.append(claim)
        else:
            about.claims = about.claims or []
            about.claims.append(claim)

    def holds(self, claim):
        """Returns whether a line holds, once both recordings were read."""
        is_known = not claim.if_known or self.other.is_known(claim.line.offset)
        is_excused = claim.unless_asked and self.other.asked is not None
        return is_known and not is_excused and (claim.rejects is None or self.of_segments <= claim.rejects)

    def first_term(self):
        """Returns its first SESS_TERM, or None."""
        return next(iter(self.terms.values()), None)

    def has_seen(self, message):
        """Returns whether this side is shown to have read a message of the other one."""
        return message is not None and self.seen >= message.offset

    def is_whole(self):
        """Returns whether the recording has all that this side sent. If a transfer is open at the
        end, a SESS_TERM before does not show it. Of a capture, only the end of the connection does."""
        is_ended = self.is_closed or self.captured is None and self.terms and self.opened is None
        return self.listing.fault is None and bool(is_ended)

    def is_over(self):
        """Returns whether an answer that the recording lacks at its end was never sent. A side may
        answer after its SESS_TERM, so only the end of the connection shows it."""
        return self.is_closed and self.is_whole()

    def closed_first(self):
        """Returns whether this side closed the connection before the other one did, or None if that
        is not known. In a capture, its FIN shows whether that of the other side had come."""
        if not self.is_closed:
            return False
        if self.captured is None:
            return None if self.other.is_closed else True
        taken = self.captured.taken
        return None if taken is None else taken <= self.other.listing.end

    def level_of_missing(self):
        """Returns the level of a line for a message that the recording lacks at its end. It is a must
        only if the other side had not closed the connection before, and this side was not free to
        close it at once. It is after its SESS_TERM (RFC 9174 section 6.1), and it has to close after
        a MSG_REJECT of an unknown type (sections 5.1.2 and 8.5)."""
        is_free = bool(self.terms) or self.has_given_up
        return MUST if self.closed_first() and not is_free else SHOULD

    def has_accepted(self):
        """Returns whether a capture shows that this side accepted the connection. Then it shows where
        the other side began, too."""
        return self.captured is not None and self.captured.seen is not None

    def is_known(self, offset):
        """Returns whether the recording has all that the other side could have seen when it sent
        the message at an offset of its own recording."""
        return self.is_whole() or self.seen >= offset


def can_take(sender, answer):
    """Returns whether an XFER_ACK or an XFER_REFUSE can be taken: whether what it answers was.

    For an XFER_ACK, a segment has no answer and the flags of the XFER_ACK, and the transfer has the
    acknowledged length so far; or the transfer gets no more.
    """
    transfer = sender.sent.get(answer.ident)
    if transfer is None:
        return answer.ident in sender.strays or answer.kind == REFUSE and answer.ident in sender.over
    if answer.kind == REFUSE or not transfer.is_judged:
        return True
    is_refused, is_known = transfer.refused is not None, transfer.extra > 0 or transfer.free[answer.flags] > 0
    if transfer.is_open and (answer.length > transfer.total or answer.flags & END or not (is_refused or is_known)):
        return False
    is_compared = bool(transfer.strange) and not transfer.is_open
    return is_compared or is_refused or transfer.extra > 0 or transfer.unanswered() > 0
