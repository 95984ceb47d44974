"""The rules of XFER_ACK and XFER_REFUSE, which the receiver of transfers breaks."""

from collections import deque
from itertools import islice, takewhile

from .captured import is_before
from .facts import ACK, END, REFUSE, START
from .pairing import counted, paired, pairing
from .sending import claim_left, drop, is_critical, note_refused
from .sides import KEPT, MUST, SHOULD, can_take
from .timed import early, early_sum

# Flags that are defined (RFC 9174 section 5.2.2), and reasons of XFER_REFUSE (section 5.2.4)
DEFINED = START | END
NOT_ACCEPTABLE, EXTENSION_FAILURE, SESSION_TERMINATING = 0x04, 0x05, 0x06


def take_answer(side, message, came):
    """Takes an XFER_ACK or an XFER_REFUSE, or lets it wait for what it answers. `came` is when its
    first and its last byte were captured, or None."""
    if message.ident in side.waiting or not can_take(side.other, message):
        side.waiting.setdefault(message.ident, deque()).append((message, came))
    else:
        judge(side, message, came)


def take_waiting(side, ident):
    """Takes the answers to a transfer that came before its segments were taken."""
    waiting = side.waiting[ident]
    while waiting and can_take(side.other, waiting[0][0]):
        judge(side, *waiting.popleft())
    if not waiting:
        del side.waiting[ident]


def judge(side, message, came):
    """Judges an XFER_ACK or an XFER_REFUSE. Its transfer is in the other recording, which decides what
    `check` judges by the order of the answers alone."""
    if side.of_answers:
        side.of_answers.pop(message.offset, None)
    transfer = side.other.sent.get(message.ident)
    if message.kind == REFUSE and transfer is None:
        side.accepted.pop(message.ident, None)
    elif transfer is None:
        stray_taken(side, message)
    elif not transfer.is_judged:
        return
    elif message.kind == REFUSE:
        judge_refuse(side, transfer, message, came)
    else:
        judge_ack(side, transfer, message, came)


def stray_taken(side, message):
    """Judges an XFER_ACK of a segment that is part of no transfer. The first one counts."""
    taken = side.other.taken
    if message.ident not in taken and not taken.is_full:
        taken.add(message.ident)
        side.claim(message.offset, SHOULD, "taken-out-of-order", f"id={message.ident}")


def judge_ack(side, transfer, message, came):
    """Judges an XFER_ACK of a transfer."""
    if not side.inits:
        side.other.is_unready = True
    if transfer.refused is not None:
        return acknowledged_after(side, transfer, message)
    if transfer.answered == 0:
        accepted(side, transfer, message)
    transfer.answered += 1
    if transfer.extra and transfer.unanswered() <= 0:
        taken_out_of_order(side, transfer, message)
        transfer.is_judged = False
        return None
    due = transfer.pending[0]
    if transfer.strange or transfer.again is not None or not is_answer_to(message, due):
        return strange(side, transfer, message)
    transfer.pending.popleft()
    transfer.free[due.flags] -= 1
    transfer.last = due
    side.other.unanswered -= 1
    see(side, due.offset)
    early(side, transfer, message, due, came)
    return settle(side, transfer, message)


def is_answer_to(message, segment):
    """Returns whether an XFER_ACK has the flags and the length that are due for a segment."""
    return message.flags == segment.flags and message.length == segment.total


def see(side, offset):
    """Notes that an answer shows this side to have read a segment of the other one."""
    side.seen, side.answered = max(side.seen, offset), max(side.answered, offset)


def settle(side, transfer, message):
    """Judges what depends on a transfer having all its answers. Forgets it if it is over."""
    sender = side.other
    if transfer.pending:
        return
    if transfer.overtaken is not None:
        claim_order(side, transfer)
        transfer.overtaken = None
    if transfer.is_open or transfer.left or transfer.extra or transfer.again is not None or transfer.is_mixed:
        return
    if transfer.offset in sender.differing:
        side.accepted[transfer.ident] = (message.offset, sender.differing[transfer.offset])
    drop(sender, transfer)


def accepted(side, transfer, message):
    """Judges that this side has taken the first segment of a transfer."""
    if transfer.is_late:
        words = f"id={transfer.ident} type={ACK:02x}"
        side.claim(message.offset, MUST if transfer.is_warned else SHOULD, "ending", words, about=transfer)
    if transfer.items and is_critical(transfer):
        words = f"id={transfer.ident} peer-at={transfer.offset}"
        side.claim(message.offset, SHOULD, "critical-ignored", words, about=transfer)
    refusal = side.refused_ending
    if refusal is not None and not side.terms and not transfer.is_late and transfer.offset > refusal[1]:
        words = f"id={refusal[0].ident} reason={SESSION_TERMINATING:02x}"
        side.claim(refusal[0].offset, SHOULD, "refuse-reason", words, if_known=True, unless_asked=True)
        side.refused_ending = None


def acknowledged_after(side, transfer, message):
    """Judges an XFER_ACK of a transfer that this side has refused."""
    is_sure = transfer.goes_on is not None and message.length > transfer.goes_on
    level = MUST if is_sure else SHOULD
    side.claim(message.offset, level, "refused-acknowledged", f"id={transfer.ident}", about=transfer)


def taken_out_of_order(side, transfer, message):
    """Keeps the line of an XFER_ACK of a segment that is out of order."""
    side.claim(message.offset, SHOULD, "taken-out-of-order", f"id={transfer.ident}", about=transfer)


# ---- answers that are not those that are due


def strange(side, transfer, message):
    """Keeps an XFER_ACK that is not the one that is due, or that follows such a one. Compares them
    once there are as many as segments, if they can answer these, or if one of them has END."""
    transfer.strange.append(message)
    transfer.free[message.flags] -= 1
    early_sum(side, transfer, message)
    if transfer.is_counted:
        side.other.unanswered -= 1
    last = transfer.pending[-1]
    is_last = not transfer.is_open and is_answer_to(message, last)
    see(side, last.offset if is_last else transfer.offset)
    if transfer.is_open or transfer.left is not None or transfer.again is not None:
        return
    if transfer.unanswered() > 0:
        pass_over(side, transfer, message)
    elif transfer.unanswered() == 0 or message.flags & END:
        compare_all(side, transfer, message)


def compare_all(side, transfer, message):
    """Compares the XFER_ACK of a transfer, of which there are as many as segments, or more."""
    last, is_kept = transfer.pending[-1], is_paired(transfer)
    if is_kept or transfer.count == 1 or any(it.flags & END for it in transfer.strange):
        compare(side, transfer)
        see(side, last.offset if is_kept else transfer.offset)
        forget_pending(side, transfer)
        settle(side, transfer, message)


def is_paired(transfer):
    """Returns whether each XFER_ACK of a transfer can have a segment of its own."""
    return None not in paired(list(transfer.pending), transfer.strange)


def pass_over(side, transfer, message):
    """Notes that the last segment of a transfer is answered, and others are not. Their answers may not
    come, so they do not count."""
    if message.flags & END and transfer.is_counted:
        side.other.unanswered -= transfer.unanswered()
        transfer.is_counted = False


def forget_pending(side, transfer):
    """Takes the segments of a transfer for answered."""
    if transfer.is_counted:
        side.other.unanswered -= transfer.unanswered()
    transfer.pending.clear()
    transfer.free.clear()
    transfer.strange = []


def compare(side, transfer, segments=None):
    """Compares the XFER_ACK that were not due with the segments that have no answer, or with these.
    Returns those that have none after that."""
    segments, acks = segments or list(transfer.pending), transfer.strange
    found = paired_with(side, segments, acks)
    if not found.is_possible:
        return differences(side, transfer, segments, found.numbers)
    at = found.first_early()
    if at is not None:
        words = f"id={transfer.ident} fault=not-in-order"
        side.claim(acks[at].offset, SHOULD, "answer-order", words, about=transfer)
    return without(segments, found.numbers)


def paired_with(side, segments, acks):
    """Returns how XFER_ACK answer segments. All transfers share the number of choices that are tried."""
    found = pairing(segments, acks, side.of_segments, side.choices)
    side.choices -= found.tried
    return found


def without(segments, numbers):
    """Returns the segments whose numbers are not among these."""
    gone = set(numbers)
    return [it for number, it in enumerate(segments) if number not in gone]


def compare_again(side, transfer):
    """Compares the XFER_ACK of a transfer whose START came again with its segments.

    One of its START may have been rejected, if a segment has no XFER_ACK. Then the answers are those to
    the other segments. Otherwise the XFER_ACK after the first ones answer segments that are out of order.
    """
    segments, acks = list(transfer.pending), transfer.strange
    first = transfer.again - (transfer.count - len(segments))
    if side.of_segments and len(acks) < len(segments):
        if not paired_with(side, segments, acks).is_possible:
            segments = once_begun(segments, first)
            differences(side, transfer, segments, paired(segments, acks))
    elif len(acks) > first:
        taken_out_of_order(side, transfer, acks[first])
    elif acks:
        compare(side, transfer, segments[:first])


def once_begun(segments, first):
    """Returns segments without the START that come again, from that number on."""
    found, left_out = [], 0
    for number, it in enumerate(segments):
        if number >= first and it.flags & START:
            left_out += it.length
        else:
            found.append(it._replace(total=it.total - left_out))
    return found


# ---- answers that cannot be those to the segments


class Left:
    """The segments of a transfer that no XFER_ACK can answer, by what such an XFER_ACK may have right:
    the flags, the defined flags, or the length."""

    def __init__(self, segments):
        self.segments, self.waiting, self.taken = segments, {}, set()
        for number, it in enumerate(segments):
            for key in (("flags", it.flags), ("defined", it.flags & DEFINED), ("length", it.total), "any"):
                self.waiting.setdefault(key, deque()).append(number)

    def take(self, message, is_again):
        """Takes the segment that an XFER_ACK most likely answers: the first one with its flags, with its
        defined flags, or with its length; or else, unless the same XFER_ACK came before, the first one.
        Returns None if there is no such segment."""
        keys = [("flags", message.flags), ("defined", message.flags), ("length", message.length), "any"]
        for key in keys[:3] if is_again else keys:
            numbers = self.waiting.get(key, ())
            while numbers and numbers[0] in self.taken:
                numbers.popleft()
            if numbers:
                self.taken.add(numbers[0])
                return self.segments[numbers[0]]
        return None


def differences(side, transfer, segments, numbers):
    """Judges the XFER_ACK of a transfer that cannot answer its segments: those without a segment are
    compared with the segments that are left, or are too many. Returns the segments that have none.

    If segments are left, more MSG_REJECT may come that answer them.
    """
    left, before = Left(without(segments, numbers)), set()
    if transfer.last is not None:
        before.add((transfer.last.flags, transfer.last.total))
    sums, rejects = counted(segments), side.of_segments if len(numbers) < len(segments) else None
    for message, number in zip(transfer.strange, numbers):
        if number is None:
            segment = left.take(message, (message.flags, message.length) in before)
            differ(side, transfer, message, segment, sums, rejects)
        before.add((message.flags, message.length))
    return without(left.segments, left.taken)


def differ(side, transfer, message, segment, sums, rejects):
    """Judges an XFER_ACK that cannot answer the segment with which it is compared, or that is one too
    many. `sums` has the sums up to the segments that have no answer."""
    begin = f"id={transfer.ident}"
    conditions = {"if_known": transfer.is_open, "rejects": rejects, "about": transfer}
    if segment is None:
        side.claim(message.offset, MUST, "ack-beyond", f"{begin} segments={transfer.count}", **conditions)
        return
    if message.flags != segment.flags:
        level = SHOULD if message.flags == segment.flags & DEFINED else MUST
        words = f"{begin} flags={message.flags:02x} segment={segment.flags:02x}"
        side.claim(message.offset, level, "ack-flags", words, **conditions)
    if message.length > transfer.total:
        words = f"{begin} length={message.length} sent={transfer.total}"
        side.claim(message.offset, MUST, "ack-beyond", words, **conditions)
    elif message.length < segment.total or message.length not in sums:
        words = f"{begin} length={message.length} sum={segment.total}"
        side.claim(message.offset, MUST, "ack-sum", words, **conditions)


# ---- refusals


def judge_refuse(side, transfer, message, came):
    """Judges an XFER_REFUSE of a transfer. Only the first one counts."""
    if transfer.refused is not None:
        return
    see(side, transfer.offset)
    if is_before(side, message, transfer.offset) and message.ident not in side.other.over:
        side.claim(message.offset, MUST, "refuse-unknown", f"id={message.ident}", about=transfer)
    refuse_reason(side, transfer, message)
    refuse_order(side, transfer, message)
    if transfer.again is None:
        compare(side, transfer)
    forget_pending(side, transfer)
    transfer.refused, transfer.refused_came = message, came and came.last
    if transfer.overtaken is not None:
        claim_order(side, transfer, transfer.overtaken[1] - 1)
    if transfer.left is not None:
        refused_left(side, transfer)
    if not transfer.is_open:
        note_refused(side.other, transfer)
        drop(side.other, transfer)


def refused_left(side, transfer):
    """Judges whether a transfer that its sender left was refused before. If so, the transfer that
    followed is one like others."""
    transfer.is_mixed = transfer.is_mixed or side.has_seen(transfer.left)
    if side.has_seen(transfer.left):
        claim_left(side.other, transfer, MUST)
    else:
        transfer.follower.is_mixed = False


def refuse_reason(side, transfer, message):
    """Judges the reason of an XFER_REFUSE."""
    words = f"id={transfer.ident} reason={message.reason:02x}"
    if message.reason == EXTENSION_FAILURE and not transfer.items:
        side.claim(message.offset, SHOULD, "refuse-reason", words, about=transfer)
    if transfer.is_late and transfer.answered == 0 and message.reason != SESSION_TERMINATING:
        is_sure = transfer.is_warned and not is_asked_for(side, transfer, message.reason)
        words = f"id={transfer.ident} type={REFUSE:02x} reason={message.reason:02x}"
        side.claim(message.offset, MUST if is_sure else SHOULD, "ending", words, about=transfer)
    if message.reason == SESSION_TERMINATING and not side.terms and not transfer.is_late:
        side.refused_ending = message, transfer.offset


def is_asked_for(side, transfer, reason):
    """Returns whether another sentence asks for the reason of an XFER_REFUSE, for an unknown critical
    item or for a wrong length (RFC 9174 sections 5.2.5 and 5.2.5.1)."""
    if reason == EXTENSION_FAILURE:
        return is_critical(transfer)
    return reason == NOT_ACCEPTABLE and transfer.offset in side.other.differing


def refuse_order(side, transfer, message):
    """Notes an earlier transfer that has a segment without an answer at an XFER_REFUSE.

    It breaks the rule if the answer comes later. If it never comes, it is missing. If all segments of
    earlier transfers that have no answer were rejected, the rule is kept.
    """
    if transfer.is_mixed:
        return
    earlier = takewhile(lambda it: it is not transfer, islice(side.other.sent.values(), KEPT))
    left = (it for it in earlier if it.refused is None and it.is_judged and it.unanswered() > 0)
    first = next(left, None)
    if first is not None and first.overtaken is None:
        first.overtaken = message, first.unanswered() + sum(it.unanswered() for it in left)


def claim_order(side, transfer, rejects=None):
    """Keeps the line of an XFER_REFUSE that came before the answers to an earlier transfer."""
    message, _ = transfer.overtaken
    words = f"id={message.ident} unanswered={transfer.ident}"
    side.claim(message.offset, MUST, "refuse-order", words, rejects=rejects, about=transfer)
