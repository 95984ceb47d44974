"""The half of a node that receives transfers. It acknowledges, refuses or rejects each segment.

It uses the freedom that RFC 9174 leaves. No sentence orders the answers. The length of an XFER_ACK is
the sum of what was received so far, which is fixed when the segment was received or when it is
answered, or at a time between (section 5.2.3). A segment that the node cannot comply with may get a
MSG_REJECT (section 5.1.2).
"""

from model import wire

from .messages import CRITICAL, END, LENGTH, START, TYPES

# Reasons of XFER_REFUSE (section 5.2.4) and of MSG_REJECT (section 5.1.2)
NO_RESOURCES, NOT_ACCEPTABLE, EXTENSION_FAILURE, TERMINATING = 0x02, 0x04, 0x05, 0x06
UNSUPPORTED, UNEXPECTED = 0x02, 0x03

# In which order segments are answered: as they came; those of a transfer as they came; any
ORDERS = IN_ORDER, MIXED, ANY = "in order", "mixed", "any"

# The length of an XFER_ACK: up to its own segment, up to the last one received, or between the two
SUMS = OWN, SO_FAR, BETWEEN = "own", "so far", "between"

# What becomes of a segment above a limit, and of those after one that was rejected
REJECTED, REFUSED, TAKEN = "rejected", "refused", "taken"


class Incoming:
    """A transfer of the other side. `sums` has the length up to each of its segments.

    `pending` has the positions of the segments without an answer, and `rejections` the reasons for
    those that will be rejected. The segments from `refused_from` on came after the refusal.
    """

    def __init__(self, it, is_late):
        self.id, self.items, self.is_late = it.id, it.items, is_late
        self.segments, self.sums, self.pending, self.rejections = [], [], [], {}
        self.reason, self.refused_from, self.rejected, self.is_given_up = None, 0, 0, False
        self.is_critical = any(each.flags & CRITICAL and each.kind != LENGTH for each in it.items)
        announced = [int.from_bytes(each.value, "big") for each in it.items if each.kind == LENGTH]
        self.announced = announced[0] if announced else None

    def take(self, it):
        """Takes a segment. Returns its position."""
        self.sums.append((self.sums[-1] if self.sums else 0) + it.length)
        self.segments.append(it)
        self.pending.append(len(self.segments) - 1)
        return len(self.segments) - 1

    def has_ended(self):
        """Whether END has come."""
        return bool(self.segments[-1].flags & END)

    def is_invalid(self):
        """Whether it has another length than it announced (section 5.2.5.1)."""
        return self.announced is not None and self.has_ended() and self.sums[-1] != self.announced

    def is_settled(self):
        """Whether each segment so far is acknowledged, or the transfer is refused (section 5.2.4).

        A transfer of which each segment was rejected was never begun.
        """
        was_begun = self.rejected < len(self.segments)
        return self.reason is not None or not self.pending and not (self.rejected and was_begun)

    def due(self):
        """The reasons for which a SHALL asks to refuse it (sections 5.2.5, 5.2.5.1 and 6.1)."""
        found = [TERMINATING] if self.is_late else []
        found += [EXTENSION_FAILURE] if self.is_critical else []
        return found + ([NOT_ACCEPTABLE] if self.is_invalid() else [])


class Receiver:
    """The transfers that a node receives, in the order in which they began."""

    def __init__(self, node):
        self.node, self.rng, self.traits, self.transfers = node, node.rng, node.traits, {}

    # ---- segments

    def take(self, it):
        """A segment waits for its answer. A transfer is late if it begins in the Ending state."""
        if it.flags & START:
            self.transfers[it.id] = Incoming(it, self.node.term is not None)
        transfer = self.transfers[it.id]
        position = transfer.take(it)
        reason = self.rejection(transfer, position)
        if reason is not None:
            transfer.rejections[position] = reason
            transfer.is_given_up = self.traits.after_rejection == REJECTED or position == 0

    def rejection(self, transfer, position):
        """The reason for which a segment will be rejected, or None. Some transfers have to be refused instead."""
        if transfer.is_late or transfer.is_critical:
            return None
        limits = self.traits.init
        is_above = transfer.sums[position] > limits.transfer_mru
        is_above = is_above or transfer.segments[position].length > limits.segment_mru
        if is_above and self.traits.above == REJECTED:
            return UNSUPPORTED
        if transfer.reason is not None:
            return None
        if transfer.is_given_up and self.traits.after_rejection != REFUSED:
            return UNEXPECTED
        return UNSUPPORTED if self.rng.random() < self.traits.segment_rejections else None

    def pending(self):
        """The transfers with segments that have no answer."""
        return [it for it in self.transfers.values() if it.pending]

    def is_settled(self):
        """Whether each transfer so far is settled."""
        return all(it.is_settled() for it in self.transfers.values())

    def is_done(self):
        """Whether each transfer has ended or is refused, and each segment has its answer."""
        return all(not it.pending and (it.has_ended() or it.reason is not None) for it in self.transfers.values())

    # ---- answers

    def answer(self):
        """Answers a segment, or refuses its transfer."""
        waiting = self.pending()
        it = waiting[0] if self.traits.order == IN_ORDER else self.rng.choice(waiting)
        self.answer_one(it, self.rng.choice(it.pending) if self.traits.order == ANY else it.pending[0])

    def answer_one(self, it, position):
        """Answers that segment, or first one of an earlier transfer."""
        if position in it.rejections:
            self.reject(it, position)
        elif it.reason is not None and self.may_acknowledge(it, position):
            self.acknowledge(it, position)
        elif it.reason is not None:
            self.refuse(it)
        elif self.wants_refusal(it, position):
            self.refuse_in_turn(it)
        else:
            self.acknowledge(it, position)

    def may_acknowledge(self, it, position):
        """Whether it acknowledges a segment of a refused transfer: one that had come before the refusal."""
        has_come = position < it.refused_from and not it.is_late
        return has_come and self.rng.random() < self.traits.late_acks

    def wants_refusal(self, it, position):
        """Whether the transfer is to be refused now. One of a wrong length may be refused with its last segment."""
        is_above = it.sums[position] > self.traits.init.transfer_mru and self.traits.above == REFUSED
        if it.is_late or it.is_critical or is_above or it.rejections and self.traits.after_rejection == REFUSED:
            return True
        is_last = bool(it.segments[position].flags & END)
        return it.is_invalid() and is_last or self.rng.random() < self.traits.refusals

    def refuse_in_turn(self, it):
        """Refuses a transfer, or settles the first one before it that is not settled."""
        before = next(each for each in self.transfers.values() if each is it or not each.is_settled())
        if before is it or not before.pending:
            self.refuse(before)
        else:
            self.answer_one(before, before.pending[0])

    def refuse(self, it):
        """Refuses a transfer. The segments that wait are refused with it, or one by one."""
        if it.reason is None:
            it.reason, it.refused_from = self.reason(it), len(it.segments)
            if self.traits.refuses_at_once:
                del it.pending[1:]
        if it.pending:
            it.pending.pop(0)
        self.node.send(wire.Refuse(it.reason, it.id))

    def reason(self, it):
        """A reason for which the transfer may be refused."""
        found = it.due()
        if not found:
            is_ending = self.node.term or self.node.peer_term
            found = self.traits.reasons + ([EXTENSION_FAILURE] if it.items else [])
            found += [TERMINATING] if is_ending else []
        return self.rng.choice(found)

    def reject(self, it, position):
        """Rejects a segment."""
        it.pending.remove(position)
        it.rejected += 1
        self.node.send(wire.Reject(it.rejections[position], TYPES[wire.Segment]))

    def acknowledge(self, it, position):
        """Acknowledges a segment."""
        last = len(it.segments) - 1
        counted = {OWN: position, SO_FAR: last}.get(self.traits.sums, self.rng.randint(position, last))
        it.pending.remove(position)
        self.node.send(wire.Ack(it.segments[position].flags, it.id, it.sums[counted]))

    # ---- refusals without a segment that waits

    def refuse_early(self):
        """Refuses a transfer of which all segments so far are acknowledged."""
        found = []
        for it in self.transfers.values():
            if not it.is_settled():
                break
            if it.reason is None and not it.rejected and (not it.has_ended() or self.rng.random() < 0.05):
                found.append(it)
        if found:
            self.refuse(found[-1])

    def refuse_again(self):
        """Repeats a refusal."""
        found = [it for it in self.transfers.values() if it.reason is not None]
        if found:
            it = self.rng.choice(found)
            self.node.send(wire.Refuse(it.reason, it.id))
