"""Switches of the receiver of transfers: the cases of the group `to`."""

from .. import octets
from ..octets import ItemFlag, SegmentFlag, U64_MAX
from . import sentences
from .registry import breaks

SEVERAL = 300
WHOLE = SegmentFlag.START | SegmentFlag.END


def ack_switch(name, is_left_out):
    """Registers a switch that does not acknowledge such a segment of such a transfer."""
    class NoAck:
        """Leaves out some acknowledgements."""

        def acknowledge(self, segment, transfer):
            """Acknowledges other segments only."""
            if not is_left_out(self, segment, transfer):
                super().acknowledge(segment, transfer)
    breaks(name, sentences.ACK)(NoAck)


def is_critical_start(ahead):
    """Whether the bytes begin with a first segment whose first item is critical."""
    return len(ahead) > 14 and ahead[0] == 1 and bool(ahead[1] & SegmentFlag.START) \
        and any(ahead[10:14]) and bool(ahead[14] & ItemFlag.CRITICAL)


ack_switch("no-ack-at-all", lambda session, segment, transfer: True)
ack_switch("no-ack-after-start", lambda session, segment, transfer: not segment.is_start)
ack_switch("no-ack-of-one-byte", lambda session, segment, transfer: segment.length == 1)
ack_switch("no-ack-of-segment-in-bits", lambda session, segment, transfer: session.reader.is_in_bits())
ack_switch("one-ack-for-several", lambda session, segment, transfer: len(session.reader.ahead) > SEVERAL)
ack_switch("no-ack-of-empty-start",
           lambda session, segment, transfer: segment.length == 0 and segment.is_start and not segment.is_end)
ack_switch("no-ack-of-empty-segment",
           lambda session, segment, transfer: segment.length == 0 and not segment.flags & WHOLE)
ack_switch("no-ack-of-empty-end",
           lambda session, segment, transfer: segment.length == 0 and segment.is_end and not segment.is_start)
ack_switch("no-ack-of-large-id", lambda session, segment, transfer: segment.identifier >> 63)
ack_switch("no-ack-of-announced-end", lambda session, segment, transfer:
           transfer.announced is not None and segment.flags & WHOLE == SegmentFlag.END)
ack_switch("no-ack-of-announced-whole", lambda session, segment, transfer:
           transfer.announced is not None and segment.flags & WHOLE == WHOLE)


@breaks("rejects-segment-flags", sentences.SEGMENT_FLAGS)
class RejectsSegmentFlags:
    """Rejects a segment for its reserved flags."""

    def is_too_long(self, segment):
        """Treats the segment as one that it cannot comply with."""
        return bool(octets.reserved(segment.flags, WHOLE)) or super().is_too_long(segment)


def length_switch(name, is_missed):
    """Registers a switch that does not see such a difference between the announced and the real length."""
    class MissesLength:
        """Accepts a transfer of another length than announced."""

        def refusal_of_sum(self, segment, received, announced):
            """Returns the reason to refuse a transfer for its length, as far as it is seen."""
            if announced is not None and is_missed(segment, received + segment.length, announced):
                announced = None
            return super().refusal_of_sum(segment, received, announced)
    breaks(name, sentences.TOTAL_LENGTH)(MissesLength)


length_switch("takes-more-than-announced",
              lambda segment, total, announced: total > announced and segment.flags & WHOLE != WHOLE)
length_switch("takes-less-than-announced",
              lambda segment, total, announced:
              total < announced < 2**32 and segment.flags & WHOLE == SegmentFlag.END)
length_switch("takes-announcement-of-2-64", lambda segment, total, announced: announced == U64_MAX)
length_switch("takes-other-length-of-one",
              lambda segment, total, announced: total != announced and segment.flags & WHOLE == WHOLE)


class ClosesForItems:
    """Closes the connection for items that it has to ignore."""

    def is_unreadable(self, items):
        """Whether it is about these items."""
        raise NotImplementedError

    def has_bad_items(self, items):
        """Ends the session without a SESS_TERM."""
        if self.is_unreadable(items):
            self.over.set()
        return super().has_bad_items(items)


@breaks("does-not-skip-transfer-item", sentences.UNKNOWN_TRANSFER_ITEM)
class DoesNotSkipItem(ClosesForItems):
    """Closes the connection for an unknown item of a transfer without any flag."""

    def is_unreadable(self, items):
        """Whether there is such an item."""
        return items.has_unknown and not items.unknown_flags


@breaks("closes-for-transfer-item-flags", sentences.TRANSFER_ITEM_FLAGS)
class ClosesForItemFlags(ClosesForItems):
    """Closes the connection for a reserved flag of an item."""

    def is_unreadable(self, items):
        """Whether there is such a flag."""
        return bool(octets.reserved(items.unknown_flags, ItemFlag.CRITICAL))


@breaks("takes-critical-transfer-item", sentences.CRITICAL_TRANSFER_ITEM)
class TakesCriticalItem:
    """Ignores an unknown item of a transfer though it is critical."""

    def has_bad_items(self, items):
        """Forgets the item."""
        return super().has_bad_items(items._replace(has_unknown_critical=False))


@breaks("takes-overrun-transfer-list", sentences.TRANSFER_LIST)
class TakesOverrunTransferList:
    """Takes a segment with an item that runs past its list."""

    async def take_xfer_segment(self, segment):
        """Skips the rest of the list, and reads on."""
        if segment.items.is_overrun:
            await self.reader.skip(segment.items.left)
            items = segment.items._replace(is_overrun=False, left=0)
            segment = segment._replace(items=items, length=await self.reader.number("Q"))
        await super().take_xfer_segment(segment)


@breaks("ignores-segments-after-refusal", sentences.REFUSED_AGAIN)
class IgnoresAfterRefusal:
    """Says nothing of further segments of a transfer that it has refused."""

    def refuse_transfer(self, segment, reason):
        """Refuses a transfer once."""
        if segment.identifier not in self.refused:
            super().refuse_transfer(segment, reason)


@breaks("forgets-ack-before-refusal", sentences.REFUSE_ORDER)
class ForgetsAckBeforeRefusal:
    """Does not acknowledge a transfer if it already sees the next one, which it will refuse."""

    def acknowledge(self, segment, transfer):
        """Acknowledges a segment unless a critical item follows."""
        if not is_critical_start(self.reader.ahead):
            super().acknowledge(segment, transfer)


@breaks("ignores-stray-segment", sentences.UNEXPECTED)
class IgnoresStraySegment:
    """Says nothing of a segment without START that belongs to no open transfer."""

    def take_stray(self, segment):
        """Answers a first segment only."""
        if segment.is_start:
            super().take_stray(segment)


@breaks("takes-start-again", sentences.UNEXPECTED)
class TakesStartAgain:
    """Acknowledges the START of an open transfer when it comes again."""

    def take_stray(self, segment):
        """Acknowledges what it has received already."""
        if segment.is_start and self.inbound is not None and self.inbound.identifier == segment.identifier:
            self.acknowledge(segment, self.inbound)
        else:
            super().take_stray(segment)


@breaks("acks-without-flags", sentences.ACK_FLAGS)
class AcksWithoutFlags:
    """Sets no flags in an XFER_ACK."""

    def acknowledge(self, segment, transfer):
        """Leaves the flags out."""
        super().acknowledge(segment._replace(flags=0), transfer)


@breaks("acks-without-reserved-flags", sentences.ACK_FLAGS)
class AcksWithoutReservedFlags:
    """Sets only the flags that it knows in an XFER_ACK."""

    def acknowledge(self, segment, transfer):
        """Leaves the other flags out."""
        super().acknowledge(segment._replace(flags=segment.flags & WHOLE), transfer)


@breaks("acks-length-of-segment", sentences.ACK_LENGTH)
class AcksLengthOfSegment:
    """Acknowledges the length of the segment in place of the sum."""

    def acknowledge(self, segment, transfer):
        """Sends the XFER_ACK of one segment."""
        self.send(octets.ack(segment.flags, segment.identifier, segment.length))


@breaks("refuses-other-id", sentences.REFUSED_ID)
class RefusesOtherId:
    """Refuses a transfer by another ID."""

    def refuse_transfer(self, segment, reason):
        """Sends the next ID."""
        self.send(octets.refuse(reason, (segment.identifier + 1) & U64_MAX))
        self.drop_transfer(segment, reason)
