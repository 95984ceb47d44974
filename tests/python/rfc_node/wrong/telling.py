"""Switches of what a node sends by itself, which the rules of `check` and `check-session` name."""

from .. import octets
from ..octets import SegmentFlag
from . import sentences
from .registry import breaks


@breaks("starts-every-segment", sentences.START)
class StartsEverySegment:
    """Sets START in every segment of a transfer."""

    def segment_flags(self, is_first, is_last):
        """Returns the flags of a first segment."""
        return super().segment_flags(True, is_last)


@breaks("sets-segment-flags", sentences.SEGMENT_FLAGS_SENT)
class SetsSegmentFlags:
    """Sets a reserved flag of its segments."""

    def segment_flags(self, is_first, is_last):
        """Returns the flags and the flag 80."""
        return super().segment_flags(is_first, is_last) | 0x80


@breaks("repeats-transfer-id", sentences.UNIQUE_IDS)
class RepeatsTransferId:
    """Uses one ID for all its transfers."""

    def next_identifier(self):
        """Returns 0."""
        return 0


@breaks("begins-with-id-1", sentences.FIRST_ID)
class BeginsWithOne:
    """Counts its transfers from 1."""

    def next_identifier(self):
        """Returns the next ID."""
        return super().next_identifier() + 1


@breaks("interleaves-transfers", sentences.CONSECUTIVE)
class InterleavesTransfers:
    """Sends an empty segment of another transfer between two segments."""

    def send_segment(self, transfer):
        """Sends the next segment, and one of no transfer after the first."""
        is_first = not transfer.has_begun
        super().send_segment(transfer)
        if is_first and not transfer.has_sent_end:
            self.send(octets.segment(SegmentFlag.START | SegmentFlag.END, transfer.identifier + 1000, b""))


@breaks("announces-other-length", sentences.TOTAL_LENGTH)
class AnnouncesOtherLength:
    """Announces a length that is too large by one."""

    def items_of(self, transfer, is_first, is_last):
        """Returns the items of a segment."""
        return octets.transfer_length(len(transfer.data) + 1) if is_first else b""


@breaks("announces-twice", sentences.ONE_LENGTH)
class AnnouncesTwice:
    """Announces the length of a transfer twice."""

    def items_of(self, transfer, is_first, is_last):
        """Returns the items of a segment."""
        return 2 * super().items_of(transfer, is_first, is_last)


@breaks("announces-length-of-one", sentences.LENGTH_OF_ONE)
class AnnouncesLengthOfOne:
    """Announces the length of a transfer of one segment too."""

    def items_of(self, transfer, is_first, is_last):
        """Returns the items of a segment."""
        return octets.transfer_length(len(transfer.data)) if is_first else b""


@breaks("announces-by-other-type", sentences.LENGTH_TYPE)
class AnnouncesByOtherType:
    """Announces the length in an item of a type that nobody has assigned."""

    def items_of(self, transfer, is_first, is_last):
        """Returns the items of a segment."""
        return super().items_of(transfer, is_first, is_last).replace(b"\0\0\1\0\x08", b"\0\0\2\0\x08", 1)


@breaks("sets-item-flags", sentences.TRANSFER_ITEM_FLAGS_SENT)
class SetsItemFlags:
    """Sets a reserved flag of an item."""

    def items_of(self, transfer, is_first, is_last):
        """Returns the items of a segment."""
        return super().items_of(transfer, is_first, is_last).replace(b"\0\0\1\0\x08", b"\x80\0\1\0\x08", 1)


@breaks("waits-for-each-ack", sentences.PIPELINING)
class WaitsForEachAck:
    """Sends a segment only after the XFER_ACK of the one before."""

    async def pace(self, transfer):
        """Waits until everything sent has an answer."""
        while transfer.answers < transfer.segments and not self.is_stopped(transfer):
            await self.answer(1)


@breaks("retries-refused-bundle", sentences.NO_RETRY)
class RetriesRefusedBundle:
    """Sends a bundle again in the same session that was refused as not acceptable."""

    async def send_bundle(self, data):
        """Sends a bundle, and once more."""
        before = len(self.outbound)
        await super().send_bundle(data)
        await self.answer(1)
        if any(it.is_refused for it in list(self.outbound.values())[before:]) and self.may_begin():
            await super().send_bundle(data)


@breaks("interval-of-29", sentences.INTERVAL_LONG_ENOUGH)
class ShortInterval:
    """Offers a Keepalive Interval that is too short for a shared network."""

    def send_init(self):
        """Sends the SESS_INIT with 29 s."""
        self.settings = self.settings._replace(keepalive=29)
        super().send_init()


@breaks("interval-of-601", sentences.INTERVAL_SHORT_ENOUGH)
class LongInterval:
    """Offers a Keepalive Interval that is too long."""

    def send_init(self):
        """Sends the SESS_INIT with 601 s."""
        self.settings = self.settings._replace(keepalive=601)
        super().send_init()
