"""Switches of the sender of transfers: the cases of the group `from`."""

from .. import octets
from ..octets import Rejection, SegmentFlag
from . import sentences
from .registry import breaks


@breaks("never-ends-transfer", sentences.END)
class NeverEndsTransfer:
    """Does not set END in the last segment of a transfer."""

    def segment_flags(self, is_first, is_last):
        """Returns the flags of a segment that is never the last one."""
        return super().segment_flags(is_first, False)


def segment_mru_switch(name, limit):
    """Registers a switch whose segments are longer by one than this Segment MRU."""
    class IgnoresSegmentMru:
        """Sends segments above one limit."""

        def segment_mtu(self):
            """Returns how long the data of a segment may be."""
            return limit + 1 if self.peer.segment_mru == limit else super().segment_mtu()
    breaks(name, sentences.SEGMENT_MRU)(IgnoresSegmentMru)


def transfer_mru_switch(name, limit):
    """Registers a switch that sends bundles above this Transfer MRU."""
    class IgnoresTransferMru:
        """Sends transfers above one limit."""

        def fits(self, data):
            """Whether a bundle may be sent."""
            return self.peer.transfer_mru == limit or super().fits(data)
    breaks(name, sentences.TRANSFER_MRU)(IgnoresTransferMru)


for number in (1, 100):
    segment_mru_switch(f"segments-above-mru-{number}", number)
    transfer_mru_switch(f"transfers-above-mru-{number}", number)


def refusal_switch(name, rule, is_ignored):
    """Registers a switch that goes on with a transfer after such a refusal."""
    class GoesOn:
        """Ignores some refusals."""

        def take_xfer_refuse(self, message):
            """Takes a refusal, or only notes that an answer came."""
            transfer = self.outbound.get(message.identifier)
            if transfer is not None and is_ignored(message, transfer):
                self.answered.set()
            else:
                super().take_xfer_refuse(message)
    breaks(name, rule)(GoesOn)


for code in (*range(7), 0x07, 0xFF):
    refusal_switch(f"goes-on-after-refusal-{code:02x}",
                   sentences.REFUSED_STOPS if code < 7 else sentences.REFUSAL_REASON,
                   lambda message, transfer, code=code: message.reason == code and not transfer.answers)
refusal_switch("goes-on-after-refusal-in-the-middle", sentences.REFUSED_STOPS,
               lambda message, transfer: transfer.answers > 0 and not transfer.has_sent_end)


@breaks("closes-for-ack-flags", sentences.ACK_FLAGS_IGNORED)
class ClosesForAckFlags:
    """Closes the connection for a reserved flag of an XFER_ACK."""

    def take_xfer_ack(self, message):
        """Ends the session without a SESS_TERM."""
        if octets.reserved(message.flags, SegmentFlag.START | SegmentFlag.END):
            self.over.set()
        else:
            super().take_xfer_ack(message)


@breaks("unknown-ack-unsupported", sentences.UNEXPECTED)
class UnknownAckUnsupported:
    """Rejects an XFER_ACK of an ID that it has not used with another reason, once it has used one."""

    def take_xfer_ack(self, message):
        """Gives the reason "Message Unsupported"."""
        if self.outbound and message.identifier not in self.outbound:
            self.reject(Rejection.UNSUPPORTED, message.kind)
        else:
            super().take_xfer_ack(message)


@breaks("closes-on-term-while-sending", sentences.REPLY)
class ClosesOnTermWhileSending:
    """Closes the connection without an answer if a SESS_TERM comes in the middle of its transfer."""

    def take_sess_term(self, message):
        """Ends the session without a SESS_TERM."""
        if self.is_inside_transfer() and not self.term_sent:
            self.over.set()
        else:
            super().take_sess_term(message)

    def is_inside_transfer(self):
        """Whether a transfer lacks segments that the peer has not refused."""
        return any(not it.has_sent_end and not self.is_stopped(it) for it in self.outbound.values())
