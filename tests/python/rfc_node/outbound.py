"""The sender of transfers (RFC 9174, sections 5.2.1 to 5.2.5)."""

import asyncio

from . import octets
from .octets import Reason, SegmentFlag, U64_MAX

# How many segments may wait for their XFER_ACK, and how long, and how often, a segment waits for any
WINDOW = 4
PAUSE = 0.25
WAITS = 4
SEGMENT_MAX = 4096
# How long the last XFER_ACK is waited for, and how long the session stays idle before its end
SETTLE = 3.0
LINGER = 0.5


class Outgoing:
    """A transfer of this node, and what the peer has answered."""

    def __init__(self, identifier, data):
        """Begins a transfer."""
        self.identifier = identifier
        self.data = data
        self.sent = 0
        self.segments = 0
        self.answers = 0
        self.waits = 0
        self.has_begun = False
        self.has_sent_end = False
        self.is_refused = False
        self.is_rejected = False
        self.is_acknowledged = False

    @property
    def is_done(self):
        """Whether the peer has answered for the last time."""
        return self.is_acknowledged or self.is_refused or self.is_rejected


class Outbound:
    """How bundles are sent. `outbound` maps the IDs of all transfers of this node."""

    async def send_bundles(self):
        """Sends the bundles of this session. An active node then ends it."""
        await self.established.wait()
        for number in range(self.settings.bundles):
            if self.may_begin():
                await self.send_bundle(self.next_bundle(number))
        if self.is_active:
            await self.settle()
            self.begin_end(Reason.UNKNOWN)

    def may_begin(self):
        """Whether a new transfer may begin: not in the state Ending, nor after a rejected segment."""
        return not self.term_sent and not any(it.is_rejected for it in self.outbound.values())

    async def send_bundle(self, data):
        """Sends one bundle, if it is not longer than the peer's Transfer MRU."""
        if not self.fits(data):
            return
        transfer = Outgoing(self.next_identifier(), data)
        self.outbound[transfer.identifier] = transfer
        while not transfer.has_sent_end and not self.is_stopped(transfer):
            self.send_segment(transfer)
            await self.flush()
            await self.pace(transfer)

    def fits(self, data):
        """Whether a bundle is within the peer's Transfer MRU, and can be cut into segments at all."""
        return len(data) <= self.peer.transfer_mru and self.peer.segment_mru > 0

    def next_identifier(self):
        """Returns the next Transfer ID: 0, 1, .."""
        identifier = len(self.outbound)
        if identifier > U64_MAX:
            self.begin_end(Reason.RESOURCE_EXHAUSTION)
        return identifier

    def is_stopped(self, transfer):
        """Whether no further segment of a transfer may be sent."""
        return transfer.is_refused or transfer.is_rejected

    def send_segment(self, transfer):
        """Sends the next segment of a transfer."""
        size = min(self.segment_mtu(), len(transfer.data) - transfer.sent)
        data = transfer.data[transfer.sent:transfer.sent + size]
        is_first, is_last = not transfer.has_begun, transfer.sent + size == len(transfer.data)
        flags = self.segment_flags(is_first, is_last)
        self.send(octets.segment(flags, transfer.identifier, data, self.items_of(transfer, is_first, is_last)))
        transfer.sent += size
        transfer.segments += 1
        transfer.has_begun, transfer.has_sent_end = True, is_last

    def segment_mtu(self):
        """Returns how long the data of a segment may be."""
        return min(self.peer.segment_mru, SEGMENT_MAX)

    def segment_flags(self, is_first, is_last):
        """Returns the flags of a segment."""
        return (SegmentFlag.START if is_first else 0) | (SegmentFlag.END if is_last else 0)

    def items_of(self, transfer, is_first, is_last):
        """Returns the extension items of a segment: the length of a transfer of several segments."""
        return octets.transfer_length(len(transfer.data)) if is_first and not is_last else b""

    async def pace(self, transfer):
        """Lets answers in, and waits for one if many segments have none, but not for ever."""
        await asyncio.sleep(0)
        is_ahead = transfer.segments - transfer.answers >= WINDOW
        if is_ahead and not transfer.is_done and transfer.waits < WAITS:
            transfer.waits += 1
            await self.answer(PAUSE)

    async def answer(self, seconds):
        """Waits for an answer to a transfer, at most this time."""
        self.answered.clear()
        try:
            await asyncio.wait_for(self.answered.wait(), seconds)
        except asyncio.TimeoutError:
            pass

    async def settle(self):
        """Waits until all transfers are answered and the peer has been silent for a moment."""
        waited = 0.0
        while self.is_sending() and waited < SETTLE:
            await self.answer(PAUSE)
            waited += PAUSE
        while self.silence() < LINGER or self.inbound is not None:
            await asyncio.sleep(LINGER / 4)

    def is_sending(self):
        """Whether a transfer of this node is in progress or waits for its last answer."""
        return any(not it.is_done for it in self.outbound.values())

    def take_xfer_ack(self, message):
        """Takes an XFER_ACK. One of more than was sent, or of an unknown transfer, is rejected."""
        transfer = self.outbound.get(message.identifier)
        if transfer is None or message.length > transfer.sent:
            self.unexpected(message)
            return
        transfer.answers += 1
        if message.flags & SegmentFlag.END and transfer.has_sent_end and message.length == transfer.sent:
            transfer.is_acknowledged = True
        self.answered.set()

    def take_xfer_refuse(self, message):
        """Takes an XFER_REFUSE. The transfer that it names gets no further segment."""
        transfer = self.outbound.get(message.identifier)
        if transfer is None:
            self.unexpected(message)
            return
        transfer.is_refused = True
        self.answered.set()

    def take_rejected_segment(self):
        """Takes a MSG_REJECT of a segment: what is not answered has failed, and the session ends."""
        for transfer in self.outbound.values():
            transfer.is_rejected = transfer.is_rejected or not transfer.is_done
        self.answered.set()
        self.begin_end(Reason.UNKNOWN)
