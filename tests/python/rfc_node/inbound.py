"""The receiver of transfers (RFC 9174, sections 5.2.1 to 5.2.5)."""

from . import octets
from .octets import Refusal, Rejection


class Arriving:
    """A transfer that the peer has begun."""

    def __init__(self, identifier, announced):
        """Begins a transfer. `announced` is its total length, or None."""
        self.identifier = identifier
        self.announced = announced
        self.received = 0
        self.data = bytearray()


class Inbound:
    """How segments are received. `inbound` is the open transfer, or None."""

    async def take_xfer_segment(self, segment):
        """Takes a segment: rejects it, refuses its transfer, or receives its data and acknowledges it."""
        if self.is_out_of_place(segment):
            self.take_stray(segment)
            await self.pass_over(segment)
        elif self.is_too_long(segment):
            self.take_too_long(segment)
            await self.pass_over(segment)
        elif self.refusal_of(segment) is not None:
            self.refuse_transfer(segment, self.refusal_of(segment))
            await self.pass_over(segment)
        else:
            await self.receive(segment)

    async def pass_over(self, segment):
        """Passes over what has not been read of a segment."""
        await self.reader.skip(segment.items.left)
        length = segment.length
        await self.reader.skip(await self.reader.number("Q") if length is None else length)

    def is_out_of_place(self, segment):
        """Whether a segment neither begins a transfer nor belongs to the open one or a refused one."""
        if segment.is_start:
            return self.inbound is not None or segment.identifier in self.begun_by_peer
        is_open = self.inbound is not None and self.inbound.identifier == segment.identifier
        return not is_open and segment.identifier not in self.refused

    def take_stray(self, segment):
        """Answers a segment that is out of place."""
        self.unexpected(segment)

    def is_too_long(self, segment):
        """Whether a segment is longer than the own Segment MRU."""
        return segment.length is not None and segment.length > self.settings.segment_mru

    def take_too_long(self, segment):
        """Rejects a segment that breaks the negotiated Segment MRU. Its transfer has then failed."""
        self.reject(Rejection.UNSUPPORTED, segment.kind)
        self.drop_transfer(segment, Refusal.NOT_ACCEPTABLE)

    def refusal_of(self, segment):
        """Returns the reason to refuse the transfer of a segment, or None."""
        if not segment.is_start:
            if segment.identifier in self.refused:
                return self.refused[segment.identifier]
            return self.refusal_of_sum(segment, self.inbound.received, self.inbound.announced)
        if self.term_sent:
            return Refusal.SESSION_TERMINATING
        if self.has_bad_items(segment.items):
            return Refusal.EXTENSION_FAILURE
        return self.refusal_of_sum(segment, 0, self.announced_by(segment))

    def has_bad_items(self, items):
        """Whether the transfer extension items are broken, not known though critical, or not allowed."""
        return (items.is_broken or items.has_unknown_critical or self.has_bad_lengths(items.lengths))

    def has_bad_lengths(self, lengths):
        """Whether there is more than one Transfer Length item, or one that is not 8 bytes long."""
        return len(lengths) > 1 or None in lengths

    def announced_by(self, segment):
        """Returns the total length that a first segment announces, or None."""
        return segment.items.lengths[0] if segment.items.lengths else None

    def refusal_of_sum(self, segment, received, announced):
        """Returns the reason to refuse a transfer for its length, or None."""
        total = received + segment.length
        if announced is not None and self.is_other_total(segment, total, announced):
            return Refusal.NOT_ACCEPTABLE
        if max(total, announced or 0) > self.settings.transfer_mru:
            return self.refusal_above_mru()
        return None

    def is_other_total(self, segment, total, announced):
        """Whether the data cannot be, or is not, as long as announced."""
        return total > announced or segment.is_end and total != announced

    def refusal_above_mru(self):
        """Returns the reason to refuse a transfer above the Transfer MRU."""
        return Refusal.NO_RESOURCES

    def refuse_transfer(self, segment, reason):
        """Refuses the transfer of a segment."""
        self.send(octets.refuse(reason, segment.identifier))
        self.drop_transfer(segment, reason)

    def drop_transfer(self, segment, reason):
        """Forgets the transfer of a segment. Its later segments will be refused too."""
        self.begun_by_peer.add(segment.identifier)
        self.refused[segment.identifier] = reason
        if self.inbound is not None and self.inbound.identifier == segment.identifier:
            self.inbound = None

    async def receive(self, segment):
        """Receives the data of a segment, and then acknowledges it."""
        if segment.is_start:
            self.begun_by_peer.add(segment.identifier)
            self.inbound = Arriving(segment.identifier, self.announced_by(segment))
        transfer = self.inbound
        transfer.data += await self.reader.take(segment.length)
        transfer.received += segment.length
        if segment.is_end:
            self.inbound = None
            self.deliver(bytes(transfer.data))
        self.acknowledge(segment, transfer)

    def acknowledge(self, segment, transfer):
        """Sends the XFER_ACK of a segment: its flags, and the sum of what was received."""
        self.send(octets.ack(segment.flags, segment.identifier, transfer.received))

    def deliver(self, data):
        """Delivers the data of a transfer. TCPCL does not look into it."""
        self.delivered.append(data)
