"""Switches of SESS_INIT: the cases of the group `session`."""

from ..octets import ItemFlag, Kind, Reason, Rejection, U64_MAX, reserved
from . import sentences
from .registry import breaks


def parameter_switch(name, rule, is_wrong, reason=Reason.BUSY):
    """Registers a switch that terminates a session of such parameters, with a reason that is not due."""
    class Terminates:
        """Is wrong about some parameters."""

        def negotiate(self, init):
            """Terminates the session, and closes the connection at once: what crosses gets no answer."""
            if is_wrong(init):
                self.begin_end(reason)
                self.over.set()
            else:
                super().negotiate(init)
    breaks(name, rule)(Terminates)


for number in (0, 1, 65535):
    parameter_switch(f"busy-at-keepalive-{number}", sentences.KEEPALIVE_UNACCEPTABLE,
                     lambda init, number=number: init.keepalive == number)
for number, called in ((0, "0"), (1, "1"), (U64_MAX, "max")):
    parameter_switch(f"busy-at-segment-mru-{called}", sentences.MRU_UNACCEPTABLE,
                     lambda init, number=number: init.segment_mru == number)
    parameter_switch(f"busy-at-transfer-mru-{called}", sentences.MRU_UNACCEPTABLE,
                     lambda init, number=number: init.transfer_mru == number)


@breaks("closes-without-node-id", sentences.NO_NODE_ID)
class ClosesWithoutNodeId:
    """Closes the connection if the peer names no node."""

    def negotiate(self, init):
        """Ends the session without a SESS_TERM."""
        if init.node:
            super().negotiate(init)
        else:
            self.over.set()


parameter_switch("terminates-for-unknown-item", sentences.UNKNOWN_SESSION_ITEM,
                 lambda init: init.items.has_unknown and not init.items.unknown_flags, Reason.CONTACT_FAILURE)
parameter_switch("terminates-for-item-flags", sentences.SESSION_ITEM_FLAGS,
                 lambda init: reserved(init.items.unknown_flags, ItemFlag.CRITICAL), Reason.CONTACT_FAILURE)


@breaks("ignores-critical-item", sentences.CRITICAL_SESSION_ITEM)
class IgnoresCriticalItem:
    """Ignores an unknown item though it is critical."""

    def is_acceptable(self, init):
        """Forgets the item."""
        return super().is_acceptable(init._replace(items=init.items._replace(has_unknown_critical=False)))


@breaks("takes-overrun-list", sentences.SESSION_LIST)
class TakesOverrunList:
    """Takes a SESS_INIT with an item that runs past its list."""

    async def take_broken_init(self, message):
        """Skips the rest of the list."""
        if not message.items.is_overrun:
            await super().take_broken_init(message)
            return
        await self.reader.skip(message.items.left)
        await self.take_sess_init(message._replace(items=message.items._replace(is_overrun=False, left=0)))


@breaks("takes-underrun-list", sentences.SESSION_LIST)
class TakesUnderrunList:
    """Takes a SESS_INIT with a list that goes on after its last item."""

    async def take_broken_init(self, message):
        """Skips the rest of the list."""
        if not message.items.is_underrun:
            await super().take_broken_init(message)
            return
        await self.reader.skip(message.items.left)
        await self.take_sess_init(message._replace(items=message.items._replace(is_underrun=False, left=0)))


@breaks("needs-whole-init", sentences.MRU_UNACCEPTABLE)
class NeedsWholeInit:
    """Closes the connection if the SESS_INIT comes in small pieces."""

    async def take_sess_init(self, message):
        """Ends the session without a SESS_TERM."""
        if self.reader.is_in_bits():
            self.over.set()
        else:
            await super().take_sess_init(message)


@breaks("second-init-unsupported", sentences.UNEXPECTED)
class SecondInitUnsupported:
    """Rejects a second SESS_INIT with another reason."""

    async def take_second_init(self, message):
        """Gives the reason "Message Unsupported"."""
        self.reject(Rejection.UNSUPPORTED, message.kind)
        await self.reader.skip(message.items.left)


@breaks("takes-early-segment", sentences.ESTABLISHED_FIRST)
class TakesEarlySegment:
    """Receives a transfer before the SESS_INIT."""

    def is_early(self, message):
        """Takes a segment for one in time."""
        return message.kind != Kind.XFER_SEGMENT and super().is_early(message)


def early_switch(name, kind):
    """Registers a switch that ignores a message of this type before the SESS_INIT."""
    class IgnoresEarly:
        """Ignores a message that it has to reject."""

        async def take_early(self, message):
            """Says nothing."""
            if message.kind != kind:
                await super().take_early(message)
    breaks(name, sentences.UNEXPECTED)(IgnoresEarly)


early_switch("ignores-early-ack", Kind.XFER_ACK)
early_switch("ignores-early-refusal", Kind.XFER_REFUSE)


@breaks("closes-on-early-term", sentences.REPLY)
class ClosesOnEarlyTerm:
    """Closes the connection without an answer if a SESS_TERM comes before the SESS_INIT."""

    def take_sess_term(self, message):
        """Ends the session without a SESS_TERM."""
        if self.peer is None and not self.term_sent:
            self.over.set()
        else:
            super().take_sess_term(message)
