"""Switches of MSG_REJECT: the cases of the group `answers`."""

from ..octets import Rejection
from . import sentences
from .registry import breaks


@breaks("ack-of-nothing-unsupported", sentences.UNEXPECTED)
class AckOfNothingUnsupported:
    """Rejects an XFER_ACK with another reason if it has begun no transfer at all."""

    def take_xfer_ack(self, message):
        """Gives the reason "Message Unsupported"."""
        if self.outbound:
            super().take_xfer_ack(message)
        else:
            self.reject(Rejection.UNSUPPORTED, message.kind)


@breaks("refusal-of-nothing-unsupported", sentences.UNEXPECTED)
class RefusalOfNothingUnsupported:
    """Rejects an XFER_REFUSE of an ID that it has not used with another reason."""

    def take_xfer_refuse(self, message):
        """Gives the reason "Message Unsupported"."""
        if message.identifier in self.outbound:
            super().take_xfer_refuse(message)
        else:
            self.reject(Rejection.UNSUPPORTED, message.kind)


def reject_as_unexpected(session, message):
    """Rejects with another reason, and closes the connection."""
    session.reject(Rejection.UNEXPECTED, message.kind)
    session.over.set()


def reject_and_stay(session, message):
    """Rejects, and goes on behind the byte."""
    session.reject(Rejection.TYPE_UNKNOWN, message.kind)


def close_only(session, message):
    """Closes the connection without a MSG_REJECT."""
    session.over.set()


def ignore(session, message):
    """Goes on after the byte as if it were a message."""


def type_switch(name, code, wrong):
    """Registers a switch that does `wrong` if a message of this type comes."""
    class WrongAnswer:
        """Is wrong about one type."""

        def take_unknown(self, message):
            """Answers a message of an unknown type."""
            if message.kind == code:
                wrong(self, message)
            else:
                super().take_unknown(message)
    breaks(name, sentences.UNKNOWN_TYPE)(WrongAnswer)


for number in range(0x08, 0x10):
    called, does = (("unexpected", reject_as_unexpected), ("open", reject_and_stay), ("closed", close_only),
                    ("ignored", ignore))[number % 4]
    type_switch(f"type-{number:02x}-{called}", number, does)
