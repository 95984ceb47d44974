"""The rules that need a capture of the connection (RFC 9174 sections 4.1 and 6.1)."""

from typing import NamedTuple, Optional

from .sides import MUST, SHOULD

# The length of a contact header (RFC 9174 section 4.2)
CONTACT_LENGTH = 6


class Captured(NamedTuple):
    """What a capture shows of a side.

    shown     what its packets show by the numbers and windows of TCP (tcpclkit_scripts/shown.py)
    seen      how many bytes of the other side had come when this one sent its contact header. It is
              None unless this side accepted the connection
    taken     how many bytes of the other side had come when this one sent its FIN, or None
    is_reset  whether this side ended the connection by an RST
    """

    shown: object
    seen: Optional[int] = None
    taken: Optional[int] = None
    is_reset: bool = False


def judge(side):
    """Judges how a side began and ended the connection."""
    known = side.captured
    if known is None:
        return
    if known.seen is not None and known.seen < CONTACT_LENGTH:
        side.claim(0, MUST, "contact-order", f"seen={known.seen}")
    if known.is_reset:
        side.claim(side.listing.end, SHOULD, "reset")


def had_come(side, message):
    """Returns how many bytes of the other side had come when a side sent the last byte of a message, or
    None if no capture shows it."""
    shown = side.captured and side.captured.shown
    return None if shown is None else shown.arrived.at(message.end - 1)


def is_before(side, message, offset):
    """Returns whether a capture shows that a side sent a message before the byte of the other side at
    an offset had come."""
    seen = had_come(side, message)
    return seen is not None and seen <= offset


def is_left(side, transfer, segment):
    """Returns whether a side closed the connection after a SESS_TERM, and had not answered a segment
    that had come. A transfer that began late had to be refused."""
    if side.captured is None or side.captured.taken is None or transfer.is_late:
        return False
    return side.is_whole() and bool(side.terms) and segment.end <= side.captured.taken
