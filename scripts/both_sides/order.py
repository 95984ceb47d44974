"""In which order the messages of both sides are taken.

The order of each recording is kept. An answer is taken after what it answers, so everything that a
side has seen was taken before. Other messages are taken from the side with fewer segments that have
no answer, so what is kept does not grow with the recordings.

An answer whose message does not come is taken after all: if the other side has no more messages, or
waits for this side too, or has AHEAD segments without an answer.
"""

from .facts import ACK, REFUSE, REJECT, REPLY, TERM
from .sides import can_take

AHEAD = 4096


def is_answer(message):
    """Returns whether a message answers one of the other side."""
    return message.kind in (ACK, REFUSE, REJECT) or message.kind == TERM and message.flags & REPLY


def waits(side):
    """Returns whether the next message of a side answers one that is not taken so far."""
    message, other = side.next, side.other
    if not is_answer(message) or other.next is None or other.unanswered >= AHEAD:
        return False
    if message.kind in (ACK, REFUSE):
        return message.ident not in side.waiting and not can_take(other, message)
    if message.kind == REJECT:
        return message.header not in other.types
    return not other.terms


def turn(a, b):
    """Returns the side whose message is taken next, or None."""
    sides = [side for side in (a, b) if side.next is not None]
    ready = [side for side in sides if not waits(side)]
    if not ready:
        return max(sides, key=lambda side: side.waited, default=None)
    for side in ready:
        if is_answer(side.next):
            return side
    return min(ready, key=lambda side: side.unanswered)
