"""Which XFER_ACK of a transfer can answer which of its segments (RFC 9174 section 5.2.3).

An XFER_ACK can answer a segment if its flags are those of the segment, and its length is the sum of
the segments up to this one, or up to a later one: "received so far" may include segments that came
before the answer was sent. No sentence orders the XFER_ACK, so each one may answer any segment that
it fits, but no two of them the same segment.

A MSG_REJECT of an XFER_SEGMENT answers a segment too (section 5.1.2), and does not say which one. So
each choice of segments that have no XFER_ACK may be the rejected ones, but no more than there are
MSG_REJECT. A sum may count a rejected segment or leave it out.
"""

from collections import deque
from itertools import chain, combinations
from typing import NamedTuple

# How many segments are looked at in all choices. With more, answers are not judged.
TRIED = 1 << 20


class Pairing(NamedTuple):
    """How XFER_ACK answer segments: for each XFER_ACK the number of its segment, or None.

    `is_possible` is whether each has a segment of its own, or may have one. `tried` is how many
    segments were looked at in choices of rejected ones.
    """

    numbers: list
    is_possible: bool
    tried: int = 0

    def first_early(self):
        """Returns which XFER_ACK is the first that comes before one of an earlier segment, or None."""
        found, least = None, None
        for at in reversed(range(0 if None in self.numbers else len(self.numbers))):
            if least is not None and self.numbers[at] > least:
                found = at
            least = self.numbers[at] if least is None else min(least, self.numbers[at])
        return found


def counted(segments, rejected=()):
    """Returns, for each sum of the first segments, the number of the last segment that it may count."""
    found, left_out = {}, 0
    for number, it in enumerate(segments):
        left_out += it.length if number in rejected else 0
        found[it.total] = found[it.total - left_out] = number
    return found


def paired(segments, acks, rejected=()):
    """Returns which segment each XFER_ACK answers, for as many as can be.

    If none was rejected, one that has the sum of a segment takes that. Of the others, those that count
    fewer segments fit fewer of them. So they choose first, and each one takes the first segment with
    its flags.
    """
    free, left = {}, [number for number in range(len(segments)) if number not in rejected]
    found = [None] * len(acks) if rejected else due(segments, acks)
    for number in sorted(set(left).difference(found)):
        free.setdefault(segments[number].flags, deque()).append(number)
    sums = counted(segments, rejected)
    ends = [sums.get(it.length, -1) for it in acks]
    for at in sorted((at for at in range(len(acks)) if found[at] is None), key=ends.__getitem__):
        numbers = free.get(acks[at].flags)
        if numbers and numbers[0] <= ends[at]:
            found[at] = numbers.popleft()
    return found


def due(segments, acks):
    """Returns for each XFER_ACK the segment whose flags and sum it has, or None."""
    waiting = {}
    for number, it in enumerate(segments):
        waiting.setdefault((it.flags, it.total), deque()).append(number)
    numbers = [waiting.get((it.flags, it.length)) for it in acks]
    return [each.popleft() if each else None for each in numbers]


def pairing(segments, acks, rejects, most):
    """Returns how the XFER_ACK answer the segments, with the first choice of rejected ones that lets
    each have its own; or without rejected ones, if there is no such choice. `most` is how many
    segments may be looked at in all choices.

    If all segments have XFER_ACK, none of them was rejected.
    """
    plain, tried = paired(segments, acks), 0
    if None not in plain:
        return Pairing(plain, True)
    numbers, count = range(len(segments)), min(rejects, len(segments) - len(acks))
    for choice in chain.from_iterable(combinations(numbers, size) for size in range(1, count + 1)):
        if tried + len(segments) > most:
            return Pairing(plain, True, tried)
        tried += len(segments)
        found = paired(segments, acks, choice)
        if None not in found:
            return Pairing(found, True, tried)
    return Pairing(plain, False, tried)
