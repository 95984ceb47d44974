"""The rules that need to know when bytes were captured (RFC 9174 sections 5.1.1 and 5.2.3)."""

from itertools import islice

from .captured import had_come, is_before
from .facts import TERM, Listing, Times
from .sides import KEPT, MUST, SHOULD, SLACK, Came

# How much before the last byte of its segment an answer may be captured, in nanoseconds: packets of
# the two directions may be captured in the wrong order.
EXCHANGED = 10**7


class Clock:
    """When the messages of a recording were captured, and how long its side was silent.

    `interval` is the negotiated one in nanoseconds, or 0 where there is none. `begun` is when both
    SESS_INIT had come.
    """

    def __init__(self, path):
        self.path, self.times = path, Times(path)
        self.interval, self.begun, self.last, self.silences = 0, None, None, []

    def came(self, message):
        """Returns when a message was captured, or None. Messages have to be asked for in order."""
        first, last = self.times.at(message.offset + 1), self.times.at(message.end)
        return None if first is None or last is None else Came(first, last)


def start(sides):
    """Sets the interval of both sides, and when it began to count."""
    inits = [side.listing.init for side in sides]
    if None in inits or 0 in (init.numbers[0] for init in inits):
        return
    begun = [came_at(side.clock.path, side.listing.init.end) for side in sides]
    if None in begun:
        return
    for side in sides:
        side.clock.interval = min(init.numbers[0] for init in inits) * 10**9
        side.clock.begun = max(begun)


def came_at(path, offset):
    """Returns when the bytes before an offset had come, or None."""
    times = Times(path)
    time = times.at(offset)
    times.close()
    return time


def spelled(time):
    """Returns a time in seconds, with six decimal places."""
    return f"{time // 10**9}.{time % 10**9 // 1000:06}"


def heard(side, message, came):
    """Judges how long a side was silent before a message."""
    clock = side.clock
    if clock.interval and came:
        if clock.last is not None and came.last > clock.begun:
            silent(side, message, max(clock.last, clock.begun), came.first)
        clock.last = came.last


def silent(side, message, since, until):
    """Judges a silence that lasted from one time to another.

    By times it is no must: a message may wait in TCP, for a window that opens or to be sent again.
    """
    interval = side.clock.interval
    if until - since > interval + SLACK:
        level = MUST if is_idle(side, message.offset, since) else SHOULD
        words = f"seconds={spelled(until - since)} interval={interval // 10**9}"
        side.claim(message.offset, level, "keepalive-late", words)
    if until - since > 2 * interval + SLACK and len(side.clock.silences) < KEPT:
        side.clock.silences.append((since, until))


def is_idle(side, offset, since):
    """Returns whether a capture shows that a side had nothing to send when a KEEPALIVE was late: it
    had sent no byte from the offset on since a time, although TCP could have carried it."""
    shown = side.captured and side.captured.shown
    idle_at = shown and shown.idle(offset)
    if idle_at is None or shown.had is None:
        return False
    return idle_at > max(since, shown.had) + side.clock.interval + SLACK


def early(side, transfer, message, segment, came):
    """Judges that an XFER_ACK comes after all of its segment has come: by what a capture shows, or
    by times. By times it is no must: the capture may lack the packet by which the segment came."""
    if side.captured is not None:
        if is_before(side, message, segment.end - 1):
            early_by_capture(side, transfer, message, segment)
    elif came and segment.came and came.first + EXCHANGED < segment.came:
        before = spelled(segment.came - came.first)
        words = f"id={transfer.ident} peer-at={segment.offset} early={before}"
        side.claim(message.offset, SHOULD, "ack-early", words, about=transfer)


def early_sum(side, transfer, message):
    """Judges that an XFER_ACK that is not the one that is due counts no segment that had not begun to
    arrive. It counts a segment if its length is above the sum before that one."""
    if side.captured is None or transfer.again is not None or message.length > transfer.total:
        return
    last = islice(reversed(transfer.pending), KEPT)
    segment = next((it for it in last if it.total - it.length < message.length), None)
    if segment is not None and is_before(side, message, segment.offset):
        early_by_capture(side, transfer, message, segment)


def early_by_capture(side, transfer, message, segment):
    """Keeps the line of an XFER_ACK that a capture shows to be early."""
    words = f"id={transfer.ident} seen={had_come(side, message)} peer-at={segment.offset}"
    side.claim(message.offset, MUST, "ack-early", words, about=transfer)


def idle(side, tcpclkit):
    """Judges what a side sent while the other one was silent for more than twice the interval."""
    silences = list(side.other.clock.silences)
    if silences:
        listing, clock = Listing(tcpclkit, side.path), Clock(side.clock.path)
        went_on(side, listing.messages, clock, silences)
        listing.stop()
        clock.times.close()


def went_on(side, messages, clock, silences):
    """Judges the first message in each silence that comes when it has lasted too long."""
    interval = side.clock.interval
    for message in messages:
        came = clock.came(message)
        while came and silences and came.first >= silences[0][1]:
            silences.pop(0)
        if message.kind == TERM or not silences or not came:
            return
        lasted = came.first - silences[0][0]
        if lasted > 2 * interval + SLACK:
            words = f"seconds={spelled(lasted)} interval={interval // 10**9}"
            side.claim(message.offset, SHOULD, "idle", words)
            silences.pop(0)
