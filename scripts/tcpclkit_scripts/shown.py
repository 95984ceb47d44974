"""What the acknowledgement numbers and the windows of TCP show of a side."""

from array import array
from bisect import bisect_left, bisect_right

from both_sides.sides import SLACK

# The count of bytes that no captured packet has
UNKNOWN = 1 << 62


class Arrived:
    """How many bytes of the other side had come when a side sent each of its own.

    The bytes from `ends[N - 1]` to `ends[N]` have `counts[N]`. A byte that was sent more than once
    has the least number, that of the first time: numbers only rise.
    """

    def __init__(self):
        self.ends, self.counts = array("q"), array("q")

    def add(self, begin, end, count):
        """Takes a packet with the bytes between two offsets. A probe may begin before the first byte."""
        begin, top = max(begin, 0), self.ends[-1] if self.ends else 0
        if begin > top:
            self.put(begin, UNKNOWN)
        if end > top:
            self.put(end, count)
        if begin < top and begin < end:
            self.lower(begin, min(end, top), count)

    def put(self, end, count):
        """Adds bytes after all others."""
        if self.counts and self.counts[-1] == count:
            self.ends[-1] = end
        else:
            self.ends.append(end)
            self.counts.append(count)

    def lower(self, begin, end, count):
        """Takes a packet with bytes that are known. It changes nothing unless it was captured late."""
        if count >= max(self.counts[self.run(begin) : self.run(end - 1) + 1]):
            return
        for offset in (begin, end):
            self.split(offset)
        for at in range(self.run(begin), self.run(end - 1) + 1):
            self.counts[at] = min(self.counts[at], count)

    def run(self, offset):
        """Returns the number of the run that has the byte at an offset."""
        return bisect_right(self.ends, offset)

    def split(self, offset):
        """Lets a run end at an offset."""
        at = bisect_left(self.ends, offset)
        if offset > 0 and self.ends[at] != offset:
            self.ends.insert(at, offset)
            self.counts.insert(at, self.counts[at])

    def at(self, offset):
        """Returns the number for the byte at an offset, or None."""
        at = self.run(offset)
        return self.counts[at] if at < len(self.counts) and self.counts[at] != UNKNOWN else None


class Shown:
    """What the packets of a side show.

    `arrived` has how many bytes of the other side had come when this one sent each of its own; a
    FIN counts as a byte. `opened` is the offset after its SESS_INIT, once that was read, and `had`
    is when it had acknowledged the SESS_INIT of the other side.

    `window` is the last window that it announced, and `widest` the largest one. Of its last new
    bytes, `end` is where they end, `time` when they were captured, and `count` how many bytes of
    the other side they acknowledged. `is_wide`: their window was at least half of the largest.
    `is_free`: since then it has sent nothing again, and the other side has announced no window of
    0. `is_asked`: the other side has not acknowledged them.

    `idle_at` and `idle_times` have what `idle` returns.
    """

    def __init__(self):
        self.arrived, self.opened, self.had = Arrived(), None, None
        self.window, self.widest = None, 0
        self.end = self.time = self.count = 0
        self.is_wide = self.is_free = self.is_asked = False
        self.idle_at, self.idle_times = array("q"), array("q")

    def take(self, other, packet, begin, end, count):
        """Takes a packet of this side. Its bytes lie between two offsets, and it acknowledges that
        many bytes of the other side."""
        if packet.window != self.window:
            self.announce(other, packet.window)
        if self.had is None and other.opened is not None and count >= other.opened:
            self.had = packet.time
        if end > begin:
            self.arrived.add(begin, end, count)
            self.send(other, packet.time, end, count)
        elif other.is_asked and count >= other.end:
            other.is_asked = False
            self.rest(other, begin)

    def announce(self, other, window):
        """Takes another window than the last one."""
        self.window, self.widest = window, max(self.widest, window)
        other.is_free = other.is_free and window > 0

    def send(self, other, time, end, count):
        """Takes bytes of this side, which may be new."""
        self.is_free = end > self.end and other.window != 0
        if end > self.end:
            self.end, self.time, self.count, self.is_asked = end, time, count, True
            self.is_wide = 0 < self.widest <= 2 * self.window

    def rest(self, other, begin):
        """Takes a packet without bytes that is the first one to acknowledge the last new bytes of the
        other side. It may show that this side has nothing to send from an offset on."""
        is_idle = self.is_free and other.is_wide and other.count == begin
        if not is_idle or other.time <= self.time + SLACK:
            return
        if self.idle_at and self.idle_at[-1] == begin:
            self.idle_times[-1] = other.time
        elif not self.idle_at or self.idle_at[-1] < begin:
            self.idle_at.append(begin)
            self.idle_times.append(other.time)

    def idle(self, offset):
        """Returns the last time when this side had sent nothing from an offset on, although TCP could
        have carried it (docs/SESSIONS.md, "Rules of a capture"), or None. A silence of SLACK or less
        may be left out."""
        at = bisect_left(self.idle_at, offset)
        return self.idle_times[at] if offset in self.idle_at[at : at + 1] else None
