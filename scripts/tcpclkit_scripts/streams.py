"""TCP connections: the bytes that each side sent, in order and once, and what is missing."""

import heapq
from typing import NamedTuple, Optional

from .shown import Shown

# Flags of TCP (RFC 9293 section 3.1), how many sequence numbers there are, and the largest window
# (RFC 7323 section 2.3).
FIN, SYN, RST, ACK = 0x01, 0x02, 0x04, 0x10
NUMBERS, WINDOW = 1 << 32, 1 << 30

# How much memory the packets of a side and of all sides may take that come before their turn, and
# about how much a packet takes beside its data.
OF_A_SIDE, OF_ALL, OF_A_PACKET = 1 << 24, 1 << 28, 256

# How many bytes show whether a side speaks TCPCL: the length of `dtn!`.
HEAD = 4


class Piece(NamedTuple):
    """Bytes that have come: their offset, and when the capture had all of them.

    If `gap` is not None, the bytes before, from that offset on, are missing.
    """

    data: bytes
    offset: int
    time: Optional[int]
    gap: Optional[int] = None


class Memory:
    """How much memory packets may still take that come before their turn."""

    def __init__(self):
        self.left = OF_ALL


class Side:
    """What one side of a connection sent.

    `end` is its address and port. `first` is the sequence number of its first byte, once it is
    known. `count` is the offset after the bytes that have come, and `head` has the first four.
    `sent` is how many bytes were sent, as far as the capture shows. `fin` and `rst` are the offsets
    of its FIN and of its RST. An RST `aborts` if it has an acknowledgement: one that answers a
    packet of no known connection has none. `shown` has what its packets show of the other side.

    `held` has by offset the data that comes after a gap, and its time. `ahead` is a heap of these
    offsets, and `taken` is the memory for all of it. `pieces` has what has come and is not handed
    on yet.
    """

    def __init__(self, end, memory):
        self.end, self.first, self.count, self.sent, self.head = end, None, 0, 0, b""
        self.has_syn = self.connects = False
        self.fin = self.rst = None
        self.aborts, self.shown = False, Shown()
        self.memory, self.taken, self.held, self.ahead = memory, 0, {}, []
        self.pieces = []

    def offset(self, sequence):
        """Returns the offset of a sequence number: of those it can have, the nearest to `count`."""
        distance = (sequence - self.first - self.count) % NUMBERS
        return self.count + (distance if distance < NUMBERS // 2 else distance - NUMBERS)

    def open(self, packet):
        """Takes a SYN. It counts unless data has come before it."""
        self.has_syn = True
        self.connects = self.connects or not packet.flags & ACK
        if self.count == 0 and not self.held:
            self.first = packet.sequence + 1

    def acknowledge(self, number, is_opening):
        """Takes an acknowledgement by the other side. The last number may be that of a FIN. Returns
        how many bytes it covers, or None if the first number is not known."""
        if self.first is None and is_opening:
            self.first = number
        if self.first is None:
            return None
        count = self.offset(number)
        if self.sent < count - 1 <= self.count + WINDOW:
            self.sent = count - 1
        return count

    def reset(self, packet):
        """Takes an RST. It counts if it can be the next segment, and no data follows."""
        if self.first is not None and self.count <= self.offset(packet.sequence) <= self.sent + 1:
            self.rst = self.offset(packet.sequence)
            self.aborts = bool(packet.flags & ACK)

    def show(self, other, packet, count):
        """Takes what a packet shows that acknowledges that many bytes of the other side."""
        if self.first is not None and not packet.flags & SYN:
            begin = self.offset(packet.sequence)
            end = begin + packet.length + (packet.flags & FIN)
            self.shown.take(other.shown, packet, begin, end, count)

    def take(self, packet):
        """Takes the data of a packet. Returns whether there are new pieces by it."""
        sequence = packet.sequence + (1 if packet.flags & SYN else 0)
        if self.first is None:
            self.first = sequence
        offset = self.offset(sequence)
        self.sent = max(self.sent, offset + packet.length)
        if packet.flags & FIN:
            self.fin = offset + packet.length
        if not packet.data or offset + len(packet.data) <= self.count:
            return False
        self.rst = None
        if offset > self.count:
            return self.hold(offset, packet.data, packet.time)
        self.put(packet.data[self.count - offset :], packet.time)
        self.follow(packet.time)
        return True

    def put(self, data, time, gap=None):
        """Adds data that follows the bytes so far."""
        if self.count < HEAD and len(self.head) == self.count:
            self.head += data[: HEAD - self.count]
        self.pieces.append(Piece(data, self.count, time, gap))
        self.count += len(data)

    def follow(self, time, gap=None):
        """Adds the held data that follows the bytes so far, by this time or later."""
        while self.ahead and self.ahead[0] <= self.count:
            offset = heapq.heappop(self.ahead)
            data, captured = self.held.pop(offset)
            self.spend(-len(data) - OF_A_PACKET)
            time = max(time, captured)
            if offset + len(data) > self.count:
                self.put(data[self.count - offset :], time, gap)
                gap = None

    def hold(self, offset, data, time):
        """Holds data that comes after a gap. Returns whether this takes too much memory.

        The bytes in the gap then count as lost.
        """
        known = self.held.get(offset)
        if known is None:
            heapq.heappush(self.ahead, offset)
            self.spend(len(data) + OF_A_PACKET)
        elif len(known[0]) < len(data):
            self.spend(len(data) - len(known[0]))
        if known is None or len(known[0]) < len(data):
            self.held[offset] = data, time
        is_too_much = False
        while self.ahead and (self.taken > OF_A_SIDE or self.memory.left < 0):
            self.skip()
            is_too_much = True
        return is_too_much

    def spend(self, size):
        """Counts memory that is taken, or given back."""
        self.taken += size
        self.memory.left -= size

    def skip(self):
        """Takes the bytes before the held data for lost, and goes on with that."""
        gap, self.count = self.count, self.ahead[0]
        self.follow(0, gap)

    def finish(self):
        """Goes on with all held data: the capture has no more packets."""
        while self.ahead:
            self.skip()

    def release(self):
        """Gives back the memory of all that is held."""
        self.spend(-self.taken)
        self.held, self.ahead, self.pieces = {}, [], []

    def has_gap(self):
        """Returns whether there is a gap before the pieces that are not handed on."""
        return any(piece.gap is not None for piece in self.pieces)

    def lacks_end(self):
        """Returns whether bytes were sent after all that have come."""
        return self.sent > self.count


class Connection:
    """A TCP connection. `a` and `b` are its sides, once it is known to be one of TCPCL.

    `begun` and `over` are the times of its first and of its last packet.
    """

    def __init__(self, packet, memory):
        self.sides = [Side(end, memory) for end in (packet.source, packet.target)]
        self.a = self.b = None
        self.begun = self.over = packet.time

    def ports(self):
        """Returns the port of each side."""
        return {side.end[1] for side in self.sides}

    def side(self, end):
        """Returns the side of an end. The addresses count only if both ports are the same."""
        first, second = self.sides
        if first.end[1] == second.end[1]:
            return first if end == first.end else second
        return first if end[1] == first.end[1] else second

    def take(self, packet):
        """Takes a packet. Returns whether there are new pieces of its sender by it."""
        sender, receiver = self.side(packet.source), self.side(packet.target)
        self.begun, self.over = min(self.begun, packet.time), max(self.over, packet.time)
        if packet.flags & RST:
            sender.reset(packet)
            return False
        if packet.flags & SYN:
            sender.open(packet)
        if packet.flags & ACK:
            count = receiver.acknowledge(packet.acknowledged, sender.has_syn)
            if count is not None:
                sender.show(receiver, packet, count)
        return sender.take(packet) if packet.length > 0 or packet.flags & FIN else False

    def began_before(self):
        """Returns whether the connection began before the capture."""
        return not any(side.has_syn for side in self.sides)

    def name(self, first, ports):
        """Decides which side is a. The bytes of `first` came first."""
        other = self.other(first)
        if self.began_before():
            is_b = first.end[1] in ports and other.end[1] not in ports
        else:
            is_b = not first.connects and (other.connects or first.has_syn)
        self.a, self.b = (other, first) if is_b else (first, other)

    def other(self, side):
        """Returns the other side."""
        return self.sides[1] if side is self.sides[0] else self.sides[0]

    def ending(self, side):
        """Returns how a side ended: by its FIN or RST, by the RST of the other, or not.

        A FIN before the end of the data is not its own.
        """
        if side.fin is not None and side.fin >= side.count:
            return "fin"
        if side.rst is not None:
            return "rst"
        return "open" if self.other(side).rst is None else "peer-rst"
