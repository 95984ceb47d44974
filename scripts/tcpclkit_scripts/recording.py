"""The recordings of one side of a session, which are written and read as its bytes come.

What comes after a gap is in a recording of its own. Its messages can be found only once all of it
has come, up to the next gap or to the end.
"""

import mmap
from array import array
from itertools import chain
from typing import NamedTuple, Optional

from .messages import END, START, U64, Messages, find, goes_on, prelude_of
from .packets import spelled_time
from .pairing import Answer, Assembly
from .reading import Reader

# How many bytes after a gap are held in memory before they are written to a file.
HELD = 1 << 16


class Found(NamedTuple):
    """A recording after a gap: its number, the gap, and the offset of its first message.

    The offsets are those in the stream of the side. The gap is None if the session began before the
    capture.
    """

    part: int
    gap: Optional[tuple]
    begins: int

    def line(self):
        """Returns the words of its line in the file `streams`, after the name of the side."""
        gap = "" if self.gap is None else f" gap={self.gap[0]}+{self.gap[1] - self.gap[0]}"
        return f"{self.part}{gap} begins={self.begins}"


class Rest:
    """What came after a gap, from an offset of the stream on. `times` has offsets and times."""

    def __init__(self, files, name, offset, gap):
        self.files, self.name, self.offset, self.gap = files, name, offset, gap
        self.held, self.size, self.times, self.is_file = bytearray(), 0, array("Q"), False

    def add(self, data, time):
        """Adds bytes that had come at a time."""
        self.held += data
        self.size += len(data)
        self.times.extend((self.size, time))
        if len(self.held) > HELD:
            self.files.append(self.name, self.held)
            self.held, self.is_file = bytearray(), True

    def content(self):
        """Returns all bytes."""
        if not self.is_file:
            return bytes(self.held)
        self.files.append(self.name, self.held)
        self.held = bytearray()
        file = self.files.file(self.name)
        return mmap.mmap(file.fileno(), 0, access=mmap.ACCESS_READ)

    def steps(self, first):
        """Yields begin, end and time of the bytes that came together, from an offset on."""
        begin = first
        for end, time in zip(self.times[::2], self.times[1::2]):
            if end > begin:
                yield begin, end, time
                begin = end

    def end(self):
        """Removes the file."""
        if self.is_file:
            self.files.remove(self.name)


class Recorder:
    """Writes the recordings of a side, and reads their messages.

    `talk` gets what is read (see session.py). `part` is the number of the recording that is read,
    and `shift` is how much less an offset is in it than in the stream. `due` is where in the stream
    the segment ends that a gap cut, if its length is known. `rest` is what came after a gap. `gaps`
    are the offsets of gaps, and `found` has the recordings after them. `missed` counts the bytes
    after gaps in which no message was found.
    """

    def __init__(self, files, path, talk, name, is_late):
        self.files, self.name, self.talk, self.side, self.is_late = files, path, talk, name, is_late
        self.part, self.shift, self.due, self.time, self.rest = 0, 0, 0, None, None
        self.gaps, self.found, self.missed = [], [], 0
        self.data, self.times, self.size = [], [], 0
        self.node, self.term, self.disorder = None, None, None
        self.reader, self.assembly = Reader(self), Assembly()
        self.append(b"", "")
        if is_late:
            self.rest = Rest(files, f"{path}.rest", 0, None)

    def path(self, part=None):
        """Returns the name of a recording, or of the one that is read, without its ending."""
        part = self.part if part is None else part
        return f"{self.name}.{part}" if part else self.name

    # ---- what comes

    def take(self, piece):
        """Takes the next bytes of the side."""
        if piece.gap is not None:
            self.end_part(True)
            self.gaps.append((piece.gap, piece.offset))
            self.rest = Rest(self.files, f"{self.name}.rest", piece.offset, self.gaps[-1])
        if self.rest is not None:
            self.rest.add(piece.data, piece.time)
        else:
            self.put(piece.data, piece.offset + len(piece.data), piece.time)

    def put(self, data, end, time):
        """Puts bytes that had come at a time into the recording that is read."""
        self.data.append(data)
        self.size += len(data)
        if self.times and self.time == time:
            self.times.pop()
        self.times.append(f"{end} {spelled_time(time)}\n")
        self.time = time
        self.reader.feed(data, time)
        if self.size > HELD:
            self.flush()

    def flush(self):
        """Writes what has come."""
        if self.size > 0:
            self.append(b"".join(self.data), "".join(self.times))
            self.data, self.times, self.size = [], [], 0

    def append(self, data, times):
        """Appends to the files of the recording that is read."""
        self.files.append(f"{self.path()}.tcpcl", data)
        self.files.append(f"{self.path()}.times", times.encode())

    # ---- what is read

    def segment(self, offset, flags, ident, length, end, time):
        """Takes an XFER_SEGMENT that is whole."""
        begun, over = self.assembly.take(offset, flags, ident, length, end, time)
        if begun is not None:
            self.talk.begin(self.side, begun)
        for transfer in over:
            self.talk.over(self.side, transfer, self.messages_of(transfer))

    def ack(self, offset, flags, ident, length, time):
        """Takes an XFER_ACK."""
        answer = Answer(ident, offset, flags, length, part=self.part, time=time)
        self.talk.answer(self.side, answer)

    def refuse(self, offset, reason, ident, time):
        """Takes an XFER_REFUSE."""
        named = self.talk.refusals[reason]
        self.talk.answer(self.side, Answer(ident, offset, reason=named, part=self.part, time=time))

    def sess_init(self, end, node):
        """Takes a SESS_INIT, which ends at an offset."""
        if self.node is None:
            self.node = node
            self.talk.opened(self.side, end + self.shift)

    def sess_term(self, _, reason):
        """Takes a SESS_TERM."""
        self.term = reason if self.term is None else self.term

    def messages_of(self, transfer, last=None):
        """Yields the bytes of the messages of a transfer.

        `last` is the segment that is cut: its offset, its head, and how much of its data has come.
        The head gets this length.
        """
        name = f"{self.path()}.tcpcl"
        if last is None:
            return self.files.pieces(name, transfer.offset, transfer.end)
        offset, head, came = last
        data = self.files.pieces(name, offset + len(head), offset + len(head) + came)
        before = self.files.pieces(name, transfer.offset, offset)
        return chain(before, [head[: -U64.size] + U64.pack(came)], data)

    # ---- gaps and ends

    def end_part(self, is_gap):
        """Ends a recording, at a gap or at the end of the capture."""
        rest, self.rest = self.rest, None
        if rest is None or self.resume(rest):
            self.flush()
            self.end_reading(is_gap)

    def resume(self, rest):
        """Makes a recording of what came after a gap, from its first message on.

        Returns whether there is one.
        """
        content = rest.content()
        first = self.first_message(content, rest.offset)
        if first is None:
            self.missed += rest.size
        else:
            self.part = len(self.found) + 1
            self.found.append(Found(self.part, rest.gap, rest.offset + first))
            prelude = prelude_of(content, first)
            before = len(prelude) - first
            self.shift = rest.offset - before
            self.reader, self.assembly = Reader(self, len(prelude)), Assembly(self.part)
            self.append(prelude, "")
            for begin, end, time in rest.steps(first):
                self.put(content[begin:end], end + before, time)
        rest.end()
        return first is not None

    def first_message(self, content, offset):
        """Returns where the first message begins in bytes after a gap, or None.

        If the gap cut a segment whose length is known, the first message begins after it.
        """
        due, messages = self.due - offset, Messages(content)
        if due >= len(content):
            return None
        return due if due > 0 and goes_on(messages, due) else find(messages)

    def end_reading(self, is_gap):
        """Ends the recording that is read. Its last transfer may be cut.

        After a gap, a segment may go on with a transfer that began before it.
        """
        is_cut = is_gap or self.reader.is_cut() or self.talk.is_open(self.side)
        last = self.cut_segment() if self.reader.segment is not None else None
        self.disorder = self.assembly.disorder if self.part == 0 else self.disorder
        for transfer in self.assembly.close("is_cut" if is_cut else "is_abandoned"):
            self.talk.over(self.side, transfer, self.messages_of(transfer, last))

    def cut_segment(self):
        """Takes the part of a segment that has come, if it is of a transfer. Returns it."""
        reader = self.reader
        offset, flags, ident, _, end = reader.segment
        self.due = end + self.shift
        opened = self.assembly.opened
        if not flags & START and (opened is None or opened.ident != ident):
            return None
        came_to = offset + len(reader.rest) + reader.came
        self.segment(offset, flags & ~END, ident, reader.came, came_to, self.time)
        return offset, reader.rest, reader.came
