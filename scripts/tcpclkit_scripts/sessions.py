"""The TCPCL sessions of a capture."""

from .packets import packet_of
from .running import FAULT
from .messages import MAGIC
from .session import Talk
from .streams import HEAD, Connection, Memory


class Sessions:
    """The TCP connections of a capture by their numbers.

    `talks` has those of TCPCL, and `waiting` those that may be. `others` has the numbers of all
    others, and `late` counts those of them that began before the capture. `fresh` has the sessions
    whose recordings have something that is not written.
    """

    def __init__(self, ports, shared):
        self.ports, self.shared, self.memory = ports, shared, Memory()
        self.talks, self.waiting, self.others, self.late, self.fresh = {}, {}, set(), 0, set()

    def take(self, row):
        """Takes the fields of a packet."""
        number = int(row[0])
        if number in self.others:
            return
        packet, talk = packet_of(row), self.talks.get(number)
        connection = talk.connection if talk is not None else self.waiting.get(number)
        if connection is None:
            connection = self.waiting[number] = Connection(packet, self.memory)
        if not connection.take(packet):
            return
        side = connection.side(packet.source)
        if talk is None:
            talk = self.decide(number, connection, side)
        if talk is not None:
            talk.take("a" if side is connection.a else "b")
            self.fresh.add(number)

    def decide(self, number, connection, side):
        """Decides by the first bytes of a side whether a connection is one of TCPCL.

        Returns the session, if it is known to be one. If the bytes are missing, the port decides.
        """
        if len(side.head) < HEAD and not side.has_gap():
            return None
        has_port = bool(self.ports & connection.ports())
        is_guess = connection.began_before() or side.has_gap()
        if side.head == MAGIC or (is_guess and has_port):
            return self.begin(number, connection, side)
        self.drop(number, connection)
        return None

    def begin(self, number, connection, first):
        """Begins a session, in which the bytes of this side came first."""
        connection.name(first, self.ports)
        talk = self.talks[number] = Talk(number, connection, self.shared)
        del self.waiting[number]
        talk.take("a")
        talk.take("b")
        return talk

    def drop(self, number, connection):
        """Leaves out a connection that is not one of TCPCL."""
        for side in connection.sides:
            side.release()
        del self.waiting[number]
        self.others.add(number)
        self.late += connection.began_before()

    def settle(self):
        """Writes what has come: recordings, their times, and lines."""
        for number in self.fresh:
            for recorder in self.talks[number].recorders.values():
                recorder.flush()
        self.fresh = set()
        self.shared.write_lines()

    def end(self):
        """Takes the end of the capture."""
        for number, connection in list(self.waiting.items()):
            self.decide_at_end(number, connection)
        for _, talk in sorted(self.talks.items()):
            talk.end()
            self.shared.files.append("streams", talk.lines().encode())
        self.shared.write_lines()
        self.shared.files.close()
        self.report()

    def decide_at_end(self, number, connection):
        """Decides by the port whether a connection is one of TCPCL that lacks its first bytes."""
        for side in connection.sides:
            side.finish()
        has_gap = any(side.has_gap() or side.lacks_end() for side in connection.sides)
        if has_gap and self.ports & connection.ports():
            self.begin(number, connection, connection.sides[0])
        elif any(side.count > 0 for side in connection.sides):
            self.drop(number, connection)

    def report(self):
        """Reports which sessions are open or ended early, whether there are any, and what may be one."""
        notes, talks = self.shared.notes, sorted(self.talks.items())
        is_open = [number for number, talk in talks if talk.is_any_open()]
        if is_open:
            notes.report(f"open at the end of the capture: {spelled_numbers(is_open)}")
        is_left = [number for number, talk in talks if talk.is_left_early()]
        if is_left:
            text = f"connections that ended before any byte of a side: {len(is_left)}"
            notes.report(f"{text}; {spelled_numbers(is_left)}")
        if not self.talks:
            notes.report("no TCPCL connection", FAULT)
        if self.late:
            text = "if one is of TCPCL, --port N names its port"
            notes.report(f"connections that began before the capture: {self.late}; {text}")


def spelled_numbers(numbers):
    """Returns numbers in order as words: `stream 3`, or `streams 1, 4-7`."""
    runs = []
    for number in numbers:
        if runs and runs[-1][1] == number - 1:
            runs[-1][1] = number
        else:
            runs.append([number, number])
    texts = [f"{first}" if first == last else f"{first}-{last}" for first, last in runs]
    return f"stream{'s' if len(numbers) > 1 else ''} {', '.join(texts)}"
