"""The rules of the RFCs that the sides of the sessions of a capture break."""

from both_sides import judging
from both_sides.captured import Captured

from .messages import MAGIC
from .running import LOST


def check(tcpclkit, talks, notes, own):
    """Writes the lines of each session, by its number. `own`: of the bundles of each side, only what
    its own node wrote is judged."""
    for number, talk in sorted(talks.items()):
        for line in verdict(tcpclkit, talk, notes, own).shown():
            print(f"stream {number} {line}")
            notes.raise_status(LOST)


def verdict(tcpclkit, talk, notes, own):
    """Returns the verdict on a session. What comes after a gap is not judged."""
    recordings = [talk.path_of(name)(0) for name in "ab"]
    times = [talk.shared.files.path(f"{talk.recorders[name].path(0)}.times") for name in "ab"]
    closed = "".join(name for name in "ab" if is_closed(talk, name))
    connection = [captured(talk, name) for name in "ab"]
    found = judging.judged(tcpclkit, recordings, times, closed, connection, own)
    for name in found.nameless:
        notes.report(f"stream {talk.number} {name}: {judging.NAMELESS}")
    return found


def is_closed(talk, name):
    """Returns whether a side closed the connection by a FIN, right after its recording."""
    side = talk.sides[name]
    return is_complete(talk, name) and side.fin == side.count


def is_complete(talk, name):
    """Returns whether the recording of a side has all that it sent, as far as the capture shows."""
    recorder = talk.recorders[name]
    return not (recorder.gaps or recorder.is_late or talk.sides[name].lacks_end())


def captured(talk, name):
    """Returns what the capture shows of a side. An RST of one that sent no byte does not count."""
    side, other = talk.sides[name], talk.connection.other(talk.sides[name])
    accepts = side.has_syn and other.connects and not side.connects and side.head == MAGIC
    is_reset = is_complete(talk, name) and side.rst == side.count > 0 and side.aborts
    is_first = side.fin is None and other.rst is None
    seen = side.shown.arrived.at(0) if accepts else None
    taken = side.shown.arrived.at(side.count) if is_closed(talk, name) else None
    return Captured(side.shown, seen, taken, is_reset and is_first)
