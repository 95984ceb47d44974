"""The pages of the sessions of a capture."""

from . import checking
from .pages import Page, Recorded

# How a side ended, by its word in the file `streams`
ENDINGS = {"fin": "FIN", "rst": "RST", "peer-rst": "RST of the other side", "open": "open"}


def write_pages(tcpclkit, talks, notes, own):
    """Writes the page of each session beside its recordings, without what comes after a gap."""
    for number, talk in sorted(talks.items()):
        closed = "".join(name for name in "ab" if talk.is_lost(name))
        with open(talk.shared.files.path(f"{number:04}.html"), "wb") as output:
            sides = [recorded(talk, name) for name in "ab"]
            verdict = checking.verdict(tcpclkit, talk, notes, own)
            Page(output, tcpclkit).write(sides, closed, lambda: verdict)


def recorded(talk, name):
    """Returns the recording of a side, before its first gap."""
    path = talk.path_of(name)(0)
    times = talk.shared.files.path(f"{talk.recorders[name].path(0)}.times")
    return Recorded(path, times, ENDINGS[talk.connection.ending(talk.sides[name])])
