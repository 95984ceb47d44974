"""The streams that the cases send, without a node: what a fuzzed stream is made from."""


from both_sides.facts import Message

from . import wire
from .acts import ACTS
from .connection import Connection, Record
from .reading import Incoming
from .table import APART, CASES
from .talk import NoSession, Skipped, Talk


class Dry(Connection):
    """A connection with nobody: it keeps what is sent, and no wait ends with an answer."""

    def __init__(self):  # pylint: disable=super-init-not-called
        self.data, self.incoming, self.got = bytearray(), Incoming(), Record(None, "b")
        self.end, self.is_over, self.is_idle, self.is_first = None, False, True, False
        self.incoming.contact = (4, 0)

    def put(self, data, is_slow=False):
        """Keeps bytes."""
        self.data += data

    async def wait(self, test, seconds=None):
        """Returns whether a test holds."""
        return bool(test())

    async def sent_slowly(self):
        """Does nothing."""

    async def flush(self, seconds):
        """Does nothing."""
        return True

    def finish(self):
        """Ends the side of the probe."""
        self.is_over = True

    def reset(self):
        """Ends the connection."""
        self.is_over = True

    def is_gone(self):
        """Returns whether the connection is closed."""
        return self.is_over


class Quiet(Talk):
    """A session with nobody, which sends no KEEPALIVE and runs no command."""

    async def upkeep(self):
        """Does nothing."""

    async def run_command(self):
        """Does nothing."""


async def stream_of(case, probe):
    """Returns what a case sends to a node that does nothing after its SESS_INIT."""
    connection, action = Dry(), ACTS[case.name]
    talk = Quiet(probe, connection, probe.role)
    talk.init = Message(6, 6, wire.SESS_INIT, numbers=probe.base.limits, node=probe.base.node)
    try:
        await action.call(talk, *action.parameters)
    except (NoSession, Skipped):
        pass
    if talk.upkeep_task is not None:
        talk.upkeep_task.cancel()
    return bytes(connection.data)


async def streams(probe):
    """Returns the streams of the cases that can be tried, except those of groups apart and long ones."""
    cases = [case for case in CASES if case.group not in APART and "above-mru" not in case.name]
    return [await stream_of(case, probe) for case in cases if probe.why_not(case) is None]


