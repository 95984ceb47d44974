"""What the probe does in each case. The modules act_*.py have the cases of some groups."""

from typing import Callable, NamedTuple

# By the name of a case, what it does
ACTS = {}


class Act(NamedTuple):
    """What a case does: a call with a talk, and with these parameters.

    `is_fair`: the probe does nothing wrong. So if the node resets the connection, nothing wrong is
    left unread, and its system does not do so by itself.
    """

    call: Callable
    parameters: tuple
    is_fair: bool


def act(name, *parameters, is_fair=False):
    """Lets a function do what a case does."""

    def keep(call):
        ACTS[name] = Act(call, parameters, is_fair)
        return call

    return keep


def halves(data):
    """Returns the halves of some bytes."""
    return [data[: len(data) // 2], data[len(data) // 2 :]]


@act("good", is_fair=True)
async def good(talk):
    """A session, a bundle, and a clean end."""
    await talk.open()
    talk.probe.find_route(talk.init)
    if talk.probe.route is not None:
        talk.transfer([talk.bundle()])
        await talk.until("acks", "refuse", "term")
