"""Where the wrong switches are registered."""

from typing import NamedTuple

SWITCHES = {}


class Switch(NamedTuple):
    """A wrong switch: the section and the sentence that it breaks, and what replaces a session's methods."""
    name: str
    section: str
    sentence: str
    conduct: type


def breaks(name, rule):
    """Registers a class as the switch of this name. `rule` is a section and its sentence."""
    def register(conduct):
        """Registers the class."""
        if name in SWITCHES:
            raise ValueError(f"two switches {name}")
        SWITCHES[name] = Switch(name, *rule, conduct)
        return conduct
    return register


def wrong_session(session, names):
    """Returns the class of sessions that break these rules."""
    return type("WrongSession", (*(SWITCHES[name].conduct for name in names), session), {})
