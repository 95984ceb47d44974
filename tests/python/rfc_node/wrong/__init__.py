"""Wrong switches: each makes the node break one sentence of RFC 9174, and keep all others.

A switch is a class with methods that replace those of a session. The modules register their switches
when they are imported.
"""

from . import answering, contact, dying, ending, parameters, receiving, sending, telling, waiting
from .registry import SWITCHES, wrong_session

__all__ = ["SWITCHES", "wrong_session"]
