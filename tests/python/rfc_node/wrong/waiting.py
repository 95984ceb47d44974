"""Switches of what happens in time: the cases of the groups `slow` and `crowd`."""

import asyncio
import math

from ..octets import Reason
from . import sentences
from .registry import breaks


@breaks("sends-no-keepalive", sentences.KEEPALIVE)
class SendsNoKeepalive:
    """Sends no KEEPALIVE."""

    def keep_alive(self, now):
        """Lets the interval elapse."""


@breaks("keepalive-though-disabled", sentences.NO_KEEPALIVE)
class KeepaliveThoughDisabled:
    """Sends KEEPALIVE by its own interval if that of the peer is zero."""

    def negotiated_interval(self, init):
        """Returns the minimum of the intervals above zero."""
        return super().negotiated_interval(init) or self.settings.keepalive


@breaks("idle-without-reason", sentences.IDLE)
class IdleWithoutReason:
    """Terminates a silent session with the reason "Unknown"."""

    def begin_end(self, reason):
        """Initiates the termination."""
        super().begin_end(Reason.UNKNOWN if reason == Reason.IDLE_TIMEOUT else reason)


@breaks("never-idle", sentences.IDLE)
class NeverIdle:
    """Never terminates a silent session."""

    def idle_timeout(self):
        """Returns the idle timeout."""
        return math.inf


class WaitsForHeader:
    """Waits for a contact header for ever."""

    def waits(self):
        """Whether it waits."""
        raise NotImplementedError

    def watch(self, now):
        """Looks only at sessions whose contact header has come."""
        if self.messages_since is not None or not self.waits():
            super().watch(now)


@breaks("waits-for-header", sentences.NO_HEADER_CLOSES)
class WaitsForFirstByte(WaitsForHeader):
    """Waits for the first byte of a contact header for ever."""

    def waits(self):
        """Whether nothing has come."""
        return not self.reader.reads


@breaks("waits-for-rest-of-header", sentences.NO_HEADER_CLOSES)
class WaitsForRest(WaitsForHeader):
    """Waits for the rest of a contact header for ever."""

    def waits(self):
        """Whether a part has come."""
        return self.reader.reads > 0


@breaks("one-session-at-a-time", sentences.ESTABLISHED_FIRST)
class OneAtATime:
    """Holds a session only after all earlier ones."""

    async def run(self):
        """Waits for its turn."""
        async with self.entity.remembered.setdefault("turn", asyncio.Lock()):
            await super().run()
