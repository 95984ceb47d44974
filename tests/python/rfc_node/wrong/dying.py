"""Switches that crash or hang the whole node."""

import os
import time

from ..octets import U64_MAX
from . import sentences
from .registry import breaks

FOR_EVER = 10**6


@breaks("crashes-on-second-init", sentences.UNEXPECTED)
class CrashesOnSecondInit:
    """Crashes on a second SESS_INIT."""

    async def take_second_init(self, message):
        """Ends the process."""
        os._exit(1)


@breaks("hangs-on-overrun", sentences.SESSION_LIST)
class HangsOnOverrun:
    """Hangs if a session item runs past its list."""

    async def take_broken_init(self, message):
        """Blocks all sessions."""
        if message.items.is_overrun:
            time.sleep(FOR_EVER)
        await super().take_broken_init(message)


@breaks("stops-serving-after-unknown-refusal", sentences.UNEXPECTED)
class StopsServing:
    """Goes on with this session after an XFER_REFUSE that refuses nothing, but serves no other one."""

    async def contact(self):
        """Leaves a connection without an answer."""
        if self.entity.remembered.get("is broken"):
            await self.over.wait()
        return await super().contact()

    def take_xfer_refuse(self, message):
        """Breaks what later sessions need."""
        if message.identifier not in self.outbound:
            self.entity.remembered["is broken"] = True
        super().take_xfer_refuse(message)


@breaks("planted-crash", sentences.ACK)
class PlantedCrash:
    """Looks for the transfer of a segment by the low half of its ID, and finds none if the high half is set."""

    async def take_xfer_segment(self, segment):
        """Ends the process for such a segment, unless it begins a transfer. Only 2^64-1 is looked for as a whole."""
        if segment.identifier >> 32 and segment.identifier < U64_MAX and not segment.is_start:
            os._exit(1)
        await super().take_xfer_segment(segment)
