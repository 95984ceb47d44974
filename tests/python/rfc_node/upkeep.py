"""What happens in a session as time passes (RFC 9174, sections 4.1 and 5.1.1)."""

import asyncio
import time

from . import octets
from .octets import Reason

TICK = 0.05
# How long a contact header, and then a SESS_INIT, is waited for
CONTACT = 10.0
INITIATION = 10.0
# How long a session without KEEPALIVE may be silent
SILENCE = 60.0
# How long a peer may be silent after the SESS_TERM of this node, and how long it may take in all
REPLY = 5.0
ENDING = 30.0


class Upkeep:
    """The timers of a session."""

    async def keep_up(self):
        """Looks at the clock until the session is over."""
        while True:
            now = time.monotonic()
            self.watch(now)
            self.keep_alive(now)
            await asyncio.sleep(TICK)

    def silence(self):
        """Returns for how long nothing was heard of the peer."""
        return time.monotonic() - self.reader.heard

    def watch(self, now):
        """Ends a session whose peer was silent for too long."""
        if self.messages_since is None:
            if now - self.begun > CONTACT:
                self.over.set()
        elif self.term_sent:
            self.watch_ending(now)
        elif not self.established.is_set():
            if now - self.messages_since > INITIATION:
                self.begin_end(Reason.IDLE_TIMEOUT)
        elif self.silence() > self.idle_timeout():
            self.begin_end(Reason.IDLE_TIMEOUT)

    def watch_ending(self, now):
        """Closes the connection of a session in the state Ending that does not come to its end."""
        since = now - self.term_sent
        if self.has_ended() or since > ENDING or min(since, self.silence()) > REPLY:
            self.over.set()

    def idle_timeout(self):
        """Returns the idle timeout. With KEEPALIVE, it is exactly twice the Session Keepalive Interval."""
        return 2 * self.interval if self.interval else SILENCE

    def keep_alive(self, now):
        """Sends a KEEPALIVE whenever the interval has elapsed with no transmission of any message."""
        if self.interval and now - self.sent_at >= self.interval:
            self.send(octets.keepalive())
