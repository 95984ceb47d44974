"""Switches of SESS_TERM: the cases of the group `end`."""

import asyncio
import time

from .. import octets
from ..octets import Kind, Reason, Refusal, TermFlag
from . import sentences
from .registry import breaks

# How long a connection is kept after the end of its session
KEPT = 1.5


def no_reply_switch(name, rule, is_unanswered):
    """Registers a switch that closes the connection without an answer to such a SESS_TERM."""
    class NoReply:
        """Does not acknowledge some SESS_TERM."""

        def take_sess_term(self, message):
            """Ends the session without a SESS_TERM, or with one."""
            if not self.term_sent and is_unanswered(self, message):
                self.over.set()
            else:
                super().take_sess_term(message)
    breaks(name, rule)(NoReply)


def is_ahead(session, kind):
    """Whether a message of this type has already come after the one that is taken."""
    return session.reader.ahead[:1] == bytes([kind])


for code in (*range(7), 0xFF):
    no_reply_switch(f"no-reply-to-reason-{code:02x}", sentences.REPLY if code < 6 else sentences.TERM_REASON,
                    lambda session, message, code=code:
                    message.reason == code and not session.begun_by_peer)
no_reply_switch("no-reply-to-term-flags", sentences.TERM_FLAGS,
                lambda session, message: octets.reserved(message.flags, TermFlag.REPLY))
no_reply_switch("no-reply-to-term-in-bits", sentences.REPLY, lambda session, message: session.reader.is_in_bits())
no_reply_switch("no-reply-inside-transfer", sentences.REPLY, lambda session, message: session.inbound is not None)
no_reply_switch("no-reply-to-two-terms", sentences.REPLY,
                lambda session, message: is_ahead(session, Kind.SESS_TERM))
no_reply_switch("no-reply-before-keepalive", sentences.CLEAN_END,
                lambda session, message: is_ahead(session, Kind.KEEPALIVE))


@breaks("takes-transfer-after-term", sentences.NEW_INCOMING)
class TakesTransferAfterTerm:
    """Keeps the connection after it has acknowledged a SESS_TERM, and receives new transfers."""

    def has_ended(self):
        """Waits for the peer to close, for a while."""
        is_waiting = self.has_acknowledged() and time.monotonic() - self.term_sent < KEPT
        return super().has_ended() and not is_waiting

    def has_acknowledged(self):
        """Whether the peer initiated the termination."""
        return bool(self.term_sent) and 0 in self.terms

    def refusal_of(self, segment):
        """Returns the reason to refuse a transfer, as if no SESS_TERM had been sent."""
        reason = super().refusal_of(segment)
        is_wrong = reason == Refusal.SESSION_TERMINATING and segment.is_start and self.has_acknowledged()
        return None if is_wrong else reason


@breaks("begins-after-term", sentences.NO_NEW_OUTGOING)
class BeginsAfterTerm:
    """Begins a transfer after it has acknowledged a SESS_TERM, if the peer still has to end one."""
    later = None

    def take_sess_term(self, message):
        """Sends one more bundle after the answer."""
        super().take_sess_term(message)
        if self.settings.bundles and self.inbound is not None:
            self.later = asyncio.ensure_future(self.send_bundle(self.next_bundle(0)))


@breaks("ignores-init-after-term", sentences.UNEXPECTED)
class IgnoresInitAfterTerm:
    """Says nothing any more if a SESS_INIT follows the SESS_TERM of the peer, and stays connected."""
    is_mute = False

    def take_sess_term(self, message):
        """Ignores the SESS_TERM if a SESS_INIT follows."""
        self.is_mute = is_ahead(self, Kind.SESS_INIT)
        if not self.is_mute:
            super().take_sess_term(message)

    async def take_second_init(self, message):
        """Ignores the SESS_INIT after such a SESS_TERM."""
        if self.is_mute:
            await self.reader.skip(message.items.left)
        else:
            await super().take_second_init(message)


@breaks("reply-with-other-reason", sentences.REPLY_CONTENT)
class ReplyWithOtherReason:
    """Acknowledges a SESS_TERM with another reason."""

    def take_sess_term(self, message):
        """Changes the reason of what it acknowledges."""
        super().take_sess_term(message._replace(reason=message.reason ^ Reason.VERSION_MISMATCH))


@breaks("reply-without-flag", sentences.REPLY_CONTENT)
class ReplyWithoutFlag:
    """Acknowledges a SESS_TERM without REPLY."""

    def reply_flags(self, message):
        """Returns no flag."""
        return 0


@breaks("sets-term-flags", sentences.TERM_FLAGS_SENT)
class SetsTermFlags:
    """Sets a reserved flag of a SESS_TERM."""

    def send_term(self, flags, reason):
        """Sends the SESS_TERM with the flag 80."""
        super().send_term(flags | 0x80, reason)


@breaks("initial-term-with-reply", sentences.INITIAL_TERM)
class InitialTermWithReply:
    """Sets REPLY in the SESS_TERM that initiates a termination."""

    def begin_end(self, reason):
        """Initiates the termination."""
        if not self.term_sent:
            self.send_term(TermFlag.REPLY, reason)


@breaks("closes-in-place-of-term", sentences.CLEAN_END)
class ClosesInPlaceOfTerm:
    """Closes the connection at the end of a session, without a SESS_TERM."""

    def begin_end(self, reason):
        """Closes the connection if the session was established."""
        if self.established.is_set():
            self.over.set()
        else:
            super().begin_end(reason)


@breaks("term-inside-segment", sentences.WHOLE_MESSAGES)
class TermInsideSegment:
    """Sends its answer to a SESS_TERM inside a segment."""

    def take_sess_term(self, message):
        """Sends the head of a segment first, whose data never comes."""
        if not self.term_sent and self.established.is_set():
            self.send(octets.segment(3, len(self.outbound), bytes(100))[:-100])
        super().take_sess_term(message)
