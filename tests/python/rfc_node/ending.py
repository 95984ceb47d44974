"""The end of a session (RFC 9174, section 6), and the answer to a message that is out of place (5.1.2)."""

import time

from . import octets
from .octets import Kind, Reason, Rejection, TermFlag

# How long the peer may take to close after this node has closed its side
CLOSING = 2.0


class Ending:
    """How messages are rejected and sessions end."""

    def begin_end(self, reason):
        """Initiates the termination of the session, unless it is in the state Ending."""
        if not self.term_sent:
            self.send_term(0, reason)

    def send_term(self, flags, reason):
        """Sends a SESS_TERM. The session is then in the state Ending."""
        self.term_sent = time.monotonic()
        self.send(octets.sess_term(flags, reason))

    def take_sess_term(self, message):
        """Takes a SESS_TERM, and acknowledges it unless this node has sent one."""
        flag = message.flags & TermFlag.REPLY
        if flag in self.terms:
            self.unexpected(message)
            return
        self.terms.add(flag)
        if not self.term_sent:
            self.send_term(self.reply_flags(message), message.reason)

    def reply_flags(self, message):
        """Returns the flags of the SESS_TERM that acknowledges one. Reserved flags are 0."""
        return TermFlag.REPLY

    def has_ended(self):
        """Whether both sides sent SESS_TERM and no transfer is in progress."""
        return bool(self.term_sent and self.terms) and self.inbound is None and not self.is_sending()

    def unexpected(self, message):
        """Rejects a message that is not expected in the state of the session."""
        self.reject(Rejection.UNEXPECTED, message.kind)

    def reject(self, reason, header):
        """Sends a MSG_REJECT."""
        self.send(octets.msg_reject(reason, header))

    def take_unknown(self, message):
        """Rejects a message of an unknown type, and closes the connection: its length is not known."""
        self.reject(Rejection.TYPE_UNKNOWN, message.kind)
        self.over.set()

    def take_keepalive(self, message):
        """Takes a KEEPALIVE. It is not supported in a session whose Session Keepalive is zero."""
        if self.established.is_set() and not self.interval:
            self.reject(Rejection.UNSUPPORTED, message.kind)

    def take_msg_reject(self, message):
        """Takes a MSG_REJECT. One of a message that this node has never sent is itself unexpected."""
        if message.header not in self.kinds_sent:
            self.unexpected(message)
        elif message.header == Kind.XFER_SEGMENT:
            self.take_rejected_segment()
        elif message.header == Kind.SESS_INIT and not self.established.is_set():
            self.begin_end(Reason.CONTACT_FAILURE)
        elif message.header == Kind.SESS_TERM:
            self.over.set()

    async def close(self):
        """Closes the connection by FIN. What the peer still sends is read, so that no RST follows."""
        try:
            if self.writer.can_write_eof():
                self.writer.write_eof()
            await self.reader.drain(CLOSING)
        except (OSError, RuntimeError):
            pass
        if self.writer.transport.get_write_buffer_size():
            self.writer.transport.abort()
        else:
            self.writer.close()
