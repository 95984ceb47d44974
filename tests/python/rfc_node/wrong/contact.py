"""Switches of the contact header: the cases of the group `contact`, and rules that every session shows."""

import asyncio
import socket
import struct

from .. import octets
from ..octets import ContactFlag, MAGIC, Reason, VERSION
from . import sentences
from .registry import breaks

# How long a connection is kept that has to be closed
STAY = 8.0


@breaks("speaks-first", sentences.PASSIVE_WAITS)
class SpeaksFirst:
    """Sends the contact header as soon as the connection is there."""
    has_sent_header = False

    async def contact(self):
        """Sends the header before anything is read."""
        self.send_header()
        return await super().contact()

    def send_header(self):
        """Sends the header once."""
        if not self.has_sent_header:
            super().send_header()
        self.has_sent_header = True


@breaks("needs-whole-header", sentences.PASSIVE_ANSWERS)
class NeedsWholeHeader:
    """Closes the connection if the contact header comes in several pieces."""

    async def contact(self):
        """Is over after a header in pieces."""
        return await super().contact() and self.has_whole_header

    def is_secure_enough(self, flags):
        """Notes how the header came."""
        self.has_whole_header = not self.reader.is_in_bits()
        return self.has_whole_header and super().is_secure_enough(flags)


@breaks("heeds-contact-flags", sentences.CONTACT_FLAGS)
class HeedsContactFlags:
    """Terminates a session for a reserved flag of the contact header."""

    def is_secure_enough(self, flags):
        """Takes a reserved flag for one that it does not support."""
        if octets.reserved(flags, ContactFlag.CAN_TLS):
            self.begin_end(Reason.CONTACT_FAILURE)
            return False
        return super().is_secure_enough(flags)


@breaks("takes-can-tls-for-tls", sentences.TLS)
class TakesCanTlsForTls:
    """Waits for TLS if the peer alone sets CAN_TLS: it takes the flags' OR in place of their AND."""

    def is_secure_enough(self, flags):
        """Fails as a TLS handshake fails: the connection is closed."""
        return not flags & ContactFlag.CAN_TLS and super().is_secure_enough(flags)


@breaks("loses-what-follows-header", sentences.ACK)
class LosesWhatFollowsHeader:
    """Acknowledges no segment that was read together with the contact header."""
    read_with_header = 0

    def is_secure_enough(self, flags):
        """Notes how far the bytes go that came with the header."""
        self.read_with_header = self.reader.taken + len(self.reader.ahead)
        return super().is_secure_enough(flags)

    def acknowledge(self, segment, transfer):
        """Acknowledges later segments only."""
        if self.reader.taken > self.read_with_header:
            super().acknowledge(segment, transfer)


async def stay(session):
    """Keeps a connection open on which no session can begin."""
    try:
        await asyncio.wait_for(session.over.wait(), STAY)
    except asyncio.TimeoutError:
        pass


def is_alike(magic):
    """Whether a wrong magic string begins as the right one."""
    return magic[:3] == MAGIC[:3]


@breaks("keeps-connection-with-other-magic", sentences.MAGIC)
class KeepsOtherMagic:
    """Keeps the connection if the magic string begins as it has to, but is another one."""
    keeps_alike = False

    def is_magic(self, magic):
        """Notes what came."""
        self.keeps_alike = is_alike(magic)
        return super().is_magic(magic)

    async def drop_contact(self):
        """Closes the connection for a string that is not like the right one at all."""
        await (stay(self) if self.keeps_alike else super().drop_contact())


@breaks("keeps-connection-with-text", sentences.MAGIC)
class KeepsText:
    """Keeps the connection if another text comes in place of the magic string."""
    keeps_text = False

    def is_magic(self, magic):
        """Notes what came."""
        self.keeps_text = not is_alike(magic)
        return super().is_magic(magic)

    async def drop_contact(self):
        """Closes the connection for a string that is like the right one."""
        await (stay(self) if self.keeps_text else super().drop_contact())


@breaks("keeps-connection-with-cut-header", sentences.HEADER_FAILS)
class KeepsCutHeader:
    """Keeps its side of a connection open that the peer closed inside its contact header."""

    async def lose_contact(self):
        """Keeps the connection if a part of the header came."""
        await (stay(self) if self.reader.reads else super().lose_contact())


def version_switch(name, rule, version, wrong):
    """Registers a switch that does `wrong` for this version of the peer. It returns what `is_version` does."""
    is_about_active = rule is sentences.LOWER_VERSION

    class WrongVersion:
        """Is wrong about one version."""

        def is_version(self, other):
            """Whether the session goes on."""
            if other == version and self.is_active == is_about_active:
                return wrong(self)
            return super().is_version(other)
    breaks(name, rule)(WrongVersion)


def term_with_other_reason(session):
    """Terminates the session with a reason that is not due."""
    session.send_term(0, Reason.CONTACT_FAILURE)
    return False


version_switch("version-5-contact-failure", sentences.OTHER_VERSION, 5, term_with_other_reason)
version_switch("version-255-closed-without-term", sentences.OTHER_VERSION, 255, lambda session: False)
version_switch("goes-on-after-version-0", sentences.LOWER_VERSION, 0, lambda session: True)
version_switch("goes-on-after-version-3", sentences.LOWER_VERSION, 3, lambda session: True)


@breaks("term-after-other-magic", sentences.HEADER_FAILS)
class TermAfterOtherMagic:
    """Answers another magic string by a contact header and a SESS_TERM."""

    async def drop_contact(self):
        """Sends both before the connection is closed."""
        if not self.is_active:
            self.send_header()
        self.send_term(0, Reason.CONTACT_FAILURE)


@breaks("term-before-header", sentences.HEADER_FIRST)
class TermBeforeHeader:
    """Sends no contact header before the SESS_TERM that answers another version."""

    def answer_header(self, version):
        """Sends the header only if the version is right."""
        if version == VERSION:
            super().answer_header(version)


@breaks("sets-contact-flags", sentences.CONTACT_FLAGS_SENT)
class SetsContactFlags:
    """Sets a reserved flag of the contact header."""

    def send_header(self):
        """Sends the header with the flag 80."""
        self.send_octets(octets.contact_header(flags=0x80))


@breaks("resets", sentences.FIN)
class Resets:
    """Closes the connection by RST."""

    async def close(self):
        """Lets the socket linger for no time."""
        sock = self.writer.get_extra_info("socket")
        sock.setsockopt(socket.SOL_SOCKET, socket.SO_LINGER, struct.pack("ii", 1, 0))
        self.writer.transport.abort()
