"""The exchange of contact headers and of SESS_INIT (RFC 9174, sections 4.1 to 4.8)."""

from . import octets
from .octets import MAGIC, VERSION, Reason


class Contact:
    """How a session begins."""

    async def contact(self):
        """Exchanges contact headers. Returns whether messages follow them."""
        if self.is_active:
            self.send_header()
        self.reader.mark()
        if not self.is_magic(await self.reader.take(len(MAGIC))):
            await self.drop_contact()
            return False
        version, flags = await self.reader.fields("BB")
        self.answer_header(version)
        return self.is_version(version) and self.is_secure_enough(flags)

    def send_header(self):
        """Sends the contact header. It offers no TLS, which this node does not implement."""
        self.send_octets(octets.contact_header())

    def answer_header(self, version):
        """Sends the contact header of a passive node, whatever version the peer has sent."""
        if not self.is_active:
            self.send_header()

    def is_magic(self, magic):
        """Whether the first four bytes are right."""
        return magic == MAGIC

    async def drop_contact(self):
        """Does nothing before a connection is closed whose magic string is wrong."""

    async def lose_contact(self):
        """Does nothing before a connection is closed that the peer closed inside its contact header."""

    def is_version(self, version):
        """Whether the session goes on with this version of the peer."""
        if version == VERSION:
            return True
        if not (self.is_active and version < VERSION):
            self.send_term(0, Reason.VERSION_MISMATCH)
        return False

    def is_secure_enough(self, flags):
        """Whether the session goes on. Without CAN_TLS in the own header, no flag of the peer matters."""
        return True

    def send_init(self):
        """Sends the SESS_INIT."""
        own = self.settings
        self.send(octets.sess_init(own.keepalive, own.segment_mru, own.transfer_mru, own.node))

    async def take_sess_init(self, message):
        """Takes a SESS_INIT. The first one establishes the session, if its parameters are acceptable."""
        if self.peer is not None or self.has_failed:
            await self.take_second_init(message)
        elif message.items.is_broken:
            await self.take_broken_init(message)
        elif not self.term_sent:
            self.peer = message
            if not self.is_active:
                self.send_init()
            self.negotiate(message)

    async def take_second_init(self, message):
        """Takes a SESS_INIT that comes after the first one."""
        self.unexpected(message)
        await self.reader.skip(message.items.left)

    async def take_broken_init(self, message):
        """Takes a SESS_INIT whose list disagrees with its length: its reception has failed."""
        self.has_failed = True
        self.begin_end(Reason.CONTACT_FAILURE)
        await self.reader.skip(message.items.left)

    def negotiate(self, init):
        """Calculates the parameters of the session, or terminates it."""
        if not self.is_acceptable(init):
            self.begin_end(Reason.CONTACT_FAILURE)
            return
        self.interval = self.negotiated_interval(init)
        self.established.set()

    def is_acceptable(self, init):
        """Whether the parameters of the peer are acceptable."""
        return self.is_text(init.node) and self.has_room(init) and not init.items.has_unknown_critical

    def is_text(self, name):
        """Whether a node ID is encoded in UTF-8."""
        try:
            name.decode()
        except UnicodeDecodeError:
            return False
        return True

    def has_room(self, init):
        """Whether a bundle of this node can be sent to the peer at all."""
        return init.segment_mru > 0 or not self.settings.bundles

    def negotiated_interval(self, init):
        """Returns the Session Keepalive: the minimum of both intervals. Zero disables KEEPALIVE."""
        return min(self.settings.keepalive, init.keepalive)
