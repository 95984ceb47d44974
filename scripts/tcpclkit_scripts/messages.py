"""Reads messages where they begin, and finds where they begin.

`tcpclkit list` reads a recording from its beginning. The scripts also need messages after a gap,
and of a thousand connections at a time. Each field is judged as docs/FORMATS.md says, in its order.
"""

import re
import struct

# The greatest node ID, extension list and number of its items (docs/FORMATS.md, "Limits")
MAX_NODE, MAX_LIST, MAX_ITEMS = 1024, 65536, 64

# The greatest length that a segment may have if the bytes end inside its data. Data that looks like
# a segment mostly has a greater length.
LONGEST = 1 << 24

# The types of messages (RFC 9174 section 4.5), and the length of those that all have the same.
XFER_SEGMENT, XFER_ACK, XFER_REFUSE, SESS_TERM, SESS_INIT = 0x01, 0x02, 0x03, 0x05, 0x07
FIXED = {XFER_ACK: 18, XFER_REFUSE: 10, 0x04: 1, SESS_TERM: 3, 0x06: 3}

# Flags of XFER_SEGMENT and XFER_ACK (section 5.2)
END, START = 0x01, 0x02

# What can be the first message: any, or an XFER_SEGMENT with START.
ANY = re.compile(b"[\x01-\x07]")
FLAGS_WITH_START = bytes(flags for flags in range(256) if flags & START)
WITH_START = re.compile(b"\x01[%s]" % re.escape(FLAGS_WITH_START))

# The beginning of a contact header and its length (section 4.2), the version, a header without
# flags, and a SESS_INIT without node ID and items (section 4.6).
MAGIC, CONTACT_LENGTH, VERSION = b"dtn!", 6, 4
CONTACT_HEADER = b"dtn!\x04\x00"
EMPTY_SESS_INIT = struct.pack(">BHQQHI", SESS_INIT, 0, 0, 0, 0, 0)

U8, U16, U32, U64 = (struct.Struct(f">{form}") for form in "BHIQ")

# The fields of an XFER_ACK, an XFER_REFUSE and a SESS_TERM (sections 5.2.3, 5.2.4, 6.1)
ACK_FIELDS, REFUSE_FIELDS, TERM_FIELDS = map(struct.Struct, (">xBQQ", ">xBQ", ">xBB"))


class Cut(Exception):
    """The bytes end inside a message."""


class Fault(Exception):
    """No message begins at an offset: a field breaks its rule."""


class Messages:
    """Finds where messages end."""

    def __init__(self, data, longest=LONGEST):
        self.data, self.size, self.longest = data, len(data), longest

    def number(self, form, at):
        """Returns the number at an offset."""
        try:
            return form.unpack_from(self.data, at)[0]
        except struct.error:
            raise Cut from None

    def end_of_list(self, at):
        """Returns the offset after an extension list (sections 4.8 and 5.2.5)."""
        left, at, items = self.number(U32, at), at + 4, 0
        if left > MAX_LIST:
            raise Fault
        while left > 0:
            if left < 5:
                raise Fault
            length = self.number(U16, at + 3)
            if length > left - 5 or items == MAX_ITEMS:
                raise Fault
            at, left, items = at + 5 + length, left - 5 - length, items + 1
            if at > self.size:
                raise Cut
        return at

    def data_of_segment(self, at):
        """Returns where the data of an XFER_SEGMENT begins and ends (section 5.2.2)."""
        flags = self.number(U8, at + 1)
        after_list = self.end_of_list(at + 10) if flags & START else at + 10
        length = self.number(U64, after_list)
        return after_list + 8, after_list + 8 + length

    def end_of_sess_init(self, at):
        """Returns the offset after a SESS_INIT (section 4.6)."""
        length = self.number(U16, at + 19)
        if length > MAX_NODE:
            raise Fault
        return self.end_of_list(at + 21 + length)

    def end(self, at):
        """Returns the offset after the message at an offset."""
        kind = self.data[at]
        if kind == XFER_SEGMENT:
            begin, end = self.data_of_segment(at)
            if end > self.size and end - begin > self.longest:
                raise Fault
        elif kind == SESS_INIT:
            end = self.end_of_sess_init(at)
        elif kind in FIXED:
            end = at + FIXED[kind]
        else:
            raise Fault
        if end > self.size:
            raise Cut
        return end


def find(messages, pattern=ANY):
    """Returns the offset of the first match of the pattern that begins a row of messages, or None.

    The row goes on to the end. No row from an offset that was seen does so, or the search would
    have ended there. So no offset is tried twice, however many rows of messages come to it.
    """
    seen = bytearray(messages.size // 8 + 1)
    for hit in pattern.finditer(messages.data):
        first = at = hit.start()
        try:
            while not seen[at >> 3] >> (at & 7) & 1:
                seen[at >> 3] |= 1 << (at & 7)
                at = messages.end(at)
                if at == messages.size:
                    return first
        except Cut:
            if at > first:
                return first
        except Fault:
            pass
    return None


def prelude_of(data, first):
    """Returns what a recording of the messages from an offset on begins with."""
    return CONTACT_HEADER + (b"" if data[first] == SESS_INIT else EMPTY_SESS_INIT)


def spelled(content):
    """Returns escaped text (docs/FORMATS.md)."""
    is_plain = (0x21 <= it <= 0x7E and it != 0x5C for it in content)
    return "".join(chr(it) if plain else f"\\x{it:02x}" for it, plain in zip(content, is_plain))


def segment_head(flags, ident, length):
    """Returns an XFER_SEGMENT up to its data, without extension items (section 5.2.2)."""
    items = U32.pack(0) if flags & START else b""
    return struct.pack(">BBQ", XFER_SEGMENT, flags, ident) + items + U64.pack(length)


def goes_on(messages, first):
    """Returns whether messages follow one another from an offset to the end, at least one."""
    at = first
    try:
        while at < messages.size:
            at = messages.end(at)
    except Cut:
        pass
    except Fault:
        return False
    return at > first
