"""Whether a bundle may be fragmented and can be (RFC 9171 sections 4.2.3 and 5.8).

Only heads are read, so a bundle of any length takes no memory.
"""

# The major types of CBOR (RFC 8949 section 3.1), and a break
NUMBER, BYTES, TEXT, ARRAY, TAG, BREAK = 0, 2, 3, 4, 6, 0xFF

# The flag of a bundle that must not be fragmented, the type of its payload block, and how many heads
# are read
MUST_NOT, PAYLOAD, HEADS = 0x04, 1, 1 << 16


class Unreadable(Exception):
    """The bytes are no bundle, or one with too many heads."""


class Reader:
    """Reads the heads of a bundle that lies in stretches of a file."""

    def __init__(self, file, pieces):
        self.file, self.pieces, self.at = file, list(pieces), 0
        self.number, self.heads = 0, 0

    def skip(self, count):
        """Passes over that many bytes."""
        self.at += count
        while self.number < len(self.pieces) and self.at >= self.length():
            self.at -= self.length()
            self.number += 1

    def length(self):
        """Returns the length of the stretch in which it is."""
        begin, end = self.pieces[self.number]
        return end - begin

    def byte(self):
        """Reads a byte."""
        self.skip(0)
        if self.number == len(self.pieces):
            raise Unreadable
        self.file.seek(self.pieces[self.number][0] + self.at)
        self.skip(1)
        return self.file.read(1)[0]

    def head(self):
        """Reads a head. Returns its major type and its value, which is None for an indefinite length."""
        self.heads += 1
        first = self.byte()
        major, info = first >> 5, first & 31
        if self.heads > HEADS or 28 <= info < 31:
            raise Unreadable
        if info == 31:
            return (BREAK if first == BREAK else major), None
        if info < 24:
            return major, info
        return major, int.from_bytes(bytes(self.byte() for _ in range(1 << info - 24)), "big")

    def value(self, major):
        """Reads a head of a major type. Returns its value."""
        found, value = self.head()
        if found != major:
            raise Unreadable
        return value

    def pass_over(self):
        """Passes over an item whose parts all have definite lengths."""
        left = 1
        while left:
            major, value = self.head()
            if value is None or major == BREAK:
                raise Unreadable
            left += {ARRAY: value, ARRAY + 1: 2 * value, TAG: 1}.get(major, 0) - 1
            if major in (BYTES, TEXT):
                self.skip(value)


def can_be_fragmented(file, pieces):
    """Returns whether the bundle in these stretches of a file may be fragmented, and has a payload of
    at least two bytes. Bytes that are not read as a bundle cannot be fragmented."""
    reader = Reader(file, pieces)
    try:
        if reader.head() != (ARRAY, None):
            return False
        fields = reader.value(ARRAY)
        reader.value(NUMBER)
        flags = reader.value(NUMBER)
        for _ in range((fields or 0) - 2):
            reader.pass_over()
        return not flags & MUST_NOT and payload_length(reader) > 1
    except Unreadable:
        return False


def payload_length(reader):
    """Returns the length of the payload. The reader is after the primary block."""
    while True:
        fields, kind = reader.value(ARRAY), reader.value(NUMBER)
        for _ in range(3):
            reader.value(NUMBER)
        length = reader.value(BYTES)
        if fields is None or length is None:
            raise Unreadable
        if kind == PAYLOAD:
            return length
        reader.skip(length)
        for _ in range(fields - 5):
            reader.pass_over()
