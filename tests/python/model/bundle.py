"""The judgement of a bundle (RFC 9171 section 4): "CBOR heads", "Bundles" and "Check fields"."""

from typing import NamedTuple, Optional

from .check import WIDTH, check

UNSIGNED, BYTES, TEXT, ARRAY = 0, 2, 3, 4
MAX_NAME = 1024
MAX_BLOCKS = 64

# First bytes of a head of indefinite length: of bytes, text, an array and a map (RFC 8949 section
# 3.2)
INDEFINITE = b"\x5f\x7f\x9f\xbf"

# The two byte strings of a block: its data, and its check value
DATA, CHECK = "data", "check"


class Identity(NamedTuple):
    """The values by which a line names a bundle.

    An endpoint ID is None, the bytes of a dtn name, or a tuple of ipn numbers.
    """
    source: object
    time: int
    sequence: int
    destination: object
    payload: int
    fragment: Optional[tuple]


class Primary(NamedTuple):
    """A whole primary block (section 4.3.1): its offset, its length, and its fields."""
    at: int
    length: int
    flags: int
    check: int
    destination: object
    source: object
    report_to: object
    time: int
    sequence: int
    lifetime: int
    fragment: Optional[tuple]


class Block(NamedTuple):
    """A whole canonical block (section 4.3.2): its offset, its length, and its fields.

    `kind` is the block type code. The block-type-specific data is at `data_at`, after its head.
    """
    at: int
    length: int
    kind: int
    number: int
    flags: int
    check: int
    data_at: int
    data: bytes


class Judgement(NamedTuple):
    """The judgement of some bytes: a fault (code, offset), or a bundle at their beginning.

    `length` is the length of the bundle. With a fault it is the number of bytes before the one that
    shows the fault, and for B1 the number of all bytes. `payload` is the offset of the payload's
    data and its length by its head, if that head was good. `primary` and `blocks` are the blocks
    that are whole and good. `long_head` is the offset of the first head that is longer than needed.
    `due` is DATA or CHECK if the fault is at a head in place of that byte string's, and else None.
    """
    fault: Optional[tuple]
    identity: Optional[Identity]
    length: int
    payload: Optional[tuple]
    primary: Optional[Primary] = None
    blocks: tuple = ()
    long_head: Optional[int] = None
    due: Optional[str] = None


class Fault(Exception):
    """A code, the offset of the fault, and the number of bytes before the one that shows it."""


# The least value that needs the argument of a head with this additional information
LEAST = {24: 24, 25: 1 << 8, 26: 1 << 16, 27: 1 << 32}


class Scan:
    """The bytes of a bundle, the number of bytes judged, and the offset of the last head.

    It keeps what a `Judgement` says of the blocks and of the heads. `fields` are those of the
    primary block that were good, and `is_whole` is whether its check field was good too.
    """

    def __init__(self, content):
        self.content, self.at, self.place, self.payload = content, 0, 0, None
        self.primary_block, self.blocks, self.long_head = None, [], None
        self.fields, self.is_whole, self.due = [], False, None

    def fault(self, code):
        """Raises a fault of the last head. The last byte judged shows the fault."""
        raise Fault(code, self.place, self.at - 1)

    def take(self, count):
        """The next `count` bytes. It is fault B1 if fewer are there."""
        if count > len(self.content) - self.at:
            raise Fault("B1", len(self.content), len(self.content))
        self.at += count
        return self.content[self.at - count:self.at]

    def head(self):
        """The next head (RFC 8949 sections 3 and 3.3) as (major type, value).

        The value of an indefinite length and of the break is None.
        """
        self.place = self.at
        first = self.take(1)[0]
        major, information = first >> 5, first & 0x1F
        if information in (28, 29, 30) or information == 31 and major in (0, 1, 6):
            self.fault("B4")
        if information == 31:
            return major, None
        if information < 24:
            return major, information
        value = int.from_bytes(self.take(1 << information - 24), "big")
        if major == 7 and information == 24 and value < 0x20:
            self.fault("B4")
        if value < LEAST[information] and self.long_head is None:
            self.long_head = self.place
        return major, value

    def unsigned(self):
        """The value of an unsigned number."""
        major, value = self.head()
        if major != UNSIGNED:
            self.fault("B5")
        return value

    def array(self, counts):
        """The count of an array, which is one of `counts`."""
        return self.counted(self.head(), counts)

    def counted(self, head, counts):
        """The count of an array whose head was read, which is one of `counts`."""
        major, value = head
        if major != ARRAY or value is None:
            self.fault("B5")
        if value not in counts:
            self.fault("B6")
        return value

    def length(self, due):
        """The length of a byte string, which is DATA or CHECK."""
        self.due = due
        major, value = self.head()
        if major != BYTES or value is None:
            self.fault("B5")
        self.due = None
        return value

    def check_type(self, count, without):
        """A check type (section 4.2.1), in a block of `count` elements.

        A block without a check field has `without` elements.
        """
        kind = self.unsigned()
        if kind > 2:
            self.fault("B8")
        if count != without + (kind > 0):
            self.fault("B6")
        return kind

    def check_field(self, start, kind):
        """The check field of a block that begins at `start`, if it has one (section 4.2.2).

        Sections 4.3.1 and 4.3.2 say which bytes it covers.
        """
        if kind == 0:
            return
        width = WIDTH[kind]
        if self.length(CHECK) != width:
            self.fault("B12")
        stands = self.take(width)
        if stands != check(kind, self.content[start:self.at - width] + bytes(width)):
            self.fault("B13")

    def endpoint(self):
        """An endpoint ID (section 4.2.5.1)."""
        self.array([2])
        scheme = self.unsigned()
        if scheme not in (1, 2):
            self.fault("B9")
        return self.dtn() if scheme == 1 else self.ipn()

    def dtn(self):
        """The specific part of a dtn endpoint ID (section 4.2.5.1.1)."""
        head = self.head()
        if head == (UNSIGNED, 0):
            return None
        major, value = head
        if major != TEXT or value is None:
            self.fault("B10")
        if value > MAX_NAME:
            self.fault("B11")
        return self.take(value)

    def ipn(self):
        """The specific part of an ipn endpoint ID (section 4.2.5.1.2), of two numbers or three."""
        major, value = self.head()
        if major != ARRAY or value is None:
            self.fault("B10")
        return tuple(self.unsigned() for _ in range(self.counted((major, value), (2, 3))))

    def primary(self):
        """Reads the primary block (section 4.3.1), and keeps it and each field that is good."""
        start, fields = self.at, self.fields
        count = self.array(range(8, 12))
        version = self.unsigned()
        if version != 7:
            self.fault("B7")
        fields.append(version)
        fields.append(self.unsigned())
        is_fragment = fields[1] & 1
        fields.append(self.check_type(count, 10 if is_fragment else 8))
        for _ in range(3):
            fields.append(self.endpoint())
        self.array([2])
        fields.append((self.unsigned(), self.unsigned()))
        fields.append(self.unsigned())
        for _ in range(2 if is_fragment else 0):
            fields.append(self.unsigned())
        self.check_field(start, fields[2])
        self.is_whole = True
        _, flags, kind, destination, source, report_to, (time, sequence), lifetime, *fragment = fields
        numbers = time, sequence, lifetime, tuple(fragment) or None
        self.primary_block = Primary(start, self.at - start, flags, kind, destination, source, report_to, *numbers)

    def number(self, kind, earlier):
        """The number of a canonical block of type `kind` (section 4.1).

        `earlier` has the numbers of the blocks before it.
        """
        number = self.unsigned()
        if number == 0 or (number == 1) != (kind == 1):
            self.fault("B14")
        if number in earlier:
            self.fault("B15")
        return number

    def canonical(self, start, count, earlier):
        """Reads a canonical block after its first head (section 4.3.2), and returns it."""
        kind = self.unsigned()
        number = self.number(kind, earlier)
        flags = self.unsigned()
        check_kind = self.check_type(count, 5)
        length = self.length(DATA)
        if number == 1:
            self.payload = self.at, length
        data_at, data = self.at, self.take(length)
        self.check_field(start, check_kind)
        return Block(start, self.at - start, kind, number, flags, check_kind, data_at, data)

    def canonicals(self):
        """Reads the canonical blocks and the break (section 4.1), and keeps the blocks.

        The last block is the payload block, and no other block is.
        """
        numbers = []
        while 1 not in numbers:
            start, head = self.at, self.head()
            if head == (7, None):
                self.fault("B17")
            count = self.counted(head, (5, 6))
            if len(numbers) == MAX_BLOCKS:
                self.fault("B16")
            self.blocks.append(self.canonical(start, count, numbers))
            numbers.append(self.blocks[-1].number)
        if self.head() != (7, None):
            self.fault("B17")

    def bundle(self):
        """A bundle (section 4.1)."""
        if self.take(1) != b"\x9f":
            self.fault("B3")
        self.primary()
        self.canonicals()
        it = self.primary_block
        return Identity(it.source, it.time, it.sequence, it.destination, self.payload[1], it.fragment)


def first(content):
    """The judgement of the bundle at the beginning of some bytes, whatever comes after it."""
    scan = Scan(content)
    try:
        fault, identity, length = None, scan.bundle(), scan.at
    except Fault as it:
        code, place, length = it.args
        fault, identity = (code, place), None
    kept = scan.payload, scan.primary_block, tuple(scan.blocks), scan.long_head, scan.due
    return Judgement(fault, identity, length, *kept)


def primary(content):
    """The fields of the primary block before its first fault, in order, and whether it is whole."""
    scan = Scan(content)
    try:
        scan.bundle()
    except Fault:
        pass
    return scan.fields, scan.is_whole


def whole(content):
    """The judgement of some bytes that are to be one bundle. A byte after the bundle is B2."""
    judgement = first(content)
    if judgement.fault is None and judgement.length < len(content):
        return judgement._replace(fault=("B2", judgement.length), identity=None)
    return judgement
