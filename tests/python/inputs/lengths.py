"""Each length field of a stream, and each head of a bundle, at hostile values.

After it comes nothing, one byte, or all that it says.
"""

from .prefixes import BLOCKS, BUNDLE_BLOCKS, CHECKS, LISTS, PACKS, UNPACKS
from .spelling import (
    CONTACT, END, START, canonical, carried, head, item, laid, primary, segment, sess_init, spelled, total,
)

# The most bytes that are made for a length. After a greater length, the input ends before them.
MOST = 100 * 1024
SPELLINGS = {0: 23, 1: 2**8 - 1, 2: 2**16 - 1, 4: 2**32 - 1, 8: 2**64 - 1}

EVERY_LENGTH = [
    CONTACT,
    *sess_init(items=[item("session", 0x01, 0x1234, b"\xaa"), item("session", 0x00, 0xABCD, b"")]),
    *segment(START, 0, b"\x9f\x88", [total(3), item("transfer", 0x00, 0x0002, b"")]),
    *segment(END, 0, b"\x07"),
    b"\x05\x00\x00",
]

# A bundle with every kind of endpoint ID and of check, and a fragment without checks.
CHECKED = [
    primary((4196, 2, 1), b"//node/a", None, kind=1, stamp=(700, 7)),
    canonical(192, 2, b"abc", kind=2),
    canonical(1, 1, b"hello", kind=1),
]
FRAGMENT = [
    primary((2, 1), (1, 1), b"", flags=1, fragment=(6, 18)),
    canonical(7, 3, b"\x00"),
    canonical(1, 1, b"middle"),
]
BUNDLES = {"bundle with checks": CHECKED, "fragment": FRAGMENT}

# Heads of each major type and of each length. Some are ill-formed, some are cut, some have an
# indefinite length, one is the tag of embedded CBOR, and one is the break.
KINDS = [bytes.fromhex(it) for it in [
    "00", "17", "1818", "20", "40", "60", "80", "c0", "d818", "e0", "f4", "f7", "f81f", "f820", "f90000", "fb0000000000000000",
    "1c", "1d", "1e", "1f", "3f", "5c", "5f", "7f", "9e", "9f", "bf", "df", "fc", "ff", "f8", "18", "1900", "1a000000",
]]


def tails(before, as_it_was, full):
    """Inputs that go on differently after a length.

    They have nothing after it, one byte, the bytes that were there, or all bytes that it says.
    `full` is None if the last are too many.
    """
    inputs = [before, before + b"\x00", before + as_it_was] + ([] if full is None else [before + full])
    return dict.fromkeys(inputs)


def values(limit, greatest):
    """The hostile values of a length."""
    return sorted(it for it in {0, 1, limit, limit + 1, greatest} if it <= greatest)


def of_field(stream, field):
    """A stream with one length field at each hostile value."""
    length, begin = field.length, field.at + field.length.width
    says = int.from_bytes(stream[field.at:begin], "big")
    for value in values(length.limit, 256**length.width - 1):
        full = length.fill(value) + stream[begin + says:] if value <= MOST else None
        before = stream[:field.at] + value.to_bytes(length.width, "big")
        for changed in tails(before, stream[begin:], full):
            yield changed, LISTS + UNPACKS[::2] + BLOCKS[:1] + CHECKS[:1]


def of_fields(name):
    """A stream with each length field of one name at each hostile value."""
    stream, fields = laid(EVERY_LENGTH)
    for field in fields:
        if field.length.name == name:
            yield from of_field(stream, field)


def spellings(it):
    """The hostile values of a head, each in every spelling (RFC 8949 section 3)."""
    for width, greatest in SPELLINGS.items():
        for value in values(max(it.value, it.limit), greatest):
            yield value, head(it.major, value, width)


def resized(value):
    """A function that makes `value` bytes of content from the content of a head."""
    return lambda content: (content + bytes(value))[:value]


def bundle_runs(content):
    """A bundle alone, and as the data of a transfer."""
    yield content, PACKS[2:3] + BUNDLE_BLOCKS
    yield carried(content), UNPACKS[2:3] + BLOCKS[:1] + CHECKS[:1]


def of_head(blocks, number, it):
    """A bundle with one head at each hostile value."""
    for value, other in spellings(it):
        changed, after = spelled(blocks, number, other)
        has_content = it.content or it.check
        full = spelled(blocks, number, other, resized(value))[0][after:] if has_content and value <= MOST else None
        for content in tails(changed[:after], changed[after:], full):
            yield from bundle_runs(content)


def of_kinds(blocks, number):
    """A bundle with a head of each kind in place of one of its heads.

    After that head comes nothing, or the rest of the bundle.
    """
    for other in KINDS:
        changed, after = spelled(blocks, number, other)
        for content in (changed[:after], changed):
            yield from bundle_runs(content)


def of_block(blocks, index, inputs_of):
    """The inputs for each head of one block."""
    first = sum(len(it) for it in blocks[:index])
    for number, it in enumerate(blocks[index], first):
        yield from inputs_of(number, it)


def of_ends():
    """A bundle with each kind of head in place of its first byte and of its break."""
    whole, _ = spelled(CHECKED)
    for other in KINDS + [bytes([byte]) for byte in range(256)]:
        yield from bundle_runs(other + whole[1:])
        yield from bundle_runs(whole[:-1] + other)


def groups():
    """The groups of this file."""
    names = dict.fromkeys(it.length.name for it in laid(EVERY_LENGTH)[1])
    yield from ((f"lengths: {name}", lambda name=name: of_fields(name)) for name in names)
    for name, blocks in BUNDLES.items():
        for index, it in enumerate(["primary block", "extension block", "payload block"]):
            yield (f"heads: {name}, {it}", lambda blocks=blocks, index=index: of_block(
                blocks, index, lambda number, it: of_head(blocks, number, it)))
            yield (f"kinds: {name}, {it}", lambda blocks=blocks, index=index: of_block(
                blocks, index, lambda number, it: of_kinds(blocks, number)))
    yield "kinds: first byte and break", of_ends
