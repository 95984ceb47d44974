"""`blocks`: each form of a line, where the lines of a transfer end, and the options."""

import make
from inputs.prefixes import bundles as other_bundles

from . import Row

START, END, BOTH = make.START, make.END, make.START | make.END

# A contact header and a SESS_INIT: 38 bytes. A START has 22 bytes before its data if its list is
# empty, 35 with a Transfer Length item, and 48 with two. Another segment has 18.
HEAD = make.CONTACT + make.sess_init()

# The destination ipn:2.1, the source ipn:1.1 and the report-to dtn:none: 13 bytes
ENDPOINTS = "82 02 82 02 01 82 02 82 01 01 82 01 00"
# A primary block of 21 bytes, which is at offset 1
PRIMARY = f"88 07 00 00 {ENDPOINTS} 82 00 00 00"
# 7 bytes, of which the last is the data
PAYLOAD = "85 01 01 00 00 41 78"

# 30 bytes
BUNDLE = bytes.fromhex(f"9f {PRIMARY} {PAYLOAD} ff")

FIELDS = "destination=ipn:2.1 source=ipn:1.1 report-to=dtn:none time=0 sequence=0 lifetime=0"
PRIMARY_LINE = f"primary at=1 length=21 flags=00 check=none {FIELDS}"
PAYLOAD_LINE = "block 1 at=22 length=7 type=1/payload flags=00 check=none data-at=28 data-length=1"
BLOCKS = [PRIMARY_LINE, PAYLOAD_LINE]
GOOD = [*BLOCKS, "end length=30 good"]

# An extension block of 12 bytes at 22, whose check is that of no such block
DAMAGED_BLOCK = "86 07 02 00 01 41 05 42 00 00"

OTHERS = dict(other_bundles())


def numbered(number, lines):
    """Lines with their first word."""
    return [f"{number} {line}" for line in lines]


def bundle_row(name, spelling, lines):
    """A row of `blocks --bundles` of one good bundle, in hexadecimal or as bytes."""
    content = spelling if isinstance(spelling, bytes) else bytes.fromhex(spelling)
    return Row(name, "blocks", {"bundles": True}, content, numbered(0, lines), [], 0)


def stream_row(name, segments, output, report=(), status=0, **options):
    """A row of `blocks` of a recording with these messages after its SESS_INIT."""
    return Row(name, "blocks", options, HEAD + b"".join(segments), output, list(report), status)


def data_row(name, data, lines, report=(), status=1):
    """A row of a recording with one transfer of this data in one segment."""
    return stream_row(name, [make.xfer_segment(BOTH, 0, data)], numbered(0, lines), report, status)


def forms():
    """Each form of a primary block's line and of a block's line, in a good bundle."""
    yield bundle_row("a bundle", BUNDLE, GOOD)
    yield bundle_row("a fragment", f"9f 8a 07 01 00 {ENDPOINTS} 82 00 00 00 06 12 {PAYLOAD} ff", [
        f"primary at=1 length=23 flags=01 check=none {FIELDS} fragment=6/18",
        "block 1 at=24 length=7 type=1/payload flags=00 check=none data-at=30 data-length=1",
        "end length=32 good",
    ])
    yield bundle_row("a fragment of nothing", f"9f 8a 07 01 00 {ENDPOINTS} 82 00 00 00 00 00 {PAYLOAD} ff", [
        f"primary at=1 length=23 flags=01 check=none {FIELDS} fragment=0/0",
        "block 1 at=24 length=7 type=1/payload flags=00 check=none data-at=30 data-length=1",
        "end length=32 good",
    ])
    yield bundle_row("a CRC-16", OTHERS["dtn endpoints, CRC-16 in the primary block"], [
        "primary at=1 length=56 flags=04 check=crc16 destination=dtn://node/a source=dtn://node/b"
        " report-to=dtn://node/b time=700000000000 sequence=7 lifetime=3600000",
        "block 1 at=57 length=34 type=1/payload flags=00 check=none data-at=64 data-length=27",
        "end length=92 good",
    ])
    yield bundle_row("a CRC-32C and a source of dtn:none", OTHERS["dtn:none as source, CRC-32C in the primary block"], [
        "primary at=1 length=54 flags=020004 check=crc32c destination=dtn://far/away/inbox source=dtn:none"
        " report-to=dtn:none time=700000000000 sequence=0 lifetime=86400000",
        "block 1 at=55 length=7 type=1/payload flags=00 check=none data-at=61 data-length=1",
        "end length=63 good",
    ])
    yield bundle_row("extension blocks with checks", OTHERS["CRC-32C in every block"], [
        "primary at=1 length=26 flags=00 check=crc32c destination=ipn:2.1 source=ipn:1.1 report-to=dtn:none"
        " time=5 sequence=6 lifetime=7",
        "block 2 at=27 length=14 type=7/bundle-age flags=00 check=crc32c data-at=33 data-length=3 age=1000",
        "block 3 at=41 length=15 type=10/hop-count flags=00 check=crc32c data-at=47 data-length=4 limit=30 count=1",
        "block 1 at=56 length=23 type=1/payload flags=00 check=crc32c data-at=62 data-length=12",
        "end length=80 good",
    ])
    yield from numbers()


def numbers():
    """Flags of one digit and more, the greatest numbers, types without a name, and endpoint IDs."""
    begins = f"88 07 1a 00 04 40 00 00 {ENDPOINTS} 82 00 00 00"
    yield bundle_row("flags", f"9f {begins} 85 18 c0 02 19 01 10 00 40 85 01 01 0f 00 41 78 ff", [
        f"primary at=1 length=25 flags=044000 check=none {FIELDS}",
        "block 2 at=26 length=9 type=192/? flags=0110 check=none data-at=35 data-length=0",
        "block 1 at=35 length=7 type=1/payload flags=0f check=none data-at=41 data-length=1",
        "end length=43 good",
    ])
    greatest, most = "1b ff ff ff ff ff ff ff ff", 2**64 - 1
    yield bundle_row(
        "the greatest numbers",
        f"9f 8a 07 {greatest} 00 82 02 82 {greatest} 00 82 01 00 82 01 00 82 {greatest} {greatest} {greatest}"
        f" {greatest} {greatest} 85 {greatest} {greatest} {greatest} 00 40 {PAYLOAD} ff", [
            f"primary at=1 length=77 flags=ffffffffffffffff check=none destination=ipn:{most}.0 source=dtn:none"
            f" report-to=dtn:none time={most} sequence={most} lifetime={most} fragment={most}/{most}",
            f"block {most} at=78 length=30 type={most}/? flags=ffffffffffffffff check=none data-at=108 data-length=0",
            "block 1 at=108 length=7 type=1/payload flags=00 check=none data-at=114 data-length=1",
            "end length=116 good",
        ],
    )
    yield bundle_row("a type that ends as the payload's", f"9f {PRIMARY} 85 1b 00 00 00 01 00 00 00 01 02 00 00 40 {PAYLOAD} ff", [
        PRIMARY_LINE,
        "block 2 at=22 length=14 type=4294967297/? flags=00 check=none data-at=36 data-length=0",
        "block 1 at=36 length=7 type=1/payload flags=00 check=none data-at=42 data-length=1",
        "end length=44 good",
    ])
    endpoints = "82 01 63 61 20 62 82 02 83 01 02 03 82 01 60"
    yield bundle_row("endpoint IDs", f"9f 88 07 00 00 {endpoints} 82 00 00 00 {PAYLOAD} ff", [
        "primary at=1 length=23 flags=00 check=none destination=dtn:a\\x20b source=ipn:1.2.3 report-to=dtn:"
        " time=0 sequence=0 lifetime=0",
        "block 1 at=24 length=7 type=1/payload flags=00 check=none data-at=30 data-length=1",
        "end length=32 good",
    ])
    begins = f"98 08 07 00 00 {ENDPOINTS} 82 00 00 00"
    yield bundle_row("heads longer than needed", f"9f {begins} 85 01 01 18 00 00 58 01 78 ff", [
        f"primary at=1 length=22 flags=00 check=none {FIELDS}",
        "block 1 at=23 length=9 type=1/payload flags=00 check=none data-at=31 data-length=1",
        "end length=33 good",
    ])


def ends():
    """Transfers that are good, abandoned, or of another length than is announced."""
    length = make.length_item
    yield stream_row("a transfer of one segment", [make.xfer_segment(BOTH, 7, BUNDLE)], numbered(7, GOOD))
    yield stream_row(
        "a transfer of two segments",
        [make.xfer_segment(START, 0, BUNDLE[:9], length(30)), make.KEEPALIVE, make.xfer_segment(END, 0, BUNDLE[9:])],
        numbered(0, GOOD),
    )
    for name, items, judgement in [
        ("two announcements", [length(30), length(30)], "bad-length-item"),
        ("another length announced", [length(31)], "length-differs announced=31"),
    ]:
        lines = numbered(0, [*BLOCKS, f"end length=30 {judgement}"])
        yield stream_row(name, [make.xfer_segment(BOTH, 0, BUNDLE, *items)], lines, status=1)
    yield stream_row(
        "abandoned by another, after its payload block",
        [make.xfer_segment(START, 0, BUNDLE[:29]), make.xfer_segment(BOTH, 1, BUNDLE)],
        [*numbered(0, [*BLOCKS, "end length=29 abandoned"]), *numbered(1, GOOD)], status=1,
    )
    yield stream_row(
        "abandoned by the end, after its primary block", [make.xfer_segment(START, 0, BUNDLE[:28])],
        numbered(0, [PRIMARY_LINE, "end length=28 abandoned"]), status=1,
    )


def damage():
    """Transfers that are no bundle, and the blocks before the fault."""
    yield data_row("no data", b"", ["end length=0 bad=B1 byte=0"])
    yield data_row("cut in the primary block", BUNDLE[:21], ["end length=21 bad=B1 byte=21"])
    yield data_row("cut after the primary block", BUNDLE[:22], [PRIMARY_LINE, "end length=22 bad=B1 byte=22"])
    yield data_row("cut in the payload", BUNDLE[:28], [PRIMARY_LINE, "end length=28 bad=B1 byte=28"])
    yield data_row("only the break is missing", BUNDLE[:29], [*BLOCKS, "end length=29 bad=B1 byte=29"])
    yield data_row("a block after the payload", BUNDLE[:29] + BUNDLE[22:], [*BLOCKS, "end length=37 bad=B17 byte=29"])
    yield data_row("a byte after the bundle", BUNDLE + b"\x00", [*BLOCKS, "end length=31 bad=B2 byte=30"])
    yield data_row("the payload's check differs", make.DAMAGED, [PRIMARY_LINE, "end length=37 bad=B13 byte=33"])
    yield data_row(
        "an extension block's check differs", bytes.fromhex(f"9f {PRIMARY} {DAMAGED_BLOCK} {PAYLOAD} ff"),
        [PRIMARY_LINE, "end length=40 bad=B13 byte=29"],
    )
    yield data_row(
        "the number of a block is repeated",
        bytes.fromhex(f"9f {PRIMARY} 85 02 02 00 00 40 85 03 02 00 00 40 {PAYLOAD} ff"),
        [PRIMARY_LINE, "block 2 at=22 length=6 type=2/? flags=00 check=none data-at=28 data-length=0",
         "end length=42 bad=B15 byte=30"],
    )


def faults():
    """Faults of the stream and of the order. A transfer that is open has no end line."""
    begins, whole = make.xfer_segment(START, 0, BUNDLE[:22]), make.xfer_segment(BOTH, 0, BUNDLE)
    yield Row("no recording", "blocks", {}, b"", [], ["tcpclkit: byte 0: truncated"], 3)
    yield stream_row("no transfer", [], [])
    yield stream_row(
        "open at a fault", [begins, b"\x16"], numbered(0, [PRIMARY_LINE]),
        ["tcpclkit: byte 82: unknown message type 16"], 3,
    )
    yield stream_row(
        "a last segment that is cut", [whole[:-1]], numbered(0, BLOCKS), ["tcpclkit: byte 38: truncated"], 3,
    )
    stray = make.xfer_segment(END, 1, BUNDLE)
    yield stream_row(
        "a fault of the order", [begins, stray], numbered(0, [PRIMARY_LINE]),
        ["tcpclkit: byte 82: no such open transfer"], 3,
    )
    yield stream_row(
        "past a fault of the order", [begins, stray, make.xfer_segment(END, 0, BUNDLE[22:])], numbered(0, GOOD),
        ["tcpclkit: byte 82: no such open transfer"], 1, keep_going=True,
    )
    yield stream_row(
        "past a repeated start", [begins, whole], numbered(0, [PRIMARY_LINE, "end length=22 abandoned", *GOOD]),
        ["tcpclkit: byte 82: start repeats the open transfer"], 1, keep_going=True,
    )


def selections():
    """`--transfer` selects lines. The other transfers count for the status."""
    segments = [make.xfer_segment(BOTH, ident, data) for ident, data in [(0, BUNDLE), (1, b""), (0, BUNDLE[:22])]]
    cut = [PRIMARY_LINE, "end length=22 bad=B1 byte=22"]
    nothing = ["end length=0 bad=B1 byte=0"]
    yield stream_row("each transfer of an ID", segments, numbered(0, GOOD + cut), status=1, transfer=0)
    yield stream_row("another transfer", segments, numbered(1, nothing), status=1, transfer=1)
    yield stream_row("no transfer has the ID", segments[:1], [], transfer=2)
    yield stream_row("the others are not good", segments[:2], numbered(0, GOOD), status=1, transfer=0)
    yield stream_row("all transfers", segments, numbered(0, GOOD) + numbered(1, nothing) + numbered(0, cut), status=1)


def files():
    """`--bundles`: good bundles, the first bad one, and no bundle."""
    for name, after, lines, fault in [
        ("two bundles", BUNDLE, GOOD, None),
        ("a bundle and what is none", b"\x00", [], "byte 0: B3 not a bundle"),
        ("a bundle and one that is cut", BUNDLE[:28], [PRIMARY_LINE], "byte 28: B1 input ends inside a bundle"),
        ("a bundle and one whose check differs", make.DAMAGED + BUNDLE, [PRIMARY_LINE], "byte 33: B13 check differs"),
        ("a bundle and one without its break", BUNDLE[:29] + BUNDLE, BLOCKS, "byte 29: B17 no payload block at the end"),
    ]:
        output, report = numbered(0, GOOD) + numbered(1, lines), [f"tcpclkit: bundle 1 {fault}"] if fault else []
        yield Row(name, "blocks", {"bundles": True}, BUNDLE + after, output, report, 3 if fault else 0)
    yield Row("no bundle", "blocks", {"bundles": True}, b"", [], [], 0)


def rows():
    """The rows of this file."""
    for part in (forms, ends, damage, faults, selections, files):
        yield from part()
