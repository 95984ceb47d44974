"""`blocks`: the words of each type, and each offset at which data of it is malformed.

The data of an extension block begins at 28 in its bundle, and that of a record at 28 or 29.
"""

from .lines import ENDPOINTS, FIELDS, PAYLOAD, PRIMARY, PRIMARY_LINE, bundle_row

# The heads and data of an endpoint ID: ipn:5.0
NODE = "82 02 82 05 00"

# The data of extension blocks, and their words. The data has less than 24 bytes.
EXTENSIONS = {
    "6/previous-node": [
        (NODE, "node=ipn:5.0"),
        ("82 02 83 01 05 00", "node=ipn:1.5.0"),
        ("82 01 00", "node=dtn:none"),
        ("82 01 64 6e 6f 6e 65", "node=dtn:none"),
        ("82 01 65 2f 2f 61 5c 2f", "node=dtn://a\\x5c/"),
        ("82 01 60", "node=dtn:"),
        ("98 02 18 02 99 00 02 18 05 18 00", "node=ipn:5.0"),
        # The data ends where an item is due, or in a head
        ("", "malformed-at=28"),
        ("82", "malformed-at=29"),
        ("82 18", "malformed-at=30"),
        ("82 02 82 05", "malformed-at=32"),
        ("82 02 82 05 19 00", "malformed-at=34"),
        # The endpoint ID is no array of two
        ("00", "malformed-at=28"),
        ("81 02", "malformed-at=28"),
        ("83 02 82 05 00 00", "malformed-at=28"),
        ("9f 02 82 05 00 ff", "malformed-at=28"),
        ("c0 82 02 82 05 00", "malformed-at=28"),
        # Its scheme is none of the two
        ("82 03 00", "malformed-at=29"),
        ("82 20 00", "malformed-at=29"),
        # A dtn part is neither the number 0 nor a text of at most 1,024 bytes, all of them there
        ("82 01 01", "malformed-at=30"),
        ("82 01 41 61", "malformed-at=30"),
        ("82 01 7f 61 61 ff", "malformed-at=30"),
        ("82 01 62 61", "malformed-at=32"),
        ("82 01 79 04 01", "malformed-at=30"),
        ("82 01 79 04 01 61", "malformed-at=30"),
        ("82 01 79 04", "malformed-at=32"),
        ("82 01 79 04 00 61", "malformed-at=34"),
        # An ipn part is no array of two or three numbers
        ("82 02 05", "malformed-at=30"),
        ("82 02 81 05", "malformed-at=30"),
        ("82 02 84 05 00 00 00", "malformed-at=30"),
        ("82 02 9f 05 00 ff", "malformed-at=30"),
        ("82 02 82 05 20", "malformed-at=32"),
        # A head is ill-formed
        ("1c", "malformed-at=28"),
        ("82 1f", "malformed-at=29"),
        ("82 f8 1f", "malformed-at=29"),
        # A byte follows
        (f"{NODE} 00", "malformed-at=33"),
        (f"{NODE} ff ff", "malformed-at=33"),
    ],
    "7/bundle-age": [
        ("00", "age=0"),
        ("18 64", "age=100"),
        ("1b 00 00 00 00 00 00 00 07", "age=7"),
        ("1b ff ff ff ff ff ff ff ff", "age=18446744073709551615"),
        ("", "malformed-at=28"),
        ("18", "malformed-at=29"),
        ("1b 00 00 00 00 00 00 00", "malformed-at=36"),
        ("20", "malformed-at=28"),
        ("f9 00 00", "malformed-at=28"),
        ("c2 41 01", "malformed-at=28"),
        ("ff", "malformed-at=28"),
        ("1d", "malformed-at=28"),
        ("f8", "malformed-at=29"),
        ("f8 00", "malformed-at=28"),
        ("f8 20", "malformed-at=28"),
        ("38", "malformed-at=29"),
        ("3f", "malformed-at=28"),
        ("05 06", "malformed-at=29"),
        ("18 64 f8", "malformed-at=30"),
    ],
    "10/hop-count": [
        ("82 18 20 01", "limit=32 count=1"),
        ("82 00 19 ff ff", "limit=0 count=65535"),
        ("", "malformed-at=28"),
        ("05", "malformed-at=28"),
        ("80", "malformed-at=28"),
        ("81 05", "malformed-at=28"),
        ("83 05 06 07", "malformed-at=28"),
        ("9f 05 06 ff", "malformed-at=28"),
        ("82", "malformed-at=29"),
        ("82 40 01", "malformed-at=29"),
        ("82 05", "malformed-at=30"),
        ("82 05 f4", "malformed-at=30"),
        ("82 05 1a 00 00 01", "malformed-at=34"),
        ("82 05 06 07", "malformed-at=31"),
    ],
    "11/block-integrity": [
        ("81 00 01 00 82 02 82 01 01", "targets=1 context=1 context-flags=00 source=ipn:1.1"),
        ("82 00 01 01 01 82 01 63 2f 2f 61 82 01 02", "targets=2 context=1 context-flags=01 source=dtn://a"),
        ("80 20 00 82 01 00", "targets=0 context=-1 context-flags=00 source=dtn:none"),
        ("81 18 00 38 00 18 00 82 01 00", "targets=1 context=-1 context-flags=00 source=dtn:none"),
        ("80 3b ff ff ff ff ff ff ff ff 00 82 01 00",
         "targets=0 context=-18446744073709551616 context-flags=00 source=dtn:none"),
        ("80 1b ff ff ff ff ff ff ff ff 00 82 01 00",
         "targets=0 context=18446744073709551615 context-flags=00 source=dtn:none"),
        # Flags are shown in as many pairs of digits as they need
        ("80 01 18 ff 82 01 00", "targets=0 context=1 context-flags=ff source=dtn:none"),
        ("80 01 19 01 02 82 01 00", "targets=0 context=1 context-flags=0102 source=dtn:none"),
        ("80 01 1b ff ff ff ff ff ff ff ff 82 01 00", "targets=0 context=1 context-flags=ffffffffffffffff source=dtn:none"),
        # What follows the source is not read
        ("81 01 01 00 82 01 00 ff 1c", "targets=1 context=1 context-flags=00 source=dtn:none"),
        ("", "malformed-at=28"),
        ("00", "malformed-at=28"),
        ("9f 01 ff 01 00 82 01 00", "malformed-at=28"),
        ("84 81 00 01 00 82 01 00", "malformed-at=29"),
        ("81 20 01 00 82 01 00", "malformed-at=29"),
        ("82 00", "malformed-at=30"),
        ("9b ff ff ff ff ff ff ff ff 00", "malformed-at=38"),
        ("81 01 40 00 82 01 00", "malformed-at=30"),
        ("81 01 3f", "malformed-at=30"),
        ("81 01 f9 00 00", "malformed-at=30"),
        ("81 01 01", "malformed-at=31"),
        ("81 01 01 20 82 01 00", "malformed-at=31"),
        ("81 01 01 00 00", "malformed-at=32"),
        ("81 01 01 00 82 03 00", "malformed-at=33"),
        ("81 01 01 00 82 01", "malformed-at=34"),
    ],
    "12/block-confidentiality": [
        ("81 01 02 01 82 02 82 01 01 80 80", "targets=1 context=2 context-flags=01 source=ipn:1.1"),
        ("81 01 02 01 82 02 82 01", "malformed-at=36"),
    ],
    "0/?": [("ff", "")],
    "13/?": [("1c", "")],
}

# The beginning of a status report, and the rest with reason 0 of the bundle ipn:5.0 at 0, 0
NO, YES = "81 f4", "81 f5"
REST = f"00 {NODE} 82 00 00"
SUBJECT = "of-source=ipn:5.0 of-time=0 of-sequence=0"
NO_SUBJECT = "of-source=dtn:none of-time=0 of-sequence=0"
NONE = "received=no forwarded=no delivered=no deleted=no"
NO_REASON = "reason=0/no-additional-information"

# The data of a payload block of an administrative record, and its words. Up to 23 bytes, the data
# begins at 28.
RECORDS = [
    ("82 02", "record=2/?"),
    ("82 00 ff ff", "record=0/?"),
    ("98 02 18 ff", "record=255/?"),
    (f"82 01 84 84 {NO} {NO} {NO} {NO} {REST}", f"record=1/status-report {NONE} {NO_REASON} {SUBJECT}"),
    ("", "malformed-at=28"),
    ("01", "malformed-at=28"),
    ("81 02", "malformed-at=28"),
    ("83 02 00 00", "malformed-at=28"),
    ("9f 02 00 ff", "malformed-at=28"),
    ("82", "malformed-at=29"),
    ("82 20", "malformed-at=29"),
    ("82 01", "malformed-at=30"),
    ("82 01 00", "malformed-at=30"),
    ("82 01 83", "malformed-at=30"),
    ("82 01 85", "malformed-at=30"),
    ("82 01 87", "malformed-at=30"),
    ("82 01 84", "malformed-at=31"),
    # The statuses are no array of at least four
    ("82 01 84 00", "malformed-at=31"),
    (f"82 01 84 83 {NO} {NO} {NO} 00", "malformed-at=31"),
    ("82 01 84 9f", "malformed-at=31"),
    # A status is no array of one or two
    ("82 01 84 84", "malformed-at=32"),
    ("82 01 84 84 f4", "malformed-at=32"),
    ("82 01 84 84 80", "malformed-at=32"),
    ("82 01 84 84 83 f5 00 00", "malformed-at=32"),
    (f"82 01 84 84 {NO} {NO} f5", "malformed-at=36"),
    # A Boolean is one byte, and a longer head is judged when it is complete
    ("82 01 84 84 81", "malformed-at=33"),
    ("82 01 84 84 81 f6", "malformed-at=33"),
    ("82 01 84 84 81 01", "malformed-at=33"),
    ("82 01 84 84 81 f8 f4", "malformed-at=33"),
    ("82 01 84 84 81 f8 14", "malformed-at=33"),
    ("82 01 84 84 81 f8", "malformed-at=34"),
    ("82 01 84 84 81 f9 00 14", "malformed-at=33"),
    ("82 01 84 84 81 f9 00", "malformed-at=35"),
    # A time follows true alone
    ("82 01 84 84 82 f4 00", "malformed-at=33"),
    ("82 01 84 84 82 f5", "malformed-at=34"),
    ("82 01 84 84 82 f5 20", "malformed-at=34"),
    ("82 01 84 84 82 f5 f5", "malformed-at=34"),
    # A fifth status is read too
    (f"82 01 84 85 {NO} {NO} {NO} {NO} f6 {REST}", "malformed-at=40"),
    # The reason, the source and the creation timestamp
    (f"82 01 84 84 {NO} {NO} {NO} {NO} 20", "malformed-at=40"),
    (f"82 01 84 84 {NO} {NO} {NO} {NO} 00 00", "malformed-at=41"),
    (f"82 01 84 84 {NO} {NO} {NO} {NO} 00 82 01 00 00", "malformed-at=44"),
    (f"82 01 84 84 {NO} {NO} {NO} {NO} 00 82 01 00 83", "malformed-at=44"),
    (f"82 01 84 84 {NO} {NO} {NO} {NO} 00 82 01 00 82 00", "malformed-at=46"),
    (f"82 01 84 84 {NO} {NO} {NO} {NO} 00 82 01 00 82 00 40", "malformed-at=46"),
    # A byte follows, also one of an array of six in an array of four
    (f"82 01 84 84 {NO} {NO} {NO} {NO} 00 82 01 00 82 00 00 06", "malformed-at=47"),
    (f"82 01 86 84 {NO} {NO} {NO} {NO} 00 82 01 00 82 00 00", "malformed-at=47"),
    (f"82 01 86 84 {NO} {NO} {NO} {NO} 00 82 01 00 82 00 00 06", "malformed-at=48"),
    (f"82 01 86 84 {NO} {NO} {NO} {NO} 00 82 01 00 82 00 00 06 20", "malformed-at=48"),
]

# The same for data of more than 23 bytes, which begins at 29
LONG_RECORDS = [
    (
        f"82 01 86 84 82 f5 19 03 e8 {YES} 82 f5 00 {NO} 01 82 02 82 05 07 82 1a 00 01 00 00 09 06 0c",
        "record=1/status-report received=1000 forwarded=yes delivered=0 deleted=no reason=1/lifetime-expired"
        " of-source=ipn:5.7 of-time=65536 of-sequence=9 of-fragment=6+12",
    ),
    (f"82 01 84 85 {NO} {NO} {NO} {YES} {YES} {REST}",
     f"record=1/status-report received=no forwarded=no delivered=no deleted=yes {NO_REASON} {SUBJECT}"),
    (f"82 01 84 86 {NO} {NO} {NO} {NO} {YES} 82 f5 07 {REST}", f"record=1/status-report {NONE} {NO_REASON} {SUBJECT}"),
    (f"82 01 84 85 {NO} {NO} {NO} {NO} 82 f4 00 {REST}", "malformed-at=42"),
    (f"82 01 84 9a ff ff ff ff {NO} {NO} {NO} {NO} {REST}", "malformed-at=45"),
    (f"82 01 84 84 {NO} {NO} {NO} {NO} {REST} 00 00 00", "malformed-at=50"),
    (f"82 01 86 84 {NO} {NO} {NO} {NO} {REST} 06 0c 12", "malformed-at=52"),
]

# The names of the reasons 0 to 16 (RFC 9171 section 6.1.1 and RFC 9172 section 7.1)
REASONS = """
no-additional-information lifetime-expired forwarded-over-unidirectional-link transmission-canceled
depleted-storage destination-unavailable no-known-route no-timely-contact block-unintelligible
hop-limit-exceeded traffic-pared block-unsupported missing-security-operation
unknown-security-operation unexpected-security-operation failed-security-operation
conflicting-security-operation ?
""".split()

# The payload block of 7 bytes at 22, in a bundle that is an administrative record
RECORD_FLAGS = f"88 07 02 00 {ENDPOINTS} 82 00 00 00"
RECORD_LINE = f"primary at=1 length=21 flags=02 check=none {FIELDS}"


def extension(kind, data, words):
    """A bundle whose extension block has this data, of less than 24 bytes, and these words."""
    length, code = len(bytes.fromhex(data)), int(kind.split("/")[0])
    block = f"85 {code:02x} 02 00 00 {0x40 + length:02x} {data}"
    end = 28 + length
    return bundle_row(f"{kind}: {data}", f"9f {PRIMARY} {block} {PAYLOAD} ff", [
        PRIMARY_LINE,
        f"block 2 at=22 length={6 + length} type={kind} flags=00 check=none data-at=28"
        f" data-length={length} {words}".rstrip(),
        f"block 1 at={end} length=7 type=1/payload flags=00 check=none data-at={end + 6} data-length=1",
        f"end length={end + 8} good",
    ])


def record(data, words):
    """A bundle whose payload has this data and these words."""
    length = len(bytes.fromhex(data))
    spelled, head = (f"{0x40 + length:02x}", 6) if length < 24 else (f"58 {length:02x}", 7)
    return bundle_row(f"record: {data}", f"9f {RECORD_FLAGS} 85 01 01 00 00 {spelled} {data} ff", [
        RECORD_LINE,
        f"block 1 at=22 length={head + length} type=1/payload flags=00 check=none"
        f" data-at={22 + head} data-length={length} {words}",
        f"end length={23 + head + length} good",
    ])


def reasons():
    """Each reason of a status report, and one without a name."""
    for code, name in enumerate(REASONS):
        data = f"82 01 84 84 {NO} {NO} {NO} {NO} {code:02x} 82 01 00 82 00 00"
        yield record(data, f"record=1/status-report {NONE} reason={code}/{name} {NO_SUBJECT}")
    data = f"82 01 84 84 {NO} {NO} {NO} {NO} 19 01 00 82 01 00 82 00 00"
    yield record(data, f"record=1/status-report {NONE} reason=256/? {NO_SUBJECT}")


def where_words_are():
    """The payload has words only in an administrative record that is no fragment."""
    fields = f"{ENDPOINTS} 82 00 00 00"
    yield bundle_row("no record", f"9f 88 07 00 00 {fields} 85 01 01 00 00 42 82 02 ff", [
        PRIMARY_LINE,
        "block 1 at=22 length=8 type=1/payload flags=00 check=none data-at=28 data-length=2",
        "end length=31 good",
    ])
    yield bundle_row("a fragment of a record", f"9f 8a 07 03 00 {fields} 00 09 85 01 01 00 00 42 82 02 ff", [
        f"primary at=1 length=23 flags=03 check=none {FIELDS} fragment=0/9",
        "block 1 at=24 length=8 type=1/payload flags=00 check=none data-at=30 data-length=2",
        "end length=33 good",
    ])
    blocks = "85 07 02 00 00 41 05 85 01 01 00 00 40"
    yield bundle_row("an age in a fragment", f"9f 8a 07 01 00 {fields} 00 09 {blocks} ff", [
        f"primary at=1 length=23 flags=01 check=none {FIELDS} fragment=0/9",
        "block 2 at=24 length=7 type=7/bundle-age flags=00 check=none data-at=30 data-length=1 age=5",
        "block 1 at=31 length=6 type=1/payload flags=00 check=none data-at=37 data-length=0",
        "end length=38 good",
    ])


def long_texts():
    """A node whose name has 1,024 bytes, and one with a byte more. Their data begins at 30."""
    for length, words in [(1024, f"node=dtn:{'a' * 1024}"), (1025, "malformed-at=32")]:
        block = f"85 06 02 00 00 59 {5 + length:04x} 82 01 79 {length:04x} {'61' * length}"
        end = 30 + 5 + length
        yield bundle_row(f"a name of {length} bytes", f"9f {PRIMARY} {block} {PAYLOAD} ff", [
            PRIMARY_LINE,
            f"block 2 at=22 length={end - 22} type=6/previous-node flags=00 check=none data-at=30"
            f" data-length={5 + length} {words}",
            f"block 1 at={end} length=7 type=1/payload flags=00 check=none data-at={end + 6} data-length=1",
            f"end length={end + 8} good",
        ])


def rows():
    """The rows of this file."""
    yield from (extension(kind, *case) for kind, cases in EXTENSIONS.items() for case in cases)
    yield from (record(data, words) for data, words in [*RECORDS, *LONG_RECORDS])
    for part in (reasons, where_words_are, long_texts):
        yield from part()
