"""`check`: for each rule of bundles, bundles that break it alone and that keep it.

Rules of security blocks are in `security`. Offsets are those of `broken`.
"""

from inputs.spelling import encoded, endpoint, hop_count, security, status_report, unsigned

from .broken import (
    AGE, AGE_3, CHECK_FIELD, HIDDEN, HIDDEN_2, HIDDEN_64, HIDDEN_65, HIDDEN_CUT, HOPS, INTEGRITY, LAST, MISSING, NODE,
    OPEN_RECORD, RECORD, VERSION, block, bundle, cut, hiding, protecting, report, rows_of_bundles, spelled_long,
)

# A previous node without the form of a dtn name, and a block of a type for private use
NOBODY, OTHER = block(6, 2, endpoint(b"n")), block(192, 4, b"x")

# An age of 8 bytes, and a block of integrity of 16. The first head in the data of each is long.
LONG_AGE, LONG_2 = block(7, 3, b"\x18\x05"), block(11, 2, b"\x98\x01\x01\x01\x00\x82\x02\x82\x01\x01")

# Security blocks of which a head is long, and its offset. The data of these and of the following is at 31.
LONG_SECURITY = [
    ("98 01 01 03 00 82 02 82 01 01", 31), ("81 18 01 03 00 82 02 82 01 01", 32), ("81 01 18 03 00 82 02 82 01 01", 33),
    ("81 01 03 18 00 82 02 82 01 01", 34), ("81 01 03 00 98 02 02 82 01 01", 35), ("81 01 03 00 82 18 02 82 01 01", 36),
    ("81 01 03 00 82 02 98 02 01 01", 37), ("81 01 03 00 82 02 82 18 01 01", 38), ("81 01 03 00 82 02 82 01 18 01", 39),
    ("81 01 03 00 82 01 18 00", 37), ("81 01 03 00 82 01 78 04 2f 2f 6e 2f", 37),
    ("81 01 1a 00 00 00 ff 00 82 01 00", 33), ("81 01 1b 00 00 00 00 ff ff ff ff 00 82 01 00", 33),
    ("81 18 01 18 03 00 82 01 00", 32),
]
# 65 targets, of which the last is long
TARGETS = b"".join(b"\x19\x01%c" % low for low in range(64))
MANY_TARGETS = b"\x98\x41" + TARGETS + bytes.fromhex("1a 00 00 01 40 02 00 82 01 00")
# The same of a previous node, a bundle age and a hop count
LONG_DATA = [
    (7, "18 05", 31), (7, "19 00 05", 31), (7, "1a 00 00 00 05", 31), (7, "1b 00 00 00 00 00 00 00 05", 31),
    (10, "98 02 05 01", 31), (10, "82 18 05 01", 32), (10, "82 05 18 01", 33), (6, "98 02 02 82 05 00", 31),
    (6, "82 18 02 82 05 00", 32), (6, "82 02 98 02 05 00", 33), (6, "82 02 82 18 05 00", 34), (6, "82 02 82 05 18 00", 35),
    (6, "82 01 78 04 2f 2f 6e 2f", 33),
]
# Security blocks that the RFC forbids, and that are not read
WRONG_SECURITY = [
    ("", 31), ("00", 31), ("1f", 31), ("81", 32), ("81 1c", 32), ("81 20 01 00 82 01 00", 32), ("81 81 01 03 00 82 01 00", 32),
    ("81 01 40", 33), ("81 01 03", 34), ("81 01 03 20 82 01 00", 34), ("81 01 03 00", 35), ("81 01 03 00 00", 35),
    ("81 01 03 00 83 01 00 00", 35), ("81 01 03 00 82 20 00", 36), ("81 01 03 00 82 01 01", 37), ("81 01 03 00 82 02 81 01", 37),
    ("81 01 03 00 82 02 82 01", 39), ("81 01 03 00 82 01 64 2f 2f 6e", 41),
]
OPEN_SECURITY = [
    ("9f 01 ff 03 00 82 01 00", 31), ("81 5f 41 01 ff", 32), ("81 01 5f", 33), ("81 01 03 7f", 34),
    ("81 01 03 00 9f 02 82 01 01 ff", 35), ("81 01 03 00 bf", 35), ("81 01 03 00 82 9f", 36), ("81 01 03 00 82 03", 36),
    ("81 01 03 00 82 00", 36), ("81 01 03 00 82 1a 00 01 00 00 00", 36), ("81 01 03 00 82 01 7f 61 6e ff", 37),
    ("81 01 03 00 82 02 9f 01 01 ff", 37), ("81 01 03 00 82 01 79 04 01", 37), ("81 01 03 00 82 02 82 01 5f", 39),
]

# A status report of a fragment of 5 bytes, of which one status has a time and another has none
OF_A_FRAGMENT = encoded(status_report([7, True, False, False], 0, (2, 1), (1, 0), (7, 5)))

# For each rule of bundles, bundles that break it alone, and bundles that keep it
BUNDLES = {
    "long-head": (
        [
            (spelled_long(VERSION), "must long-head: byte=2"),
            (spelled_long(CHECK_FIELD), "must long-head: byte=22"),
            (spelled_long(CHECK_FIELD + 6), "must long-head: byte=30"),
            (spelled_long(CHECK_FIELD + 1), "must long-head: byte=25"),
            (bundle(payload=b"", stamp=(1, 0))[:-2] + b"\x59\x00\x00\xff", "must long-head: byte=30"),
            # Each head of a security block, to its source. Its data is at 31.
            *[(bundle(block(11, 2, bytes.fromhex(data))), f"must long-head: byte={at}") for data, at in LONG_SECURITY],
            *[(bundle(block(12, 2, bytes.fromhex(data), 0x01)), f"must long-head: byte={at}") for data, at in LONG_SECURITY],
            (bundle(block(12, 2, b"\x98\x01\x01\x02\x00\x82\x01\x00", 0x01), flags=0x01, fragment=(1, 3)),
             "must long-head: byte=33"),
            # The 65th target. The data of the block is at 34, and has 3 bytes for each other target.
            (bundle(block(11, 2, MANY_TARGETS), flags=0x01, fragment=(0, 3)), "must long-head: byte=228"),
            (bundle(block(12, 2, MANY_TARGETS), flags=0x01, fragment=(1, 3)), "must long-head: byte=228"),
            # A must goes before a should, and then the least offset. LONG_AGE has 8 bytes, and LONG_2 has 16.
            (bundle(LONG_AGE, LONG_2), "must long-head: byte=39"),
            (bundle(LONG_2, LONG_AGE), "must long-head: byte=31"),
            (bundle(LONG_AGE)[:-3] + b"\x58\x01x\xff", "must long-head: byte=38"),
            (bundle(LONG_2)[:-3] + b"\x58\x01x\xff", "must long-head: byte=31"),
            (bundle(LONG_2, block(11, 3, b"\x81\x00\x18\x01\x00\x82\x01\x00")), "must long-head: byte=31"),
            (spelled_long(VERSION, LONG_2), "must long-head: byte=2"),
            # Each head of a previous node, a bundle age and a hop count
            *[(bundle(block(kind, 2, bytes.fromhex(data))), f"should long-head: byte={at}") for kind, data, at in LONG_DATA],
            (bundle(block(10, 2, b"\x82\x05\x18\x01"), LONG_AGE), "should long-head: byte=33"),
            # The first one is ciphertext. It has 8 bytes.
            (bundle(block(7, 2, b"\x18\x05"), block(10, 3, b"\x98\x02\x05\x01"), HIDDEN_2), "should long-head: byte=39"),
            (bundle(LONG_AGE, HIDDEN), "should long-head: byte=31"),
            (bundle(LONG_AGE, flags=0x01, fragment=(0, 3)), "should long-head: byte=33"),
        ],
        [
            bundle(payload=bytes(24)), bundle(destination=(24, 256)), bundle(block(10, 2, b"\x82\x18\x18\x01")),
            # What is ciphertext, or may be
            bundle(LONG_2, HIDDEN_2), bundle(block(7, 2, b"\x18\x05"), HIDDEN_2),
            bundle(LONG_2, LONG_AGE, flags=0x01, fragment=(1, 3)),
            (bundle(LONG_2, LONG_AGE, HIDDEN_65), MISSING), (bundle(LONG_2, LONG_AGE, HIDDEN_CUT), cut(49)),
            # What is malformed
            (bundle(block(7, 2, b"\x18\x05\x00")), "must block-data: block=2 byte=33"),
            (bundle(block(11, 2, b"\x98\x01\x01\x01\x00")), "must block-data: block=2 byte=36"),
            # What is not read: after a security source, another type, a record, and a payload
            bundle(block(11, 2, b"\x81\x01\x01\x00\x82\x01\x00\x98\x00")), bundle(block(192, 2, b"\x18\x05")),
            bundle(flags=0x02, payload=b"\x98\x02" + RECORD[1:]), bundle(payload=b"\x18\x05"),
        ],
    ),
    "bundle-flags": (
        [
            (bundle(flags=0x08), "should bundle-flags: flags=08"),
            (bundle(flags=0x200000), "should bundle-flags: flags=200000"),
        ],
        [bundle(flags=0x074064), bundle(flags=0x20)],
    ),
    "primary-check": (
        [
            (bundle(kind=0), "must primary-check:"),
            (bundle(block(11, 2, security([1], 1, (1, 1))), kind=0), "must primary-check:"),
            (bundle(block(192, 2, security([0], 1, (1, 1))), kind=0), "must primary-check:"),
            (bundle(HIDDEN, kind=0), "must primary-check:"),
            (bundle(HIDDEN_CUT, kind=0), ["must primary-check:", cut(22)]),
            # The block of integrity is no ciphertext
            (bundle(INTEGRITY, AGE_3, hiding(9, 3), kind=0), "must primary-check:"),
            (bundle(INTEGRITY, HIDDEN_64, kind=0), ["must primary-check:", MISSING]),
            # Fragments at the beginning of the data and behind it
            (bundle(kind=0, flags=0x01, fragment=(0, 3)), "must primary-check:"),
            (bundle(kind=0, flags=0x01, fragment=(1, 3)), "should primary-check:"),
            (bundle(block(192, 2, security([0], 1, (1, 1))), kind=0, flags=0x01, fragment=(LAST - 1, LAST)),
             "should primary-check:"),
        ],
        [
            bundle(kind=2),
            bundle(block(11, 2, security([1, 0], 1, (1, 1))), kind=0),
            # Each target counts here, also the 65th
            (bundle(protecting(2, *range(300, 364), 0), kind=0), "should security-targets: block=2 target=300"),
            (bundle(block(11, 2, b"\x81\x01"), kind=0), "must block-data: block=2 byte=30"),
            # The block of integrity is ciphertext, or may be
            bundle(INTEGRITY, HIDDEN_2, kind=0),
            bundle(HIDDEN_2, INTEGRITY, kind=0),
            (bundle(INTEGRITY, HIDDEN_65, kind=0), MISSING),
            (bundle(INTEGRITY, HIDDEN_CUT, kind=0), cut(37)),
            bundle(INTEGRITY, kind=0, flags=0x01, fragment=(LAST - 1, LAST)),
            bundle(kind=1, flags=0x01, fragment=(1, 3)),
        ],
    ),
    "anonymous": (
        [
            (bundle(source=None), "must anonymous: flags=00"),
            (bundle(source=None, flags=0x4004), "must anonymous: flags=4004"),
            (bundle(source=None, flags=0x010004), "must anonymous: flags=010004"),
            (bundle(source=None, flags=0x020004), "must anonymous: flags=020004"),
            (bundle(source=None, flags=0x040004), "must anonymous: flags=040004"),
        ],
        [bundle(source=None, flags=0x04), bundle(source=None, flags=0x64), bundle(flags=0x074000)],
    ),
    "record-reports": (
        [(bundle(flags=0x4002, payload=RECORD), "must record-reports: flags=4002")],
        [bundle(flags=0x02, payload=RECORD), bundle(flags=0x4000)],
    ),
    "block-reports": (
        [
            (bundle(block(7, 3, b"\x05"), block(192, 2, b"", flags=0x02), flags=0x02, payload=RECORD),
             "must block-reports: block=2"),
            (bundle(block(192, 2, b"", flags=0x02), source=None, flags=0x04), "must block-reports: block=2"),
            (bundle(block(192, 2, b"", flags=0x07), source=None, flags=0x04), "must block-reports: block=2"),
            (bundle(source=None, flags=0x04, payload_flags=0x02), "must block-reports: block=1"),
            (bundle(flags=0x02, payload=RECORD, payload_flags=0x17), "must block-reports: block=1"),
            (bundle(block(192, 2, b"", flags=0x02), source=None, flags=0x04, payload_flags=0x02),
             "must block-reports: block=2"),
        ],
        [
            bundle(block(192, 2, b"", flags=0x02)), bundle(payload_flags=0x02),
            bundle(source=None, flags=0x04, payload_flags=0x15),
        ],
    ),
    "block-flags": (
        [
            (bundle(block(192, 3, b""), block(192, 2, b"", flags=0x08)), "should block-flags: block=2 flags=08"),
            (bundle(payload_flags=0x0100), "should block-flags: block=1 flags=0100"),
            (bundle(payload_flags=0x08), "should block-flags: block=1 flags=08"),
        ],
        [bundle(payload_flags=0x17), bundle(block(192, 2, b"", flags=0x17), payload_flags=0x17)],
    ),
    "dtn-name": (
        [
            (bundle(destination=name), "must dtn-name: of=destination")
            for name in [
                b"", b"none", b"//n", b"//", b"n/", b"/n/", b"//n /", b"//n/\x7f",
                b"//\xc3\xa4/",
                # No reg-name: bytes that a URI has elsewhere, bytes that it has not, and `%` without an octet
                *[b"//n%c/" % byte for byte in b":@[]?#" b'"<>\\^`{|}'], b"//%/", b"//%4/", b"//%4g/", b"//%%41/",
            ]
        ] + [
            (bundle(source=b"n"), "must dtn-name: of=source"),
            (bundle(report=b"n"), "must dtn-name: of=report-to"),
            (bundle(source=b"n", report=b"n"), "must dtn-name: of=source"),
            (bundle(source=b"//n:1/~"), "must dtn-name: of=source"),
            # Names in blocks and in a status report
            (bundle(block(6, 2, endpoint(b"none"))), "must dtn-name: of=previous-node block=2"),
            (bundle(block(6, 2, endpoint(b"//n:1/"))), "must dtn-name: of=previous-node block=2"),
            (bundle(protecting(2, 1, source=b"//n")), "must dtn-name: of=security-source block=2"),
            (bundle(hiding(9, 1, source=b"//n")), "must dtn-name: of=security-source block=9"),
            (bundle(hiding(9, 1, source=b""), flags=0x01, fragment=(1, 3)), "must dtn-name: of=security-source block=9"),
            (bundle(flags=0x02, payload=report(True, False, False, False, source=b"none")), "must dtn-name: of=report-source"),
            # The first one: the primary block, the blocks in their order, the report
            (bundle(NOBODY, report=b"n"), "must dtn-name: of=report-to"),
            (bundle(protecting(3, 1, source=b"n"), NOBODY), "must dtn-name: of=security-source block=3"),
            (bundle(NOBODY, protecting(3, 1, source=b"n")), "must dtn-name: of=previous-node block=2"),
            (bundle(protecting(3, 1, source=b"n"), hiding(9, 2, source=b"n"), NOBODY),
             "must dtn-name: of=security-source block=3"),
            (bundle(NOBODY, protecting(3, 0, source=b"n"), hiding(9, 2, source=b"n")),
             "must dtn-name: of=security-source block=3"),
            (bundle(NOBODY, flags=0x02, payload=report(True, False, False, False, source=b"n")),
             "must dtn-name: of=previous-node block=2"),
            (bundle(NODE, block(6, 3, endpoint(b"n"))), ["must dtn-name: of=previous-node block=3", "must previous-node: blocks=2"]),
        ],
        [
            bundle(destination=b"//n/"), bundle(destination=b"//n/", source=b"//n/a~", report=b"//n//a/!~"),
            bundle(destination=b"///", source=b"////", report=b"///n/"), bundle(source=b"//%4a-._~!$&'()*+,;=/:@[]%"),
            bundle(block(6, 2, endpoint(b"//%4F/")), protecting(3, 1, source=b"//n/a:"), OTHER, hiding(9, 4, source=b"///")),
            bundle(flags=0x02, payload=report(True, False, False, False, source=b"//n/a")),
            # What is ciphertext, or may be
            bundle(NOBODY, HIDDEN_2), bundle(protecting(2, 1, source=b"n"), HIDDEN_2),
            bundle(NOBODY, protecting(3, 1, source=b"n"), flags=0x01, fragment=(1, 3)),
            bundle(HIDDEN, flags=0x02, payload=report(True, False, False, False, source=b"n")),
            # A part of a record, and none
            bundle(flags=0x03, fragment=(0, 99), payload=report(True, False, False, False, source=b"n")),
            bundle(payload=report(True, False, False, False, source=b"n")),
            # Malformed after the name
            (bundle(block(6, 2, [*endpoint(b"n"), unsigned(0)])), "must block-data: block=2 byte=35"),
        ],
    ),
    "fragment": (
        [
            (bundle(flags=0x05, fragment=(0, 2)), "must fragment: offset=0 length=1 total=2"),
            (bundle(flags=0x01, fragment=(0, 2), payload=b""), "must fragment: offset=0 length=0 total=2"),
            (bundle(flags=0x01, fragment=(2, 2)), "must fragment: offset=2 length=1 total=2"),
            (bundle(flags=0x01, fragment=(1, 1)), "must fragment: offset=1 length=1 total=1"),
            (bundle(flags=0x01, fragment=(0, 1), payload=b"xy"), "must fragment: offset=0 length=2 total=1"),
            (bundle(flags=0x01, fragment=(LAST, LAST)), f"must fragment: offset={LAST} length=1 total={LAST}"),
            # Ciphertext may pass the end, but is not empty. Another block says nothing of the payload.
            (bundle(HIDDEN, flags=0x01, fragment=(0, 2), payload=b""), "must fragment: offset=0 length=0 total=2"),
            (bundle(HIDDEN, flags=0x05, fragment=(0, 2)), "must fragment: offset=0 length=1 total=2"),
            (bundle(AGE, HIDDEN_2, flags=0x01, fragment=(2, 2)), "must fragment: offset=2 length=1 total=2"),
            (bundle(HIDDEN_64, flags=0x01, fragment=(2, 2)), "must fragment: offset=2 length=1 total=2"),
        ],
        [
            bundle(flags=0x01, fragment=(0, 2)), bundle(flags=0x01, fragment=(1, 2)), bundle(flags=0x04),
            bundle(HIDDEN, flags=0x01, fragment=(2, 2)), bundle(HIDDEN_65, flags=0x01, fragment=(LAST, LAST)),
            (bundle(HIDDEN_CUT, flags=0x01, fragment=(1, 1)), cut(27)),
        ],
    ),
    "whole-fragment": (
        [
            (bundle(flags=0x01, fragment=(0, 1)), "should whole-fragment: total=1"),
            (bundle(flags=0x01, fragment=(0, 300), payload=bytes(300)), "should whole-fragment: total=300"),
            (bundle(AGE, HIDDEN_2, flags=0x01, fragment=(0, 1)), "should whole-fragment: total=1"),
            (bundle(HIDDEN_64, flags=0x01, fragment=(0, 1)), "should whole-fragment: total=1"),
        ],
        [
            bundle(flags=0x01, fragment=(0, 2)), bundle(flags=0x01, fragment=(1, 2)), bundle(payload=b""),
            bundle(HIDDEN, flags=0x01, fragment=(0, 1)), bundle(HIDDEN_65, flags=0x01, fragment=(0, 1)),
            (bundle(HIDDEN_CUT, flags=0x01, fragment=(0, 1)), cut(27)),
        ],
    ),
    "age": (
        [
            (bundle(stamp=(0, 5)), "must age: blocks=0"),
            (bundle(AGE, block(7, 3, b"\x06")), "must age: blocks=2"),
            (bundle(stamp=(0, 5), flags=0x01, fragment=(0, 3)), "must age: blocks=0"),
            (bundle(stamp=(0, 5), flags=0x01, fragment=(1, 3)), "should age: blocks=0"),
            (bundle(AGE, block(7, 3, b"\x06"), flags=0x01, fragment=(1, 3)), "must age: blocks=2"),
            (bundle(AGE, block(7, 3, b"\x06"), stamp=(0, 5), flags=0x01, fragment=(1, 3)), "must age: blocks=2"),
        ],
        [bundle(AGE, stamp=(0, 0)), bundle(AGE), bundle(stamp=(1, 0)), bundle(flags=0x01, fragment=(1, 3))],
    ),
    "previous-node": (
        [
            (bundle(NODE, block(6, 3, endpoint((5, 0)))), "must previous-node: blocks=2"),
            (bundle(NODE, block(6, 3, b""), hiding(9, 3)), "must previous-node: blocks=2"),
        ],
        [bundle(NODE)],
    ),
    "hop-count": (
        [
            (bundle(HOPS, block(10, 3, hop_count(0, 0))), "must hop-count: blocks=2 limit=30"),
            (bundle(block(10, 2, hop_count(0, 0))), "must hop-count: blocks=1 limit=0"),
            (bundle(block(10, 2, hop_count(256, 0))), "must hop-count: blocks=1 limit=256"),
            # The first one is ciphertext, or may be. The limit of another one does not count.
            (bundle(HOPS, block(10, 3, hop_count(0, 0)), HIDDEN_2), "must hop-count: blocks=2"),
            (bundle(HOPS, block(10, 3, hop_count(0, 0)), HIDDEN_65), ["must hop-count: blocks=2", MISSING]),
            (bundle(HIDDEN_CUT, HOPS, block(10, 3, b"")), ["must hop-count: blocks=2", cut(25)]),
            # The first one is no ciphertext
            (bundle(HOPS, block(10, 3, hop_count(0, 0)), HIDDEN), "must hop-count: blocks=2 limit=30"),
            (bundle(HOPS, block(10, 3, b""), hiding(9, 3)), "must hop-count: blocks=2 limit=30"),
            (bundle(block(10, 2, hop_count(0, 0)), HIDDEN), "must hop-count: blocks=1 limit=0"),
            (bundle(block(10, 2, hop_count(0, 0)), HIDDEN_64), ["must hop-count: blocks=1 limit=0", MISSING]),
            # A later fragment may lack the block that encrypts the first one. The first fragment has it.
            (bundle(HOPS, block(10, 3, b""), flags=0x01, fragment=(1, 3)), "must hop-count: blocks=2"),
            (bundle(block(10, 2, hop_count(0, 0)), flags=0x01, fragment=(0, 3)),
             "must hop-count: blocks=1 limit=0"),
        ],
        [
            bundle(block(10, 2, hop_count(0, 0)), flags=0x01, fragment=(1, 3)),
            bundle(block(10, 2, hop_count(1, 1))), bundle(block(10, 2, hop_count(255, 0))),
            bundle(block(10, 2, hop_count(0, 0)), HIDDEN_2), bundle(HIDDEN_2, block(10, 2, hop_count(0, 0))),
            (bundle(block(10, 2, hop_count(0, 0)), HIDDEN_65), MISSING),
            (bundle(block(10, 2, hop_count(0, 0)), HIDDEN_CUT), cut(34)),
        ],
    ),
    "confidential-primary": (
        [
            (bundle(HIDDEN, AGE_3, hiding(2, 3, 0)), "must confidential-primary: block=2"),
            (bundle(hiding(2, 0)), "must confidential-primary: block=2"),
        ],
        [bundle(HIDDEN), (bundle(block(12, 2, b"\x81\x00")), "must block-data: block=2 byte=33")],
    ),
    "hops": (
        [
            (bundle(block(10, 2, hop_count(5, 6))), "should hops: limit=5 count=6"),
            (bundle(block(10, 2, hop_count(5, 6)), HIDDEN), "should hops: limit=5 count=6"),
            (bundle(HIDDEN_64, block(10, 2, hop_count(5, 6))), ["should hops: limit=5 count=6", MISSING]),
            (bundle(block(10, 2, hop_count(5, 6)), flags=0x01, fragment=(0, 3)), "should hops: limit=5 count=6"),
        ],
        [
            bundle(block(10, 2, hop_count(5, 6)), flags=0x01, fragment=(1, 3)),
            bundle(block(10, 2, hop_count(5, 6)), HIDDEN, flags=0x01, fragment=(1, 3)),
            bundle(block(10, 2, hop_count(5, 5))), bundle(block(10, 2, hop_count(5, 6)), HIDDEN_2),
            (bundle(HIDDEN_65, block(10, 2, hop_count(5, 6))), MISSING),
            (bundle(HIDDEN_CUT, block(10, 2, hop_count(5, 6))), cut(25)),
        ],
    ),
    "block-data": (
        [
            (bundle(AGE, block(6, 3, b"\x00")), "must block-data: block=3 byte=38"),
            (bundle(block(7, 2, b"")), "must block-data: block=2 byte=31"),
            (bundle(block(10, 2, b"\x82\x05\x05\x05")), "must block-data: block=2 byte=34"),
            # Bytes behind a whole item, also such as begin an item of indefinite length
            (bundle(block(7, 2, b"\x05\x9f")), "must block-data: block=2 byte=32"),
            (bundle(block(10, 2, b"\x82\x05\x05\x5f")), "must block-data: block=2 byte=34"),
            # Other heads of information 31, and a head that is ill-formed
            (bundle(block(7, 2, b"\xff")), "must block-data: block=2 byte=31"),
            (bundle(block(7, 2, b"\x1f")), "must block-data: block=2 byte=31"),
            (bundle(block(7, 2, b"\xdf")), "must block-data: block=2 byte=31"),
            (bundle(block(7, 2, b"\x5e")), "must block-data: block=2 byte=31"),
            # A scheme that is no number, parts that are none of their scheme, and a name that is cut
            (bundle(block(6, 2, b"\x82\x20\x00")), "must block-data: block=2 byte=32"),
            (bundle(block(6, 2, b"\x82\x01\x01")), "must block-data: block=2 byte=33"),
            (bundle(block(6, 2, b"\x82\x02\x60")), "must block-data: block=2 byte=33"),
            (bundle(block(6, 2, b"\x82\x01\x79\x04\x00a")), "must block-data: block=2 byte=37"),
            # The first one that is no ciphertext. One of 7 bytes is before it, and one of 6 after it.
            (bundle(block(7, 2, b"\xff"), block(6, 3, b""), HIDDEN_2), "must block-data: block=3 byte=38"),
            (bundle(AGE, block(6, 3, b""), HIDDEN), "must block-data: block=3 byte=38"),
            (bundle(block(7, 2, b""), HIDDEN_64), ["must block-data: block=2 byte=31", MISSING]),
            # A block of an unknown type may have encrypted it
            (bundle(block(7, 2, b""), block(192, 9, encoded(security([2], 2, (1, 1))))),
             "should block-data: block=2 byte=31"),
            # Security blocks, to the source: no array of targets, no numbers, and a source that is none or is cut
            *[(bundle(block(kind, 2, bytes.fromhex(data))), f"must block-data: block=2 byte={at}")
              for data, at in WRONG_SECURITY for kind in (11, 12)],
            # The first one that is no ciphertext, as the cut block says
            (bundle(block(7, 2, b""), HIDDEN_CUT), cut(31)),
            # One of confidentiality is judged everywhere, also if it says of itself that it is ciphertext
            (bundle(block(12, 2, b"\x80"), flags=0x01, fragment=(1, 3)), "must block-data: block=2 byte=34"),
            (bundle(hiding(9, 2), block(12, 2, b"")),
             ["must block-data: block=2 byte=48", "must confidential-target: block=9 target=2"]),
            # It hides a block of integrity that is malformed too. That one has 6 bytes, or 7.
            (bundle(block(11, 2, b""), block(12, 9, b"\x00")), "must block-data: block=9 byte=37"),
            (bundle(block(11, 2, b"\x00"), block(12, 9, b"")), "must block-data: block=9 byte=38"),
        ],
        [
            bundle(AGE),
            bundle(NODE, block(7, 3, b"\x05"), block(10, 4, hop_count(9, 0))),
            # What comes after the source of a security block
            bundle(block(11, 2, b"\x81\x01\x01\x00\x82\x01\x00\xff\x1c")),
            # What may be ciphertext
            bundle(block(7, 2, b""), flags=0x01, fragment=(1, 3)), bundle(block(11, 2, b""), flags=0x01, fragment=(1, 3)),
            bundle(block(7, 2, b""), HIDDEN_2), bundle(HIDDEN_2, block(7, 2, b"")), bundle(block(11, 2, b""), HIDDEN_2),
            (bundle(block(7, 2, b""), HIDDEN_65), MISSING), (bundle(block(11, 2, b""), HIDDEN_65), MISSING),
            bundle(block(7, 2, b""), block(6, 3, b""), block(10, 4, b"\xff"), block(11, 5, b""), hiding(9, 4, 5, 2, 3)),
            # A block of confidentiality is no ciphertext
            (bundle(hiding(9, 8), hiding(8, 2), block(7, 2, b"")), "must confidential-target: block=9 target=8"),
        ],
    ),
    "data-not-read": (
        [
            (bundle(block(10, 2, b"\x9f\x18\x20\x01\xff")), "should data-not-read: block=2 byte=31"),
            (bundle(block(10, 2, b"\x82\x05\x7f")), "should data-not-read: block=2 byte=33"),
            (bundle(block(7, 2, b"\x5f\x41\x05\xff")), "should data-not-read: block=2 byte=31"),
            (bundle(block(7, 2, b"\xbf")), "should data-not-read: block=2 byte=31"),
            (bundle(block(6, 2, b"\x9f\x02\x82\x01\x00\xff")), "should data-not-read: block=2 byte=31"),
            (bundle(block(6, 2, b"\x82\x9f")), "should data-not-read: block=2 byte=32"),
            (bundle(block(6, 2, b"\x82\x02\x9f\x01\x00\xff")), "should data-not-read: block=2 byte=33"),
            (bundle(block(6, 2, b"\x82\x02\x82\x01\x5f")), "should data-not-read: block=2 byte=35"),
            (bundle(block(6, 2, b"\x82\x01\x7f\x63//n\x61/\xff")), "should data-not-read: block=2 byte=33"),
            (bundle(block(6, 2, b"\x82\x01\x5f\x41a\xff")), "should data-not-read: block=2 byte=33"),
            # Other schemes than dtn and ipn
            (bundle(block(6, 2, b"\x82\x1a\x00\x01\x00\x00\x00")), "should data-not-read: block=2 byte=32"),
            (bundle(block(6, 2, b"\x82\x03")), "should data-not-read: block=2 byte=32"),
            (bundle(block(6, 2, b"\x82\x00\x00")), "should data-not-read: block=2 byte=32"),
            # A name of 1,025 bytes, whole and not there. The data of the first is at 33.
            (bundle(block(6, 2, endpoint(b"//" + b"n" * 1022 + b"/"))), "should data-not-read: block=2 byte=35"),
            (bundle(block(6, 2, b"\x82\x01\x79\x04\x01")), "should data-not-read: block=2 byte=33"),
            # A record, of which the data is at 31
            (bundle(flags=0x02, payload=OPEN_RECORD), "should data-not-read: block=1 byte=31"),
            (bundle(flags=0x02, payload=b"\x82\x9f"), "should data-not-read: block=1 byte=32"),
            (bundle(flags=0x02, payload=b"\x82\x01\x84\x9f\x81\xf4"), "should data-not-read: block=1 byte=34"),
            (bundle(flags=0x02, payload=b"\x82\x01\x84\x84\x81\xf4\x81\xf4\x81\xf4\x81\xf4\x00\x82\x18\xff"),
             "should data-not-read: block=1 byte=45"),
            # The first one in their order, also before a record
            (bundle(block(7, 3, b"\xbf"), block(6, 2, b"\x9f"), flags=0x02, payload=OPEN_RECORD),
             "should data-not-read: block=3 byte=31"),
            (bundle(AGE, flags=0x02, payload=OPEN_RECORD), "should data-not-read: block=1 byte=38"),
            # The first one that is no ciphertext. One of 7 bytes is before it.
            (bundle(block(7, 2, b"\xbf"), block(6, 3, b"\x9f"), HIDDEN_2), "should data-not-read: block=3 byte=38"),
            (bundle(block(7, 2, b"\xbf"), HIDDEN), "should data-not-read: block=2 byte=31"),
            (bundle(block(7, 2, b"\xbf"), flags=0x02, payload=OPEN_RECORD), "should data-not-read: block=2 byte=31"),
            (bundle(block(7, 2, b"\xbf"), HIDDEN_2, flags=0x02, payload=OPEN_RECORD),
             "should data-not-read: block=1 byte=55"),
            (bundle(block(7, 2, b"\xbf"), HIDDEN_64), ["should data-not-read: block=2 byte=31", MISSING]),
            # Security blocks: targets, a target, a context, flags and a source that are of indefinite length, another
            # scheme, and a name of 1,025 bytes
            *[(bundle(block(kind, 2, bytes.fromhex(data))), f"should data-not-read: block=2 byte={at}")
              for data, at in OPEN_SECURITY for kind in (11, 12)],
            (bundle(block(12, 2, b"\x9f"), flags=0x01, fragment=(1, 3)), "should data-not-read: block=2 byte=33"),
            # It hides a block of integrity of 7 bytes
            (bundle(block(11, 2, b"\x9f"), block(12, 9, b"\x9f")), "should data-not-read: block=9 byte=38"),
        ],
        [
            bundle(HOPS),
            bundle(block(6, 2, endpoint(b"//" + b"n" * 1021 + b"/"))),
            bundle(block(7, 2, b"\xbf"), HIDDEN_2), bundle(HIDDEN_2, block(7, 2, b"\xbf")),
            (bundle(block(7, 2, b"\xbf"), HIDDEN_65), MISSING), (bundle(block(7, 2, b"\xbf"), HIDDEN_CUT), cut(32)),
            bundle(block(11, 2, b"\x9f"), HIDDEN_2), bundle(block(11, 2, b"\x9f"), flags=0x01, fragment=(1, 3)),
            bundle(HIDDEN, flags=0x02, payload=OPEN_RECORD),
            bundle(block(7, 2, b"\xbf"), flags=0x01, fragment=(1, 3)),
            # What comes after the source of a security block, and payloads that are no record, or a part of one
            bundle(block(11, 2, b"\x81\x01\x01\x00\x82\x01\x00\x9f")), bundle(payload=OPEN_RECORD),
            bundle(flags=0x03, fragment=(0, 9), payload=OPEN_RECORD),
        ],
    ),
    "record": (
        [
            (bundle(flags=0x02), "must record: byte=32"),
            (bundle(flags=0x02, payload=b"\x82\x01\x84"), "must record: byte=34"),
            (bundle(flags=0x02, payload=b"\x82\xff"), "must record: byte=32"),
            # Another block is ciphertext. It has 7 bytes, and the one that says so has 17.
            (bundle(AGE, HIDDEN_2, flags=0x02), "must record: byte=56"),
        ],
        [
            bundle(flags=0x02, payload=RECORD),
            (bundle(flags=0x02, payload=b"\x82\x02"), "should record-type: type=2"),
            bundle(flags=0x03, fragment=(0, 2)), bundle(HIDDEN, flags=0x02), bundle(payload=b"\x00"),
            (bundle(HIDDEN_65, flags=0x02), MISSING), (bundle(HIDDEN_CUT, flags=0x02), cut(25)),
        ],
    ),
    "source-node": (
        [(bundle(source=name), "must source-node:") for name in [b"//n/~", b"//n/~a", b"///~", b"//~n/~", b"//n/~/n"]],
        [
            *[bundle(source=name) for name in [b"//n/", b"//n/a~", b"//~n/", b"//n//~", b"//n/%7e"]],
            bundle(source=None, flags=0x04), bundle(destination=b"//n/~a", report=b"//n/~"),
        ],
    ),
    "previous-node-id": (
        [
            *[(bundle(block(6, 2, endpoint(node))), "must previous-node-id: block=2") for node in [
                None, b"//n/~", b"///~a", b"//n/~~",
            ]],
            *[(bundle(block(6, 2, endpoint(node))), "should previous-node-id: block=2") for node in [
                b"//n/a", b"///a", b"//n/a~", b"//n//", b"//n/%7e", (1, 1), (0, LAST), (5, 1, 1), (0, 0, 24),
            ]],
            # The first one, whatever another is
            (bundle(block(6, 3, endpoint((1, 1))), block(6, 2, endpoint(None))),
             ["must previous-node: blocks=2", "should previous-node-id: block=3"]),
            (bundle(block(6, 3, endpoint(None)), NODE), ["must previous-node: blocks=2", "must previous-node-id: block=3"]),
            (bundle(block(6, 2, endpoint((1, 1))), HIDDEN), "should previous-node-id: block=2"),
            (bundle(block(6, LAST, endpoint(None))), f"must previous-node-id: block={LAST}"),
            (bundle(block(6, 2, endpoint((1, 1))), flags=0x01, fragment=(0, 3)), "should previous-node-id: block=2"),
        ],
        [
            *[bundle(block(6, 2, endpoint(node))) for node in [
                (1, 0), (0, 0), (5, 1, 0), b"//n/", b"///", b"//~n/", b"//%7e/",
            ]],
            # What breaks another rule instead
            *[(bundle(block(6, 2, endpoint(name))), "must dtn-name: of=previous-node block=2") for name in [
                b"none", b"//n", b"//n /~", b"//n:1/~", b"",
            ]],
            (bundle(block(6, 2, b"\x82\x01\x00\x00")), "must block-data: block=2 byte=34"),
            (bundle(block(6, 2, b"\x82\x03")), "should data-not-read: block=2 byte=32"),
            # Another is the first one, or it says nothing
            (bundle(NODE, block(6, 3, endpoint(None))), "must previous-node: blocks=2"),
            (bundle(NODE, block(6, 3, endpoint(None)), HIDDEN_2), "must previous-node: blocks=2"),
            (bundle(block(6, 2, b""), block(6, 3, endpoint(None))),
             ["must previous-node: blocks=2", "must block-data: block=2 byte=31"]),
            # What is ciphertext, or may be
            bundle(block(6, 2, endpoint(None)), HIDDEN_2),
            bundle(block(6, 2, endpoint(None)), flags=0x01, fragment=(1, 3)),
            (bundle(block(6, 2, endpoint((1, 1))), HIDDEN_65), MISSING),
        ],
    ),
    "expired": (
        [
            (bundle(AGE, lifetime=4), "should expired: lifetime=4 age=5"),
            (bundle(block(7, 2, b"\x01"), lifetime=0), "should expired: lifetime=0 age=1"),
            (bundle(block(7, 2, b"\x1b" + bytes(8 * [0xFF])), lifetime=LAST - 1),
             f"should expired: lifetime={LAST - 1} age={LAST}"),
            (bundle(AGE, lifetime=4, stamp=(0, 0)), "should expired: lifetime=4 age=5"),
            (bundle(AGE, lifetime=4, flags=0x01, fragment=(0, 3)), "should expired: lifetime=4 age=5"),
            (bundle(AGE, HIDDEN, lifetime=4), "should expired: lifetime=4 age=5"),
            (bundle(AGE_3, block(7, 2, b"\x00"), lifetime=4), ["must age: blocks=2", "should expired: lifetime=4 age=5"]),
        ],
        [
            bundle(AGE, lifetime=5), bundle(block(7, 2, b"\x00"), lifetime=0),
            bundle(block(7, 2, b"\x1b" + bytes(8 * [0xFF])), lifetime=LAST), bundle(lifetime=0),
            # Another is the first one, or it says nothing
            (bundle(block(7, 2, b"\x04"), AGE_3, lifetime=4), "must age: blocks=2"),
            (bundle(block(7, 2, b"\xff"), AGE_3, HIDDEN_2, lifetime=4), "must age: blocks=2"),
            (bundle(block(7, 2, b""), AGE_3, lifetime=4), ["must age: blocks=2", "must block-data: block=2 byte=31"]),
            # What is ciphertext, or may be
            bundle(AGE, HIDDEN_2, lifetime=4), bundle(AGE, lifetime=4, flags=0x01, fragment=(1, 3)),
            (bundle(AGE, HIDDEN_65, lifetime=4), MISSING), (bundle(AGE, HIDDEN_CUT, lifetime=4), cut(32)),
        ],
    ),
    "block-type": (
        [
            *[(bundle(block(kind, 2, b"")), f"should block-type: block=2 type={kind}") for kind in [
                0, 2, 3, 4, 5, 8, 9, 256, 257, 65536, LAST,
            ]],
            (bundle(OTHER, block(300, 3, b""), block(9, 2, b"")), "should block-type: block=3 type=300"),
            # The type is no ciphertext
            (bundle(block(9, 2, b""), HIDDEN_2), "should block-type: block=2 type=9"),
            (bundle(block(9, 2, b""), flags=0x01, fragment=(1, 3)), "should block-type: block=2 type=9"),
        ],
        [
            *[bundle(block(kind, 2, b"")) for kind in [13, 14, 191, 192, 255]],
            bundle(NODE, AGE_3, block(10, 4, hop_count(9, 0)), protecting(5, 0), hiding(9, 2)),
        ],
    ),
    "record-type": (
        [
            *[(bundle(flags=0x02, payload=payload), f"should record-type: type={kind}") for payload, kind in [
                (b"\x82\x00", 0), (b"\x82\x02\x00", 2), (b"\x82\x18\x02\xff", 2),
            ]],
            (bundle(AGE, HIDDEN_2, flags=0x02, payload=b"\x82\x02"), "should record-type: type=2"),
        ],
        [
            bundle(flags=0x02, payload=RECORD), bundle(payload=b"\x82\x02\x00"),
            # Types that other documents may define
            *[bundle(flags=0x02, payload=it) for it in [
                b"\x82\x03\x00", b"\x82\x07\x80", b"\x82\x18\x18", b"\x82\x1a\x00\x01\x00\x00", b"\x82\x1b" + bytes(8 * [0xFF]),
            ]],
            bundle(HIDDEN, flags=0x02, payload=b"\x82\x02\x00"),
            bundle(flags=0x03, fragment=(0, 9), payload=b"\x82\x02\x00"),
            bundle(flags=0x03, fragment=(1, 9), payload=b"\x82\x02\x00"),
            (bundle(flags=0x02, payload=b"\x82\x20"), "must record: byte=32"),
            (bundle(HIDDEN_65, flags=0x02, payload=b"\x82\x02"), MISSING),
        ],
    ),
    "report-times": (
        [
            (bundle(flags=0x02, payload=report(*statuses)), "must report-times:") for statuses in [
                (7, True, False, False), (True, 7, False, False), (False, False, 0, True), (LAST, False, False, True),
                (1, 2, 3, True), (True, True, True, 1),
                # Beyond the four that have a name
                (True, False, False, False, 7), (7, False, False, False, False, True), (False, False, False, False, True, 7),
                (True, *(299 * [False]), 7), (*(300 * [7]), True), (*(300 * [False]), True, 7),
            ]
        ] + [(bundle(flags=0x02, payload=OF_A_FRAGMENT), "must report-times:")],
        [
            *[bundle(flags=0x02, payload=report(*statuses)) for statuses in [
                (1, 2, False, 3), (True, True, True, True), (False, False, 0, False), (0, 0, 0, 0, 0), (True, False, False, True, True),
                (False, False, False, False, 1, 2), (False, False, False, True),
            ]],
            bundle(HIDDEN, flags=0x02, payload=report(7, True, False, False)), bundle(payload=report(7, True, False, False)),
            bundle(flags=0x03, fragment=(0, 99), payload=report(7, True, False, False)),
            # A record of 22 bytes and one more
            (bundle(flags=0x02, payload=report(7, True, False, False) + b"\x00"), "must record: byte=53"),
        ],
    ),
    "report-empty": (
        [
            (bundle(flags=0x02, payload=report(False, False, False, False)), "should report-empty:"),
            (bundle(flags=0x02, payload=report(False, False, False, False, False)), "should report-empty:"),
            (bundle(flags=0x02, payload=report(*(300 * [False]))), "should report-empty:"),
        ],
        [
            *[bundle(flags=0x02, payload=report(*statuses)) for statuses in [
                (False, False, False, True), (0, False, False, False), (False, False, False, False, True),
                (False, False, False, False, False, 0), (*(300 * [False]), True),
            ]],
            bundle(HIDDEN, flags=0x02, payload=report(False, False, False, False)),
            bundle(payload=report(False, False, False, False)),
            bundle(flags=0x03, fragment=(0, 99), payload=report(False, False, False, False)),
        ],
    ),
    "report-reason": (
        [
            (bundle(flags=0x02, payload=report(*statuses, reason=255)), "should report-reason: reason=255")
            for statuses in [(True, False, False, False), (1, False, False, 2)]
        ],
        [
            # Those that other documents may define are right too
            *[bundle(flags=0x02, payload=report(True, False, False, False, reason=it)) for it in [
                0, 11, 12, 16, 17, 24, 254, 256, LAST,
            ]],
            bundle(HIDDEN, flags=0x02, payload=report(True, False, False, False, reason=255)),
            bundle(payload=report(True, False, False, False, reason=255)),
            bundle(flags=0x03, fragment=(0, 99), payload=report(True, False, False, False, reason=255)),
        ],
    ),
    "report-source": (
        [(bundle(flags=0x02, payload=report(True, False, False, False, source=None)), "should report-source:")],
        [
            *[bundle(flags=0x02, payload=report(True, False, False, False, source=it)) for it in [
                (0, 0), (5, 0, 0), b"//n/", b"//n/~",
            ]],
            (bundle(flags=0x02, payload=report(True, False, False, False, source=b"none")), "must dtn-name: of=report-source"),
            bundle(HIDDEN, flags=0x02, payload=report(True, False, False, False, source=None)),
            bundle(payload=report(True, False, False, False, source=None)),
            bundle(flags=0x03, fragment=(0, 99), payload=report(True, False, False, False, source=None)),
        ],
    ),
}


def rows():
    """The rows of this file."""
    return rows_of_bundles(BUNDLES)
