"""`check`: for each rule of security blocks, bundles that break it alone and that keep it.

Offsets are those of `broken`. A later fragment has an offset above 0. There, a block of integrity is
always hidden.
"""

from inputs.spelling import hop_count, security

from .broken import (
    AGE, AGE_3, HIDDEN, HIDDEN_2, HIDDEN_65, HIDDEN_CUT, INTEGRITY, LAST, MISSING, block, bundle, cut, hiding, protecting,
    rows_of_bundles,
)

# A fragment that begins its data, and one that does not
FIRST, LATER = ({"flags": 0x01, "fragment": (offset, 3)} for offset in (0, 1))

# 62 blocks of a type for private use, with the numbers 3 to 64, and their numbers. With a block of
# integrity and the payload, a bundle has as many blocks as it may.
MANY = [block(192, number, b"") for number in range(3, 65)]
THEIRS = range(3, 65)

# Blocks to be targets: hop counts, an age, and a block of integrity that is malformed
HOPS_3, HOPS_4, HOPS_5 = (block(10, number, hop_count(30, 1)) for number in (3, 4, 5))
AGE_5 = block(7, 5, b"\x05")
NO_INTEGRITY = block(11, 3, b"")

# A block of confidentiality that says of the payload and of block 2 that they are ciphertext
HIDDEN_1_2 = hiding(9, 1, 2)

SECURITY = {
    "security-targets": (
        [
            # No target, and one that is named before
            (bundle(protecting(2)), "must security-targets: block=2"),
            (bundle(hiding(9)), "must security-targets: block=9"),
            (bundle(protecting(2, 1, 1)), "must security-targets: block=2 target=1"),
            (bundle(protecting(2, 0, 1, 0)), "must security-targets: block=2 target=0"),
            (bundle(protecting(2, 0, 1, 1, 0)), "must security-targets: block=2 target=1"),
            (bundle(AGE, HOPS_3, hiding(9, 2, 3, 3, 2)), "must security-targets: block=9 target=3"),
            # The first block that has either, also in fragments
            (bundle(hiding(9), protecting(2, 1, 1)), "must security-targets: block=9"),
            (bundle(protecting(2, 1, 1), hiding(9)), "must security-targets: block=2 target=1"),
            (bundle(protecting(2), **FIRST), "must security-targets: block=2"),
            (bundle(hiding(9, 1, 1), **LATER), "must security-targets: block=9 target=1"),
            # A must goes before a should
            (bundle(protecting(2, 300), hiding(9)), "must security-targets: block=9"),
            (bundle(protecting(2, 300, 1, 1)), "must security-targets: block=2 target=1"),
            # The last target that is looked at
            (bundle(hiding(9, *range(300, 363), 300), **LATER), "must security-targets: block=9 target=300"),
            (bundle(protecting(2, *range(300, 363), 362), **FIRST), "must security-targets: block=2 target=362"),
            # A target that is no block
            (bundle(protecting(2, 3)), "should security-targets: block=2 target=3"),
            (bundle(hiding(9, 2)), "should security-targets: block=9 target=2"),
            (bundle(protecting(2, 0, 1, LAST, 300)), f"should security-targets: block=2 target={LAST}"),
            (bundle(protecting(3, 0), protecting(2, 1, 5), hiding(9, 4)), "should security-targets: block=2 target=5"),
            (bundle(protecting(2, *THEIRS, 1, 300), *MANY), "should security-targets: block=2 target=300"),
            (bundle(protecting(LAST, 2**32, 300)), f"should security-targets: block={LAST} target={2**32}"),
        ],
        [
            bundle(protecting(2, 0, 1)), bundle(AGE, hiding(9, 1, 2)), bundle(AGE, protecting(3, 2, 1, 0)),
            # What a fragment may lack
            bundle(protecting(2, 300), **FIRST), bundle(hiding(9, 300), **LATER), bundle(protecting(2, 300), **LATER),
            # The first target that is not looked at
            bundle(protecting(2, *THEIRS, 1, 0, 300), *MANY), bundle(protecting(2, *THEIRS, 1, 0, 0), *MANY),
            bundle(hiding(9, *range(300, 364), 300), **LATER),
            # What is ciphertext, or may be
            bundle(protecting(2), HIDDEN_2), bundle(protecting(2, 1, 1), HIDDEN_2), bundle(protecting(2, 300), HIDDEN_2),
            bundle(protecting(2), **LATER), (bundle(protecting(2), HIDDEN_CUT), cut(39)),
            (bundle(protecting(2), HIDDEN_65), MISSING),
            (bundle(protecting(2), block(12, 9, b"\x9f")), "should data-not-read: block=9 byte=45"),
            # What is malformed, and another type
            (bundle(block(11, 2, b"\x80")), "must block-data: block=2 byte=32"),
            (bundle(block(12, 9, b"\x82\x01\x01")), "must block-data: block=9 byte=34"),
            bundle(block(192, 2, security([1, 1], 1, (1, 1)))),
        ],
    ),
    "security-twice": (
        [
            (bundle(protecting(2, 1), protecting(3, 1)), "must security-twice: block=3 target=1"),
            (bundle(AGE, hiding(8, 2), hiding(9, 2)), "must security-twice: block=9 target=2"),
            # In the order of the bundle, and of the targets of the later block
            (bundle(AGE, hiding(9, 2), hiding(8, 2)), "must security-twice: block=8 target=2"),
            (bundle(protecting(2, 0, 1), protecting(3, 1, 0)), "must security-twice: block=3 target=1"),
            (bundle(protecting(2, 0), protecting(3, 1), protecting(4, 5, 1), AGE_5), "must security-twice: block=4 target=1"),
            (bundle(protecting(2, 0), protecting(3, 1), protecting(4, 1), protecting(5, 0)), "must security-twice: block=4 target=1"),
            (bundle(AGE, hiding(8, 2), protecting(3, 0), hiding(9, 1, 2), protecting(4, 0)), "must security-twice: block=9 target=2"),
            # In fragments
            (bundle(protecting(2, 1), protecting(3, 1), **FIRST), "must security-twice: block=3 target=1"),
            (bundle(hiding(8, 1), hiding(9, 1), **LATER), "must security-twice: block=9 target=1"),
            (bundle(hiding(8, 300), hiding(9, 300), **LATER), "must security-twice: block=9 target=300"),
            # The last target that is looked at, of each of the two
            (bundle(hiding(8, *range(300, 364)), hiding(9, 363), **LATER), "must security-twice: block=9 target=363"),
            (bundle(hiding(8, 363), hiding(9, *range(300, 364)), **LATER), "must security-twice: block=9 target=363"),
        ],
        [
            bundle(protecting(2, 1), protecting(3, 0)), bundle(AGE, hiding(8, 2), hiding(9, 1)),
            (bundle(protecting(2, 1), hiding(9, 1)), "should shared-target: block=2 target=1"),
            (bundle(protecting(2, 1, 1)), "must security-targets: block=2 target=1"),
            # The first target that is not looked at
            bundle(hiding(8, *range(300, 364), 1), hiding(9, 1), **LATER),
            bundle(hiding(8, 1), hiding(9, *range(300, 364), 1), **LATER),
            # What is ciphertext, or may be
            bundle(protecting(2, 1), protecting(3, 1), hiding(9, 3)), bundle(protecting(2, 1), protecting(3, 1), hiding(9, 2)),
            bundle(protecting(2, 1), protecting(3, 1), **LATER),
            # What is malformed, and another type
            (bundle(protecting(2, 1), block(11, 3, b"\x81\x01")), "must block-data: block=3 byte=48"),
            bundle(protecting(2, 1), block(192, 3, security([1], 1, (1, 1)))),
        ],
    ),
    "security-flags": (
        [
            *[(bundle(protecting(2, 1, context_flags=it)), f"must security-flags: block=2 flags={shown}") for it, shown in [
                (0x02, "02"), (0x03, "03"), (0x80, "80"), (0x0100, "0100"), (0x01_0001, "010001"), (LAST, "ffffffffffffffff"),
            ]],
            (bundle(hiding(9, 1, context_flags=0x04)), "must security-flags: block=9 flags=04"),
            (bundle(hiding(9, 1, context_flags=0x04), **LATER), "must security-flags: block=9 flags=04"),
            (bundle(protecting(2, 0), protecting(3, 1, context_flags=0x11), hiding(9, 4, context_flags=0x02), HOPS_4),
             "must security-flags: block=3 flags=11"),
            (bundle(protecting(2, 0), hiding(9, 4, context_flags=0x02), protecting(3, 1, context_flags=0x11), HOPS_4),
             "must security-flags: block=9 flags=02"),
        ],
        [
            bundle(protecting(2, 1, context_flags=0x01)), bundle(hiding(9, 1, context_flags=0x01)),
            bundle(protecting(2, 1, context_flags=0x02), HIDDEN_2), bundle(protecting(2, 1, context_flags=0x02), **LATER),
            (bundle(block(11, 2, b"\x81\x01\x01\x02")), "must block-data: block=2 byte=35"),
            bundle(protecting(2, 1, flags=0x10)),
        ],
    ),
    "security-context": (
        [
            *[(bundle(protecting(2, 1, context=it)), f"should security-context: block=2 context={it}") for it in [
                0, -1, -24, -25, -32768, -LAST - 1,
            ]],
            (bundle(hiding(9, 1, context=0)), "should security-context: block=9 context=0"),
            (bundle(hiding(9, 1, context=-2), **LATER), "should security-context: block=9 context=-2"),
            (bundle(protecting(2, 0), hiding(9, 4, context=-1), protecting(3, 1, context=0), HOPS_4),
             "should security-context: block=9 context=-1"),
        ],
        [
            *[bundle(protecting(2, 1, context=it)) for it in [1, 2, 3, 32767, LAST]], bundle(hiding(9, 1, context=3)),
            bundle(protecting(2, 1, context=0), HIDDEN_2), bundle(protecting(2, 1, context=-1), **LATER),
            (bundle(block(11, 2, b"\x81\x01\x20\x00")), "must block-data: block=2 byte=35"),
        ],
    ),
    "integrity-target": (
        [
            (bundle(protecting(2, 2)), "must integrity-target: block=2 target=2"),
            (bundle(protecting(2, 3), protecting(3, 0)), "must integrity-target: block=2 target=3"),
            (bundle(AGE_3, protecting(2, 9), hiding(9, 3)), "must integrity-target: block=2 target=9"),
            (bundle(AGE_3, hiding(9, 3), protecting(2, 0, 9)), "must integrity-target: block=2 target=9"),
            (bundle(protecting(2, 0), protecting(3, 1, 4, 2, 3), protecting(4, 5), HOPS_5),
             "must integrity-target: block=3 target=4"),
            (bundle(protecting(2, 2), **FIRST), "must integrity-target: block=2 target=2"),
            # Its target is ciphertext, but its type is none
            (bundle(protecting(2, 3), protecting(3, 0), hiding(9, 3)),
             ["must integrity-target: block=2 target=3", "should shared-target: block=2 target=3"]),
            # The target is malformed. It is at 40, and its data at 46.
            (bundle(protecting(2, 3), NO_INTEGRITY), ["must block-data: block=3 byte=46", "must integrity-target: block=2 target=3"]),
            # The last target that is looked at
            (bundle(protecting(2, *range(300, 363), 2), **FIRST), "must integrity-target: block=2 target=2"),
            (bundle(protecting(2, *THEIRS, 1, 2), *MANY), "should integrity-target: block=2 target=2"),
        ],
        [
            bundle(INTEGRITY), bundle(AGE, HOPS_3, protecting(4, 0, 1, 2, 3)),
            bundle(protecting(2, *THEIRS, 1, 0, 2), *MANY), bundle(protecting(2, *range(300, 364), 2), **FIRST),
            (bundle(protecting(2, 12)), "should security-targets: block=2 target=12"),
            # What is ciphertext, or may be
            bundle(protecting(2, 9), HIDDEN_2), bundle(protecting(2, 2), HIDDEN_2), bundle(protecting(2, 2), **LATER),
            # A block of confidentiality, and another type
            bundle(INTEGRITY, HIDDEN_2), bundle(INTEGRITY, block(192, 3, security([2], 1, (1, 1)))),
        ],
    ),
    "confidential-target": (
        [
            (bundle(hiding(9, 9)), "must confidential-target: block=9 target=9"),
            (bundle(hiding(9, 8), hiding(8, 1)), "must confidential-target: block=9 target=8"),
            (bundle(AGE, hiding(8, 1), hiding(9, 2, 8)), "must confidential-target: block=9 target=8"),
            (bundle(hiding(7, 1), hiding(8, 9, 8), hiding(9, 7)), "must confidential-target: block=8 target=9"),
            (bundle(hiding(9, 9), **FIRST), "must confidential-target: block=9 target=9"),
            (bundle(hiding(9, 9, 1), **LATER), "must confidential-target: block=9 target=9"),
            # The target is malformed. It is at 42, and its data at 48.
            (bundle(hiding(9, 8), block(12, 8, b"")),
             ["must block-data: block=8 byte=48", "must confidential-target: block=9 target=8"]),
            # The last target that is looked at
            (bundle(hiding(9, *range(300, 363), 9), **LATER), "must confidential-target: block=9 target=9"),
        ],
        [
            bundle(INTEGRITY, HIDDEN_2), bundle(AGE, HOPS_3, hiding(9, 1, 2, 3)), bundle(hiding(9, *range(300, 364), 9), **LATER),
            (bundle(hiding(9, 0)), "must confidential-primary: block=9"),
            (bundle(hiding(9, 12)), "should security-targets: block=9 target=12"),
            bundle(hiding(9, 4), block(192, 4, security([9], 2, (1, 1)))),
            (bundle(AGE_3, protecting(2, 9), hiding(9, 3)), "must integrity-target: block=2 target=9"),
        ],
    ),
    "confidential-flags": (
        [
            # Its payload may come without it, it may be removed, and both
            *[(bundle(hiding(9, 1, flags=it)), f"must confidential-flags: block=9 flags={it:02x}") for it in [
                0x00, 0x02, 0x06, 0x10, 0x11, 0x17,
            ]],
            (bundle(AGE, hiding(9, 2, flags=0x10)), "must confidential-flags: block=9 flags=10"),
            (bundle(AGE, hiding(9, 2, 1, flags=0x04)), "must confidential-flags: block=9 flags=04"),
            (bundle(hiding(9, 1, flags=0x0100)), ["should block-flags: block=9 flags=0100", "must confidential-flags: block=9 flags=0100"]),
            # The first one, also in fragments
            (bundle(AGE, hiding(8, 1), hiding(9, 2, flags=0x10)), "must confidential-flags: block=9 flags=10"),
            (bundle(AGE, hiding(9, 2, flags=0x10), hiding(8, 1, flags=0x00)), "must confidential-flags: block=9 flags=10"),
            (bundle(hiding(9, 1, flags=0x00), **FIRST), "must confidential-flags: block=9 flags=00"),
            (bundle(hiding(9, 1, flags=0x00), **LATER), "must confidential-flags: block=9 flags=00"),
            (bundle(hiding(9, 300, flags=0x11), **LATER), "must confidential-flags: block=9 flags=11"),
            # The last target that is looked at
            (bundle(hiding(9, *range(300, 363), 1, flags=0x00), **LATER), "must confidential-flags: block=9 flags=00"),
        ],
        [
            *[bundle(hiding(9, 1, flags=it)) for it in [0x01, 0x03, 0x05, 0x07]],
            *[bundle(AGE, hiding(9, 2, flags=it)) for it in [0x00, 0x06, 0x07]],
            bundle(hiding(9, *range(300, 364), 1, flags=0x00), **LATER),
            # What is malformed
            (bundle(block(12, 9, b"\x81\x01\x02\x00", 0x10)), "must block-data: block=9 byte=35"),
            (bundle(block(12, 9, b"\x81\x01\x9f", 0x00)), "should data-not-read: block=9 byte=33"),
            # Other types
            bundle(protecting(2, 1, flags=0x10)), bundle(block(192, 2, security([1], 2, (1, 1)), 0x10)),
        ],
    ),
    "confidential-context": (
        [
            (bundle(hiding(9, 1, context=1)), "must confidential-context: block=9"),
            (bundle(hiding(9, 1, context=1), **LATER), "must confidential-context: block=9"),
            (bundle(AGE, hiding(7, 1), hiding(9, 2, context=1), HOPS_3, hiding(8, 3, context=1)),
             "must confidential-context: block=9"),
            # The third block of confidentiality
            (bundle(AGE_3, HOPS_4, hiding(7, 3), hiding(8, 4), hiding(9, 1, context=1)), "must confidential-context: block=9"),
        ],
        [
            *[bundle(hiding(9, 1, context=it)) for it in [2, 3, LAST]], bundle(protecting(2, 1, context=1)),
            (bundle(hiding(9, 1, context=-1)), "should security-context: block=9 context=-1"),
            (bundle(block(12, 9, b"\x81\x01\x01\x00", 0x01)), "must block-data: block=9 byte=35"),
        ],
    ),
    "shared-target": (
        [
            (bundle(INTEGRITY, HIDDEN), "should shared-target: block=2 target=1"),
            (bundle(HIDDEN, INTEGRITY), "should shared-target: block=2 target=1"),
            # The first block of integrity, and the first of its targets
            (bundle(AGE_3, protecting(2, 0, 3, 1), hiding(9, 1, 3)), "should shared-target: block=2 target=3"),
            (bundle(AGE_3, protecting(4, 0), protecting(5, 3), protecting(2, 1), hiding(9, 1), hiding(8, 3)),
             "should shared-target: block=5 target=3"),
            (bundle(INTEGRITY, HIDDEN, **FIRST), "should shared-target: block=2 target=1"),
            (bundle(protecting(2, 300), hiding(9, 300), **FIRST), "should shared-target: block=2 target=300"),
            (bundle(protecting(2, 0), hiding(9, 0)), ["must confidential-primary: block=9", "should shared-target: block=2 target=0"]),
            # One that is ciphertext, and one that is none
            (bundle(protecting(2, 0), protecting(3, 1), HIDDEN_1_2), "should shared-target: block=3 target=1"),
            # The last target that is looked at
            (bundle(protecting(2, *range(300, 363), 1), HIDDEN, **FIRST), "should shared-target: block=2 target=1"),
            (bundle(INTEGRITY, hiding(9, *range(300, 363), 1), **FIRST), "should shared-target: block=2 target=1"),
        ],
        [
            bundle(INTEGRITY, AGE_3, hiding(9, 3)), bundle(protecting(2, *range(300, 364), 1), HIDDEN, **FIRST),
            # What is ciphertext, or may be
            bundle(INTEGRITY, HIDDEN_1_2), bundle(INTEGRITY, hiding(8, 1), HIDDEN_2), bundle(INTEGRITY, HIDDEN, **LATER),
            bundle(INTEGRITY, hiding(9, *range(300, 364), 1), **FIRST),
            # What is malformed
            (bundle(block(11, 2, b"\x81\x01\x01\x00"), HIDDEN), "must block-data: block=2 byte=35"),
            (bundle(INTEGRITY, block(12, 9, b"\x81\x01\x02\x00", 0x01)), "must block-data: block=9 byte=50"),
        ],
    ),
}


def rows():
    """The rows of this file."""
    return rows_of_bundles(SECURITY)
