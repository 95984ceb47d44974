"""`blocks` and `check`: the bundles of RFC 9173 appendix A, which are in examples/rfc9173.bundles.

The RFC spells each of their blocks and ciphertexts too. The bundles are compared with these.
"""

import make

from . import Row

# The primary block (A.1.1.1) has 28 bytes, and so the block after it is at 29. The payload block
# (A.1.1.2) has 42 bytes, and the bundle age block (A.3.1.2) has 9.
PRIMARY = "88070000820282010282028202018202820201820018281a000f4240"
PAYLOAD = "85010100005823526561647920746f2067656e657261746520612033322d62797465207061796c6f6164"
AGE = "85070200004319012c"

# The blocks of integrity (A.1.3.3 and A.3.3.3) and of confidentiality (A.2.3.3, A.3.4.3 and A.4.4.3)
INTEGRITY_1 = (
    "850b0200005856810101018202820201828201078203008181820158403bdc69b3a34a2b5d3a8554368bd1e808f606219d2a10a846eae3886a"
    "e4ecc83c4ee550fdfb1cc636b904e2f1a73e303dcd4b6ccece003e95e8164dcc89a156e1"
)
INTEGRITY_3 = (
    "850b030000585c8200020101820282030082820105820300828182015820cac6ce8e4c5dae57988b757e49a6dd1431dc04763541b284509826"
    "5bc817241b81820158203ed614c0d97f49b3633627779aa18a338d212bf3c92b97759d9739cd50725596"
)
CONFIDENTIALITY_2 = (
    "850c02010058508101020182028202018482014c5477656c76653132313231328202018203581869c411276fecddc4780df42c8a2af89296fa"
    "bf34d7fae7008204008181820150efa4b5ac0108e3816c5606479801bc04"
)
CONFIDENTIALITY_3 = (
    "850c04010058348101020182028202018382014c5477656c76653132313231328202018204008181820150efa4b5ac0108e3816c5606479801"
    "bc04"
)
CONFIDENTIALITY_4 = (
    "850c0201005849820301020182028202018382014c5477656c7665313231323132820203820407828182"
    "0150220ffc45c8a901999ecc60991dd78b2981820150d2c51cb2481792dae8b21d848cede99b"
)

# The heads of the payload block and of the block of integrity, and their ciphertexts (A.2.3.1 and
# A.4.4.1)
HIDDEN_PAYLOAD, HIDDEN_INTEGRITY = "85010100005823", "850b0300005846"
CIPHERTEXT_2 = "3a09c1e63fe23a7f66a59c7303837241e070b02619fc59c5214a22f08cd70795e73e9a"
CIPHERTEXT_4 = "90eab6457593379298a8724e16e61f837488e127212b59ac91f8a86287b7d07630a122"
CIPHERTEXT_INTEGRITY = (
    "438ed6208eb1c1ffb94d952175167df0902902064a2983910c4fb2340790bf420a7d1921d5bf7c4721e02ab87a93ab1e0b75cf62e4948727c8"
    "b5dae46ed2af05439b88029191"
)

# The blocks of each bundle, by its section
BLOCKS = {
    "A.1.1.3": [PRIMARY, PAYLOAD],
    "A.1.4": [PRIMARY, INTEGRITY_1, PAYLOAD],
    "A.2.4": [PRIMARY, CONFIDENTIALITY_2, HIDDEN_PAYLOAD + CIPHERTEXT_2],
    "A.3.1.4": [PRIMARY, AGE, PAYLOAD],
    "A.3.5": [PRIMARY, INTEGRITY_3, CONFIDENTIALITY_3, AGE, HIDDEN_PAYLOAD + CIPHERTEXT_2],
    "A.4.5": [PRIMARY, HIDDEN_INTEGRITY + CIPHERTEXT_INTEGRITY, CONFIDENTIALITY_4, HIDDEN_PAYLOAD + CIPHERTEXT_4],
}

PRIMARY_LINE = (
    "primary at=1 length=28 flags=00 check=none destination=ipn:1.2 source=ipn:2.1 report-to=ipn:2.1 time=0 sequence=40"
    " lifetime=1000000"
)


def line(number, at, length, kind, flags, head, words=""):
    """The line of a block without a check, whose head has that many bytes."""
    data = f"data-at={at + head} data-length={length - head}"
    return f"block {number} at={at} length={length} type={kind} flags={flags} check=none {data} {words}".rstrip()


def security(number, at, length, kind, flags, words):
    """The line of a security block, whose data has more than 23 bytes."""
    name = {11: "11/block-integrity", 12: "12/block-confidentiality"}[kind]
    return line(number, at, length, name, flags, 7, words)


def payload(at):
    """The lines of the payload block and of the end."""
    return [line(1, at, 42, "1/payload", "00", 7), f"end length={at + 43} good"]


# The lines of each bundle after that of its primary block
LINES = {
    "A.1.1.3": payload(29),
    "A.1.4": [security(2, 29, 93, 11, "00", "targets=1 context=1 context-flags=01 source=ipn:2.1"), *payload(122)],
    "A.2.4": [security(2, 29, 87, 12, "01", "targets=1 context=2 context-flags=01 source=ipn:2.1"), *payload(116)],
    "A.3.1.4": [line(2, 29, 9, "7/bundle-age", "00", 6, "age=300"), *payload(38)],
    "A.3.5": [
        security(3, 29, 99, 11, "00", "targets=2 context=1 context-flags=01 source=ipn:3.0"),
        security(4, 128, 59, 12, "01", "targets=1 context=2 context-flags=01 source=ipn:2.1"),
        line(2, 187, 9, "7/bundle-age", "00", 6, "age=300"), *payload(196),
    ],
    # The data of the block of integrity is ciphertext, and begins with the head of a byte string.
    "A.4.5": [
        security(3, 29, 77, 11, "00", "malformed-at=36"),
        security(2, 106, 80, 12, "01", "targets=2 context=2 context-flags=01 source=ipn:2.1"), *payload(186),
    ],
}

# The rules that each breaks by the letter: the primary block has no check, and no block of integrity
# may have it as a target (RFC 9171 section 4.3.1), though one may have been removed; the time is 0,
# and there is no age (4.4.2)
CHECK, NO_AGE = "should primary-check", "must age"
BROKEN = {
    "A.1.1.3": [CHECK, NO_AGE],
    "A.1.4": [CHECK, NO_AGE],
    "A.2.4": [CHECK, NO_AGE],
    "A.3.1.4": [CHECK],
    "A.3.5": [],
    "A.4.5": [NO_AGE],
}


def broken(rules, at, number):
    """The lines of `check` for a bundle at an offset that breaks these rules."""
    return [f"{at} {it} bundle={number}" + (" blocks=0" if it == NO_AGE else "") for it in rules]


def rows():
    """The rows of this file: each bundle, and all of them one after another."""
    shown, found, content = [], [], b""
    for number, (section, bundle) in enumerate(make.RFC9173.items()):
        them, at = [PRIMARY_LINE, *LINES[section]], len(content)
        lines = broken(BROKEN[section], 0, 0)
        yield Row(section, "blocks", {"bundles": True}, bundle, [f"0 {it}" for it in them], [], 0)
        yield Row(section, "check", {"bundles": True}, bundle, lines, [], int(bool(lines)))
        shown += [f"{number} {it}" for it in them]
        found += broken(BROKEN[section], at, number)
        content += bundle
    yield Row("all", "blocks", {"bundles": True}, make.FILES["rfc9173.bundles"], shown, [], 0)
    yield Row("all", "check", {"bundles": True}, make.FILES["rfc9173.bundles"], found, [], 1)


def checks():
    """Compares each bundle with its blocks, as the RFC spells them."""
    differing = [
        f"  not that of {section}" for section, bundle in make.RFC9173.items()
        if bundle != bytes.fromhex(f"9f {' '.join(BLOCKS[section])} ff")
    ]
    yield "Each bundle of RFC 9173 has the blocks that are spelled beside it.", len(BLOCKS), differing
