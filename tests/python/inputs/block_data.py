"""The data of each block whose data is read, with each of its heads changed, and cut at each byte.

A bundle, alone or as the data of a transfer, has it in an extension block, or in its payload block
if the data is a status report.
"""

from .lengths import KINDS, spellings
from .prefixes import BLOCKS, BUNDLE_BLOCKS, BUNDLE_CHECKS
from .spelling import canonical, carried, encoded, endpoint, hop_count, primary, security, spelled, status_report, unsigned

RUNS, CARRIED = BUNDLE_BLOCKS + BUNDLE_CHECKS[:1], BLOCKS[:1]

SUBJECT = (4, 1, 300)

# The block type of each data, and its heads
DATA = {
    "previous node, dtn": (6, endpoint(b"//node/")),
    "previous node, ipn": (6, endpoint((977, 5, 0))),
    "bundle age": (7, [unsigned(1000)]),
    "hop count": (10, hop_count(30, 1)),
    "block integrity": (11, security([0, 1], 1, (1, 1), 1)),
    "block confidentiality": (12, security([300], -3, b"//node/")),
    "status report": (1, status_report([False, True, 7, False], 1, (1, 1), (300, 2))),
    "status report of a fragment": (1, status_report([7, False, False, True, 9], 16, SUBJECT, (0, 0), (6, 300))),
}


def bundle(kind, content, sequence=0):
    """A bundle with data in a block of a type. It is an administrative record if that is 1."""
    begin = primary((2, 1), (1, 1), None, kind=1, flags=2 if kind == 1 else 0, stamp=(1, sequence))
    blocks = [canonical(1, 1, content)] if kind == 1 else [canonical(kind, 2, content), canonical(1, 1, b"x")]
    return spelled([begin, *blocks])[0]


def contents(heads):
    """The data, its beginnings, the data with a byte after it, and with each head in every spelling."""
    whole = encoded(heads)
    made = [whole[:length] for length in range(len(whole) + 1)] + [whole + b"\x00", whole + b"\xff"]
    for number, it in enumerate(heads):
        others = [other for _, other in spellings(it)] + KINDS
        made += [encoded(heads, number, other) for other in others]
        made += [encoded(heads[:number]) + other for other in others]
    return list(dict.fromkeys(made))


def of_data(kind, heads):
    """Bundles with each content of a block of a type, alone and as the data of a transfer."""
    for content in contents(heads):
        yield bundle(kind, content), RUNS
        yield carried(bundle(kind, content)), CARRIED


def groups():
    """The groups of this file."""
    for name, (kind, heads) in DATA.items():
        yield f"data: {name}", lambda kind=kind, heads=heads: of_data(kind, heads)
