"""The blocks that the lines of `tcpclkit blocks` show."""

from typing import NamedTuple

# Values that are two numbers: the mark between them, and what each is
PAIRS = {"fragment": ("/", "offset", "total"), "of-fragment": ("+", "offset", "length")}


class Bundle(NamedTuple):
    """A bundle: its length and its blocks.

    A block is a dictionary: the text of each field, by the field's name in a line. The judgement is
    the program's. tshark has remarks or none, and says of which blocks the data is encrypted.
    """

    length: str
    blocks: list
    judgement: str = ""
    has_remarks: bool = False
    encrypted: frozenset = frozenset()

    def is_good(self):
        """Returns whether the program finds no fault in the bundle."""
        return self.judgement == "good"


def fields_of(words):
    """Returns the fields that words show."""
    fields = {}
    for name, value in (it.split("=", 1) for it in words):
        if name in PAIRS:
            mark, *parts = PAIRS[name]
            fields |= {f"{name}-{part}": it for part, it in zip(parts, value.split(mark))}
        else:
            fields[name] = value
    return fields


def block_of(words):
    """Returns the block of a line after its first word. The check of such a block is good."""
    if words[0] == "primary":
        fields = fields_of(words[1:])
    else:
        fields = {"number": words[1]} | fields_of(words[2:])
    return fields if fields["check"] == "none" else {**fields, "check-value": "good"}


def bundles_of(output):
    """Returns the bundles of transfers that are over, by the ID of the transfer."""
    blocks, bundles = {}, {}
    for line in output.splitlines():
        number, *words = line.split(" ")
        if words[0] == "end":
            length = words[1].split("=")[1]
            bundles[int(number)] = Bundle(length, blocks.pop(number, []), " ".join(words[2:]))
        else:
            blocks.setdefault(number, []).append(block_of(words))
    return bundles
