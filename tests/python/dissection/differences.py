"""Where the lines of `blocks` and the trees of tshark 4.0 differ, each with the reason.

tests/gate/tshark fails if a row explains no difference.
"""

import re
from typing import Callable, NamedTuple

from . import trees
from .lines import Bundle

STATUSES = trees.STATUSES.keys()

# The fields that are read from the data of a block
WORDS = {*trees.DATA, *trees.SECURITY, *trees.RECORD, *trees.REPORT}


class Case(NamedTuple):
    """A field of a block: its name, and the texts that the program and tshark have of it.

    A text is None if there is none. `block` and `bundle` are what the program shows, and
    `their_block` and `their_bundle` what tshark shows.
    """

    name: str
    ours: str
    theirs: str
    block: dict = {}
    their_block: dict = {}
    bundle: Bundle = None
    their_bundle: Bundle = None

    def is_word(self):
        """Returns whether the field is read from the data of a canonical block."""
        return self.name in WORDS and "number" in self.block


class Difference(NamedTuple):
    """A known difference: the reason, and whether it explains the difference of a field."""

    reason: str
    explains: Callable


def unescaped(text):
    """Returns a text whose escaped bytes are UTF-8."""
    content = re.sub(rb"\\x(..)", lambda it: bytes.fromhex(it[1].decode()), text.encode())
    return content.decode("utf-8", "replace")


def is_length_of_primary(case):
    """Returns whether a case is the length of a primary block, or the number of blocks."""
    return case.name in ("length", "blocks") and "number" not in case.block


def is_malformed(case):
    """Returns whether only the program finds the data of a field malformed, or says where."""
    is_place = case.name == "malformed-at" and case.theirs is None
    return (case.is_word() or is_place) and "malformed-at" in case.block


def is_later(case):
    """Returns whether tshark has a remark on a later item than the one that the program rejects."""
    if case.name != "malformed-at" or None in (case.ours, case.theirs):
        return False
    return int(case.block["data-at"]) <= int(case.ours) < int(case.theirs)


def is_bare(block):
    """Returns whether tshark shows nothing of the data of a block."""
    return not WORDS & block.keys()


def is_empty(block):
    """Returns whether a block has data of no bytes."""
    return block.get("data-length") == "0"


def is_at_endpoint(block):
    """Returns whether the data of a previous-node block is malformed from its first byte on."""
    return block["type"] == "6/previous-node" and block["malformed-at"] == block["data-at"]


def is_clamped(case):
    """Returns whether tshark shows the nearest number that has 64 bits with a sign."""
    if case.name != "context" or None in (case.ours, case.theirs):
        return False
    return int(case.theirs) == max(-(2**63), min(2**63 - 1, int(case.ours)))


def is_unread(case):
    """Returns whether tshark does not show a field of the data of a block."""
    return case.is_word() and case.theirs is None


def has_no_status(block):
    """Returns whether tshark shows a status report without its statuses."""
    return "reason" in block and not STATUSES & block.keys()


ROWS = [
    Difference(
        "tshark reads no data of a block that a block-confidentiality block encrypts",
        lambda it: is_unread(it) and it.block["number"] in it.their_bundle.encrypted,
    ),
    Difference(
        "tshark reads no data of a bundle before it has all blocks",
        lambda it: is_unread(it) and it.bundle.judgement.startswith("bad="),
    ),
    Difference(
        "tshark has a remark on malformed data, and reads on, or shows nothing of it",
        lambda it: is_malformed(it) and (it.their_bundle.has_remarks or is_bare(it.their_block)),
    ),
    Difference(
        "tshark takes an endpoint ID, and a status report, of another number of elements",
        lambda it: is_malformed(it) and (is_at_endpoint(it.block) or "record" in it.their_block),
    ),
    Difference(
        "tshark takes some items that are not due, and has a remark on a later one",
        is_later,
    ),
    Difference(
        "the program does not read what follows the source of a security block",
        lambda it: it.name == "malformed-at" and it.ours is None and "targets" in it.block,
    ),
    Difference(
        "tshark fails at a dtn name of no bytes, and shows nothing after it",
        lambda it: "dtn:" in it.block.values() and (it.theirs is None or is_length_of_primary(it)),
    ),
    Difference(
        "tshark shows the fragment of a status report only if it has more than four statuses",
        lambda it: it.name.startswith("of-fragment-") and it.theirs is None,
    ),
    Difference(
        "tshark shows no status of a report that has more than four",
        lambda it: it.name in STATUSES and has_no_status(it.their_block),
    ),
    Difference(
        "tshark knows no ipn endpoint ID of three numbers",
        lambda it: it.theirs is None and re.fullmatch(r"ipn:\d+\.\d+\.\d+", it.ours or ""),
    ),
    Difference(
        "the program escapes what is no printable ASCII",
        lambda it: "\\x" in (it.ours or "") and unescaped(it.ours) == it.theirs,
    ),
    Difference(
        "tshark holds the security context in 64 bits with a sign",
        is_clamped,
    ),
    Difference(
        "tshark has no offset of data without bytes",
        lambda it: is_empty(it.block) and (it.name, it.theirs) == ("data-at", it.block["at"]),
    ),
]
