"""Rules of transfers (RFC 9174 sections 5.2 and 6.1, and RFC 9171 section 4): a function for each.

It takes a `Transfer` that is over. It returns None if the transfer keeps the rule, and otherwise
the words of its line. Only `unfinished` is judged of a transfer that is not closed.
"""

from . import bundle, tools, wire
from .rules import MUST, SHOULD, Rules

# Faults by which the toolkit reads less than RFC 9171 permits: another scheme than dtn and ipn, a
# long name, and more than 64 blocks
LIMITS = ("B9", "B11", "B16")

# Faults that a head of indefinite length has. RFC 9171 section 4.1 permits such lengths, but not of
# the byte strings that have a block's data (section 4.3.2) and its check value (section 4.2.2).
WRONG_KIND = ("B5", "B10")
BYTE_STRING = 0x5F

# A tag of a bundle before its first byte, and a tag before the data of a block (RFC 9171 appendix B)
TAGGED_BUNDLE, TAGGED_DATA = b"\xd9\xd9\xf7\x9f", b"\xd8\x18"

RULES = Rules()


@RULES.rule(SHOULD)
def unfinished(transfer):
    """A transfer is finished when the stream ends (RFC 9174 sections 5.2.2 and 6.1)."""
    return f"length={len(transfer.data)}"


@RULES.rule(MUST)
def length_item(transfer):
    """A transfer has one Transfer Length item at most, of 8 bytes (RFC 9174 section 5.2.5.1)."""
    return "" if tools.is_malformed(tools.length_items(transfer.items)) else None


@RULES.rule(MUST)
def length_differs(transfer):
    """A transfer has the length that it announces (RFC 9174 section 5.2.5.1)."""
    announced, length = tools.announced(transfer.items), len(transfer.data)
    return f"announced={announced} length={length}" if announced not in (None, length) else None


@RULES.rule(SHOULD)
def length_of_one_segment(transfer):
    """A transfer of one segment has no Transfer Length item (RFC 9174 section 5.2.5.1)."""
    flags = transfer.heads[0].it.flags
    is_one = flags & wire.START and flags & wire.END
    return "" if is_one and tools.length_items(transfer.items) else None


def is_indefinite(transfer):
    """Whether the fault of a transfer's bundle is an indefinite length that the RFC permits."""
    code, place = transfer.judged.fault
    if code not in WRONG_KIND or transfer.data[place] not in bundle.INDEFINITE:
        return False
    return transfer.data[place] != BYTE_STRING or transfer.judged.due is None


def is_tagged(transfer):
    """Whether the fault of a transfer's bundle is a tag where appendix B has one."""
    code, place = transfer.judged.fault
    is_of_data = code == "B5" and transfer.judged.due == bundle.DATA and transfer.data.startswith(TAGGED_DATA, place)
    return is_of_data or code == "B3" and transfer.data.startswith(TAGGED_BUNDLE)


def is_limit(transfer):
    """Whether the fault of a transfer's bundle may be a limit of the toolkit, not the node's."""
    code, _ = transfer.judged.fault
    return code in LIMITS or is_indefinite(transfer) or is_tagged(transfer)


def fault(transfer):
    """The words for the fault of a transfer's bundle."""
    code, place = transfer.judged.fault
    return f"code={code} byte={place}"


def is_plain(transfer):
    """Whether no item of an unknown type may say that the data is no plain bundle."""
    return all(item.kind == tools.TRANSFER_LENGTH for item in transfer.items)


@RULES.rule(is_plain, "bundle")
def is_bundle(transfer):
    """The data of a transfer is one bundle (RFC 9171 section 4 and RFC 9174 section 5.2)."""
    return fault(transfer) if transfer.judged.fault and not is_limit(transfer) else None


@RULES.rule(SHOULD)
def not_read(transfer):
    """The data of a transfer is within the limits of the toolkit (RFC 9171 section 4.1)."""
    return fault(transfer) if transfer.judged.fault and is_limit(transfer) else None
