"""What the rules of bundles share: which data may be ciphertext, what the other data says, and of whom.

Each function takes a `Bundle`.
"""

import functools
from typing import NamedTuple, Optional

from .block_data import (
    ADMINISTRATIVE, BUNDLE_AGE, CONFIDENTIALITY, HOP_COUNT, INTEGRITY, PAYLOAD, PREVIOUS_NODE, Malformed, reading_of,
)
from .bundle import Identity, Primary
from .names import node_of_endpoint

# The numbers of the primary block and of the payload block (RFC 9171 section 4.1)
PRIMARY_NUMBER, PAYLOAD_NUMBER = 0, 1

# The most targets of a security block that are looked at. A block confidentiality block that has
# more does not say which data is hidden.
MAX_TARGETS = 64

# The types of blocks whose data each node that forwards a bundle writes anew (RFC 9171 sections
# 4.4.3 and 5.4), and those of security blocks
OF_SENDER = PREVIOUS_NODE, BUNDLE_AGE, HOP_COUNT
OF_ADDER = INTEGRITY, CONFIDENTIALITY

# The types of blocks that do not change what the data of others is
KNOWN = PAYLOAD, *OF_SENDER, *OF_ADDER


class Bundle(NamedTuple):
    """A good bundle: what its `Judgement` has of it, and nodes.

    `own` is the node of the option `--own`, and `sender` that of the SESS_INIT before the end of the
    bundle. Either may be None.
    """
    identity: Identity
    primary: Primary
    blocks: tuple
    long_head: Optional[int]
    own: Optional[tuple]
    sender: Optional[tuple]


def is_own(it, endpoint):
    """Whether an endpoint ID is that of the node of the option, if there is one."""
    return it.own is None or node_of_endpoint(endpoint) == it.own


def binds_source(broken):
    """A rule of the source of a bundle. It judges only bundles of the node of the option."""
    @functools.wraps(broken)
    def judged(it):
        return broken(it) if is_own(it, it.primary.source) else None
    return judged


def has_plain_data(it):
    """Whether no block of an unknown type may have encrypted the data of others (RFC 9172 section 10)."""
    return all(block.kind in KNOWN for block in it.blocks)


def of_kind(it, kind):
    """The blocks of a type."""
    return [block for block in it.blocks if block.kind == kind]


def content(it, block):
    """What the data of a block of the bundle says."""
    return reading_of(block, it.primary.flags)[0]


def long_head(it, block):
    """The offset of the first head in the data of a block that is longer than needed, or None."""
    return reading_of(block, it.primary.flags)[1]


def encrypted(it):
    """The targets of all block confidentiality blocks that are not malformed."""
    contents = [content(it, block) for block in of_kind(it, CONFIDENTIALITY)]
    return {target for each in contents if not isinstance(each, Malformed) for target in each.targets}


def hides_all(it):
    """Whether some block confidentiality block does not say which blocks it hides.

    It is malformed, or has too many targets.
    """
    contents = [content(it, block) for block in of_kind(it, CONFIDENTIALITY)]
    return any(isinstance(each, Malformed) or len(each.targets) > MAX_TARGETS for each in contents)


def is_hidden(it, block):
    """Whether the data of a block may be ciphertext, by the block confidentiality blocks.

    Such a block itself is never ciphertext (RFC 9172 section 3.8). It need not be copied into a
    later fragment, unless the payload is among its targets (RFC 9171 section 5.8).
    """
    may_be_target = not has_all_blocks(it) and block is not it.blocks[-1]
    return block.kind != CONFIDENTIALITY and (block.number in encrypted(it) or may_be_target or hides_all(it))


def is_payload_hidden(it):
    """Whether the payload may be ciphertext."""
    return is_hidden(it, it.blocks[-1])


def has_all_blocks(it):
    """Whether a bundle has all blocks of the one that was made. A later fragment may lack some.

    (RFC 9171 section 5.8.)
    """
    return it.primary.fragment is None or it.primary.fragment[0] == 0


def is_record(it):
    """Whether the payload is an administrative record."""
    return bool(it.primary.flags & ADMINISTRATIVE)


def said(it, block):
    """What the data of a block says. None if it may be ciphertext, is malformed, or is not read."""
    found = None if is_hidden(it, block) else content(it, block)
    return None if isinstance(found, Malformed) else found


def all_said(it, *kinds):
    """Each block of these types whose data says something, with what it says, in their order."""
    found = [(block, said(it, block)) for block in it.blocks if block.kind in kinds]
    return [(block, each) for block, each in found if each is not None]


def security_said(it, *kinds):
    """The same of security blocks of these types that the node of the option added, if there is one."""
    return [(block, each) for block, each in all_said(it, *kinds) if is_own(it, each.source)]


def first_said(it, kind):
    """The first block of a type, and what its data says, as (block, what).

    (None, None) if there is no such block, or if that one says nothing, whatever others say.
    """
    blocks = of_kind(it, kind)[:1]
    found = said(it, blocks[0]) if blocks else None
    return (None, None) if found is None else (blocks[0], found)


def record_said(it):
    """What the payload says as an administrative record, or None. No fragment says anything."""
    return said(it, it.blocks[-1]) if is_record(it) else None
