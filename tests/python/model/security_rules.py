"""Rules of security blocks (RFC 9172, and RFC 9173 for a context): a function for each.

It takes a `Bundle`. It returns None if the bundle keeps the rule, and otherwise the words of its
line. A security block counts if its data says something: it is not malformed, and a block integrity
block may be no ciphertext. With the option `--own`, its source is of that node. Of its targets, the
first ones count. None is a must if the data may have been changed.
"""

from . import texts
from .block_data import CONFIDENTIALITY, INTEGRITY
from .bundle_facts import MAX_TARGETS, PAYLOAD_NUMBER, PRIMARY_NUMBER, has_plain_data, security_said
from .rules import SHOULD, Rules

# Flags of a block (RFC 9171 section 4.2.4): it is in every fragment; it is removed if it cannot be
# processed
IN_FRAGMENTS, REMOVED = 0x01, 0x10

# The flag of a security context that is defined: it has parameters (section 3.6)
PARAMETERS = 0x01

# BIB-HMAC-SHA2, which encrypts nothing (RFC 9173 sections 3.1 and 5.1)
HMAC = 1

RULES = Rules()


def integrity(it):
    """The block integrity blocks that count, and what each says."""
    return security_said(it, INTEGRITY)


def confidentiality(it):
    """The block confidentiality blocks that count, and what each says."""
    return security_said(it, CONFIDENTIALITY)


def security(it):
    """The security blocks of both types that count, and what each says."""
    return security_said(it, INTEGRITY, CONFIDENTIALITY)


def first_targets(said):
    """The targets of a security block that count."""
    return said.targets[:MAX_TARGETS]


def all_targets(blocks):
    """The targets of some security blocks that count."""
    return {target for _, said in blocks for target in first_targets(said)}


def words(block, *target):
    """The words for a block, and for a target of it if there is one."""
    return f"block={block.number}" + "".join(f" target={number}" for number in target)


def first_words(blocks, wrong_of):
    """The words for the first of some blocks that has a wrong target, or None.

    `wrong_of` returns the targets that are wrong in a block. The words have the first of them.
    """
    found = [
        words(block, it) for block, said in blocks for wrong in [wrong_of(block)] for it in first_targets(said) if it in wrong
    ]
    return found[0] if found else None


def repeated(numbers):
    """The numbers that are there before in a list."""
    return [number for at, number in enumerate(numbers) if number in numbers[:at]]


def wrong_targets(it):
    """The words for the first block without a target, or with one that is named before in it."""
    found = [words(block, *repeated(first_targets(said))[:1]) for block, said in security(it)
             if not said.targets or repeated(first_targets(said))]
    return found[0] if found else None


def missing_targets(it):
    """The targets that are no block of the bundle. A fragment need not have all blocks."""
    numbers = {PRIMARY_NUMBER, *(block.number for block in it.blocks)}
    return all_targets(security(it)) - numbers if it.primary.fragment is None else set()


@RULES.rule(lambda it: has_plain_data(it) and wrong_targets(it) is not None)
def security_targets(it):
    """A security block has a target, each once, and each is a block of the bundle (section 3.6).

    A node on the path may have removed a target.
    """
    missing = missing_targets(it)
    return wrong_targets(it) or first_words(security(it), lambda _: missing)


@RULES.rule(has_plain_data)
def security_twice(it):
    """No two security blocks of one type have a target in common (section 3.2).

    Of two nodes, either may have added its block first.
    """
    blocks = security(it)

    def before(block):
        return all_targets((other, said) for other, said in blocks if other.kind == block.kind and other.at < block.at)

    return first_words(blocks, before)


@RULES.rule(has_plain_data)
def security_flags(it):
    """A security context has no flag but the one that is defined (section 3.6)."""
    wrong = [(block, said.flags) for block, said in security(it) if said.flags & ~PARAMETERS]
    return f"{words(wrong[0][0])} flags={texts.hexadecimal(wrong[0][1])}" if wrong else None


@RULES.rule(SHOULD)
def security_context(it):
    """The ID of a security context is unsigned, and not that for tests (sections 3.6 and 11.3)."""
    wrong = [(block, said.context) for block, said in security(it) if said.context <= 0]
    return f"{words(wrong[0][0])} context={wrong[0][1]}" if wrong else None


def of_kinds(it, *kinds):
    """The numbers of the blocks of these types."""
    return {block.number for block in it.blocks if block.kind in kinds}


@RULES.rule(has_plain_data)
def integrity_target(it):
    """No block integrity block has a security block as a target (section 3.7)."""
    wrong = of_kinds(it, INTEGRITY, CONFIDENTIALITY)
    return first_words(integrity(it), lambda _: wrong)


@RULES.rule(has_plain_data)
def confidential_target(it):
    """No block confidentiality block has such a block as a target (section 3.8)."""
    wrong = of_kinds(it, CONFIDENTIALITY)
    return first_words(confidentiality(it), lambda _: wrong)


@RULES.rule(has_plain_data)
def confidential_flags(it):
    """A block confidentiality block is not removed, and is where its payload is (section 3.8)."""
    wrong = [
        block for block, said in confidentiality(it) if block.flags & REMOVED
        or PAYLOAD_NUMBER in first_targets(said) and not block.flags & IN_FRAGMENTS
    ]
    return f"{words(wrong[0])} flags={texts.hexadecimal(wrong[0].flags)}" if wrong else None


@RULES.rule(has_plain_data)
def confidential_context(it):
    """The context of a block confidentiality block is a cipher (section 3.8, RFC 9173 sections 3.1 and 5.1)."""
    wrong = [block for block, said in confidentiality(it) if said.context == HMAC]
    return words(wrong[0]) if wrong else None


@RULES.rule(SHOULD)
def shared_target(it):
    """A block integrity block is encrypted with its target (section 3.9).

    A node that decrypted the block alone may have sent it.
    """
    encrypted = all_targets(confidentiality(it))
    return first_words(integrity(it), lambda _: encrypted)
