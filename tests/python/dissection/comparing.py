"""The comparison, field by field."""

from .differences import ROWS, Case
from .lines import Bundle

# What stands for a bundle that only one of the two shows
NO_BUNDLE = Bundle("0", [])


def cases_of_block(ours, theirs, bundles):
    """Yields each field that the program or tshark shows of a block."""
    for name in sorted(ours.keys() | theirs.keys()):
        yield Case(name, ours.get(name), theirs.get(name), ours, theirs, *bundles)


def cases_of_check(bundle, tree):
    """Yields whether the program and tshark find a wrong check in the block after the last line."""
    block = next(iter(tree.blocks[len(bundle.blocks) :]), {})
    ours = "differs" if "bad=B13 " in bundle.judgement else None
    theirs = "differs" if block.get("check-value") == "differs" else None
    if ours or theirs:
        yield Case("check-value", ours, theirs, {}, block, bundle, tree)


def cases_of(bundle, tree):
    """Yields each field that the program or tshark shows of a bundle.

    Of a bad bundle, the program shows no more than the blocks before the fault.
    """
    count, shown = len(bundle.blocks), len(tree.blocks)
    if not (bundle.is_good() or bundle is NO_BUNDLE):
        shown = min(count, shown)
    yield Case("blocks", str(count), str(shown), *bundle.blocks[:1])
    if bundle.is_good():
        yield Case("bundle-length", bundle.length, tree.length)
    for ours, theirs in zip(bundle.blocks, tree.blocks):
        yield from cases_of_block(ours, theirs, (bundle, tree))
    yield from cases_of_check(bundle, tree)


def cases_of_recording(ours, theirs):
    """Yields each field of the bundles in a recording, with the ID of the transfer."""
    for transfer in sorted(ours.keys() | theirs.keys()):
        for case in cases_of(ours.get(transfer, NO_BUNDLE), theirs.get(transfer, NO_BUNDLE)):
            yield transfer, case


def explanation_of(case):
    """Returns the known difference that a case is, or None."""
    return next((it for it in ROWS if it.explains(case)), None)
