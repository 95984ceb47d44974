"""The tool `blocks`: what is inside the bundles of a recording, or of a file of bundles."""

from . import bundle, texts, tools, wire
from .block_data import content_of


def lines_of_bundle(number, judged):
    """The lines of the blocks that are whole and good, after a first word."""
    if judged.primary is None:
        return []
    flags = judged.primary.flags
    words = [texts.primary(judged.primary), *[texts.block(it, content_of(it, flags)) for it in judged.blocks]]
    return [f"{number} {it}" for it in words]


def lines_of_transfer(transfer):
    """The lines of a transfer: its blocks, and its end if it is over."""
    lines = lines_of_bundle(transfer.id, transfer.judged)
    if transfer.due:
        judgement = tools.why_not_good(transfer) or "good"
        lines.append(f"{transfer.id} end length={len(transfer.data)} {judgement}")
    return lines


def of_recording(stream, transfer, keep_going):
    """`blocks` of a recording. The fault lines and the status are those of `unpack`."""
    heads, fault = tools.heads_of(wire.reading(stream), keep_going)
    transfers = tools.walk(heads, fault)
    shown = [lines_of_transfer(it) for it in transfers if transfer in (None, it.id)]
    report = [line for _, line in tools.refused_lines(heads)] + texts.wire_fault(fault)
    return [line for lines in shown for line in lines], report, tools.status_of(heads, transfers, fault)


def of_bundles(content):
    """`blocks` of bundles, one after another. As in `pack`, the first bad one ends the run."""
    lines, number = [], 0
    while content:
        judged = bundle.first(content)
        lines += lines_of_bundle(number, judged)
        if judged.fault:
            return lines, [texts.bundle_fault(number, *judged.fault)], 3
        lines.append(f"{number} end length={judged.length} good")
        content, number = content[judged.length:], number + 1
    return lines, [], 0


def block_listing(content, transfer=None, keep_going=False, bundles=False):
    """`blocks` of a recording, or with `bundles` of bundles. Returns (output, report, status)."""
    lines, report, status = of_bundles(content) if bundles else of_recording(content, transfer, keep_going)
    return texts.lines(lines), texts.lines(report), status
