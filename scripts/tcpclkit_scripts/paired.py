"""What became of the transfers of one recording, by the answers in the other."""

import re

from .listing import Listing
from .pairing import Answer, Assembly, Pairing
from .running import FAULT

# The lines of `tcpclkit list` that matter in A and in B (docs/FORMATS.md, "Report lines")
OF_A = re.compile(
    rb"^([0-9]+) xfer-segment flags=(..) id=([0-9]+)(?: items=.*)? length=([0-9]+)$",
    re.MULTILINE,
)
OF_B = re.compile(
    rb"^([0-9]+) xfer-(?:ack flags=(..) id=([0-9]+) length=([0-9]+)"
    rb"|refuse reason=(\S+) id=([0-9]+))$",
    re.MULTILINE,
)


def paired(tcpclkit, a, b, closed, notes):
    """Yields each transfer of A, with what its line says of the answer in B.

    `closed` has the names of the sides that closed the connection after the last byte of their
    recordings. The faults of both, and answers to no transfer, are reported.
    """
    pairing, listings = Pairing(), [Listing(tcpclkit, it) for it in (a, b)]
    try:
        sent = transfers(listings[0], "a" in closed, pairing, notes)
        for answer in answers(listings[1], notes):
            pairing.answer(answer)
    finally:
        for listing in listings:
            listing.end()
    has_end = "b" in closed and listings[1].is_whole
    for transfer in sent:
        yield transfer, outcome(transfer, has_end)
    for text in pairing.notes(lambda _: a, lambda _: b):
        notes.report(text)


def transfers(listing, is_closed, pairing, notes):
    """Returns the transfers of A, which the pairing gets too."""
    assembly, sent = Assembly(), []
    for offset, flags, ident, length in listing.rows(OF_A, notes):
        begun, _ = assembly.take(int(offset), int(flags, 16), int(ident), int(length))
        if begun is not None:
            sent.append(begun)
            pairing.begin(begun)
    assembly.close("is_abandoned" if is_closed and listing.is_whole else "is_cut")
    if assembly.disorder is not None:
        offset, text = assembly.disorder
        notes.report(f"{listing.recording}: byte {offset}: {text}", FAULT)
    return sent


def answers(listing, notes):
    """Yields the answers of B."""
    for offset, flags, ident, length, reason, refused in listing.rows(OF_B, notes):
        if flags:
            yield Answer(int(ident), int(offset), int(flags, 16), int(length))
        else:
            yield Answer(int(refused), int(offset), reason=reason.decode())


def outcome(transfer, has_end):
    """Returns what the line of a transfer says. `has_end` says whether B has all answers."""
    if transfer.answer is not None:
        return transfer.answer.said()
    return "lost" if has_end else "unanswered"
