"""`check-session`: sessions that fill the memory for what a side sent.

A row has a pair with its lines, as in sessions.py, a bound and a smaller value for it, and the lines
that are left with this value. What was forgotten accuses nobody.
"""

import make

from .fair_sessions import ITEM, UNKNOWN_ITEM, middle_rejected
from .more_sessions import THREE
from .sessions import (
    ACKED, ALIVE, B, DATA, END, HEADER, OTHER, REPLIED, REPLY, SIZE, TERM, acked, bare, first, init, last, pair,
    refused, whole,
)

# Transfers whose IDs are no range, and stray segments with such IDs
APART = [2 * number for number in range(8)]
STRAYS = [make.xfer_segment(0, ident, b"x") for ident in APART]
STRAY_LINES = [f"a {{a{at}}} must order fault=no-such-open-transfer" for at in range(2, 10)]
TAKEN = [f"b {{b{at}}} should taken-out-of-order id={ident}" for at, ident in enumerate(APART, 2)]
FAR = ["a {a3} should transfer-id-order id=2"]


def sent(idents):
    """Whole transfers with these IDs."""
    return [whole(ident) for ident in idents]


FULL = {
    "more ranges of transfers than fit": (
        pair([*sent(APART), TERM], [*(acked(it) for it in APART), acked(14), REPLIED], *FAR, "b {b10} must ack-beyond id=14"),
        "sides__RANGES", 4, FAR),
    "more ranges of transfers, and an answer to nothing": (
        pair([*sent(APART), TERM], [*(acked(it) for it in APART), acked(15), REPLIED], *FAR,
             "b {b10} must ack-unknown id=15"),
        "sides__RANGES", 4, FAR),
    "more ranges of refused transfers than fit": (
        pair([*sent(range(16)), TERM],
             [*(refused(it) if it % 2 else acked(it) for it in range(16)), acked(15), REPLIED],
             "b {b18} should refused-acknowledged id=15"),
        "sides__RANGES", 4, []),
    "a refusal of a transfer that was forgotten": (
        pair([*sent(APART), make.xfer_segment(2, 20, DATA[:9], make.length_item(7)), last(20, DATA[9:]), TERM],
             [*(acked(it) for it in APART), acked(20, 2, 9), acked(20, END, SIZE), refused(20, 4), REPLIED],
             *FAR, f"a {{a10}} must length-differs transfer=20 announced=7 length={SIZE}", options="--closed b"),
        "sides__RANGES", 4, [*FAR, f"a {{a10}} must length-differs transfer=20 announced=7 length={SIZE}"]),
    "more stray segments than fit": (
        pair([*STRAYS, TERM], [*(acked(it, 0, 1) for it in APART), REPLIED], *STRAY_LINES, *TAKEN, options="--closed b"),
        "sides__RANGES", 4, [*STRAY_LINES, *TAKEN[:4]]),
    "more stray segments, and an answer to nothing": (
        pair([*STRAYS, TERM], [acked(1, 0, 1), REPLIED], *STRAY_LINES,
             "b {b2} should answer-order id=1 fault=not-the-last", "b {b2} must ack-unknown id=1"),
        "sides__RANGES", 4, STRAY_LINES),
    "more earlier transfers than are looked at": (
        pair([first(), whole(1), whole(2), whole(3), TERM], [ACKED[0], acked(1), refused(3), acked(2), REPLIED],
             "a {a3} must interleaved id=1 open=0", "b {b4} must refuse-order id=3 unanswered=2"),
        "answers__KEPT", 2, ["a {a3} must interleaved id=1 open=0"]),
    "a refused transfer of more segments than are kept": (
        pair([*THREE, acked(), whole(1), TERM],
             [refused(0, 4), whole(), refused(1, 4), REPLIED], "a {a6} should retried id=1 before=0 reason=04"),
        "sending__PIECES", 2, []),
    "more refused transfers than are kept": (
        pair([whole(), whole(1, OTHER), acked(), whole(2), TERM],
             [refused(0, 4), refused(1, 4), whole(), refused(2, 4), REPLIED], "a {a5} should retried id=2 before=0 reason=04"),
        "sending__PIECES", 1, []),
    "more segments without an answer than are waited for": (
        pair([*sent(range(8)), TERM], [*(acked(it) for it in reversed(range(8))), REPLIED]),
        "order__AHEAD", 2, []),
    "answers before those that are waited for": (
        pair([*sent(range(8)), acked(), acked(1), TERM],
             [whole(), *(acked(it) for it in reversed(range(8))), whole(1), REPLIED]),
        "order__AHEAD", 2, []),
    "a SESS_INIT that comes late": (
        bare([HEADER, init(b"ipn:1.0", UNKNOWN_ITEM), whole()], [HEADER, ALIVE, ALIVE, init(b"ipn:2.0", ITEM), acked()],
             *(f"b {{b{at}}} should before-session type=04" for at in (1, 2))),
        "facts__EARLY", 2, [f"b {{b{at}}} should before-session type=04" for at in (1, 2)]),
    "more choices of rejected segments than are tried": (
        pair([*THREE, TERM], [*middle_rejected(SIZE - 19), REPLIED], f"b {{b4}} must ack-sum id=0 length={SIZE - 19} sum={SIZE}"),
        "sides__TRIED", 2, []),
    "more bytes before a message than are looked at": (
        bare([b"x" * 40], [HEADER, B], "b 6 should after-bad-contact type=07", status=3),
        "endings__BEGINNING", 30, []),
    "many SESS_TERM": (
        pair([make.sess_term(0, reason) for reason in range(6)], [make.sess_term(REPLY, 5)],
             *(f"a {{a{at}}} should term-order type=05" for at in range(3, 8))),
        "sides__KEPT", 2, [f"a {{a{at}}} should term-order type=05" for at in range(3, 8)]),
}
