"""`check-session`: what accuses nobody, or only as a should, and beside it what is still a must.

A row has a pair in which a side does what RFC 9174 permits, or what the recordings do not prove to be
wrong, and a pair that is one step away, in which they do prove it. The form is that of sessions.py.
"""

import make

from .more_sessions import LATE, THREE, THREE_ACKED, UNKNOWN
from .sessions import (
    A, ACKED, ALIVE, B, CRITICAL, DATA, END, HALF, HEADER, LONGER, OTHER, REJECTED, REPLIED, SIZE, START, TERM,
    acked, bare, bundle, first, init, last, pair, refused, whole,
)

ITEM = make.item(0, 0x8000, b"")
UNKNOWN_ITEM = make.item(CRITICAL, 0x8000, b"")
NO_BUNDLE = b"\x1f\x8b"

# What side a breaks where it begins a transfer inside another one, sends a START again, or begins a
# transfer after its SESS_TERM
AGAIN = "a {a3} must order fault=start-repeats-the-open-transfer", "a {a3} must transfer-id id=0"
INSIDE = "a {a3} must interleaved id=1 open=0", "a {a4} must order fault=no-such-open-transfer"
DIFFERS = f"a {{a3}} must length-differs transfer=0 announced={SIZE + 1} length={SIZE}"


def middle_rejected(length):
    """The middle one of three segments is rejected, and the last one acknowledged with this length."""
    return [THREE_ACKED[0], REJECTED(2, 1), acked(0, END, length)]


# A bundle that must not be fragmented, and one whose payload cannot be divided
UNDIVIDED, SMALL = bundle(b"hello", 4), bundle(b"x")


def again_refused(data):
    """A bundle is sent again after it was refused for want of resources."""
    return [whole(0, data), acked(), whole(1, data), TERM], [refused(), whole(), refused(1), REPLIED]


FAIR = {
    # ---- segments that were rejected (section 5.1.2)
    "a rejected segment": (
        pair([whole(), whole(1)], [REJECTED(2, 1), acked(1)], options="--closed b"),
        pair([whole(), whole(1), whole(2)], [REJECTED(2, 1), acked(2)], "b {b-end} must ack-missing id=1 peer-at={a3}",
             options="--closed b"),
    ),
    "rejected segments of one transfer": (
        pair([*THREE, whole(1)], [THREE_ACKED[0], REJECTED(2, 1), REJECTED(2, 1), acked(1)], options="--closed b"),
        pair([*THREE, whole(1)], [THREE_ACKED[0], REJECTED(2, 1), acked(1)],
             "b {b-end} must ack-missing id=0 peer-at={a4}", options="--closed b"),
    ),
    "a rejected message of another type": (
        pair([whole(), ALIVE, whole(1)], [REJECTED(2, 1), acked(1)], options="--closed b"),
        pair([whole(), ALIVE, whole(1)], [REJECTED(2, 4), acked(1)], "b {b-end} must ack-missing id=0 peer-at={a2}",
             options="--closed b"),
    ),
    "a later transfer refused after a rejected segment": (
        pair([whole(), whole(1), TERM], [REJECTED(2, 1), refused(1), REPLIED], options="--closed b"),
        pair([whole(), whole(1), whole(2), TERM], [REJECTED(2, 1), refused(2), REPLIED],
             "b {b3} must refuse-order id=2 unanswered=0", "b {b-end} should ack-missing id=1 peer-at={a3}",
             options="--closed b"),
    ),
    "a rejected segment that is not counted": (
        pair([*THREE, TERM], [*middle_rejected(SIZE - 20), REPLIED], options="--closed b"),
        pair([*THREE, TERM], [*middle_rejected(SIZE - 19), REPLIED],
             f"b {{b4}} must ack-sum id=0 length={SIZE - 19} sum={SIZE}", options="--closed b"),
    ),
    "a rejected segment that is counted": (
        pair([*THREE, TERM], [*middle_rejected(SIZE), REPLIED], options="--closed b"),
        pair([*THREE, TERM], [*middle_rejected(SIZE + 1), REPLIED],
             f"b {{b4}} must ack-beyond id=0 length={SIZE + 1} sent={SIZE}", options="--closed b"),
    ),
    "a segment that is rejected after the answer to a later one": (
        pair([*THREE, TERM], [THREE_ACKED[0], acked(0, END, SIZE - 20), REJECTED(2, 1), REPLIED], options="--closed b"),
        pair([*THREE, TERM], [THREE_ACKED[0], acked(0, 0, 30), acked(0, END, SIZE - 20), REJECTED(2, 1), REPLIED],
             f"b {{b4}} must ack-sum id=0 length={SIZE - 20} sum={SIZE}", options="--closed b"),
    ),
    "a rejected segment beside a transfer that is answered": (
        pair([whole(), whole(1), TERM], [acked(), REJECTED(2, 1), REPLIED], options="--closed b"),
        pair([whole(), whole(1), TERM], [acked(0, START), REJECTED(2, 1), REPLIED],
             "b {b2} must ack-flags id=0 flags=02 segment=03", options="--closed b"),
    ),
    # ---- answers in another order (section 5.2.3)
    "answers in another order": (
        pair([first(), last()], [acked(0, END, SIZE), acked(0, START, SIZE)],
             "b {b2} should answer-order id=0 fault=not-in-order", options="--closed b"),
        pair([first(), last()], [acked(0, START, SIZE), acked(0, END, HALF)],
             f"b {{b3}} must ack-sum id=0 length={HALF} sum={SIZE}", options="--closed b"),
    ),
    "answers in another order, each with its own sum": (
        pair([*THREE, TERM], [THREE_ACKED[2], THREE_ACKED[1], THREE_ACKED[0], REPLIED],
             "b {b2} should answer-order id=0 fault=not-in-order"),
        pair([*THREE, TERM], [THREE_ACKED[2], THREE_ACKED[1], acked(0, START, 9), REPLIED],
             "b {b4} must ack-sum id=0 length=9 sum=10"),
    ),
    "answers to segments with equal flags in another order": (
        pair([first(0, DATA[:10]), *(make.xfer_segment(0, 0, DATA[at:at + 5]) for at in (10, 15)), last(0, DATA[20:])],
             [acked(0, START, 10), acked(0, 0, 20), acked(0, 0, 15), acked(0, END, SIZE)],
             "b {b3} should answer-order id=0 fault=not-in-order"),
        pair([first(0, DATA[:10]), *(make.xfer_segment(0, 0, DATA[at:at + 5]) for at in (10, 15)), last(0, DATA[20:])],
             [acked(0, START, 10), acked(0, 0, 15), acked(0, 0, 15), acked(0, END, SIZE)],
             "b {b4} must ack-sum id=0 length=15 sum=20"),
    ),
    "the answer to an empty segment before a refusal": (
        pair([first(0, b"xxxxx"), make.xfer_segment(0, 0, b""), TERM],
             [acked(0, 0, 5), refused(0, 3), REPLIED], options="--closed ab"),
        pair([first(0, b"xxxxx"), make.xfer_segment(0, 0, b""), TERM],
             [acked(0, 0, 4), refused(0, 3), REPLIED], "b {b2} must ack-sum id=0 length=4 sum=5", options="--closed ab"),
    ),
    "answers to three empty segments before a refusal": (
        pair([first(0, b"xxxxx"), *(make.xfer_segment(0, 0, b"") for _ in range(3)), TERM],
             [acked(0, 0, 5), acked(0, 0, 5), refused(0, 3), REPLIED], options="--closed ab"),
        pair([first(0, b"xxxxx"), make.xfer_segment(0, 0, b""), TERM],
             [acked(0, 0, 5), acked(0, 0, 5), refused(0, 3), REPLIED], "b {b3} must ack-flags id=0 flags=00 segment=02",
             options="--closed ab"),
    ),
    "answers of several transfers mixed": (
        pair([first(), last(), first(1), last(1), TERM],
             [acked(1, START, HALF), ACKED[0], acked(1, END, SIZE), ACKED[1], REPLIED]),
        pair([first(), last(), first(1), last(1), TERM],
             [acked(1, START, HALF), ACKED[0], acked(1, END, SIZE), acked(0, END, HALF), REPLIED],
             f"b {{b5}} must ack-sum id=0 length={HALF} sum={SIZE}"),
    ),
    # ---- how the connection ends (section 6.1)
    "an answer is missing in an unclean end": (
        pair([whole(), whole(1), TERM], [acked(1), REPLIED], "b {b-end} should ack-missing id=0 peer-at={a2}",
             options="--closed b"),
        pair([whole(), whole(1), TERM], [acked(1)], "b {b-end} should term-unanswered peer-at={a4}",
             "b {b-end} must ack-missing id=0 peer-at={a2}", options="--closed b"),
    ),
    "an answer is missing, and the other side may have closed first": (
        pair([whole(), whole(1)], [acked(1)], "b {b-end} should ack-missing id=0 peer-at={a2}", options="--closed ab"),
        pair([whole(), whole(1)], [acked(1)], "b {b-end} must ack-missing id=0 peer-at={a2}", options="--closed b"),
    ),
    "an answer is missing, and a later transfer was refused": (
        pair([whole(), whole(1), TERM], [refused(1), REPLIED], "b {b2} must refuse-order id=1 unanswered=0",
             "b {b-end} should ack-missing id=0 peer-at={a2}", options="--closed b"),
        pair([whole(), whole(1)], [refused(1)], "b {b-end} must ack-missing id=0 peer-at={a2}", options="--closed b"),
    ),
    "a SESS_TERM is unanswered, and its sender may have closed first": (
        pair([first(), TERM, last()], [*ACKED], "b {b-end} should term-unanswered peer-at={a3}", options="--closed ab"),
        pair([first(), TERM, last()], [*ACKED], "b {b-end} must term-unanswered peer-at={a3}", options="--closed b"),
    ),
    "a wrong length is not refused, and the other side may have closed first": (
        pair([ALIVE, first(0, DATA[:HALF], LONGER), last(), TERM], [*ACKED, REPLIED], DIFFERS,
             f"b {{b3}} should length-not-refused id=0 announced={SIZE + 1} length={SIZE}", options="--closed ab"),
        pair([ALIVE, first(0, DATA[:HALF], LONGER), last()], [*ACKED], DIFFERS,
             f"b {{b3}} must length-not-refused id=0 announced={SIZE + 1} length={SIZE}", options="--closed b"),
    ),
    "a second SESS_INIT is not rejected, and the other side may have closed first": (
        pair([A, whole(), TERM], [acked(), REPLIED], "a {a2} should order fault=second-session-initiation",
             "b {b-end} should not-rejected type=07 peer-at={a2}", options="--closed ab"),
        pair([A, whole()], [acked()], "a {a2} should order fault=second-session-initiation",
             "b {b-end} must not-rejected type=07 peer-at={a2}", options="--closed b"),
    ),
    # ---- a side may close the connection after its SESS_TERM (section 6.1), and has to do so after a
    # MSG_REJECT of an unknown type (sections 5.1.2 and 8.5)
    "a wrong length is not refused, in an unclean end": (
        pair([ALIVE, first(0, DATA[:HALF], LONGER), last()], [*ACKED, TERM], DIFFERS,
             f"b {{b3}} should length-not-refused id=0 announced={SIZE + 1} length={SIZE}", options="--closed b"),
        pair([ALIVE, first(0, DATA[:HALF], LONGER), last()], [*ACKED, ALIVE], DIFFERS,
             f"b {{b3}} must length-not-refused id=0 announced={SIZE + 1} length={SIZE}", options="--closed b"),
    ),
    "a second SESS_INIT is not rejected, in an unclean end": (
        pair([A, whole()], [acked(), TERM], "a {a2} should order fault=second-session-initiation",
             "b {b-end} should not-rejected type=07 peer-at={a2}", options="--closed b"),
        pair([A, whole()], [acked(), ALIVE], "a {a2} should order fault=second-session-initiation",
             "b {b-end} must not-rejected type=07 peer-at={a2}", options="--closed b"),
    ),
    "a SESS_TERM is unanswered, and an unknown type ends the session": (
        pair([first(), TERM, last(), UNKNOWN], [*ACKED, REJECTED(1, 0x20)],
             "b {b-end} should term-unanswered peer-at={a3}", status=3, options="--closed b"),
        pair([first(), TERM, last(), ALIVE], [*ACKED, REJECTED(2, 0x04)],
             "b {b-end} must term-unanswered peer-at={a3}", options="--closed b"),
    ),
    "an answer is missing, and an unknown type ends the session": (
        pair([whole(), whole(1), UNKNOWN], [acked(1), REJECTED(1, 0x20)],
             "b {b-end} should ack-missing id=0 peer-at={a2}", status=3, options="--closed b"),
        pair([whole(), whole(1), ALIVE], [acked(1), REJECTED(1, 0x04)], "b {b3} should reject-known reason=01 header=04",
             "b {b-end} must ack-missing id=0 peer-at={a2}", options="--closed b"),
    ),
    # ---- the state Ending (sections 3.1, 3.3 and 6.1)
    "a transfer before the own SESS_TERM": (
        pair([*ACKED, whole(), REPLIED], [first(), TERM, last(), refused(0, 6)], "a {a4} should ending id=0 type=01"),
        pair([*ACKED, REPLIED, whole()], [first(), TERM, last(), refused(0, 6)],
             "a {a5} must order fault=start-after-session-termination"),
    ),
    "a late transfer is taken before the own SESS_TERM": (
        pair([TERM, whole()], [acked(), REPLIED], LATE, "b {b2} should ending id=0 type=02"),
        pair([REPLIED, whole()], [TERM, acked()], LATE, "b {b3} must ending id=0 type=02"),
    ),
    "a late transfer is taken after both SESS_TERM, which crossed": (
        pair([TERM, whole()], [TERM, acked()], LATE, "b {b3} should ending id=0 type=02"),
        pair([REPLIED, whole()], [TERM, acked()], LATE, "b {b3} must ending id=0 type=02"),
    ),
    "a late transfer is refused for a critical item": (
        pair([REPLIED, whole(0, DATA, UNKNOWN_ITEM)], [TERM, refused(0, 5)], LATE,
             "b {b3} should ending id=0 type=03 reason=05"),
        pair([REPLIED, whole(0, DATA, ITEM)], [TERM, refused(0, 5)], LATE, "b {b3} must ending id=0 type=03 reason=05"),
    ),
    "a late transfer is refused for a wrong length": (
        pair([REPLIED, first(0, DATA[:HALF], LONGER), last()], [TERM, refused(0, 4)], LATE, DIFFERS,
             "b {b3} should ending id=0 type=03 reason=04"),
        pair([REPLIED, first(0, DATA[:HALF], make.length_item(SIZE)), last()], [TERM, refused(0, 4)], LATE,
             "b {b3} must ending id=0 type=03 reason=04"),
    ),
    # ---- beginnings (sections 4.2 and 4.3)
    "a higher version, and contact-failure": (
        bare([b"dtn!\x05\x00"], [HEADER, make.sess_term(0, 4)], status=3),
        bare([b"dtn!\x05\x00"], [HEADER, B], "b 6 must version type=07 version=5", status=3),
    ),
    # ---- a START that was rejected (sections 5.1.2 and 5.2.2)
    "a START inside a transfer is rejected": (
        pair([first(), first(1), last(), TERM], [ACKED[0], REJECTED(3, 1), ACKED[1], REPLIED], *INSIDE, options="--closed b"),
        pair([first(), first(1), last(), last(1), whole(2), TERM],
             [ACKED[0], REJECTED(3, 1), ACKED[1], REJECTED(3, 1), acked(2, START), REPLIED], *INSIDE,
             "b {b6} must ack-flags id=2 flags=02 segment=03", options="--closed b"),
    ),
    "a START inside a transfer is taken, and both go on": (
        pair([first(), first(1), last(), last(1), TERM],
             [ACKED[0], acked(1, START, HALF), ACKED[1], acked(1, END, SIZE), REPLIED], *INSIDE, options="--closed b"),
        pair([first(), first(1), last(1), whole(2), TERM],
             [ACKED[0], refused(), acked(1, START, HALF), acked(1, END, HALF), acked(2), REPLIED],
             f"b {{b5}} must ack-sum id=1 length={HALF} sum={SIZE}", options="--closed b"),
    ),
    "a transfer after one whose START was rejected": (
        pair([first(), whole(1), TERM], [REJECTED(2, 1), acked(1), REPLIED], options="--closed b"),
        pair([first(), whole(1), TERM], [ACKED[0], REJECTED(2, 1), REPLIED], "a {a3} must interleaved id=1 open=0",
             options="--closed b"),
    ),
    "a START that comes twice is rejected": (
        pair([first(), first(), last(), TERM], [ACKED[0], REJECTED(3, 1), ACKED[1], REPLIED], *AGAIN, options="--closed b"),
        pair([first(), first(), last(), TERM], [ACKED[0], REJECTED(3, 1), acked(0, END, SIZE - 1), REPLIED], *AGAIN,
             f"b {{b4}} must ack-sum id=0 length={SIZE - 1} sum={SIZE}", options="--closed b"),
    ),
    "an ID that comes again is acknowledged again": (
        pair([whole(), whole(0, OTHER), TERM], [acked(), acked(), REPLIED], "a {a3} must transfer-id id=0"),
        pair([whole(), whole(0, OTHER), TERM], [acked(), acked(), acked(), REPLIED], "a {a3} must transfer-id id=0",
             "b {b4} must ack-beyond id=0"),
    ),
    # ---- bundles
    "both sides send a session item of one type": (
        bare([HEADER, init(b"ipn:1.0", ITEM), whole(0, NO_BUNDLE)], [HEADER, init(b"ipn:2.0", ITEM), acked(0, 3, 2)],
             "a {a2} should bundle transfer=0 code=B3 byte=0"),
        bare([HEADER, init(b"ipn:1.0", ITEM), whole(0, NO_BUNDLE)],
             [HEADER, init(b"ipn:2.0", make.item(0, 0x8001, b"")), acked(0, 3, 2)],
             "a {a2} must bundle transfer=0 code=B3 byte=0"),
    ),
    "a wrong length, and a session item of one type": (
        bare([HEADER, init(b"ipn:1.0", ITEM), first(0, b"\x1f", LONGER), last(0, b"\x8b")],
             [HEADER, init(b"ipn:2.0", ITEM), acked(0, START, 1), refused(0, 4)],
             f"a {{a2}} must length-differs transfer=0 announced={SIZE + 1} length=2",
             "a {a2} should bundle transfer=0 code=B3 byte=0"),
        bare([HEADER, A, first(0, b"\x1f", LONGER), last(0, b"\x8b")],
             [HEADER, init(b"ipn:2.0", ITEM), acked(0, START, 1), refused(0, 4)],
             f"a {{a2}} must length-differs transfer=0 announced={SIZE + 1} length=2",
             "a {a2} must bundle transfer=0 code=B3 byte=0"),
    ),
}

# What is no must in either case. The second pair still draws the should.
DOUBTS = {
    "a bundle that must not be fragmented is sent again": (
        pair(*again_refused(UNDIVIDED)),
        pair(*again_refused(DATA), "a {a4} should retried id=1 before=0 reason=02"),
    ),
    "a bundle with a payload of one byte is sent again": (
        pair(*again_refused(SMALL)),
        pair(*again_refused(bundle(b"xy")), "a {a4} should retried id=1 before=0 reason=02"),
    ),
    "a START that comes twice": (
        pair([first(), first(), last(), TERM], [ACKED[0], REJECTED(3, 1), ACKED[1], REPLIED], *AGAIN),
        pair([first(), first(), last(), TERM], [ACKED[0], acked(0, START, SIZE), acked(0, END, SIZE + HALF), REPLIED],
             *AGAIN, "b {b3} should taken-out-of-order id=0"),
    ),
    "an open transfer whose START was rejected": (
        pair([first()], [REJECTED(2, 1)], options="--closed ab"),
        pair([first()], [ACKED[0], REJECTED(2, 1)], f"a {{a2}} should unfinished transfer=0 length={HALF}",
             options="--closed ab"),
    ),
    "no contact header, but the end of a message": (
        bare([A[-10:], ALIVE, TERM], [HEADER, B, ALIVE, REPLIED], status=3),
        bare([A[-10:]], [HEADER, B, ALIVE, REPLIED], "b 6 should after-bad-contact type=07", status=3),
    ),
}
