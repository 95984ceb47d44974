"""`check-session`: more pairs, with the form of those in sessions.py, and sessions that break no rule."""

import make

from .sessions import (
    A, ACKED, ALIVE, B, BOTH, CAN_TLS, CRITICAL, DATA, END, HALF, HEADER, LONGER, OTHER, REJECTED, REPLIED, REPLY,
    SIZE, START, TERM, acked, bare, first, init, last, pair, refused, whole,
)

# A transfer in three segments of 10, 20 and the other bytes, and their answers
THREE = [make.xfer_segment(flags, 0, data) for flags, data in
         ((START, DATA[:10]), (0, DATA[10:30]), (END, DATA[30:]))]
THREE_ACKED = [acked(0, START, 10), acked(0, 0, 30), acked(0, END, SIZE)]

# The beginning of a record of TLS (RFC 8446 section 5.1)
HANDSHAKE = b"\x16\x03\x01"

# A session of both sides with what the RFC permits: answers that come late, a transfer that is
# refused and left, one that is refused after it was sent, IDs of any order, and an end while both
# sides send
LONG = pair(
    [*THREE, whole(1), first(2), whole(3, OTHER), *ACKED, ALIVE, acked(1), first(4), TERM, last(4), refused(2, 6)],
    [THREE_ACKED[0], first(), last(), *THREE_ACKED[1:], acked(1), whole(1, OTHER), refused(2), refused(3, 1),
     acked(4, START, HALF), whole(2), acked(4, END, SIZE), REPLIED],
)

KEPT = {
    "a long session": LONG,
    "answers that count later segments": pair([*THREE, TERM], [acked(0, START, SIZE), acked(0, 0, 30), acked(0, END, SIZE), REPLIED]),
    "each later segment refused": pair([*THREE, TERM], [THREE_ACKED[0], refused(), refused(), REPLIED]),
    "refused after an acknowledgement": pair([THREE[0], TERM], [THREE_ACKED[0], refused(), REPLIED]),
    "refused after all was acknowledged": pair([whole(), TERM], [acked(), refused(0, 4), REPLIED]),
    "both end at once": pair([whole(), TERM, acked()], [acked(), whole(), make.sess_term(0, 1)]),
    "closed amid a transfer": pair([first(), TERM], [ACKED[0], REPLIED]),
    "a new transfer refused at the end": pair([first(), TERM, last()], [ACKED[0], REPLIED, ACKED[1]]),
    "a transfer that crosses a SESS_TERM": pair([whole()], [TERM, refused(0, 6)]),
    "a peer that receives nothing": bare([HEADER, A, TERM], [HEADER, init(b"ipn:2.0", segment=0, transfer=0), REPLIED]),
    "a peer that is busy": bare([HEADER, make.sess_term(REPLY, 3)], [HEADER, make.sess_term(0, 3)]),
    "one side has TLS": bare([CAN_TLS, A, whole()], [HEADER, B, acked()]),
    "a critical item of both sides": bare(
        [HEADER, init(b"ipn:1.0", make.item(CRITICAL, 0x8000, b"")), whole()],
        [HEADER, init(b"ipn:2.0", make.item(0, 0x8000, b"")), acked()]),
    "a critical item and a SESS_TERM": bare(
        [HEADER, init(b"ipn:1.0", make.item(CRITICAL, 0x8000, b"")), whole(), make.sess_term(REPLY, 4)],
        [HEADER, B, acked(), make.sess_term(0, 4)]),
    "the same bundle again, refused with another reason": pair(
        [whole(), acked(), whole(1)], [refused(0, 3), whole(), acked(1)]),
    "the same bundle again, before the refusal was seen": pair(
        [whole(), whole(1), acked()], [refused(0, 4), whole(), refused(1, 4)]),
    "the same bundle again, with other items": pair(
        [whole(), acked(), whole(1, DATA, make.item(0, 0x8000, b"")), TERM], [refused(0, 4), whole(), acked(1), REPLIED]),
    "a refusal with session-terminating": pair([whole(), whole(1)], [refused(0, 6), refused(1, 6), TERM]),
}

# What is missing in a recording that is not whole accuses nobody.
NOT_WHOLE = {
    "an answer that may come": pair([whole(), whole(1), TERM], [acked(1)]),
    "a segment that may be missing": pair([whole()], [acked(), acked(1)]),
    "a segment that may be missing, of an open transfer": pair([first(), TERM], [ACKED[0], ACKED[1], REPLIED]),
    "a refusal that may come": pair([first(), whole(1)], [ACKED[0]]),
    "a SESS_TERM that may come": pair([TERM], []),
    "a SESS_TERM that may be missing": pair([], [REPLIED]),
    "a message that may have been rejected": pair([], [REJECTED(3, 3)]),
    "a KEEPALIVE that may have come after a SESS_TERM": pair([TERM], [REPLIED, REJECTED(2, 4)]),
    "a transfer whose other side is cut off": pair([first()], [ACKED[0][:5]], options="--closed ab", status=3),
    "a transfer whose other side may have refused it": pair([first()], [ACKED[0]], options="--closed a"),
    "TLS after a header of tcpclkit-resync": bare(
        [CAN_TLS, HANDSHAKE], [HEADER, init(b"", keepalive=0, segment=0, transfer=0)], status=3),
    "another version, and a SESS_INIT of tcpclkit-resync": bare(
        [b"dtn!\x03\x00"], [HEADER, init(b"", keepalive=0, segment=0, transfer=0)], status=3),
    "a refusal, and the segments before it are missing": pair(
        [*THREE[:2], TERM], [acked(0, START, SIZE), refused(), REPLIED], options="--closed b"),
    "a SESS_INIT that may come": bare([HEADER, A, whole()], [HEADER]),
    "nothing of a side": bare([HEADER, A, first(), whole(1)], [], status=3),
    "a beginning that is missing": bare([HEADER, A, whole(), whole(1)], [HEADER, make.xfer_ack(BOTH, 1, SIZE)[3:]], status=3),
    "a SESS_INIT of tcpclkit-resync": bare(
        [HEADER, init(b"", keepalive=0, segment=0, transfer=0), whole(7), TERM], [HEADER, B, acked(), acked(7), REPLIED]),
}

RESERVED = make.xfer_segment(0x80 | BOTH, 0, DATA)
FLAGS = "a {a2} must segment-flags flags=83"
LATE = "a {a3} must order fault=start-after-session-termination"
UNKNOWN = b"\x20"

BROKEN = {
    "a limit of 0 for segments": bare(
        [HEADER, A, whole(), TERM], [HEADER, init(b"ipn:2.0", segment=0), acked(), REPLIED],
        f"a {{a2}} must peer-segment length={SIZE} limit=0"),
    "a limit of 0 for transfers": bare(
        [HEADER, A, *THREE, TERM], [HEADER, init(b"ipn:2.0", transfer=0), *THREE_ACKED, REPLIED],
        "a {a2} must peer-transfer length=10 limit=0"),
    "a sum in the middle": pair([*THREE, TERM], [THREE_ACKED[0], acked(0, 0, 20), THREE_ACKED[2], REPLIED],
                                "b {b3} must ack-sum id=0 length=20 sum=30"),
    "no sums at all": pair([*THREE, TERM], [THREE_ACKED[0], acked(0, 0, 20), acked(0, END, SIZE - 30), REPLIED],
                           "b {b3} must ack-sum id=0 length=20 sum=30",
                           f"b {{b4}} must ack-sum id=0 length={SIZE - 30} sum={SIZE}"),
    "a length above that of the transfer": pair([whole(), TERM], [acked(0, BOTH, SIZE + 1), REPLIED],
                                                f"b {{b2}} must ack-beyond id=0 length={SIZE + 1} sent={SIZE}"),
    "an answer twice in the middle": pair([*THREE, TERM], [THREE_ACKED[0], THREE_ACKED[1], *THREE_ACKED[1:], REPLIED],
                                          "b {b4} must ack-beyond id=0 segments=3"),
    "an answer twice, and then the end": pair([*THREE, TERM], [THREE_ACKED[0], THREE_ACKED[0]],
                                              "b {b3} must ack-beyond id=0 segments=3"),
    "the first answer of a transfer is missing": pair(
        THREE, THREE_ACKED[1:], "b {b-end} must ack-missing id=0 peer-at={a2}", options="--closed b"),
    "the second answer of a transfer is missing": pair(
        THREE, [THREE_ACKED[0], THREE_ACKED[2]], "b {b-end} must ack-missing id=0 peer-at={a3}", options="--closed b"),
    "an answer that may come after a SESS_TERM": pair(
        [whole(), whole(1), TERM], [acked(1), REPLIED]),
    "a refusal that may come after a SESS_TERM": pair(
        [first(0, DATA[:HALF], LONGER), last(), TERM], [*ACKED, REPLIED],
        f"a {{a2}} must length-differs transfer=0 announced={SIZE + 1} length={SIZE}"),
    "a MSG_REJECT that may come after a SESS_TERM": pair(
        [A, whole(), TERM], [acked(), REPLIED], "a {a2} should order fault=second-session-initiation"),
    "a KEEPALIVE is rejected that was not sent": pair(
        [TERM], [REPLIED, REJECTED(2, 4)], "b {b3} must reject-header header=04", options="--closed a"),
    "an answer is missing, and the last segment is empty": pair(
        [first(0, DATA[:10]), *(make.xfer_segment(*it) for it in ((0, 0, b""), (0, 0, DATA[10:]), (END, 0, b"")))],
        [acked(0, START, 10), acked(0, 0, SIZE), acked(0, END, SIZE)], "b {b-end} must ack-missing id=0 peer-at={a3}",
        options="--closed b"),
    "an answer is missing before a SESS_TERM": pair([whole(), TERM], [REPLIED],
                                                    "b {b-end} should ack-missing id=0 peer-at={a2}", options="--closed b"),
    "reserved flags that are not repeated": pair([RESERVED, TERM], [acked(), REPLIED], FLAGS,
                                                 "b {b2} should ack-flags id=0 flags=03 segment=83"),
    "reserved flags that are repeated": pair([RESERVED, TERM], [acked(0, 0x83), REPLIED], FLAGS),
    "reserved flags of an answer": pair([whole(), TERM], [acked(0, 0x83), REPLIED],
                                        "b {b2} must ack-flags id=0 flags=83 segment=03"),
    "an answer to nothing, known by a later answer": pair(
        [whole(), acked()], [acked(7), acked(), whole()], "b {b2} must ack-unknown id=7"),
    "an answer to nothing that was seen": pair(
        [whole(), acked()], [acked(7), acked(), whole()], "a {a-end} must not-rejected type=02 peer-at={b2}",
        "b {b2} must ack-unknown id=7", options="--closed a"),
    "an answer to nothing that may not have been seen": pair(
        [whole(), TERM], [acked(7), acked(), REPLIED], "a {a-end} should not-rejected type=02 peer-at={b2}",
        "b {b2} must ack-unknown id=7", options="--closed a"),
    "a refusal before an earlier transfer, and then the end": pair(
        [whole(), whole(1), TERM], [refused(1)], "b {b2} must refuse-order id=1 unanswered=0"),
    "a refusal before an earlier transfer that is refused": pair(
        [whole(), whole(1), TERM], [refused(1), refused(0), REPLIED], "b {b2} must refuse-order id=1 unanswered=0"),
    "an acknowledgement of what follows a refusal": pair(
        [first(), acked(), last(), TERM], [refused(), whole(), ACKED[1], REPLIED],
        "a {a4} must refused-continued id=0 peer-at={b2}", "b {b4} must refused-acknowledged id=0"),
    "a refused transfer goes on, by times": pair(
        [first(), last()], [refused(), refused()], "a {a3} should refused-continued id=0 peer-at={b2}",
        times=([0, 1, 2, 8.000001], [0, 1, 3, 9])),
    "a refused transfer goes on soon": pair([first(), last()], [refused(), refused()], times=([0, 1, 2, 8], [0, 1, 3, 9])),
    "left without a refusal, known by a later answer": pair(
        [first(), whole(1)], [ACKED[0], acked(1)], "a {a3} must interleaved id=1 open=0"),
    "refused when it was left": pair([first(), whole(1)], [ACKED[0], acked(1), refused()],
                                     "a {a3} must interleaved id=1 open=0"),
    "left, and an answer is missing": pair(
        [first(), whole(1), TERM], [acked(1), REPLIED], "a {a3} should interleaved id=1 open=0", options="--closed b"),
    "two transfers take turns": pair(
        [first(), first(1), last(), last(1), TERM],
        [ACKED[0], acked(1, START, HALF), REJECTED(3, 1), acked(1, END, SIZE), REPLIED],
        "a {a3} must interleaved id=1 open=0", "a {a4} must order fault=no-such-open-transfer"),
    "both SESS_TERM are replies": pair([REPLIED], [REPLIED], "a {a2} should reply-alone", "b {b2} should reply-alone"),
    "a reply without the reserved flags": pair(
        [make.sess_term(0x80, 0)], [REPLIED], "a {a2} must term-flags flags=80",
        "b {b2} should reply-differs flags=01 reason=00 peer-flags=80 peer-reason=00"),
    "no reply to a SESS_TERM": pair([TERM], [], "b {b-end} should term-unanswered peer-at={a2}", options="--closed b"),
    "a late transfer is acknowledged": pair([TERM, whole()], [acked(), REPLIED], LATE, "b {b2} should ending id=0 type=02"),
    "a late transfer is refused with another reason": pair(
        [TERM, whole()], [refused(), REPLIED], LATE, "b {b2} should ending id=0 type=03 reason=02"),
    "a late transfer is refused": pair([TERM, whole()], [refused(0, 6), REPLIED], LATE),
    "a handshake of TLS that was not agreed": bare([HEADER, HANDSHAKE], [CAN_TLS, B], "a 6 must tls type=16", status=3),
    "a handshake of TLS": bare([CAN_TLS, HANDSHAKE], [CAN_TLS, HANDSHAKE], status=3),
    "another version, and contact-failure": bare([b"dtn!\x05\x00"], [HEADER, make.sess_term(0, 4)], status=3),
    "a lower version, and contact-failure": bare([b"dtn!\x03\x00"], [HEADER, make.sess_term(0, 4)], status=3),
    "a lower version, and a SESS_INIT": bare([b"dtn!\x03\x00"], [HEADER, B], "b 6 must version type=07 version=3", status=3),
    "another version, and busy": bare([b"dtn!\x05\x00"], [HEADER, make.sess_term(0, 3)], status=3),
    "no contact header, and contact-failure": bare([b"HTTP/1.1 "], [HEADER, make.sess_term(0, 4)],
                                                   "b 6 should after-bad-contact type=05", status=3),
    "no contact header, and busy": bare([b"HTTP/1.1 "], [HEADER, make.sess_term(0, 3)], status=3),
    "no contact header, and a session": bare([b"HTTP/1.1 "], [HEADER, B, whole()], status=3),
    "zeros and no contact header": bare([bytes(9)], [HEADER, B], status=3),
    "a rejected message and no contact header": bare([b"\xf0" * 9], [HEADER, B, REJECTED(1, 0xf0)], status=3),
    "a message and no contact header": bare([A], [HEADER, B], status=3),
    "the same bundle again after no-resources": pair(
        [whole(), acked(), whole(1, DATA, make.item(0, 0x8000, b"")), TERM], [refused(), whole(), acked(1), REPLIED],
        "a {a4} should retried id=1 before=0 reason=02"),
    "session-terminating in a session that goes on": pair(
        [whole(), whole(1), REPLIED], [refused(0, 6), acked(1), TERM], "b {b2} should refuse-reason id=0 reason=06"),
    "an answer before the SESS_INIT": bare(
        [HEADER, A, whole()], [HEADER, acked(), B], "a {a2} must no-session", "b {b1} should before-session type=02"),
    "a critical item of a transfer": pair(
        [whole(0, DATA, make.item(CRITICAL, 0x8000, b""))], [acked()], "b {b2} should critical-ignored id=0 peer-at={a2}"),
    "a wrong length that is refused otherwise": pair(
        [first(0, DATA[:HALF], LONGER), last(), TERM], [ACKED[0], refused(), REPLIED],
        f"a {{a2}} must length-differs transfer=0 announced={SIZE + 1} length={SIZE}"),
    "an unknown type": pair([UNKNOWN], [TERM], "b {b-end} should not-rejected type=20 peer-at={a2}",
                            status=3, options="--closed b"),
    "an unknown type that is rejected": pair([UNKNOWN], [REJECTED(1, 0x20)], status=3),
    "an unknown type for private use": pair([b"\xf0"], [TERM], status=3),
    "a type that may be a gap": pair([b"\x00"], [TERM], status=3),
    "an ID twice": pair([whole(), whole(1), whole(), TERM], [acked(), acked(1), acked(), REPLIED],
                        "a {a4} must transfer-id id=0"),
    "an ID twice, without answers in between": pair(
        [whole(), whole(1), whole(), TERM], [acked(1), REPLIED], "a {a4} must transfer-id id=0"),
    "a START that comes twice": pair(
        [first(), whole(), TERM], [ACKED[0], acked(), REPLIED], "a {a3} must order fault=start-repeats-the-open-transfer",
        "a {a3} must transfer-id id=0", "b {b3} should taken-out-of-order id=0"),
}

MORE = {**KEPT, **NOT_WHOLE, **BROKEN}
