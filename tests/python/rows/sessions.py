"""`check-session`: for each rule, a pair of recordings that breaks it, and one that just keeps it.

A side is a list of messages, from its contact header on. In a line, `{a2}` is the offset of message
2 of side a, counted from 0, and `{b-end}` the length of the recording of side b. The lines were
worked out by hand from the RFC and docs/SESSIONS.md. More pairs with the same form are in MORE.
"""

import struct
from typing import NamedTuple

import make
from inputs.spelling import canonical, primary, spelled

START, END, BOTH = make.START, make.END, make.START | make.END
REPLY, CRITICAL = 0x01, 0x01

# Contact headers (RFC 9174 section 4.2)
HEADER, CAN_TLS = make.CONTACT, b"dtn!\x04\x01"


def bundle(payload, flags=0):
    """A bundle that breaks no rule: ipn:1.1 made it in 2026, and it lives for a day."""
    begin = primary((2, 1), (1, 1), (1, 0), flags=flags, kind=1, stamp=(820540800000, 0), lifetime=86400000)
    return spelled([begin, canonical(1, 1, payload, kind=1)])[0]


DATA, OTHER = bundle(b"hello"), bundle(b"other")
HALF, SIZE = len(DATA) // 2, len(DATA)


def init(node, *items, keepalive=60, segment=65536, transfer=1048576):
    """SESS_INIT (section 4.6)."""
    return struct.pack(">BHQQH", 0x07, keepalive, segment, transfer, len(node)) + node + make.extensions(*items)


A, B = init(b"ipn:1.0"), init(b"ipn:2.0")


def whole(ident=0, data=DATA, *items):
    """A transfer in one segment."""
    return make.xfer_segment(BOTH, ident, data, *items)


def first(ident=0, data=DATA[:HALF], *items):
    """The first segment of a transfer."""
    return make.xfer_segment(START, ident, data, *items)


def last(ident=0, data=DATA[HALF:]):
    """The last segment of a transfer."""
    return make.xfer_segment(END, ident, data)


def acked(ident=0, flags=BOTH, length=SIZE):
    """XFER_ACK, unless it is told otherwise of a transfer in one segment."""
    return make.xfer_ack(flags, ident, length)


def refused(ident=0, reason=0x02):
    """XFER_REFUSE."""
    return make.xfer_refuse(reason, ident)


TERM, REPLIED, ALIVE = make.sess_term(0, 0), make.sess_term(REPLY, 0), make.KEEPALIVE
REJECTED = make.msg_reject

# The two answers to a transfer in two segments
ACKED = acked(0, START, HALF), acked(0, END, SIZE)


class Pair(NamedTuple):
    """The recordings of both sides as lists of messages, the lines, the options and the status.

    `times` has for each side the second at which each of its messages was captured.
    """
    a: list
    b: list
    lines: list = []
    options: str = ""
    status: int = 0
    times: tuple = ()

    def offsets(self):
        """The offset of each message by its name in a line."""
        found = {}
        for name, messages in (("a", self.a), ("b", self.b)):
            at = 0
            for number, message in enumerate(messages):
                found[f"{name}{number}"], at = at, at + len(message)
            found[f"{name}-end"] = at
        return found

    def shown(self):
        """The lines as they are written."""
        return [line.format(**self.offsets()) for line in self.lines]

    def recordings(self):
        """The recordings as bytes."""
        return b"".join(self.a), b"".join(self.b)

    def captured(self):
        """The files of times: a line for each message, with the offset of its end."""
        files = []
        for messages, seconds in zip((self.a, self.b), self.times):
            ends = [sum(map(len, messages[:number + 1])) for number in range(len(messages))]
            files.append("".join(f"{end} {second:.6f}\n" for end, second in zip(ends, seconds)).encode())
        return files


def pair(a, b, *lines, options="", status=None, times=()):
    """A pair of two sides, each without its contact header and SESS_INIT."""
    return Pair([HEADER, A, *a], [HEADER, B, *b], list(lines), options,
                int(bool(lines)) if status is None else status, times)


def bare(a, b, *lines, options="", status=None):
    """A pair of two sides, each whole."""
    return Pair(list(a), list(b), list(lines), options, int(bool(lines)) if status is None else status)


LONGER = make.length_item(SIZE + 1)

# For each rule a pair that breaks it, and one that keeps it. One that names another rule too cannot
# be broken alone: the other side has to be wrong first.
RULES = {
    "no-session": (
        bare([HEADER, A, whole(), make.sess_term(REPLY, 3)], [HEADER, make.sess_term(0, 3)], "a {a2} must no-session"),
        bare([HEADER, A, make.sess_term(REPLY, 3)], [HEADER, make.sess_term(0, 3)]),
    ),
    "tls": (
        bare([CAN_TLS, A, make.sess_term(REPLY, 4)], [CAN_TLS, make.sess_term(0, 4)], "a 6 must tls type=07"),
        bare([CAN_TLS, make.sess_term(REPLY, 4)], [CAN_TLS, make.sess_term(0, 4)]),
    ),
    "peer-segment": (
        bare([HEADER, A, whole()], [HEADER, init(b"ipn:2.0", segment=SIZE - 1), acked()],
             f"a {{a2}} must peer-segment length={SIZE} limit={SIZE - 1}"),
        bare([HEADER, A, whole()], [HEADER, init(b"ipn:2.0", segment=SIZE), acked()]),
    ),
    "peer-transfer": (
        bare([HEADER, A, first(), last()], [HEADER, init(b"ipn:2.0", transfer=SIZE - 1), *ACKED],
             f"a {{a3}} must peer-transfer length={SIZE} limit={SIZE - 1}"),
        bare([HEADER, A, first(), last()], [HEADER, init(b"ipn:2.0", transfer=SIZE), *ACKED]),
    ),
    "ack-sum": (
        pair([first(), last(), TERM], [acked(0, START, HALF - 1), ACKED[1], REPLIED],
             f"b {{b2}} must ack-sum id=0 length={HALF - 1} sum={HALF}"),
        pair([first(), last(), TERM], [*ACKED, REPLIED]),
    ),
    "ack-flags": (
        pair([whole(), TERM], [acked(0, START), REPLIED], "b {b2} must ack-flags id=0 flags=02 segment=03"),
        pair([whole(), TERM], [acked(), REPLIED]),
    ),
    "answer-order": (
        pair([first(), last(), TERM], [acked(0, END, SIZE), acked(0, START, SIZE), REPLIED],
             "b {b2} should answer-order id=0 fault=not-in-order"),
        pair([first(), last(), whole(1), TERM], [ACKED[0], acked(1), ACKED[1], REPLIED]),
    ),
    "ack-unknown": (
        pair([whole(), REJECTED(3, 2), TERM], [acked(), acked(7), REPLIED], "b {b3} must ack-unknown id=7"),
        pair([whole(), whole(1), TERM], [acked(), acked(1), REPLIED]),
    ),
    "refuse-unknown": (
        pair([whole(), REJECTED(3, 3), TERM], [acked(), refused(7), REPLIED], "b {b3} must refuse-unknown id=7"),
        pair([whole(), whole(1), TERM], [acked(), refused(1), REPLIED]),
    ),
    "ack-missing": (
        pair([whole(), whole(1)], [acked(1)], "b {b-end} must ack-missing id=0 peer-at={a2}", options="--closed b"),
        pair([whole(), whole(1)], [acked(1), acked()], options="--closed b"),
    ),
    "ack-beyond": (
        pair([whole(), TERM], [acked(), acked(), REPLIED], "b {b3} must ack-beyond id=0"),
        pair([whole(), TERM], [acked(), REPLIED]),
    ),
    "refuse-order": (
        pair([whole(), whole(1), TERM], [refused(1), acked(), REPLIED], "b {b2} must refuse-order id=1 unanswered=0"),
        pair([whole(), whole(1), TERM], [acked(), refused(1), REPLIED]),
    ),
    "refused-continued": (
        pair([first(), acked(), last(), TERM], [refused(), whole(), refused(), REPLIED],
             "a {a4} must refused-continued id=0 peer-at={b2}"),
        pair([first(), last(), acked(), TERM], [refused(), whole(), refused(), REPLIED]),
    ),
    "refused-acknowledged": (
        pair([first(), last(), TERM], [refused(), ACKED[1], REPLIED], "b {b3} should refused-acknowledged id=0"),
        pair([first(), last(), TERM], [ACKED[0], refused(), REPLIED]),
    ),
    "length-not-refused": (
        pair([first(0, DATA[:HALF], LONGER), last()], [*ACKED],
             f"a {{a2}} must length-differs transfer=0 announced={SIZE + 1} length={SIZE}",
             f"b {{b3}} must length-not-refused id=0 announced={SIZE + 1} length={SIZE}", options="--closed b"),
        pair([first(0, DATA[:HALF], LONGER), last(), TERM], [ACKED[0], refused(0, 4), REPLIED],
             f"a {{a2}} must length-differs transfer=0 announced={SIZE + 1} length={SIZE}"),
    ),
    "interleaved": (
        pair([first(), whole(1), TERM], [ACKED[0], acked(1), REPLIED], "a {a3} must interleaved id=1 open=0"),
        pair([first(), whole(1), TERM], [ACKED[0], refused(), acked(1), REPLIED]),
    ),
    "unfinished": (
        pair([first()], [ACKED[0]], f"a {{a2}} should unfinished transfer=0 length={HALF}", options="--closed ab"),
        pair([first(), TERM], [ACKED[0], REPLIED], options="--closed ab"),
    ),
    "retried": (
        pair([whole(), acked(), whole(1), TERM], [refused(0, 4), whole(), refused(1, 4), REPLIED],
             "a {a4} should retried id=1 before=0 reason=04"),
        pair([whole(), acked(), whole(1, OTHER), TERM], [refused(0, 4), whole(), refused(1, 4), REPLIED]),
    ),
    "reject-header": (
        pair([whole(), TERM], [acked(), REJECTED(3, 3), REPLIED], "b {b3} must reject-header header=03",
             options="--closed a"),
        pair([whole(), ALIVE, TERM], [acked(), REJECTED(2, 4), REPLIED]),
    ),
    "not-rejected": (
        pair([A, whole()], [acked()], "a {a2} should order fault=second-session-initiation",
             "b {b-end} must not-rejected type=07 peer-at={a2}", options="--closed b"),
        pair([A, whole(), TERM], [REJECTED(3, 7), acked(), REPLIED],
             "a {a2} should order fault=second-session-initiation"),
    ),
    "taken-out-of-order": (
        pair([last(5), TERM], [acked(5, END, SIZE - HALF), REPLIED],
             "a {a2} must order fault=no-such-open-transfer", "b {b2} should taken-out-of-order id=5"),
        pair([last(5), TERM], [REJECTED(3, 1), REPLIED], "a {a2} must order fault=no-such-open-transfer"),
    ),
    "reply-alone": (
        pair([REPLIED], [], "a {a2} must reply-alone", options="--closed ab"),
        pair([REPLIED], [TERM], options="--closed ab"),
    ),
    "reply-differs": (
        pair([make.sess_term(0, 3)], [REPLIED],
             "b {b2} must reply-differs flags=01 reason=00 peer-flags=00 peer-reason=03"),
        pair([make.sess_term(0, 3)], [make.sess_term(REPLY, 3)]),
    ),
    "term-unanswered": (
        pair([first(), TERM, last()], [*ACKED], "b {b-end} must term-unanswered peer-at={a3}", options="--closed b"),
        pair([first(), TERM, last()], [*ACKED, REPLIED], options="--closed ab"),
    ),
    "ending": (
        pair([REPLIED, whole()], [TERM, acked()], "a {a3} must order fault=start-after-session-termination",
             "b {b3} must ending id=0 type=02"),
        pair([REPLIED, whole()], [TERM, refused(0, 6)], "a {a3} must order fault=start-after-session-termination"),
    ),
    "after-bad-contact": (
        bare([b"HTTP/1.1 400 Bad Request\r\n"], [HEADER, B], "b 6 should after-bad-contact type=07", status=3),
        bare([b"HTTP/1.1 400 Bad Request\r\n"], [HEADER], status=3),
    ),
    "version": (
        bare([b"dtn!\x05\x00"], [HEADER, B], "b 6 must version type=07 version=5", status=3),
        bare([b"dtn!\x05\x00"], [HEADER, make.sess_term(0, 2)], status=3),
    ),
    "refuse-reason": (
        pair([whole(), TERM], [refused(0, 5), REPLIED], "b {b2} should refuse-reason id=0 reason=05"),
        pair([whole(0, DATA, make.item(0, 0x8000, b"")), TERM], [refused(0, 5), REPLIED]),
    ),
    "keepalive": (
        bare([HEADER, A, ALIVE], [HEADER, init(b"ipn:2.0", keepalive=0)], "a {a2} should keepalive peer-interval=0"),
        bare([HEADER, A, ALIVE], [HEADER, B]),
    ),
    "critical-ignored": (
        bare([HEADER, init(b"ipn:1.0", make.item(CRITICAL, 0x8000, b"")), whole()], [HEADER, B, acked()],
             "b {b2} should critical-ignored peer-at=6"),
        bare([HEADER, init(b"ipn:1.0", make.item(0, 0x8000, b"")), whole()], [HEADER, B, acked()]),
    ),
    "keepalive-late": (
        pair([ALIVE], [ALIVE], "a {a2} should keepalive-late seconds=65.000001 interval=60",
             times=([0, 1, 66.000001], [0, 1, 61])),
        pair([ALIVE], [ALIVE], times=([0, 1, 66], [0, 1, 61])),
    ),
    "idle": (
        pair([ALIVE, ALIVE, ALIVE, ALIVE], [ALIVE], "a {a4} should idle seconds=150.000000 interval=60",
             "b {b2} should keepalive-late seconds=200.000000 interval=60",
             times=([0, 1, 51, 101, 151, 201], [0, 1, 201])),
        pair([ALIVE, ALIVE, make.sess_term(0, 1)], [ALIVE], "b {b2} should keepalive-late seconds=200.000000 interval=60",
             times=([0, 1, 51, 101, 151], [0, 1, 201])),
    ),
    "ack-early": (
        pair([whole(), TERM], [acked(), REPLIED], "b {b2} should ack-early id=0 peer-at={a2} early=0.010001",
             times=([0, 1, 2.010001, 4], [0, 1, 2, 5])),
        pair([whole(), TERM], [acked(), REPLIED], times=([0, 1, 2.01, 4], [0, 1, 2, 5])),
    ),
}
