"""Tests of scripts/pair."""

import make

from .common import (
    ACKED,
    BOTH,
    COMPLETED,
    END,
    EXAMPLES,
    LOST,
    NO_MESSAGE,
    REFUSED,
    Recording,
    START,
    Sent,
    TOP,
    TRANSFERS,
    UNANSWERED,
    empty_room,
    example,
    run,
    session,
    write,
)

# The IDs of the transfers of an example, if they are not 0, 1, and so on.
IDENTS = {"order-faults": [0, 0, 1, 2]}

REFUSED_TOO, EXTENSION = "refused reason=04/not-acceptable", "refused reason=05/extension-failure"

# For each example one with answers, what a line says of each, and how many answers belong to no
# transfer, with the first offset, how many of them are refusals, and their IDs. The last is what is
# reported of its own order, if anything is.
# `LOST` is `unanswered` if nothing says that the other side closed the connection.
PAIRS = {
    "every-block": ("prelude-and-transfer", [LOST] * 3, None),
    "every-message": ("every-message", [ACKED], (1, 154, 1, "0")),
    "late-transfers": ("every-message", [ACKED, *[LOST] * 29], (1, 154, 1, "0")),
    "order-faults": (
        "every-message",
        [LOST, ACKED, LOST, LOST],
        (1, 154, 1, "0"),
        "byte 70: start repeats the open transfer",
    ),
    "prelude-and-transfer": ("session-b", [ACKED], (4, 74, 3, "1, 2, 3, 4")),
    "session-a": ("session-b", [ACKED, ACKED, REFUSED, EXTENSION, REFUSED_TOO], None),
    "session-b": ("session-a", [ACKED], (1, 393, 0, "9")),
    "status-reports": ("prelude-and-transfer", [LOST] * 4, None),
    "transfers": ("session-b", [ACKED, ACKED, REFUSED, EXTENSION], (1, 112, 1, "4")),
}


def ack(flags, ident, length):
    """Returns an XFER_ACK."""
    return make.xfer_ack(flags, ident, length)


def refuse(reason, ident):
    """Returns an XFER_REFUSE."""
    return make.xfer_refuse(reason, ident)


GREATEST = 2**64 - 1
OTHERS = [
    make.msg_reject(2, 1),
    make.KEEPALIVE,
    make.xfer_segment(BOTH, 0, b"12345"),
]

# The flags, the ID and the length of each segment of A; the answers of B; what the lines say if B
# closed the connection; the status then; and what is reported. Otherwise `LOST` is `unanswered`,
# and is no loss. A SESS_TERM does not matter (RFC 9174 section 6.1).
CASES = {
    "one of each": (
        [(BOTH, 0, 5), (BOTH, 1, 6), (BOTH, 2, 7)],
        [ack(BOTH, 0, 5), refuse(2, 1)],
        [ACKED, REFUSED, LOST],
        1,
    ),
    "completed is no loss": (
        [(BOTH, 0, 5), (BOTH, 1, 5)],
        [refuse(1, 0), ack(BOTH, 1, 5)],
        [COMPLETED, ACKED],
        0,
    ),
    "a reason without a name": ([(BOTH, 0, 5)], [refuse(0x7F, 0)], ["refused reason=7f/?"], 1),
    "no transfer": ([], [], [], 0),
    "no data": ([(BOTH, 0, 0)], [ack(BOTH, 0, 0)], [ACKED], 0),
    "the greatest ID": ([(BOTH, GREATEST, 5)], [ack(BOTH, GREATEST, 5)], [ACKED], 0),
    "other messages": ([(BOTH, 0, 5)], OTHERS, [LOST], 1),
    "two segments": (
        [(START, 0, 5), (END, 0, 6)],
        [ack(START, 0, 5), ack(END, 0, 11)],
        [ACKED],
        0,
    ),
    "reserved flags": (
        [(0xFE, 0, 5), (0xFD, 0, 6), (0xFF, 1, 7)],
        [ack(0xFE, 0, 5), ack(0xFD, 0, 11), ack(0xFF, 1, 7)],
        [ACKED, ACKED],
        0,
    ),
    "refused after an acknowledgement": (
        [(START, 0, 5), (0, 0, 6)],
        [ack(START, 0, 5), refuse(2, 0)],
        [REFUSED],
        1,
    ),
    "a part is acknowledged": ([(START, 0, 5), (END, 0, 6)], [ack(START, 0, 5)], [LOST], 1),
    "all is acknowledged without END": (
        [(START, 0, 5), (END, 0, 0)],
        [ack(START, 0, 5)],
        [LOST],
        1,
    ),
    "each acknowledgement has START": (
        [(START, 0, 5), (0, 0, 6), (END, 0, 7)],
        [ack(START, 0, 5), ack(START, 0, 11), ack(BOTH, 0, 18)],
        [ACKED],
        0,
    ),
    "START and END are in one acknowledgement of two segments": (
        [(START, 0, 5), (END, 0, 6)],
        [ack(START, 0, 5), ack(BOTH, 0, 11)],
        [ACKED],
        0,
    ),
    "another length with END, and then the length": (
        [(START, 0, 5), (END, 0, 6)],
        [ack(END, 0, 5), ack(END, 0, 11)],
        [ACKED],
        0,
        "B: acknowledgements of another length: 1, the first at byte 38: 5 bytes of transfer 0, "
        "which has 11",
    ),
    "another length with END": (
        [(BOTH, 0, 5), (BOTH, 1, 5)],
        [ack(BOTH, 0, 4), ack(BOTH, 1, 6)],
        [LOST, LOST],
        1,
        "B: acknowledgements of another length: 2, the first at byte 38: 4 bytes of transfer 0, "
        "which has 5",
    ),
    "answers in another order": (
        [(BOTH, 0, 5), (BOTH, 1, 6)],
        [ack(BOTH, 1, 6), ack(BOTH, 0, 5)],
        [ACKED, ACKED],
        0,
    ),
    "answers to no transfer": (
        [(BOTH, 0, 5)],
        [refuse(2, 1), ack(BOTH, 0, 5), refuse(2, 0), ack(BOTH, 2, 5)],
        [ACKED],
        0,
        "B: answers to no transfer of A: 3, the first at byte 38; refusals: 2; IDs: 0, 1, 2",
    ),
    "answers to no transfer, of 12 IDs": (
        [(BOTH, 0, 5)],
        [ack(BOTH, 0, 5), *[refuse(2, ident) for ident in range(12, 0, -1)]],
        [ACKED],
        0,
        "B: answers to no transfer of A: 12, the first at byte 56; refusals: 12; "
        "IDs: 1, 2, 3, 4, 5, 6, 7, 8, 9, 10, ..",
    ),
    "an ID twice": (
        [(BOTH, 3, 5), (BOTH, 3, 6)],
        [ack(BOTH, 3, 5), ack(BOTH, 3, 6)],
        [ACKED, ACKED],
        0,
    ),
    "an ID twice, the first refused": (
        [(BOTH, 3, 5), (BOTH, 3, 5)],
        [refuse(2, 3), ack(BOTH, 3, 5)],
        [REFUSED, ACKED],
        1,
    ),
    "an ID twice, the second refused": (
        [(BOTH, 3, 5), (BOTH, 3, 5)],
        [ack(BOTH, 3, 5), refuse(2, 3)],
        [ACKED, REFUSED],
        1,
    ),
    "an ID twice, both refused": (
        [(BOTH, 3, 5), (BOTH, 3, 5)],
        [refuse(2, 3), refuse(4, 3)],
        [REFUSED, REFUSED_TOO],
        1,
    ),
    "an ID twice, the second without an answer": (
        [(BOTH, 3, 5), (BOTH, 3, 5)],
        [ack(BOTH, 3, 5)],
        [ACKED, LOST],
        1,
    ),
    "an ID twice, a part of the first acknowledged": (
        [(START, 3, 5), (END, 3, 6), (BOTH, 3, 7)],
        [ack(START, 3, 5), ack(BOTH, 3, 7)],
        [LOST, ACKED],
        1,
    ),
    "an ID twice, each segment refused": (
        [(START, 3, 5), (0, 3, 5), (END, 3, 5), (BOTH, 3, 6)],
        [refuse(2, 3)] * 3 + [refuse(4, 3)],
        [REFUSED, REFUSED_TOO],
        1,
    ),
    "an ID twice, the first refused after an acknowledgement": (
        [(START, 3, 5), (0, 3, 5), (END, 3, 5), (BOTH, 3, 6)],
        [ack(START, 3, 5), refuse(2, 3), refuse(2, 3), ack(BOTH, 3, 6)],
        [REFUSED, ACKED],
        1,
    ),
    "an ID twice, the first with two segments refused once": (
        [(START, 3, 5), (END, 3, 5), (BOTH, 3, 6)],
        [refuse(2, 3), ack(BOTH, 3, 6)],
        [REFUSED, ACKED],
        1,
    ),
    "an ID three times, the first with three segments refused once": (
        [(START, 3, 5), (0, 3, 5), (END, 3, 5), (BOTH, 3, 6), (BOTH, 3, 7)],
        [refuse(2, 3), ack(BOTH, 3, 6), refuse(4, 3)],
        [REFUSED, ACKED, REFUSED_TOO],
        1,
    ),
    "an ID twice, the first abandoned": (
        [(START, 3, 5), (BOTH, 4, 6), (BOTH, 3, 7)],
        [ack(BOTH, 4, 6), ack(BOTH, 3, 7)],
        [LOST, ACKED, ACKED],
        1,
    ),
    "the last of A is not over": (
        [(START, 0, 5)],
        [ack(START, 0, 5), ack(END, 0, 9)],
        [ACKED],
        0,
    ),
    "A goes on with a transfer that is not open": (
        [(0, 7, 5), (START, 0, 5), (END, 8, 5), (END, 0, 6)],
        [ack(END, 7, 9), ack(START, 0, 5), ack(END, 0, 11)],
        [ACKED],
        3,
        "A: byte 38: no such open transfer",
        "B: answers to no transfer of A: 1, the first at byte 38; refusals: 0; IDs: 7",
    ),
    "A begins the open transfer again": (
        [(START, 0, 5), (BOTH, 0, 6)],
        [ack(START, 0, 5), ack(BOTH, 0, 6)],
        [LOST, ACKED],
        3,
        "A: byte 65: start repeats the open transfer",
    ),
}


def sides(segments, answers):
    """Makes both recordings of a case. Returns them, and the ID, offset and length of each
    transfer."""
    a, b, transfers, opened = Recording(), Recording(), [], None
    for flags, ident, length in segments:
        offset = a.add(make.xfer_segment(flags, ident, bytes(length)))
        if flags & START:
            transfers.append([ident, offset, 0])
            opened = ident
        if ident == opened:
            transfers[-1][2] += length
    for answer in answers:
        b.add(answer)
    return a.content, b.content, transfers


def noted(*notes):
    """Returns what is on standard error."""
    return "".join(f"tcpclkit-pair: {note}\n" for note in notes)


# What B has at its end, and what is said of that
ENDS = [
    ("closed", make.sess_term(0, 0), ["--closed", "b"]),
    ("closed without SESS_TERM", b"", ["--closed", "b"]),
    ("with a SESS_TERM", make.sess_term(0, 0), []),
    ("without its end", b"", []),
]


def pair_cases():
    """What the lines say of the cases above."""
    with empty_room() as at:
        for name, (segments, answers, said, status, *notes) in CASES.items():
            a, b, transfers = sides(segments, answers)
            write(f"{at}/A", a)
            for end, rest, words in ENDS:
                write(f"{at}/B", b + rest)
                lines = ""
                for (ident, offset, length), text in zip(transfers, said):
                    text = UNANSWERED if text == LOST and not words else text
                    lines += f"transfer {ident} offset={offset} length={length} {text}\n"
                is_refused = any(it.startswith("refused") and it != COMPLETED for it in said)
                wanted = 0 if status == 1 and not words and not is_refused else status
                got = run(at, "pair", *words, "A", "B")
                yield f"pair: {name}, {end}", (wanted, lines, noted(*notes)), got


def pair_examples():
    """What the lines say of the examples."""
    yield "pair: the examples", EXAMPLES, sorted(PAIRS)
    for a, (b, said, left, *faults) in PAIRS.items():
        transfers = zip(IDENTS.get(a, range(len(said))), TRANSFERS[a], said)
        lines = [Sent(ident, at, data, False, text).line() for ident, (at, data), text in transfers]
        notes = [f"{a}.tcpcl: {fault}" for fault in faults]
        if left:
            text = f"{b}.tcpcl: answers to no transfer of {a}.tcpcl"
            text += f": {left[0]}, the first at byte {left[1]}"
            notes.append(f"{text}; refusals: {left[2]}; IDs: {left[3]}")
        lines, notes, paths = "".join(lines), noted(*notes), (f"{a}.tcpcl", f"{b}.tcpcl")
        status = 3 if faults else int(set(said) != {ACKED})
        got = run(f"{TOP}/examples", "pair", "--closed", "b", *paths)
        yield f"pair --closed b {a} {b}", (status, lines, notes), got
        lines = lines.replace(f" {LOST}\n", f" {UNANSWERED}\n")
        status = 3 if faults else int(not {ACKED, LOST}.issuperset(said))
        got = run(f"{TOP}/examples", "pair", *paths)
        yield f"pair {a} {b}", (status, lines, notes), got


def pair_closed():
    """Which side closed the connection matters: a's last transfer goes on, or is too short."""
    segments, answers = [(BOTH, 0, 5), (START, 1, 5)], [ack(START, 1, 5), ack(END, 1, 9)]
    wrong = "B: acknowledgements of another length: 1, the first at byte 56: "
    wrong += "9 bytes of transfer 1, which has 5"
    cases = [
        ([], [UNANSWERED, ACKED], 0, []),
        (["--closed", "b"], [LOST, ACKED], 1, []),
        (["--closed", "a"], [UNANSWERED, UNANSWERED], 0, [wrong]),
        (["--closed", "ab"], [LOST, LOST], 1, [wrong]),
    ]
    a, b, transfers = sides(segments, answers)
    with empty_room() as at:
        write(f"{at}/A", a + make.sess_term(0, 0))
        write(f"{at}/B", b + make.sess_term(1, 0))
        for words, said, status, notes in cases:
            lines = ""
            for (ident, offset, length), text in zip(transfers, said):
                lines += f"transfer {ident} offset={offset} length={length} {text}\n"
            wanted = status, lines, noted(*notes)
            yield f"pair: who closed: {words}", wanted, run(at, "pair", *words, "A", "B")
        write(f"{at}/B", b + NO_MESSAGE)
        line = f"transfer 0 offset={transfers[0][1]} length=5 {UNANSWERED}\n"
        status, shown, _ = run(at, "pair", "--closed", "b", "A", "B")
        yield "pair: --closed, and a fault", (3, line), (status, shown.splitlines(True)[0])
        yield "pair: --closed ba", 2, run(at, "pair", "--closed", "ba", "A", "B")[0]


def pair_many():
    """10,000 transfers, of which many have the same ID."""
    a, b, transfers = session(10000)
    with empty_room() as at:
        write(f"{at}/A", a.content)
        write(f"{at}/B", b.content)
        status, shown, errors = run(at, "pair", "--closed", "b", "A", "B")
        yield "pair 10,000 transfers", (1, ""), (status, errors)
        lines, wanted = shown.splitlines(True), [it.line() for it in transfers]
        differing = [(one, other) for one, other in zip(wanted, lines) if one != other]
        yield "pair 10,000 transfers: lines", (len(wanted), []), (len(lines), differing[:3])
        for name, words in [("A", ["-", "B"]), ("B", ["A", "-"])]:
            with open(f"{at}/{name}", "rb") as stdin:
                got = run(at, "pair", "--closed", "b", *words, stdin=stdin)
            yield f"pair {' '.join(words)}", True, got == (status, shown, errors)


def pair_faults():
    """Recordings that are cut or that are none, and what cannot be read or written."""
    first = "transfer 0 offset=38 length=34 "
    others = ["1 offset=125 length=37", "2 offset=184 length=17"]
    others += ["3 offset=223 length=34", "4 offset=305 length=34"]
    rest = "".join(f"transfer {other} {UNANSWERED}\n" for other in others)
    left = "B: answers to no transfer of"
    with empty_room() as at:
        for name, content in [
            ("A", example("session-a")),
            ("B", example("session-b")),
            ("cut-a", example("session-a")[:150]),
            ("cut-b", example("session-b")[:70]),
            ("late", example("session-a")[7:]),
        ]:
            write(f"{at}/{name}", content)
        rest_of_a = f"{left} cut-a: 4, the first at byte 74; refusals: 3; IDs: 1, 2, 3, 4"
        notes = noted("cut-a: byte 125: truncated", rest_of_a)
        yield "pair: A is cut", (3, f"{first}{ACKED}\n", notes), run(at, "pair", "cut-a", "B")
        notes = noted("cut-b: byte 56: truncated")
        wanted = 3, f"{first}{UNANSWERED}\n{rest}", notes
        yield "pair: B is cut", wanted, run(at, "pair", "A", "cut-b")
        all_of_b = f"{left} late: 6, the first at byte 38; refusals: 3; IDs: 0, 1, 2, 3, 4"
        notes = noted("late: byte 0: not a contact header", all_of_b)
        yield "pair: A has no beginning", (3, "", notes), run(at, "pair", "late", "B")
        notes = noted("nothing: cannot open the input")
        yield "pair: A is not there", (4, "", notes), run(at, "pair", "nothing", "B")
        yield "pair: B is not there", (4, "", notes), run(at, "pair", "A", "nothing")
        yield "pair: standard input twice", 2, run(at, "pair", "-", "-")[0]
        with open("/dev/full", "wb") as full:
            got = run(at, "pair", "A", "B", stdout=full)
        yield "pair: a full device", (4, None, noted("No space left on device")), got


PARTS = [pair_cases, pair_examples, pair_closed, pair_many, pair_faults]
