"""Tests of scripts/capture on captures that lack packets.

Packets are taken out of examples/session.pcap. What has to be shown is worked out from the messages
of the session, whose offsets are in examples/README.md, and from the packets that are left.
"""

import random
import struct
from typing import NamedTuple

import make

from .capture import (
    ACK,
    FIN,
    GOOD,
    NONE,
    OPEN,
    SESSION,
    SHOWN,
    Link,
    Segment,
    frames_of,
    noted,
    opening,
    pcap,
    seconds,
    strays,
)
from .common import END, HEAD, PROGRAM, SEED, START, empty_room, example, read, run, write

# The offsets at which the messages of a side begin, and its end
BEGINS = {
    "a": [0, 6, 38, 90, 125, 184, 223, 305, 374, 375, 393, 411, 414],
    "b": [0, 6, 38, 56, 74, 92, 102, 112, 122, 123, 193, 196, 199],
}
# The offset of SESS_INIT, and the length of what a recording after a gap begins with: a contact
# header, and mostly a SESS_INIT without node ID and items.
INIT, HEADER, PRELUDE = 6, 6, 31

class Sent(NamedTuple):
    """A transfer of the session.

    A segment is where it begins, where its data begins, and where that ends. `answer` is where the
    answer of the other side begins and ends.
    """

    side: str
    ident: int
    segments: list
    answer: tuple
    said: str


SENT = [
    Sent("a", 0, [(38, 73, 90), (90, 108, 125)], (56, 74), "acknowledged"),
    Sent("a", 1, [(125, 147, 184)], (74, 92), "acknowledged"),
    Sent("a", 2, [(184, 206, 223)], (92, 102), "refused reason=02/no-resources"),
    Sent("a", 3, [(223, 271, 305)], (102, 112), "refused reason=05/extension-failure"),
    Sent("a", 4, [(305, 340, 374)], (112, 122), "refused reason=04/not-acceptable"),
    Sent("b", 0, [(123, 145, 193)], (375, 393), "acknowledged"),
]


class Part(NamedTuple):
    """Bytes of a side without a gap: from where to where, and the offset of the first message."""

    begin: int
    end: int
    first: int

    def has(self, begin, end):
        """Returns whether bytes are there, and are read as messages."""
        return self.first <= begin and end <= self.end

    def shift(self):
        """Returns how much an offset in the recording is greater than in the stream."""
        prelude = HEADER if self.first == INIT else PRELUDE
        return 0 if self.begin == 0 else prelude - self.first


def packets():
    """Returns by number, from 1 on, the side and the offsets of the data of each packet that has
    some. Three packets open the connection."""
    found, sent, number = {}, {"a": 0, "b": 0}, 4
    for side, data, times in make.SESSION:
        for _ in range(times):
            found[number] = side, sent[side], sent[side] + len(data)
            number += 1
        sent[side] += len(data)
    return found


PACKETS = packets()

# The packet that repeats the one before it, and the one that has the head of a segment without its
# data. If that is missing with others, there may be data alone after a gap, which may look like a
# message.
AGAIN, HEAD_ALONE = 11, 13


def parts_of(side, missing):
    """Returns what is there of a side, without some packets. The first part may be empty.

    A part in which no message is whole is left out, if it is not the first.
    """
    there = [it[1:] for number, it in PACKETS.items() if it[0] == side and number not in missing]
    runs = [[0, 0]]
    for begin, end in sorted(set(there)):
        if begin == runs[-1][1]:
            runs[-1][1] = end
        else:
            runs.append([begin, end])
    parts = [Part(0, runs[0][1], 0)]
    for begin, end in runs[1:]:
        first = min(it for it in BEGINS[side] if it >= begin)
        if any(first < it <= end for it in BEGINS[side]):
            parts.append(Part(begin, end, first))
    return parts


def shown_of(sent, parts, answers):
    """Returns the line of a transfer without its times, and whether it is cut; or None if its
    beginning is missing."""
    number = next(
        (it for it, part in enumerate(parts) if part.has(*sent.segments[0][:2])), None
    )
    if number is None:
        return None
    part, length, is_cut = parts[number], 0, False
    for begin, data, end in sent.segments:
        is_cut = is_cut or not part.has(begin, end)
        length += max(0, min(end, part.end) - data) if part.has(begin, data) else 0
    if (sent.side, sent.ident) == ("a", 2):  # The head of the next segment shows that it is over.
        is_cut = is_cut or not part.has(*SENT[3].segments[0][:2])
    answer = next((it for it, part in enumerate(answers) if part.has(*sent.answer)), None)
    said = "unanswered" if answer is None else sent.said
    said += " after-gap" if number or answer else ""
    name = f"{sent.side}.{number}" if number else sent.side
    offset = sent.segments[0][0] + part.shift()
    words = SHOWN[SENT.index(sent)][0].partition(f" {sent.said} ")[2]
    words = "cut" if is_cut else words
    line = f"{name} transfer {sent.ident} offset={offset} length={length} {said} {words}"
    return line, is_cut, answer is not None


def lines_of(missing):
    """Returns what is shown without some packets, in the order of the texts.

    The times of a transfer that is cut are left out.
    """
    parts, lines = {side: parts_of(side, missing) for side in "ab"}, []
    for sent, (_, at, later) in zip(SENT, SHOWN):
        shown = shown_of(sent, parts[sent.side], parts["b" if sent.side == "a" else "a"])
        if shown is None:
            continue
        line, is_cut, is_answered = shown
        if sent is SENT[0] and AGAIN - 1 in missing:
            at, later = at + 1, later - 1
        answered = f" answered=+0.{later:02}0000" if is_answered else ""
        lines.append(line if is_cut else f"{line} sent=1767225600.{at:02}0000{answered}")
    return sorted(lines)


def without_times(line):
    """Returns a line without its times if its transfer is cut."""
    return line.partition(" sent=")[0] if " cut " in line else line


def recordings_of(missing):
    """Returns the lines of the file `streams` for the recordings after gaps."""
    lines = []
    for side in "ab":
        parts = parts_of(side, missing)
        kept = [it for number, it in PACKETS.items() if number not in missing]
        ends = [end for of, _, end in kept if of == side]
        for number, part in enumerate(parts[1:], 1):
            before = max([0, *(it for it in ends if it < part.begin)])
            gap = f"{before}+{part.begin - before}"
            lines.append(f"{side}.{number} gap={gap} begins={part.first}")
    return lines


def without(frames, missing, port=49152):
    """Returns the example without some packets, with another port of side a: frames by number."""
    kept = {it: frame for it, frame in enumerate(frames) if it + 1 not in missing}
    ports = struct.pack(">H", 49152), struct.pack(">H", port)
    return {it: of[:34] + of[34:38].replace(*ports) + of[38:] for it, of in kept.items()}


def run_without(at, frames, missing):
    """Runs the script on the example without some packets. Returns what it gave."""
    kept, name = without(frames, missing), "-".join(map(str, missing))
    write(f"{at}/{name}.pcap", pcap(kept.values(), kept.keys()))
    return name, run(at, "capture", name, f"{name}.pcap")


def lacks_bytes(missing):
    """Returns whether a byte is missing. One packet is there twice."""
    kept = {it for number, it in PACKETS.items() if number not in missing}
    return any(it not in kept for it in PACKETS.values())


def by_stream(lines):
    """Returns the lines of each stream, without the words before the side, in order of texts."""
    found = {}
    for line in lines:
        _, number, rest = line.split(" ", 2)
        found.setdefault(int(number), []).append(rest)
    return {number: sorted(rest) for number, rest in found.items()}


def lost_packets():
    """Each packet of the example is missing, and several at a time: each time in a session of its
    own."""
    draw, frames = random.Random(SEED), frames_of(read(SESSION))
    sets = [(number,) for number in range(1, len(frames) + 1)]
    many = sorted(PACKETS.keys() - {HEAD_ALONE})
    sets += [tuple(sorted(draw.sample(many, draw.randrange(2, 5)))) for _ in range(150)]
    kept = [without(frames, missing, 50000 + number) for number, missing in enumerate(sets)]
    numbers = [number for it in kept for number in it]
    with empty_room() as at:
        write(f"{at}/all.pcap", pcap([frame for it in kept for frame in it.values()], numbers))
        _, shown, errors = run(at, "capture", "made", "all.pcap")
        lines = by_stream(map(without_times, shown.splitlines()))
        streams = read(f"{at}/made/streams").decode().splitlines()
        recordings = by_stream(it for it in streams if it.startswith("recording "))
        noted_of = {int(it.split()[2]) for it in errors.splitlines() if ": stream " in it}
        for number, missing in enumerate(sets):
            name = f"capture without {'-'.join(map(str, missing))}"
            yield name, lines_of(missing), lines.get(number, [])
            yield f"{name}: recordings", recordings_of(missing), recordings.get(number, [])
            yield f"{name}: a gap is reported", lacks_bytes(missing), number in noted_of


def recordings_after_gaps():
    """What is in a recording after a gap, its times, and what is reported."""
    frames = frames_of(read(SESSION))
    with empty_room() as at:
        name, (_, _, errors) = run_without(at, frames, (14,))
        rest = example("session-a")[184:]
        recording = read(f"{at}/{name}/0000-a.1.tcpcl")
        yield "capture: a gap: the recording after it", rest, recording[PRELUDE:]
        got = run(at, f"{PROGRAM}", "list", f"{name}/0000-a.1.tcpcl")[1].splitlines()[:3]
        wanted = [
            "0 contact version=4 flags=00",
            "6 sess-init keepalive=0 segment-mru=0 transfer-mru=0 node= items=0",
            "31 xfer-segment flags=02 id=2 items=0 length=17",
        ]
        yield "capture: a gap: messages after it", wanted, got
        times = read(f"{at}/{name}/0000-a.1.times").decode().splitlines()
        wanted = ["70 1767225600.150000", "152 1767225600.170000", "221 1767225600.190000"]
        yield "capture: a gap: times after it", wanted, times[:3]
        text = "stream 0 a: gap at 147; 0000-a.1.tcpcl goes on at 184"
        yield "capture: a gap: what is reported", True, noted(text) in errors
        name, (_, _, errors) = run_without(at, frames, (14, 18))
        text = "stream 0 a: 2 gaps, the first at 147; "
        text += "0000-a.1.tcpcl to 0000-a.2.tcpcl go on after them"
        yield "capture: two gaps: what is reported", True, noted(text) in errors
        name, (_, _, errors) = run_without(at, frames, (27, 29, 30, 31))
        is_noted = noted("stream 0 a: gap at 411") in errors
        yield "capture: the last data: what is reported", True, is_noted


# The first packet that is captured, by how many bytes of each side are missing then
LATE = {10: (90, 56), 13: (125, 74), 14: (147, 74), 16: (184, 92), 24: (375, 193)}


def late_sessions():
    """The capture begins in the middle of a session."""
    frames = frames_of(read(SESSION))
    with empty_room() as at:
        for number, lost in LATE.items():
            missing = tuple(range(1, number))
            name, (status, shown, errors) = run_without(at, frames, missing)
            name_of_check = f"capture from packet {number} on"
            got = by_stream(map(without_times, shown.splitlines())).get(0, [])
            yield name_of_check, (3, lines_of(missing)), (status, got)
            for side, count in zip("ab", lost):
                first = min(it for it in BEGINS[side] if it >= count)
                text = f"0000-{side}.1.tcpcl goes on at {first - count}"
                note = noted(f"stream 0 {side}: began before the capture; {text}")
                yield f"{name_of_check}: {side}: what is reported", True, note in errors
                rest = read(f"{at}/{name}/0000-{side}.1.tcpcl")[PRELUDE:]
                yield f"{name_of_check}: {side}", example(f"session-{side}")[first:], rest
                yield f"{name_of_check}: {side} before", b"", read(f"{at}/{name}/0000-{side}.tcpcl")


def late(count):
    """Returns what is reported of connections that may be of TCPCL."""
    text = "if one is of TCPCL, --port N names its port"
    return f"connections that began before the capture: {count}; {text}"


def ports():
    """A session that began before the capture is known by its port. There may be several."""
    frames = [it.replace(b"\x11\xcc", b"\x17\x70") for it in frames_of(read(SESSION))[9:]]
    both = pcap(frames + [it.replace(b"\x17\x70", b"\x17\x71") for it in frames])
    with empty_room() as at:
        write(f"{at}/other.pcap", both)
        got = run(at, "capture", "none", "other.pcap")
        notes = noted(NONE, late(2))
        yield "capture from packet 10 on, other ports", (3, "", notes), got
        for words, count in [(["6000"], 5), (["6001"], 5), (["6001", "6000"], 10)]:
            options = [it for port in words for it in ("--port", port)]
            status, shown, _ = run(at, "capture", *options, f"of {words}", "other.pcap")
            yield f"capture {' '.join(options)}", (3, count), (status, shown.count("\n"))
        numbers = [*range(31), *range(31, 31 + 2 * len(frames))]
        write(f"{at}/third.pcap", pcap(frames_of(read(SESSION)) + frames_of(both), numbers))
        status, _, errors = run(at, "capture", "third", "third.pcap")
        wanted = 1, strays("third") + noted(late(2))
        yield "capture: a session, and others from packet 10 on", wanted, (status, errors)


# What is taken out of the end: how many packets are left, and what the lines of the transfers of a
# say. The transfers that have no line are left out. 28 has both SESS_TERM and no FIN, and 31 all.
OPEN_ENDS = {
    9: (["unanswered"], True),
    14: (["acknowledged", "unanswered"], True),
    16: (["acknowledged", "acknowledged", "unanswered"], True),
    28: (["acknowledged"] * 2 + ["refused"] * 3, True),
    31: (["acknowledged"] * 2 + ["refused"] * 3, False),
}


def open_ends():
    """The capture ends before the session. An answer may still come."""
    frames = frames_of(read(SESSION))
    with empty_room() as at:
        for count, (said, is_open) in OPEN_ENDS.items():
            write(f"{at}/{count}.pcap", pcap(frames[:count]))
            status, shown, errors = run(at, "capture", f"made{count}", f"{count}.pcap")
            words = [line.split()[7] for line in shown.splitlines() if " a transfer " in line]
            name = f"capture of {count} packets"
            yield name, (said, int("refused" in said)), (words, status)
            yield f"{name}: what is reported", is_open, noted(OPEN) in errors


LINK = Link((49152, 1), (4556, 2))
TERMS = {"a": make.sess_term(0, 0), "b": make.sess_term(1, 0)}


def packets_of(turns, before=tuple(opening(LINK))):
    """Returns the packets of a session: each turn is a side, and its data or its FIN."""
    sent, out = {"a": 0, "b": 0}, list(before)
    for side, data in turns:
        seen, is_fin = sent["b" if side == "a" else "a"], data == FIN
        content, flags = (b"", FIN | ACK) if is_fin else (data, ACK)
        out.append(Segment(LINK, side, sent[side], content, flags, seen))
        sent[side] += len(content)
    return out


def without_answer():
    """After a SESS_TERM of both sides, a transfer and its answer may go on."""
    heads = [("a", HEAD), ("b", HEAD)]
    whole = [*heads, ("a", make.xfer_segment(START | END, 0, make.BUNDLE)), *TERMS.items()]
    part = [*heads, ("a", make.xfer_segment(START, 0, make.BUNDLE[:9])), *TERMS.items()]
    rest = ("a", make.xfer_segment(END, 0, make.BUNDLE[9:]))
    done = ("b", make.xfer_ack(START | END, 0, len(make.BUNDLE)))
    cases = {
        "no answer yet": (whole, f"34 unanswered {GOOD}", 5, None, 0, True),
        "an answer": ([*whole, done], f"34 acknowledged {GOOD}", 5, 8, 0, True),
        "a FIN of b": ([*whole, ("b", FIN)], f"34 lost {GOOD}", 5, None, 1, True),
        "a FIN of a": ([*whole, ("a", FIN)], f"34 unanswered {GOOD}", 5, None, 0, True),
        "both FIN": ([*whole, ("a", FIN), ("b", FIN)], f"34 lost {GOOD}", 5, None, 1, False),
        "no END yet": (part, "9 unanswered cut", 5, None, 0, True),
        "an END": ([*part, rest], f"34 unanswered {GOOD}", 8, None, 0, True),
        "no END, a FIN of a": ([*part, ("a", FIN)], "9 unanswered abandoned", 5, None, 0, True),
    }
    with empty_room() as at:
        for name, (turns, words, sent, later, status, is_open) in cases.items():
            frames = [it.frame(number) for number, it in enumerate(packets_of(turns))]
            write(f"{at}/{name}.pcap", pcap(frames))
            line = f"stream 0 a transfer 0 offset=38 length={words} sent={seconds(sent)}"
            line += "" if later is None else f" answered=+0.0{later - sent}0000"
            wanted = status, f"{line}\n", noted(OPEN) if is_open else ""
            got = run(at, "capture", name, f"{name}.pcap")
            yield f"capture: after both SESS_TERM: {name}", wanted, got


def nothing_sent():
    """The capture has no byte of side b: it has sent none, or they are missing."""
    first = packets_of([("a", make.CONTACT)])
    more = Segment(LINK, "a", len(make.CONTACT), HEAD[len(make.CONTACT) :])
    nothing, gap = "stream 0 b: nothing was captured", "stream 0 b: gap at 0"
    cases = {
        "a contact header": (first, []),
        "and b's TCP has it": ([*first, Segment(LINK, "b", 0, seen=6)], []),
        "and b's FIN": ([*first, Segment(LINK, "b", 0, flags=FIN | ACK, seen=6)], []),
        "and a has 6 bytes of b": ([*first, Segment(LINK, "a", 6, seen=6)], [gap]),
        "and a SESS_INIT": ([*first, more], [nothing]),
        "and a SESS_INIT and b's FIN": ([*first, more, Segment(LINK, "b", 0, flags=FIN | ACK)], []),
        "and a SESS_INIT and a later FIN of b": ([*first, more, Segment(LINK, "b", 1, flags=FIN | ACK)], [gap]),
        "without the SYN of both": (first[2:], [nothing]),
    }
    with empty_room() as at:
        for name, (packets, notes) in cases.items():
            write(f"{at}/{name}.pcap", pcap([it.frame(it.offset + 1) for it in packets]))
            wanted = 3 if notes else 0, "", noted(*notes, OPEN)
            got = run(at, "capture", name, f"{name}.pcap")
            yield f"capture: nothing of b: {name}", wanted, got


PARTS = [
    lost_packets,
    recordings_after_gaps,
    late_sessions,
    ports,
    open_ends,
    without_answer,
    nothing_sent,
]

# The tools that a part needs.
TOOLS = {part: ["tshark"] for part in PARTS}
