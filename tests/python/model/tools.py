"""The tools `list`, `unpack` and `pack`. Each takes an input and its options, and returns (output, report, status).

Options have the names and defaults of docs/MANUAL.md, with `_` for `-`.
"""

import struct
from typing import NamedTuple, Optional

from . import bundle, texts, wire

# The extension type of a Transfer Length item (RFC 9174 section 5.2.5.1)
TRANSFER_LENGTH = 0x0001
MAX_CHUNK = 65536


def listing(stream):
    """`list`: "Report lines" and "Fault lines"."""
    read = wire.reading(stream)
    header = [] if read.contact is None else [f"0 contact version=4 flags={read.contact:02x}"]
    shown = [f"{at} {texts.message(it)}" for at, it in read.messages if not wire.is_cut(it)]
    return texts.lines(header + shown), texts.lines(texts.wire_fault(read.fault)), 3 if read.fault else 0


class Head(NamedTuple):
    """A message in its turn: its number and offset, why it is refused, and whether it is stray.

    The reason is None if the message is not refused. A cut segment has a head too.
    """
    number: int
    at: int
    it: object
    why: Optional[str]
    is_stray: bool


def open_transfer(before):
    """The ID of the transfer that is open after some messages, or None. None of them is stray."""
    segments = [it for it in before if isinstance(it, wire.Segment)]
    return segments[-1].id if segments and not segments[-1].flags & wire.END else None


def is_stray(before, it):
    """Whether a message is a segment without START whose transfer is not open."""
    return isinstance(it, wire.Segment) and not it.flags & wire.START and it.id != open_transfer(before)


def refusal(before, it):
    """The reason why a message is refused after those before it that are not stray, or None.

    It is the first reason of "Transfers" that holds.
    """
    has_begun = any(isinstance(each, wire.SessInit) for each in before)
    if isinstance(it, wire.SessInit):
        return "second session initiation" if has_begun else None
    if not isinstance(it, wire.Segment):
        return None
    if not has_begun:
        return "segment before session initiation"
    if is_stray(before, it):
        return "no such open transfer"
    if not it.flags & wire.START:
        return None
    if it.id == open_transfer(before):
        return "start repeats the open transfer"
    return "start after session termination" if any(isinstance(each, wire.SessTerm) for each in before) else None


def heads_of(read, keep_going):
    """The heads that a run goes through, and the fault that ends it, or None.

    Unless it is to keep going, the first head that is refused ends it.
    """
    heads, before = [], []
    for number, (at, it) in enumerate(read.messages):
        head = Head(number, at, it, refusal(before, it), is_stray(before, it))
        if head.why and not keep_going:
            return heads, (at, head.why)
        heads.append(head)
        before += [] if head.is_stray else [it]
    return heads, read.fault


def transfers_of(heads):
    """The heads of each transfer: one with START, and those after it up to the next START.

    Stray segments are part of none.
    """
    transfers = []
    for head in heads:
        if head.is_stray or not isinstance(head.it, wire.Segment):
            continue
        if head.it.flags & wire.START:
            transfers.append([])
        transfers[-1].append(head)
    return transfers


def is_closed(segments):
    """Whether a transfer's last segment has END and is whole."""
    return bool(segments[-1].flags & wire.END) and not wire.is_cut(segments[-1])


def length_items(items):
    """The values of the Transfer Length items among the items of a transfer (section 5.2.5.1)."""
    return [it.value for it in items if it.kind == TRANSFER_LENGTH]


def is_malformed(values):
    """Whether the values of a transfer's Transfer Length items are malformed."""
    return len(values) > 1 or any(len(value) != 8 for value in values)


def announced(items):
    """The length that the items of a transfer announce, or None."""
    values = length_items(items)
    return int.from_bytes(values[0], "big") if values and not is_malformed(values) else None


# The lines of one head, in their order.
REFUSED, ABANDONED, CLOSED = range(3)


class Transfer(NamedTuple):
    """A transfer: its ID, heads, items and data, and the judgement of the data as a bundle.

    `due` says when its line is due: the number of a head, and which of its lines it is. It is None
    if a fault leaves the transfer open.
    """
    id: int
    heads: list
    items: list
    data: bytes
    judged: bundle.Judgement
    due: Optional[tuple]


def over_at(transfer, following, count, fault):
    """When the line of a transfer is due, or None.

    After the last of `count` heads, a clean end abandons the open transfer. `following` has the
    heads of the transfer after it, or is None.
    """
    if is_closed([head.it for head in transfer]):
        return transfer[-1].number, CLOSED
    if following:
        return following[0].number, ABANDONED
    return None if fault else (count, ABANDONED)


def walk(heads, fault):
    """The transfers of a run that goes through these heads and is ended by that fault, or None."""
    transfers, walked = transfers_of(heads), []
    for each, following in zip(transfers, [*transfers[1:], None]):
        segments = [head.it for head in each]
        data, due = b"".join(it.data for it in segments), over_at(each, following, len(heads), fault)
        walked.append(Transfer(segments[0].id, each, segments[0].items, data, bundle.whole(data), due))
    return walked


def why_not_good(transfer):
    """JUDGEMENT of a transfer that is over: the first that holds, or None for a good one."""
    if transfer.due[1] == ABANDONED:
        return "abandoned"
    if is_malformed(length_items(transfer.items)):
        return "bad-length-item"
    length = announced(transfer.items)
    if length not in (None, len(transfer.data)):
        return f"length-differs announced={length}"
    fault = transfer.judged.fault
    return f"bad={fault[0]} byte={fault[1]}" if fault else None


def status_of(heads, transfers, fault):
    """The status of a run over transfers: 3 at a fault, 1 if something is refused or not good."""
    is_good = not any(head.why for head in heads) and not any(it.due and why_not_good(it) for it in transfers)
    return 3 if fault else 0 if is_good else 1


def part_of(data, judged, payload):
    """The part of a selected transfer: its data, or its bundle's payload, as far as it is there."""
    if not payload:
        return data
    start, length = judged.payload or (0, 0)
    return data[start:start + length]


def refused_lines(heads):
    """The fault lines of the heads that are refused, each with when it is due."""
    return [((head.number, REFUSED), *texts.wire_fault((head.at, head.why))) for head in heads if head.why]


def unpacking(stream, transfer=None, payload=False, keep_going=False):
    """`unpack`: "Unpacking" and "Going on after a fault of the order"."""
    heads, fault = heads_of(wire.reading(stream), keep_going)
    transfers, output, due = walk(heads, fault), b"", refused_lines(heads)
    for each in transfers:
        part = part_of(each.data, each.judged, payload) if transfer in (None, each.id) else b""
        if each.due:
            judgement = why_not_good(each) or f"good {texts.identity(each.judged.identity)}"
            line = f"transfer {each.id} start={len(output)} written={len(part)} length={len(each.data)} {judgement}"
            due.append((each.due, line))
        output += part
    report = [line for _, line in sorted(due)] + texts.wire_fault(fault)
    return output, texts.lines(report), status_of(heads, transfers, fault)


def session_head(node, keepalive, segment_mru, transfer_mru):
    """A contact header without flags and a SESS_INIT without items: "Written heads"."""
    numbers = struct.pack(">BHQQH", 0x07, keepalive, segment_mru, transfer_mru, len(node))
    return b"dtn!\x04\x00" + numbers + node + bytes(4)


def segment(flags, number, data, length):
    """XFER_SEGMENT with its data: "Written heads".

    With START its extension list is empty, or announces a length.
    """
    listed = b""
    if flags & wire.START:
        item = b"" if length is None else struct.pack(">BHHQ", 0x00, TRANSFER_LENGTH, 8, length)
        listed = struct.pack(">I", len(item)) + item
    return struct.pack(">BBQ", 0x01, flags, number) + listed + struct.pack(">Q", len(data)) + data


def chunks_of(content, size, hold, is_whole):
    """The chunks of a bundle, or of the accepted bytes of a bundle that has a fault.

    With a fault there are only full chunks, and none if at most `hold` bytes were accepted.
    """
    if is_whole:
        return [content[at:at + size] for at in range(0, len(content), size)]
    if len(content) <= hold:
        return []
    return [content[at:at + size] for at in range(0, len(content) - size + 1, size)]


def segments_of(number, chunks, length, is_whole):
    """The segments that carry the chunks of a bundle.

    The first has START and announces a length, if it is not None. The last of a whole bundle has
    END.
    """
    sent = b""
    for index, chunk in enumerate(chunks):
        flags = (wire.START if index == 0 else 0) | (wire.END if is_whole and index + 1 == len(chunks) else 0)
        sent += segment(flags, number, chunk, length)
    return sent


def limited(judged, most):
    """The judgement of a bundle for a peer that takes at most `most` bytes.

    The byte after these is one too many.
    """
    needs = judged.length if judged.fault is None or judged.fault[0] == "B1" else judged.length + 1
    if needs > most:
        return bundle.Judgement(("P1", most), None, most, None)
    return judged


def packing(content, node, keepalive=60, segment_mru=65536, transfer_mru=1048576, peer_segment=65536,
            peer_transfer=2**64 - 1, announce=0, end=False):
    """`pack`: "Packing"."""
    output, report = session_head(node.encode(), keepalive, segment_mru, transfer_mru), []
    size, number = min(peer_segment, MAX_CHUNK), 0
    while content:
        judged = limited(bundle.first(content), peer_transfer)
        taken, is_whole = content[:judged.length], judged.fault is None
        chunks = chunks_of(taken, size, announce, is_whole)
        length = len(taken) if is_whole and len(chunks) > 1 and len(taken) <= announce else None
        output += segments_of(number, chunks, length, is_whole)
        if not is_whole:
            return output, texts.lines(report + [texts.bundle_fault(number, *judged.fault)]), 3
        report.append(f"bundle {number} segments={len(chunks)} length={len(taken)} {texts.identity(judged.identity)}")
        content, number = content[judged.length:], number + 1
    return output + (b"\x05\x00\x00" if end else b""), texts.lines(report), 0
