"""The lines of both sides of a session."""

import re
from typing import NamedTuple

from . import answers, captured, endings, order, sending, timed
from .facts import ACK, INIT, KEEPALIVE, REFUSE, REJECT, REPLY, SEGMENT, START, TERM, Check, Listing
from .sides import MUST, SHOULD, Line, Side


class Verdict(NamedTuple):
    """The lines of each side, in the order of their offsets; what is to be reported of the
    recordings, and whether one of them has a fault. `nameless` has the sides that name no node, if
    only what their own nodes wrote was to be judged."""

    lines: list
    notes: list
    has_fault: bool
    nameless: tuple = ()

    def shown(self, is_must=False):
        """Returns the lines as they are written, of level must alone if `is_must`."""
        return [f"{name} {line.offset} {line.level} {line.rule} {line.words}".rstrip()
                for name, lines in self.lines for line in lines if line.level == MUST or not is_must]


# What is reported of a side that names no node
NAMELESS = "the first SESS_INIT names no node, so bundles of all nodes are judged"

# A node ID that names a node (RFC 9171 section 4.2.5)
NAME, URI = r"(?:[\w.~!$&'()*+,;=-]|%[\da-f]{2})*", r"(?:[!#$&-;=?-\[\]_a-z~]|%[\da-f]{2})*"
NODE = re.compile(rf"dtn://{NAME}/{URI}|ipn:\d+\.\d+(\.\d+)?", re.ASCII | re.IGNORECASE)

# The rules of `check` that the beginning of a session decides, beside its SESS_INIT
OF_BEGINNING = ("transfer-id-order", "answer-order", "keepalive")

# The reason of a MSG_REJECT after which its side closes the connection (RFC 9174 section 5.1.2)
TYPE_UNKNOWN = 0x01

# The texts of `order` that accuse nobody in a recording without its beginning: a SESS_INIT was made for it,
# and until the first START, a segment may belong to a transfer that began before
SECOND_INIT, NO_TRANSFER = "fault=second-session-initiation", "fault=no-such-open-transfer"

# The rules of `check` that the other recording decides if it has the transfer
OF_ANSWERS = ("ack-length", "answer-order")

# The rules of `check` that name a transfer and do not judge its bundle
OF_TRANSFERS = ("unfinished", "length-item", "length-differs", "length-of-one-segment")


def is_begun(side):
    """Returns whether a recording has the beginning of its session.

    A SESS_INIT without a node ID whose numbers are all 0 is one of `tcpclkit-resync`, which writes
    it where the beginning is missing.
    """
    init = side.listing.init
    is_made = init is not None and init.numbers == (0, 0, 0) and not init.node and not init.items
    return side.listing.contact is not None and not is_made


def judged(tcpclkit, recordings, times=None, closed="", connection=(), own=False):
    """Returns the verdict on the recordings of sides a and b.

    `times` are two files of `tcpclkit-capture`. `closed` has the names of the sides that closed the
    connection after the last byte of their recordings. `connection` has what a capture shows of
    each side, if they are of one. `own`: of bundles, only what a side's own node wrote is judged.
    """
    names = "ab"
    sides = [Side(name, Listing(tcpclkit, it), name in closed) for name, it in zip(names, recordings)]
    sides[0].other, sides[1].other = sides[1], sides[0]
    are_begun = all(map(is_begun, sides))
    nodes = [named_node(side.listing.init) if own else None for side in sides]
    notes, has_fault = alone(tcpclkit, sides, are_begun, nodes)
    for side, path in zip(sides, times or ()):
        side.clock = timed.Clock(path)
    for side, it in zip(sides, connection):
        side.captured = it
    if times and are_begun:
        timed.start(sides)
    both(sides, are_begun)
    if times and are_begun:
        for side in sides:
            timed.idle(side, tcpclkit)
    if not are_begun:
        notes += [f"{side.path}: without its beginning, the rules of two sides are not judged"
                  for side in sides if not is_begun(side)]
    for side in sides:
        side.close()
    nameless = tuple(name for name, node in zip(names, nodes) if own and node is None)
    return Verdict([(side.name, found(side, are_begun)) for side in sides], notes, has_fault, nameless)


# ---- the rules of one side


def alone(tcpclkit, sides, are_begun, nodes):
    """Takes the lines of `check` of each side. Returns what to report, and whether there is a fault.

    `nodes` has the node of each side whose bundles alone are judged, or None.
    """
    runs = [Check(tcpclkit, side.path, *limits(side.other, are_begun), node) for side, node in zip(sides, nodes)]
    for side, run in zip(sides, runs):
        for line in run.lines():
            take_line(side, line, are_begun)
    notes = [f"{run.path}: {run.fault}" for run in runs if run.fault]
    return notes, bool(notes)


def named_node(init):
    """Returns the node ID of a SESS_INIT if it names a node, or None."""
    return init.node if init is not None and NODE.fullmatch(init.node) else None


def limits(side, are_begun):
    """Returns the limits that a side sets to the other one, or None for each."""
    init = side.listing.init
    return init.numbers[1:] if are_begun and init is not None else (None, None)


def take_line(side, line, are_begun):
    """Takes a line of `check`. What both sides decide together is kept apart."""
    line = Line(*line)
    if are_begun and line.rule in OF_ANSWERS:
        side.of_answers.setdefault(line.offset, []).append(line)
    elif line.rule == "unfinished":
        side.unfinished = line
    elif line.rule != "interleaved" and (is_begun(side) or line.rule not in OF_BEGINNING):
        side.lines.append(line)
    if line.rule == "length-differs":
        side.differing[line.offset] = line.words.partition(" ")[2]


# ---- the rules of two sides


def both(sides, are_begun):
    """Takes all messages of both recordings, and then judges what depends on their ends."""
    a, b = sides
    side = order.turn(a, b)
    while side is not None:
        take(side, are_begun)
        side.other.waited += 1
        side = order.turn(a, b)
    for side in filter(is_begun, sides):
        endings.judge_contact(side, are_begun)
    for side in sides:
        captured.judge(side)
    for judge in (endings.judge_waiting, endings.judge_session) if are_begun else ():
        for side in sides:
            judge(side)


def take(side, are_begun):
    """Takes the next message of a side."""
    message = side.advance()
    kind = message.kind
    if side.first is None:
        side.first = message
    if kind <= REFUSE and side.first_use is None:
        side.first_use = message.offset
    if side.first_start is None and kind == SEGMENT and message.flags & START:
        side.first_start = message.offset
    if kind == REJECT:
        side.rejects.setdefault(message.header, message.offset)
        side.has_given_up |= message.reason == TYPE_UNKNOWN and not SEGMENT <= message.header <= INIT
    if not are_begun:
        return
    came = side.clock.came(message) if side.clock else None
    if came:
        timed.heard(side, message, came)
    side.types.setdefault(kind, message.offset)
    if kind == SEGMENT:
        sending.take_segment(side, message, came)
        if message.ident in side.other.waiting:
            answers.take_waiting(side.other, message.ident)
    elif kind in (ACK, REFUSE):
        answers.take_answer(side, message, came)
    else:
        take_other(side, message)


def take_other(side, message):
    """Takes a message that is no part of a transfer."""
    if message.kind == TERM:
        take_term(side, message)
    elif message.kind == REJECT:
        side.seen = max(side.seen, side.other.types.get(message.header, -1))
        side.of_segments += message.header == SEGMENT
    elif message.kind == INIT and len(side.inits) < 2:
        side.inits.append(message)
    elif message.kind == KEEPALIVE and side.first_keepalive is None:
        side.first_keepalive = message.offset


def take_term(side, message):
    """Takes a SESS_TERM."""
    asked = side.other.asked
    if message.flags & REPLY and asked is not None:
        side.seen = max(side.seen, asked.offset)
    elif not message.flags & REPLY and side.asked is None:
        side.asked = message
    side.terms.setdefault((message.flags, message.reason), message)


# ---- all lines


def found(side, are_begun):
    """Returns the lines of a side, in the order of their offsets."""
    lines = [line for line in side.lines if is_begun(side) or not is_of_beginning(side, line)]
    lines += [line for each in side.of_answers.values() for line in each]
    lines += [claim.line for claim in side.claims if side.holds(claim)]
    if are_begun and side.unfinished is not None and is_unfinished(side):
        lines.append(side.unfinished)
    if have_same_item(side, side.other):
        lines = list(map(weakened, lines))
    return sorted(lines, key=lambda line: line.offset)


def is_of_beginning(side, line):
    """Returns whether a line of `check` may only come from the beginning that a recording lacks."""
    is_before = side.first_start is None or line.offset < side.first_start
    return line.rule == "order" and (line.words == SECOND_INIT or line.words == NO_TRANSFER and is_before)


def have_same_item(a, b):
    """Returns whether both first SESS_INIT have an item of one type. It may change what the data of a
    transfer means."""
    inits = [each.inits[0] if each.inits else each.listing.init for each in (a, b)]
    return None not in inits and bool({it.kind for it in inits[0].items} & {it.kind for it in inits[1].items})


def weakened(line):
    """Returns a line, at most a should if it judges a bundle."""
    is_of_bundle = line.words.startswith("transfer=") and line.rule not in OF_TRANSFERS
    return line._replace(level=SHOULD) if is_of_bundle else line


def is_unfinished(side):
    """Returns whether the transfer that is open at the end should have been finished.

    It may be left if it was refused, or its START rejected, and in a session that a SESS_TERM ends
    (RFC 9174 section 6.1). The other side may have done so, or have closed the connection inside a
    message, if its recording is not whole.
    """
    opened, other = side.opened, side.other
    is_refused = opened is not None and (opened.refused is not None or opened.answered == 0 and other.of_segments > 0)
    return side.is_whole() and other.is_whole() and not (is_refused or side.terms or other.terms)
