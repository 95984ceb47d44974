"""Whether all bundles in some bytes are those that the probe plans: from it, for the node, without reports."""

from tcpclkit_scripts.messages import CONTACT_LENGTH, Cut, Fault, Messages

from . import wire

# The version of bundles; the flags of a bundle that ask for a report, or for the time in one, or for an
# acknowledgement (RFC 9171 section 4.2.3)
VERSION, REPORTS = 7, 0x7_4060

# How deep an item may be, and how many elements an array may have, that is looked at
DEPTH, ELEMENTS = 4, 16


class NoItem(Exception):
    """No CBOR item is at an offset."""


def item(data, at, depth=DEPTH):
    """Returns the CBOR item at an offset, and the offset after it. A list is an array.

    Any head is read, also one that is longer than it has to be, and an array of indefinite length.
    """
    if at >= len(data) or depth == 0:
        raise NoItem
    major, low = data[at] >> 5, data[at] & 31
    number, at = low, at + 1
    if 24 <= low < 28:
        size = 1 << low - 24
        number = int.from_bytes(data[at : at + size], "big")
        at += size
    elif low >= 28 and not (low == 31 and major == 4):
        raise NoItem
    if major == 4:
        return elements(data, at, None if low == 31 else number, depth)
    if major in (2, 3):
        if number > len(data) - at:
            raise NoItem
        return bytes(data[at : at + number]), at + number
    if major != 0 or at > len(data):
        raise NoItem
    return number, at


def elements(data, at, count, depth):
    """Returns the elements of an array, as many as there are and are looked at."""
    found = []
    while len(found) < ELEMENTS and (count is None or len(found) < count):
        if count is None and data[at : at + 1] == b"\xff":
            return found, at + 1
        try:
            it, at = item(data, at, depth - 1)
        except NoItem:
            if depth < DEPTH:
                raise
            break
        found.append(it)
    return found, at


def plain(eid):
    """Returns an endpoint ID whose texts are bytes."""
    return item(eid, 0)[0]


def strays(data, route):
    """Returns whether a primary block in some bytes is none that the probe plans."""
    ours = None if route is None else [plain(it) for it in (route.destination, route.source)] + [[1, 0]]
    for at in range(len(data)):
        if data[at] >> 5 != 4:
            continue
        try:
            found, _ = item(data, at)
        except NoItem:
            continue
        if len(found) >= 6 and found[0] == VERSION and isinstance(found[1], int):
            if ours is None or found[3:6] != ours or found[1] & REPORTS:
                return True
    return False


def data_of(stream):
    """Returns the data that a node may find in a stream: of each segment, of all that follow one another,
    of those with one ID, and what is no message."""
    found, at, messages = {}, CONTACT_LENGTH, Messages(stream, wire.MOST)
    parts = []
    try:
        while at < len(stream):
            end = messages.end(at) if stream[at] != wire.XFER_SEGMENT else None
            if end is None:
                begin, end = messages.data_of_segment(at)
                parts.append(stream[begin:end])
                found[stream[at + 2 : at + 10]] = found.get(stream[at + 2 : at + 10], b"") + parts[-1]
            at = end
    except (Cut, Fault):
        pass
    return [*parts, b"".join(parts), *found.values(), stream[at:]]


def is_planned(stream, route):
    """Returns whether no bundle in a stream is another than the probe plans."""
    return not any(strays(it, route) for it in data_of(stream))
