"""Whether the first bytes of a recording may be the end of a message that began before them."""

from .facts import ACK, INIT, KEEPALIVE, REFUSE, REJECT, SEGMENT, START, TERM

# How many bytes are looked at
BEGINNING = 1 << 12

# The lengths of messages that have always the same one (RFC 9174 sections 5 and 6.1)
LENGTHS = {ACK: 18, REFUSE: 10, KEEPALIVE: 1, TERM: 3, REJECT: 3}

# Where the length of the node ID of a SESS_INIT is, and that of the items of a START
NODE, ITEMS = 19, 10


def number(content, at, size):
    """Returns a number in network byte order. Bytes beyond the end count as zeros."""
    return int.from_bytes(content[at : at + size].ljust(size, b"\0"), "big")


def length_of(content, at):
    """Returns the length of the message at an offset, or None if its type is unknown. If the bytes end
    before its length is whole, it is one that is longer than them."""
    kind = content[at]
    if kind == SEGMENT:
        starts = at + 1 < len(content) and content[at + 1] & START
        head = ITEMS + 4 + number(content, at + ITEMS, 4) if starts else ITEMS
        return head + 8 + number(content, at + head, 8)
    if kind == INIT:
        head = NODE + 2 + number(content, at + NODE, 2)
        return head + 4 + number(content, at + head, 4)
    return LENGTHS.get(kind)


def has_messages(content):
    """Returns whether messages begin at some byte after the first one and go on to the end of the
    bytes. One of them is whole, and the last one may be cut."""
    fits = [False] * len(content) + [True]
    is_found = False
    for at in range(len(content) - 1, 0, -1):
        length = length_of(content, at)
        end = None if length is None else at + length
        fits[at] = end is not None and (end > len(content) or fits[end])
        is_found = is_found or fits[at] and end <= len(content)
    return is_found
