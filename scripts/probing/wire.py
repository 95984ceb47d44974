"""The bytes of contact headers and messages (RFC 9174), right ones and wrong ones."""

import struct

# The types of messages (section 4.5)
XFER_SEGMENT, XFER_ACK, XFER_REFUSE, KEEPALIVE, SESS_TERM, MSG_REJECT, SESS_INIT = range(1, 8)

# The flags of a segment, of a SESS_TERM, of an item and of a contact header, and all reserved flags
END, START, REPLY, CRITICAL, CAN_TLS = 0x01, 0x02, 0x01, 0x01, 0x01
RESERVED_OF_SEGMENT, RESERVED = 0xFC, 0xFE

# The type of a Transfer Length item (section 5.2.5.1), and one that nobody has assigned
TRANSFER_LENGTH, UNKNOWN_ITEM = 0x0001, 0x7A5C

# The greatest number of 64 bits, and of an extension list
MOST, LONGEST_LIST = 2**64 - 1, 2**32 - 1


def contact(flags=0, version=4, magic=b"dtn!"):
    """Returns a contact header (section 4.2)."""
    return magic + bytes([version, flags])


def item(flags, kind, value=b"", length=None):
    """Returns an extension item (sections 4.8 and 5.2.5), which may claim another length."""
    return struct.pack(">BHH", flags, kind, len(value) if length is None else length) + value


def total_length(total):
    """Returns a Transfer Length item (section 5.2.5.1)."""
    return item(0, TRANSFER_LENGTH, struct.pack(">Q", total))


def items_list(items, length=None):
    """Returns an extension list, which may claim another length."""
    return struct.pack(">I", len(items) if length is None else length) + items


def sess_init(keepalive, segment_mru, transfer_mru, node, items=b"", listed=None):
    """Returns a SESS_INIT (section 4.6). `listed` is the length that its list claims to have."""
    numbers = struct.pack(">BHQQH", SESS_INIT, keepalive, segment_mru, transfer_mru, len(node))
    return numbers + node + items_list(items, listed)


def segment(flags, ident, data, items=b"", listed=None, length=None):
    """Returns an XFER_SEGMENT (section 5.2.2), with a list of items if it has START.

    `listed` and `length` are the lengths that the list and the data claim to have.
    """
    head = struct.pack(">BBQ", XFER_SEGMENT, flags, ident)
    if flags & START:
        head += items_list(items, listed)
    return head + struct.pack(">Q", len(data) if length is None else length) + data


def ack(flags, ident, length):
    """Returns an XFER_ACK (section 5.2.3)."""
    return struct.pack(">BBQQ", XFER_ACK, flags, ident, length)


def refuse(reason, ident):
    """Returns an XFER_REFUSE (section 5.2.4)."""
    return struct.pack(">BBQ", XFER_REFUSE, reason, ident)


def keepalive():
    """Returns a KEEPALIVE (section 5.1.1)."""
    return bytes([KEEPALIVE])


def sess_term(reason=0, flags=0):
    """Returns a SESS_TERM (section 6.1)."""
    return bytes([SESS_TERM, flags, reason])


def msg_reject(reason, header):
    """Returns a MSG_REJECT (section 5.1.2)."""
    return bytes([MSG_REJECT, reason, header])


def transfer(ident, pieces, items=b""):
    """Returns the segments of a transfer, each with one of these pieces of its data."""
    last = len(pieces) - 1
    flags = [START * (at == 0) | END * (at == last) for at in range(len(pieces))]
    return [segment(it, ident, piece, items) for it, piece in zip(flags, pieces)]
