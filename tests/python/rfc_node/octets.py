"""The bytes that a node sends: the contact header and the messages of RFC 9174, section by section."""

import struct
from enum import IntEnum, IntFlag

MAGIC = b"dtn!"
VERSION = 4
U64_MAX = 2**64 - 1


class ContactFlag(IntFlag):
    """Table 1: contact header flags."""
    CAN_TLS = 0x01


class Kind(IntEnum):
    """Table 2: message types."""
    XFER_SEGMENT = 0x01
    XFER_ACK = 0x02
    XFER_REFUSE = 0x03
    KEEPALIVE = 0x04
    SESS_TERM = 0x05
    MSG_REJECT = 0x06
    SESS_INIT = 0x07


class ItemFlag(IntFlag):
    """Tables 3 and 7: flags of extension items."""
    CRITICAL = 0x01


class Rejection(IntEnum):
    """Table 4: reasons of MSG_REJECT."""
    TYPE_UNKNOWN = 0x01
    UNSUPPORTED = 0x02
    UNEXPECTED = 0x03


class SegmentFlag(IntFlag):
    """Table 5: flags of XFER_SEGMENT and XFER_ACK."""
    END = 0x01
    START = 0x02


class Refusal(IntEnum):
    """Table 6: reasons of XFER_REFUSE."""
    UNKNOWN = 0x00
    COMPLETED = 0x01
    NO_RESOURCES = 0x02
    RETRANSMIT = 0x03
    NOT_ACCEPTABLE = 0x04
    EXTENSION_FAILURE = 0x05
    SESSION_TERMINATING = 0x06


class TermFlag(IntFlag):
    """Table 8: flags of SESS_TERM."""
    REPLY = 0x01


class Reason(IntEnum):
    """Table 9: reasons of SESS_TERM."""
    UNKNOWN = 0x00
    IDLE_TIMEOUT = 0x01
    VERSION_MISMATCH = 0x02
    BUSY = 0x03
    CONTACT_FAILURE = 0x04
    RESOURCE_EXHAUSTION = 0x05


# Table 13: the only type of extension item that RFC 9174 assigns
TRANSFER_LENGTH = 0x0001


def reserved(flags, known):
    """Returns the reserved bits of some flags: all but these known ones."""
    return flags & 0xFF & ~int(known)


def contact_header(version=VERSION, flags=0, magic=MAGIC):
    """Returns a contact header (figure 16)."""
    return magic + struct.pack(">BB", version, flags)


def sess_init(keepalive, segment_mru, transfer_mru, node, items=b""):
    """Returns a SESS_INIT (figure 19). `node` is text."""
    name = node.encode()
    head = struct.pack(">BHQQH", Kind.SESS_INIT, keepalive, segment_mru, transfer_mru, len(name))
    return head + name + struct.pack(">I", len(items)) + items


def item(flags, kind, value=b""):
    """Returns an extension item (figures 20 and 25)."""
    return struct.pack(">BHH", flags, kind, len(value)) + value


def transfer_length(total):
    """Returns a Transfer Length extension item (figure 26)."""
    return item(0, TRANSFER_LENGTH, struct.pack(">Q", total))


def keepalive():
    """Returns a KEEPALIVE (section 5.1.1)."""
    return struct.pack(">B", Kind.KEEPALIVE)


def msg_reject(reason, header):
    """Returns a MSG_REJECT (figure 21)."""
    return struct.pack(">BBB", Kind.MSG_REJECT, reason, header)


def segment(flags, identifier, data, items=b""):
    """Returns an XFER_SEGMENT (figure 22). Only one with START has a list of items."""
    listed = struct.pack(">I", len(items)) + items if flags & SegmentFlag.START else b""
    head = struct.pack(">BBQ", Kind.XFER_SEGMENT, flags, identifier)
    return head + listed + struct.pack(">Q", len(data)) + data


def ack(flags, identifier, length):
    """Returns an XFER_ACK (figure 23)."""
    return struct.pack(">BBQQ", Kind.XFER_ACK, flags, identifier, length)


def refuse(reason, identifier):
    """Returns an XFER_REFUSE (figure 24)."""
    return struct.pack(">BBQ", Kind.XFER_REFUSE, reason, identifier)


def sess_term(flags, reason):
    """Returns a SESS_TERM (figure 27)."""
    return struct.pack(">BBB", Kind.SESS_TERM, flags, reason)
