"""How a peer breaks the protocol, and how a program of examples/peers has to answer.

The answers are those that RFC 9174 asks for. A program that rejects a message ends the session.
"""

import struct
from typing import NamedTuple

from probing import wire
from probing.wire import ack, item, refuse, segment

START, END, ALL = 2, 1, 3
CONTACT, OTHER_VERSION = b"dtn!\4\0", b"dtn!\3\0"
KEEPALIVE, TERM, CONTACT_FAILURE, UNEXPECTED = b"\4", b"\5\0\0", b"\5\0\4", b"\6\3"


class Fault(NamedTuple):
    """What is sent to a program, and what all that it sends ends with."""
    program: str
    name: str
    sent: bytes
    answer: bytes
    # What is sent after the first segment of the program
    later: bytes = b""


def sess_init(items=b"", segment_mru=65536):
    """Returns a SESS_INIT."""
    return wire.sess_init(60, segment_mru, 2**20, b"ipn:3.0", items)


def rejected(kind):
    """Returns the answer to an unexpected message: a MSG_REJECT, and the end of the session."""
    return UNEXPECTED + kind + TERM


OPEN = CONTACT + sess_init()
LENGTH, UNKNOWN = item(0, 1, struct.pack(">Q", 3)), item(1, 9)
# A bundle whose payload has a megabyte, up to some of this payload, and segments of it
GOES_ON = bytes.fromhex(
    "9f 88 07 00 00 82 02 82 02 01 82 02 82 01 01 82 01 00 82 00 00 00"
    "85 01 01 00 00 5a 00 10 00 00"
).ljust(5 * 65536, b"-")
LONG = b"".join(
    segment(START * (at == 0), 0, GOES_ON[at:at + 65536]) for at in range(0, len(GOES_ON), 65536)
)

FAULTS = [
    Fault("receiver", "no contact header", b"dtn?", b""),
    Fault("receiver", "another version", OTHER_VERSION, CONTACT + b"\5\0\2"),
    Fault("receiver", "no SESS_INIT", CONTACT + KEEPALIVE, CONTACT + rejected(KEEPALIVE)),
    Fault("receiver", "a critical session item", CONTACT + sess_init(UNKNOWN), CONTACT_FAILURE),
    Fault("receiver", "a second SESS_INIT", OPEN + sess_init(), rejected(b"\7")),
    Fault("receiver", "an unknown type", OPEN + b"\x20", b"\6\1\x20"),
    Fault("receiver", "an XFER_ACK", OPEN + ack(ALL, 0, 5), rejected(b"\2")),
    Fault("receiver", "no START", OPEN + segment(END, 0, b"-"), rejected(b"\1")),
    Fault("receiver", "a long segment", OPEN + segment(ALL, 0, bytes(65537)), refuse(4, 0)),
    Fault("receiver", "a long transfer", OPEN + LONG, ack(0, 0, 4 * 65536) + refuse(2, 0)),
    Fault(
        "receiver", "no bundle",
        OPEN + segment(START, 0, b"-") + segment(END, 0, b"-"), refuse(4, 0) * 2,
    ),
    Fault("receiver", "a cut bundle", OPEN + segment(ALL, 0, b"\x9f"), refuse(4, 0)),
    Fault("receiver", "a critical item", OPEN + segment(ALL, 0, b"-", UNKNOWN), refuse(5, 0)),
    Fault("receiver", "two lengths", OPEN + segment(ALL, 0, b"-", LENGTH * 2), refuse(5, 0)),
    Fault(
        "receiver", "another length than announced",
        OPEN + segment(START, 0, b"\x9f", LENGTH) + segment(END, 0, b"-"),
        ack(START, 0, 1) + refuse(4, 0),
    ),
    Fault(
        "receiver", "a transfer after SESS_TERM",
        OPEN + segment(START, 0, b"\x9f") + b"\5\0\3" + segment(START, 1, b"\x9f"),
        ack(START, 0, 1) + b"\5\1\3" + refuse(6, 1),
    ),
    Fault(
        "receiver", "an end after SESS_TERM that is no bundle",
        OPEN + segment(START, 0, b"\x9f") + b"\5\0\3" + segment(END, 0, b"-"),
        ack(START, 0, 1) + b"\5\1\3" + refuse(4, 0),
    ),
    Fault("sender", "no contact header", b"dtn?", CONTACT),
    Fault("sender", "another version", OTHER_VERSION, CONTACT),
    Fault("sender", "SESS_TERM", CONTACT + b"\5\0\3", b"\5\1\3"),
    Fault("sender", "a critical session item", CONTACT + sess_init(UNKNOWN), CONTACT_FAILURE),
    Fault("sender", "a segment MRU of 0", CONTACT + sess_init(segment_mru=0), CONTACT_FAILURE),
    Fault("sender", "an unknown type", OPEN + b"\x20", b"\6\1\x20"),
    Fault("sender", "a segment", OPEN + segment(ALL, 7, b"-"), refuse(4, 7)),
    Fault("sender", "an ID that was not sent", OPEN, rejected(b"\2"), ack(ALL, 9, 5)),
    Fault("sender", "a length that was not sent", OPEN, rejected(b"\2"), ack(START, 0, 10**6)),
    Fault("sender", "END too early", OPEN, rejected(b"\2"), ack(ALL, 0, 1)),
    Fault(
        "sender", "an XFER_ACK after a refusal", OPEN, rejected(b"\2"),
        refuse(0, 0) + ack(START, 0, 1),
    ),
]
