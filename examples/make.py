#!/usr/bin/env python3
"""Makes the recordings of this folder, the bundles for `pack`, and a capture of a session: `python3 make.py [FOLDER]`.

Each recording is what one entity sent in a TCPCLv4 session (RFC 9174): a contact header, then messages. Numbers on the
wire are unsigned and big-endian. Only python's standard library is used.
"""

import struct
import sys
from pathlib import Path

from capture import frames, pcap, stream

# RFC 9174 section 4.2: `dtn!`, version 4, flags 00
CONTACT = b"dtn!" + bytes([4, 0x00])

# Flags of XFER_SEGMENT (section 5.2.2)
END = 0x01
START = 0x02


def item(flags, kind, value):
    """An extension item (sections 4.8 and 5.2.5): flags, type, length, value."""
    return struct.pack(">BHH", flags, kind, len(value)) + value


def extensions(*items):
    """An extension list: its length in bytes, and its items."""
    joined = b"".join(items)
    return struct.pack(">I", len(joined)) + joined


def length_item(total):
    """A Transfer Length item (section 5.2.5.1)."""
    return item(0x00, 0x0001, struct.pack(">Q", total))


def sess_init(*items, keepalive=60, node=b"ipn:1.0"):
    """SESS_INIT (section 4.6), with MRUs of 64 KiB and 1 MiB."""
    return struct.pack(">BHQQH", 0x07, keepalive, 65536, 1048576, len(node)) + node + extensions(*items)


def xfer_segment(flags, transfer, data, *items):
    """XFER_SEGMENT (section 5.2.2): only with START it has an extension list."""
    listed = extensions(*items) if flags & START else b""
    return struct.pack(">BBQ", 0x01, flags, transfer) + listed + struct.pack(">Q", len(data)) + data


def xfer_ack(flags, transfer, length):
    """XFER_ACK (section 5.2.3)."""
    return struct.pack(">BBQQ", 0x02, flags, transfer, length)


def xfer_refuse(reason, transfer):
    """XFER_REFUSE (section 5.2.4)."""
    return struct.pack(">BBQ", 0x03, reason, transfer)


# KEEPALIVE (section 5.1.1)
KEEPALIVE = bytes([0x04])


def sess_term(flags, reason):
    """SESS_TERM (section 6.1)."""
    return bytes([0x05, flags, reason])


def msg_reject(reason, header):
    """MSG_REJECT (section 5.1.2)."""
    return bytes([0x06, reason, header])


# A bundle of 34 bytes (RFC 9171 section 4) from ipn:1.1 to ipn:2.1 with the payload `hello` and no check fields:
# the primary block, the payload block, and the break.
BUNDLE = bytes.fromhex(
    "9f"
    "88 07 00 00 82 02 82 02 01 82 02 82 01 01 82 01 00 82 00 00 00"
    "85 01 01 00 00 45 68 65 6c 6c 6f"
    "ff"
)

# The shortest recording with a bundle: one transfer in one segment.
PRELUDE_AND_TRANSFER = CONTACT + sess_init() + xfer_segment(START | END, 0, BUNDLE)

# Every kind of message. The session's list has an item that is critical and one that is not, both of types that no
# RFC gives out; the transfer's list announces its length (section 5.2.5.1).
EVERY_MESSAGE = b"".join(
    [
        CONTACT,
        sess_init(item(0x01, 0x1234, b"\xaa"), item(0x00, 0xABCD, b"")),
        xfer_segment(START, 0, BUNDLE[:17], length_item(len(BUNDLE))),
        xfer_segment(END, 0, BUNDLE[17:]),
        xfer_ack(END, 0, len(BUNDLE)),
        xfer_refuse(0x02, 0),
        KEEPALIVE,
        sess_term(0x01, 0x03),
        msg_reject(0x01, 0x16),
        sess_term(0x00, 0x7F),
    ]
)

# The same bundle with a check in its payload block (CRC-16, RFC 9171 section 4.2.1), and with a byte of the payload
# changed after the check was computed: 37 bytes.
DAMAGED = bytes.fromhex(
    "9f"
    "88 07 00 00 82 02 82 02 01 82 02 82 01 01 82 01 00 82 00 00 00"
    "86 01 01 00 01 45 69 65 6c 6c 6f 42 4b f3"
    "ff"
)


# Four transfers: a good one in two segments, with a message between them; one with a damaged bundle; one that its
# sender left, as after a refusal (section 5.2.4); and one whose announced length is not that of its data.
TRANSFERS = b"".join(
    [
        CONTACT,
        sess_init(),
        xfer_segment(START, 0, BUNDLE[:17], length_item(len(BUNDLE))),
        KEEPALIVE,
        xfer_segment(END, 0, BUNDLE[17:]),
        xfer_segment(START | END, 1, DAMAGED),
        xfer_segment(START, 2, BUNDLE[:10]),
        xfer_segment(START | END, 3, BUNDLE, length_item(35)),
        sess_term(0x00, 0x00),
    ]
)

# Each fault of the order of messages, and three good bundles. The first segment of transfer 0 comes before SESS_INIT. Then
# transfer 0 begins anew, as a whole, while it is open. A second SESS_INIT follows. Between the segments of transfer 1 is
# the rest of the first transfer 0, which is open no more. Transfer 2 begins after SESS_TERM.
ORDER_FAULTS = b"".join(
    [
        CONTACT,
        xfer_segment(START, 0, BUNDLE[:10]),
        sess_init(),
        xfer_segment(START | END, 0, BUNDLE),
        sess_init(),
        xfer_segment(START, 1, BUNDLE[:17]),
        xfer_segment(END, 0, BUNDLE[10:]),
        xfer_segment(END, 1, BUNDLE[17:]),
        sess_term(0x00, 0x00),
        xfer_segment(START, 2, BUNDLE[:17]),
        xfer_segment(END, 2, BUNDLE[17:]),
    ]
)

# 30 good transfers of a sender that goes on after its SESS_TERM: 13 come before it, and 17 after it.
LATE_TRANSFERS = b"".join(
    [
        CONTACT,
        sess_init(),
        *[xfer_segment(START | END, number, BUNDLE) for number in range(13)],
        sess_term(0x00, 0x00),
        *[xfer_segment(START | END, number, BUNDLE) for number in range(13, 30)],
    ]
)

# Two bundles, one after another: the second has a check.
CHECKED = DAMAGED.replace(b"iello", b"hello")
TWO_BUNDLES = BUNDLE + CHECKED

# A fragment (RFC 9171 section 4.3.1: flag 01, and two elements more) from ipn:2.1 to ipn:1.1: `world`, from byte 7 on of
# 12. It was made on 2026-01-01 at 00:00 UTC, 820,540,800,000 ms after 2000-01-01, and lives for an hour. 48 bytes.
FRAGMENT = bytes.fromhex(
    "9f"
    "8a 07 01 00 82 02 82 01 01 82 02 82 02 01 82 01 00 82 1b 00 00 00 bf 0c 0a fc 00 00 1a 00 36 ee 80 07 0c"
    "85 01 01 00 00 45 77 6f 72 6c 64"
    "ff"
)

# A bundle with every type of block whose data is read, and one of another type. It goes from ipn:1.1 to ipn:3.1, and asks
# for reports of its reception and of its deletion to ipn:1.0. 149 bytes.
EVERY_BLOCK = bytes.fromhex(
    "9f"
    "89 07 1a 00 04 40 00 02 82 02 82 03 01 82 02 82 01 01 82 02 82 01 00"
    "82 1b 00 00 00 bf 0c 0a fc 00 00 1a 00 36 ee 80 44 5f 6f 81 b8"
    "85 06 02 00 00 45 82 02 82 02 00"
    "85 07 03 00 00 43 19 03 e8"
    "86 0a 04 00 02 44 82 18 20 01 44 50 c5 bd b6"
    "85 0b 05 00 00 50 81 01 01 00 82 02 82 01 00 81 81 82 01 42 5a 5a"
    "85 0c 06 01 00 50 81 07 22 00 82 01 67 2f 2f 6e 6f 64 65 2f 81 80"
    "85 18 c0 07 10 00 43 01 02 03"
    "86 01 01 00 01 45 68 65 6c 6c 6f 42 4b f3"
    "ff"
)

# The blocks of these types with data that is malformed: a text for an endpoint ID, a byte after the age, a hop count that is
# cut, a text for a security context, and a first byte that begins no head.
MALFORMED = bytes.fromhex(
    "9f"
    "88 07 00 00 82 02 82 02 01 82 02 82 01 01 82 01 00 82 00 00 00"
    "85 06 02 00 00 42 61 78"
    "85 07 03 00 00 42 05 00"
    "85 0a 04 00 00 42 82 05"
    "85 0b 05 00 00 44 81 01 61 78"
    "85 0c 06 00 00 41 1c"
    "85 01 01 00 00 45 68 65 6c 6c 6f"
    "ff"
)

# A bundle whose hop count was changed after its check was computed. A block without damage is before it.
DAMAGED_HOPS = bytes.fromhex(
    "9f"
    "88 07 00 00 82 02 82 02 01 82 02 82 01 01 82 01 00 82 00 00 00"
    "85 06 02 00 00 45 82 02 82 02 00"
    "86 0a 03 00 01 43 82 05 03 42 e5 fd"
    "85 01 01 00 00 45 68 65 6c 6c 6f"
    "ff"
)

# Three transfers with these bundles
EVERY_BLOCK_SENT = b"".join(
    [
        CONTACT,
        sess_init(),
        xfer_segment(START | END, 0, EVERY_BLOCK),
        xfer_segment(START | END, 1, MALFORMED),
        xfer_segment(START | END, 2, DAMAGED_HOPS),
    ]
)

# The primary block of an administrative record (flag 02) from ipn:2.0 to ipn:1.0
RECORD = "9f 88 07 02 00 82 02 82 01 00 82 02 82 02 00 82 01 00 82 1b 00 00 00 bf 0c 0b 03 d0 00 1a 00 36 ee 80"

# Four such bundles: a status report that ipn:2.0 forwarded EVERY_BLOCK 1,500 ms after it was made; one that it deleted a
# fragment of 5 bytes from byte 7 on, for its hop limit; a record of another type; and a payload that is no record.
RECORDS = [
    bytes.fromhex(RECORD + payload + "ff")
    for payload in [
        "85 01 01 00 00 58 26 82 01 84 84 81 f4 82 f5 1b 00 00 00 bf 0c 0b 01 dc 81 f4 81 f4"
        "00 82 02 82 01 01 82 1b 00 00 00 bf 0c 0a fc 00 00",
        "85 01 01 00 00 58 1f 82 01 86 84 81 f5 81 f4 81 f4 81 f5"
        "09 82 02 82 01 02 82 1b 00 00 00 bf 0c 0a fc 00 00 07 05",
        "85 01 01 00 00 43 82 07 80",
        "85 01 01 00 00 45 68 65 6c 6c 6f",
    ]
]
STATUS_REPORTS = b"".join(
    [
        CONTACT,
        sess_init(node=b"ipn:2.0"),
        *[xfer_segment(START | END, number, record) for number, record in enumerate(RECORDS)],
    ]
)

# The bundles of RFC 9173 appendix A, by their sections, in the spelling of the text. All have the same primary block. They
# have no security block (A.1.1.3, and again A.2.1.3 and A.4.1.3), integrity (A.1.4), confidentiality (A.2.4), an age
# (A.3.1.4), an age with both (A.3.5), and both, of which the first is ciphertext too (A.4.5).
RFC9173 = {
    "A.1.1.3": bytes.fromhex(
        "9f88070000820282010282028202018202820201820018281a000f424085010100"
        "005823526561647920746f2067656e657261746520612033322d6279746520706179"
        "6c6f6164ff"
    ),
    "A.1.4": bytes.fromhex(
        "9f88070000820282010282028202018202820201820018281a000f4240850b0200"
        "005856810101018202820201828201078203008181820158403bdc69b3a34a2b5d3a"
        "8554368bd1e808f606219d2a10a846eae3886ae4ecc83c4ee550fdfb1cc636b904e2"
        "f1a73e303dcd4b6ccece003e95e8164dcc89a156e185010100005823526561647920"
        "746f2067656e657261746520612033322d62797465207061796c6f6164ff"
    ),
    "A.2.4": bytes.fromhex(
        "9f88070000820282010282028202018202820201820018281a000f4240850c0201"
        "0058508101020182028202018482014c5477656c7665313231323132820201820358"
        "1869c411276fecddc4780df42c8a2af89296fabf34d7fae7008204008181820150ef"
        "a4b5ac0108e3816c5606479801bc04850101000058233a09c1e63fe23a7f66a59c73"
        "03837241e070b02619fc59c5214a22f08cd70795e73e9aff"
    ),
    "A.3.1.4": bytes.fromhex(
        "9f88070000820282010282028202018202820201820018281a000f424085070200"
        "004319012c85010100005823526561647920746f2067656e65726174652061203332"
        "2d62797465207061796c6f6164ff"
    ),
    "A.3.5": bytes.fromhex(
        "9f88070000820282010282028202018202820201820018281a000f4240850b0300"
        "00585c8200020101820282030082820105820300828182015820cac6ce8e4c5dae57"
        "988b757e49a6dd1431dc04763541b2845098265bc817241b81820158203ed614c0d9"
        "7f49b3633627779aa18a338d212bf3c92b97759d9739cd50725596850c0401005834"
        "8101020182028202018382014c5477656c7665313231323132820201820400818182"
        "0150efa4b5ac0108e3816c5606479801bc0485070200004319012c85010100005823"
        "3a09c1e63fe23a7f66a59c7303837241e070b02619fc59c5214a22f08cd70795e73e"
        "9aff"
    ),
    "A.4.5": bytes.fromhex(
        "9f88070000820282010282028202018202820201820018281a000f4240850b0300"
        "005846438ed6208eb1c1ffb94d952175167df0902902064a2983910c4fb2340790bf"
        "420a7d1921d5bf7c4721e02ab87a93ab1e0b75cf62e4948727c8b5dae46ed2af0543"
        "9b88029191850c0201005849820301020182028202018382014c5477656c76653132"
        "313231328202038204078281820150220ffc45c8a901999ecc60991dd78b29818201"
        "50d2c51cb2481792dae8b21d848cede99b8501010000582390eab6457593379298a8"
        "724e16e61f837488e127212b59ac91f8a86287b7d07630a122ff"
    ),
}

# Both sides of a session, packet by packet: who sends it, what, and how many times the capture has it. `a` connects, as
# ipn:1.0, and sends five transfers; `b` accepts, as ipn:2.0, refuses three of them, and sends one. The second segment of
# transfer 0 is seen twice, head and data of transfer 1 are in two packets, and a KEEPALIVE and a segment are in one.
ONE_SEGMENT = xfer_segment(START | END, 1, DAMAGED)
SESSION = [
    ("a", CONTACT, 1),
    ("b", CONTACT, 1),
    ("a", sess_init(), 1),
    ("b", sess_init(keepalive=30, node=b"ipn:2.0"), 1),
    ("a", xfer_segment(START, 0, BUNDLE[:17], length_item(len(BUNDLE))), 1),
    ("b", xfer_ack(START, 0, 17), 1),
    ("a", xfer_segment(END, 0, BUNDLE[17:]), 2),
    ("b", xfer_ack(END, 0, 34), 1),
    ("a", ONE_SEGMENT[:-37], 1),
    ("a", ONE_SEGMENT[-37:], 1),
    ("b", xfer_ack(START | END, 1, 37), 1),
    ("a", xfer_segment(START, 2, BUNDLE[:17]), 1),
    ("b", xfer_refuse(0x02, 2), 1),
    ("a", xfer_segment(START | END, 3, BUNDLE, length_item(34), length_item(34)), 1),
    ("b", xfer_refuse(0x05, 3), 1),
    ("a", xfer_segment(START | END, 4, BUNDLE, length_item(35)), 1),
    ("b", xfer_refuse(0x04, 4), 1),
    ("a", KEEPALIVE, 1),
    ("b", KEEPALIVE + xfer_segment(START | END, 0, FRAGMENT), 1),
    ("a", xfer_ack(START | END, 0, 48), 1),
    ("a", xfer_ack(END, 9, 5), 1),
    ("b", msg_reject(0x03, 0x02), 1),
    ("a", sess_term(0x00, 0x01), 1),
    ("b", sess_term(0x01, 0x01), 1),
]

FILES = {
    "prelude-and-transfer.tcpcl": PRELUDE_AND_TRANSFER,
    "every-message.tcpcl": EVERY_MESSAGE,
    "transfers.tcpcl": TRANSFERS,
    "order-faults.tcpcl": ORDER_FAULTS,
    "late-transfers.tcpcl": LATE_TRANSFERS,
    "every-block.tcpcl": EVERY_BLOCK_SENT,
    "status-reports.tcpcl": STATUS_REPORTS,
    "two.bundles": TWO_BUNDLES,
    "rfc9173.bundles": b"".join(RFC9173.values()),
    "session.pcap": pcap(frames(SESSION)),
    "session-a.tcpcl": stream(SESSION, "a"),
    "session-b.tcpcl": stream(SESSION, "b"),
}


def main():
    folder = Path(sys.argv[1]) if len(sys.argv) > 1 else Path(__file__).resolve().parent
    for name, content in FILES.items():
        (folder / name).write_bytes(content)


if __name__ == "__main__":
    main()
