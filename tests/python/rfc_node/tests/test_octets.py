"""The bytes of each message, worked out by hand from the figures of RFC 9174."""

import unittest

from rfc_node import octets
from rfc_node.octets import ContactFlag, Kind, Reason, Refusal, Rejection, SegmentFlag, TermFlag

NODE = "69 70 6e 3a 31 2e 30"  # ipn:1.0

ROWS = [
    # Figure 16: magic, version, flags
    ("contact header", octets.contact_header(), "64 74 6e 21  04  00"),
    ("contact header with TLS", octets.contact_header(flags=ContactFlag.CAN_TLS), "64 74 6e 21  04  01"),
    # Figure 19: type, keepalive (U16), segment MRU (U64), transfer MRU (U64), node ID (U16), items (U32)
    ("SESS_INIT", octets.sess_init(60, 65536, 2**20, "ipn:1.0"),
     f"07  00 3c  00 00 00 00 00 01 00 00  00 00 00 00 00 10 00 00  00 07 {NODE}  00 00 00 00"),
    ("SESS_INIT without a node ID", octets.sess_init(0, 1, 2**64 - 1, ""),
     "07  00 00  00 00 00 00 00 00 00 01  ff ff ff ff ff ff ff ff  00 00  00 00 00 00"),
    ("SESS_INIT with an item", octets.sess_init(1, 0, 0, "", octets.item(1, 0x8001, b"xy")),
     "07  00 01  00 00 00 00 00 00 00 00  00 00 00 00 00 00 00 00  00 00  00 00 00 07  01 80 01 00 02 78 79"),
    # Figures 20 and 25: flags, type (U16), length (U16), value
    ("item", octets.item(0, 2, b""), "00 00 02 00 00"),
    # Figure 26, in an item of type 1
    ("Transfer Length", octets.transfer_length(258), "00 00 01 00 08  00 00 00 00 00 00 01 02"),
    # Section 5.1.1
    ("KEEPALIVE", octets.keepalive(), "04"),
    # Figure 21: type, reason, rejected header
    ("MSG_REJECT", octets.msg_reject(Rejection.TYPE_UNKNOWN, 0xF0), "06 01 f0"),
    # Figure 22: type, flags, ID (U64), for START a list (U32), length (U64), data
    ("a whole transfer", octets.segment(SegmentFlag.START | SegmentFlag.END, 1, b"abc"),
     "01 03  00 00 00 00 00 00 00 01  00 00 00 00  00 00 00 00 00 00 00 03  61 62 63"),
    ("a first segment", octets.segment(SegmentFlag.START, 0, b"a", octets.item(0, 9)),
     "01 02  00 00 00 00 00 00 00 00  00 00 00 05 00 00 09 00 00  00 00 00 00 00 00 00 01  61"),
    ("a segment", octets.segment(0, 2**64 - 1, b""), "01 00  ff ff ff ff ff ff ff ff  00 00 00 00 00 00 00 00"),
    ("a last segment", octets.segment(SegmentFlag.END, 258, b"a"),
     "01 01  00 00 00 00 00 00 01 02  00 00 00 00 00 00 00 01  61"),
    # Figure 23: type, flags, ID (U64), length (U64)
    ("XFER_ACK", octets.ack(SegmentFlag.END, 1, 1800), "02 01  00 00 00 00 00 00 00 01  00 00 00 00 00 00 07 08"),
    # Figure 24: type, reason, ID (U64)
    ("XFER_REFUSE", octets.refuse(Refusal.SESSION_TERMINATING, 5), "03 06  00 00 00 00 00 00 00 05"),
    # Figure 27: type, flags, reason
    ("SESS_TERM", octets.sess_term(0, Reason.CONTACT_FAILURE), "05 00 04"),
    ("SESS_TERM with REPLY", octets.sess_term(TermFlag.REPLY, Reason.BUSY), "05 01 03"),
]

# Tables 2, 4, 6 and 9, in the order of their codes
CODES = [
    (Kind, "XFER_SEGMENT XFER_ACK XFER_REFUSE KEEPALIVE SESS_TERM MSG_REJECT SESS_INIT", 1),
    (Rejection, "TYPE_UNKNOWN UNSUPPORTED UNEXPECTED", 1),
    (Refusal, "UNKNOWN COMPLETED NO_RESOURCES RETRANSMIT NOT_ACCEPTABLE EXTENSION_FAILURE SESSION_TERMINATING", 0),
    (Reason, "UNKNOWN IDLE_TIMEOUT VERSION_MISMATCH BUSY CONTACT_FAILURE RESOURCE_EXHAUSTION", 0),
]


class Octets(unittest.TestCase):
    """Compares what is written with the rows."""

    def test_rows(self):
        """Each message has the bytes of its row."""
        for name, written, row in ROWS:
            with self.subTest(name):
                self.assertEqual(written.hex(), bytes.fromhex(row).hex())

    def test_codes(self):
        """Each code is that of its table."""
        for kind, names, first in CODES:
            with self.subTest(kind.__name__):
                self.assertEqual([(it.name, it.value) for it in kind],
                                 [(name, first + at) for at, name in enumerate(names.split())])


if __name__ == "__main__":
    unittest.main()
