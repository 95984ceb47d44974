"""The bytes of bundles, worked out by hand from RFC 9171 and RFC 8949."""

import unittest

from rfc_node import bundles

# From appendix A of RFC 8949
HEADS = [(0, "00"), (23, "17"), (24, "1818"), (100, "1864"), (1000, "1903e8"), (1000000, "1a000f4240"),
         (1000000000000, "1b000000e8d4a51000"), (18446744073709551615, "1bffffffffffffffff")]
ENDPOINTS = [
    ("ipn:1.0", "82 02 82 01 00"),
    ("ipn:23.24", "82 02 82 17 18 18"),
    ("dtn:none", "82 01 00"),
    ("dtn://node/", "82 01 67 2f 2f 6e 6f 64 65 2f"),
    ("", "82 01 00"),
    ("not a URI", "82 01 00"),
]


class Bundles(unittest.TestCase):
    """Compares the parts of bundles with rows."""

    def test_heads(self):
        """A head is the shortest."""
        for number, row in HEADS:
            self.assertEqual(bundles.unsigned(number).hex(), row)

    def test_check_value(self):
        """The CRC of the digits 1 to 9 is the check value that catalogues of CRCs give for CRC-32C."""
        self.assertEqual(bundles.crc_32c(b"123456789"), 0xE3069283)
        # 32 zeros: RFC 3720, appendix B.4, writes aa 36 91 8a, the least significant byte first
        self.assertEqual(bundles.crc_32c(bytes(32)), 0x8A9136AA)

    def test_endpoints(self):
        """An endpoint ID is encoded as 4.2.5.1 says."""
        for name, row in ENDPOINTS:
            with self.subTest(name):
                self.assertEqual(bundles.endpoint(name).hex(), row.replace(" ", ""))

    def test_bundle(self):
        """A bundle has two blocks, whose last four bytes are the CRC of the block with zeros there."""
        # Created 1 s after 2000-01-01: DTN time 1000 (19 03e8). Lifetime 3,600,000 (1a 0036ee80)
        primary = bytes.fromhex(
            "89 07 04 02 820282 0201 820282 0100 820100 82 1903e8 05 1a0036ee80 44".replace(" ", ""))
        payload = bytes.fromhex("86 01 01 00 02 42 6869 44")
        made = bundles.bundle("ipn:1.0", 5, b"hi", now=946684801)
        crcs = [bundles.crc_32c(it + bytes(4)).to_bytes(4, "big") for it in (primary, payload)]
        self.assertEqual(made.hex(), (b"\x9f" + primary + crcs[0] + payload + crcs[1] + b"\xff").hex())


if __name__ == "__main__":
    unittest.main()
