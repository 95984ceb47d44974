#!/usr/bin/env python3
"""Makes tls.pcap and tls.keys: `python3 tls.py CERTIFICATE KEY [FOLDER]`.

The capture has the session of session.pcap with TLS (RFC 9174 section 4.4). Both sides set the flag CAN_TLS in their
contact headers, and all that follows them is TLS 1.3. Both sides are python's `ssl` module, in memory, and `capture.py`
writes the packets. tls.keys has the keys, as the connecting side logged them. CERTIFICATE and KEY are PEM files of the
accepting side. The bytes differ each time, since the keys are random.
"""

import ssl
import sys
from pathlib import Path

from capture import frames, pcap
from make import CONTACT, SESSION

CAN_TLS = 0x01


class Side:
    """One side: its name in SESSION, the bytes that came and those that are to be sent, and the TLS between them."""

    def __init__(self, name, context, is_server):
        self.name, self.came, self.due = name, ssl.MemoryBIO(), ssl.MemoryBIO()
        self.tls = context.wrap_bio(self.came, self.due, server_side=is_server)

    def shake(self):
        """Goes on with the handshake as far as the bytes that came allow."""
        try:
            self.tls.do_handshake()
        except ssl.SSLWantReadError:
            pass

    def hand_on(self, other):
        """Gives the other side what is to be sent, and returns it as a turn."""
        data = self.due.read()
        other.came.write(data)
        return self.name, data, 1


def sides(certificate, key, keys):
    """Both sides. The one that connects accepts any certificate, and logs the keys."""
    a, b = ssl.SSLContext(ssl.PROTOCOL_TLS_CLIENT), ssl.SSLContext(ssl.PROTOCOL_TLS_SERVER)
    a.check_hostname, a.verify_mode, a.keylog_filename = False, ssl.CERT_NONE, str(keys)
    a.minimum_version = ssl.TLSVersion.TLSv1_3
    b.load_cert_chain(certificate, key)
    return Side("a", a, False), Side("b", b, True)


def turns(a, b):
    """The turns of `capture.frames`: the contact headers, the four flights of the handshake, the messages of SESSION."""
    for name in "ab":
        yield name, CONTACT[:5] + bytes([CAN_TLS]), 1
    for sender, receiver in [(a, b), (b, a)] * 2:
        sender.shake()
        yield sender.hand_on(receiver)
    for name, data, _ in SESSION[2:]:
        sender, receiver = (a, b) if name == "a" else (b, a)
        sender.tls.write(data)
        yield sender.hand_on(receiver)


def main(certificate, key, folder=Path(__file__).resolve().parent / "recipes"):
    keys = Path(folder) / "tls.keys"
    keys.unlink(missing_ok=True)
    packets = frames(list(turns(*sides(certificate, key, keys))))
    (Path(folder) / "tls.pcap").write_bytes(pcap(packets))


if __name__ == "__main__":
    main(*sys.argv[1:])
