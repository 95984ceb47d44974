#!/usr/bin/python3
"""Bundles made by an encoder that shares nothing with the crate: CBOR by cbor2, checks by crcmod (both
from Debian).

    apt-get install python3-cbor2 python3-crcmod
    ./make_bundles.py            writes bundles.txt: a name, what the bundle says, and its bytes in hexadecimal
    ./make_bundles.py --rust     prints the table of crates/tests_bundle/src/verdicts/outside.rt

Each bundle is read again by cbor2 before it is written.
"""
import io
import sys

import cbor2
import crcmod.predefined

CRC = {1: ("x-25", 2), 2: ("crc-32c", 4)}


def check_of(kind, block):
    name, width = CRC[kind]
    return crcmod.predefined.mkPredefinedCrcFun(name)(block).to_bytes(width, "big")


def long_head(major, value):
    """A head in nine bytes, whatever its value needs (RFC 8949 section 3)."""
    return bytes([major << 5 | 27]) + value.to_bytes(8, "big")


def long_item(item):
    """The item with each head in nine bytes."""
    if isinstance(item, int):
        return long_head(0, item)
    if isinstance(item, bytes):
        return long_head(2, len(item)) + item
    if isinstance(item, str):
        return long_head(3, len(item.encode())) + item.encode()
    return long_head(4, len(item)) + b"".join(long_item(part) for part in item)


def block(elements, kind, spell):
    """A block of these elements, with a check field behind them where kind is not 0 (RFC 9171 section 4.2.1)."""
    if kind == 0:
        return spell(elements)
    width = CRC[kind][1]
    zeroed = spell(elements + [bytes(width)])
    return zeroed[:-width] + check_of(kind, zeroed)


def bundle(blocks):
    """An array of indefinite length (RFC 9171 section 4.1)."""
    return b"\x9f" + b"".join(blocks) + b"\xff"


def made(name, flags, kind, destination, source, report_to, time, sequence, lifetime, payload,
         fragment=None, extensions=(), payload_kind=0, spell=cbor2.dumps):
    primary = [7, flags, kind, destination, source, report_to, [time, sequence], lifetime]
    if fragment is not None:
        primary += list(fragment)
    blocks = [block(primary, kind, spell)]
    for number, (type_code, check, content) in enumerate(extensions, start=2):
        blocks.append(block([type_code, number, 0, check, content], check, spell))
    blocks.append(block([1, 1, 0, payload_kind, payload], payload_kind, spell))
    encoded = bundle(blocks)
    parts = cbor2.load(io.BytesIO(encoded))
    assert parts[0][:8] == primary[:8] and len(parts) == len(blocks), name
    assert parts[-1][4] == payload, name
    said = dict(name=name, flags=flags, destination=destination, source=source, report_to=report_to, time=time,
                sequence=sequence, lifetime=lifetime, fragment=fragment, blocks=len(blocks) - 1, payload=len(payload))
    return said, encoded


NONE, DTN, IPN = [1, 0], lambda text: [1, text], lambda node, service: [2, [node, service]]

BUNDLES = [
    made("ipn endpoints, no checks", 0, 0, IPN(2, 1), IPN(1, 1), NONE, 0, 0, 0, b"hello"),
    made("dtn endpoints, CRC-16 in the primary block", 4, 1, DTN("//node/a"), DTN("//node/b"), DTN("//node/b"),
         700000000000, 7, 3600000, b"a longer payload than hello"),
    made("dtn:none as source, CRC-32C in the primary block", 0x20004, 2, DTN("//far/away/inbox"), NONE, NONE,
         700000000000, 0, 86400000, b"x"),
    made("CRC-16 in the payload block", 0, 0, IPN(977000, 5), IPN(4294967296, 64), IPN(1, 0), 1, 2, 3, b"check me",
         payload_kind=1),
    made("CRC-32C in every block", 0, 2, IPN(2, 1), IPN(1, 1), NONE, 5, 6, 7, b"check me too", payload_kind=2,
         extensions=[(7, 2, cbor2.dumps(1000)), (10, 2, cbor2.dumps([30, 1]))]),
    made("CRC-16 in every block", 0, 1, IPN(2, 1), IPN(1, 1), NONE, 5, 6, 7, b"check me too", payload_kind=1,
         extensions=[(7, 1, cbor2.dumps(1000)), (6, 1, cbor2.dumps(IPN(9, 0)))]),
    made("a fragment", 1, 0, IPN(2, 1), IPN(1, 1), NONE, 0, 9, 0, b"middle", fragment=(6, 18)),
    made("a fragment with a check", 1, 2, IPN(2, 1), DTN("//x"), NONE, 0, 9, 0, b"middle", fragment=(70000, 140000)),
    made("ten extension blocks, checks in turn", 0, 0, IPN(2, 1), IPN(1, 1), NONE, 0, 0, 0, b"ten",
         extensions=[(192 + n, n % 3, bytes([n]) * (3 * n)) for n in range(10)]),
    made("long heads everywhere", 0, 1, IPN(2, 1), DTN("//node/a"), NONE, 11, 12, 13, b"long heads",
         extensions=[(7, 2, b"\x19\x03\xe8")], payload_kind=2, spell=long_item),
    made("a payload of 0 bytes", 0, 0, IPN(2, 1), IPN(1, 1), NONE, 0, 0, 0, b""),
    made("a payload of 0 bytes with a check", 0, 0, IPN(2, 1), IPN(1, 1), NONE, 0, 0, 0, b"", payload_kind=2),
    made("an empty dtn name, and one that is no ASCII", 0, 0, DTN(""), DTN("//größe"), NONE, 0, 0, 0, b"n"),
]

# the payload is 70,000 times a5: its head, what stands before it, and the check and the break behind it
LARGE, LARGE_BYTES = made("a payload of 70,000 bytes", 0, 1, IPN(2, 1), IPN(1, 1), NONE, 0, 0, 0, b"\xa5" * 70000,
                          payload_kind=2)
LARGE_FRONT = LARGE_BYTES[:LARGE_BYTES.index(b"\xa5\xa5\xa5")]
LARGE_REST = LARGE_BYTES[len(LARGE_FRONT) + 70000:]


def rust_bytes(data):
    return 'b"' + "".join("\\x%02x" % byte for byte in data) + '"'


def rust_eid(eid):
    if eid[0] == 2:
        return "EidView::Ipn(%d, %d)" % tuple(eid[1])
    return "EidView::DtnNone" if eid[1] == 0 else "EidView::Dtn(%s)" % rust_bytes(eid[1].encode())


def rust():
    print("//! Made by examples/bundles/make_bundles.py, with cbor2 and crcmod.")
    print("use super::Expected;\nuse link_bundle::EidView;\n")
    print("pub static BUNDLES: [Expected; %d] = [" % len(BUNDLES))
    for said, data in BUNDLES:
        print("    // %s" % said["name"])
        print("    Expected {")
        print("        bytes: %s," % rust_bytes(data))
        print("        destination: %s," % rust_eid(said["destination"]))
        print("        source: %s," % rust_eid(said["source"]))
        print("        report_to: %s," % rust_eid(said["report_to"]))
        numbers = [said[key] for key in ("flags", "time", "sequence", "lifetime", "blocks", "payload")]
        print("        numbers: %s," % numbers)
        fragment = said["fragment"]
        print("        fragment: %s," % ("None" if fragment is None else "Some((%d, %d))" % fragment))
        print("    },")
    print("];\n")
    print("/// The bytes before a payload of 70,000 times a5, and the bytes after it.")
    print("pub const LARGE_FRONT: &[u8] = %s;" % rust_bytes(LARGE_FRONT))
    print("pub const LARGE_REST: &[u8] = %s;" % rust_bytes(LARGE_REST))


def text():
    with open("bundles.txt", "w", encoding="utf-8") as out:
        for said, data in BUNDLES:
            out.write("%s\n%s\n\n" % (said, data.hex()))
        out.write("%s\n%s (70,000 times a5) %s\n" % (LARGE, LARGE_FRONT.hex(), LARGE_REST.hex()))


if __name__ == "__main__":
    if "--rust" in sys.argv:
        rust()
    else:
        text()
