#!/usr/bin/env python3
"""Writes src/check/crc16.rt and src/check/crc32.rt, the tables of the two checks: `python3 tables.py`.

The proofs do not rest on this script: they compare every entry with the definition of the check. Only python's standard
library is used.
"""

from pathlib import Path

TABLES = 16

# file, name, polynomial with its bits in reverse (RFC 9171 section 4.2.1), hexadecimal digits and entries in a line
KINDS = [
    ("crc16.rt", "CRC-16/X-25", 0x8408, 4, 11),
    ("crc32.rt", "CRC-32C (Castagnoli)", 0x82F63B78, 8, 7),
]


def after_zero_byte(polynomial, register):
    """The register one zero byte of the message later."""
    for _ in range(8):
        register = register >> 1 ^ (polynomial if register & 1 else 0)
    return register


def tables(polynomial):
    """The registers after each byte, taken into a register of zero; then the same one zero byte later, and so on."""
    table = list(range(256))
    for _ in range(TABLES):
        table = [after_zero_byte(polynomial, register) for register in table]
        yield table


def source(name, polynomial, digits, width):
    lines = [
        f"//! The tables of {name}, as tables.py writes them.",
        "",
        "use super::register::Tables;",
        "",
        "pub(super) static TABLES: Tables = [",
    ]
    for table in tables(polynomial):
        lines.append("    [")
        for at in range(0, 256, width):
            entries = [f"0x{entry:0{digits}x}" for entry in table[at : at + width]]
            lines.append(f"        {', '.join(entries)},")
        lines.append("    ],")
    lines.append("];")
    return "\n".join(lines) + "\n"


def main():
    folder = Path(__file__).resolve().parent / "src/check"
    for file, *kind in KINDS:
        (folder / file).write_text(source(*kind))


if __name__ == "__main__":
    main()
