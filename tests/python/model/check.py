"""The two check values of bundles (RFC 9171 sections 4.2.1 and 4.2.2): "Check fields".

Both registers shift to the right, the least significant bit first. So the bits of each polynomial
are in reverse order.
"""


def table(polynomial):
    """The register after eight steps, for each byte that it may begin with."""
    register = list(range(256))
    for _ in range(8):
        register = [value >> 1 ^ (polynomial if value & 1 else 0) for value in register]
    return register


def value(polynomial, ones, content):
    """The check value of some bytes. The register starts as all ones and is inverted at the end."""
    steps, register = TABLES[polynomial], ones
    for byte in content:
        register = register >> 8 ^ steps[(register ^ byte) & 0xFF]
    return register ^ ones


X25, CASTAGNOLI = 0x8408, 0x82F63B78
TABLES = {X25: table(X25), CASTAGNOLI: table(CASTAGNOLI)}

# The number of bytes in the content of a check field, by check type.
WIDTH = {1: 2, 2: 4}


def check(kind, content):
    """The content of a check field of that type over some bytes."""
    if kind == 1:
        return value(X25, 0xFFFF, content).to_bytes(2, "big")
    return value(CASTAGNOLI, 0xFFFFFFFF, content).to_bytes(4, "big")
