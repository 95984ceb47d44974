"""Pictures in the format PNG (ISO/IEC 15948): those of a browser, made small by fewer colours."""

import struct
import zlib
from collections import Counter

MAGIC = b"\x89PNG\r\n\x1a\n"
COLOURS = 64


def chunks(content):
    """Yields the kind and the content of each chunk."""
    at = len(MAGIC)
    while at < len(content):
        size, kind = struct.unpack(">I4s", content[at:at + 8])
        yield kind, content[at + 8:at + 8 + size]
        at += size + 12


def near(a, b, c):
    """The predictor of Paeth."""
    guess = a + b - c
    return min((abs(guess - it), order, it) for order, it in enumerate((a, b, c)))[2]


def unfiltered(kind, line, before, size):
    """Returns a line of bytes without its filter."""
    for at in range(len(line)):
        left = line[at - size] if at >= size else 0
        up, corner = before[at], before[at - size] if at >= size else 0
        guess = (0, left, up, (left + up) // 2, near(left, up, corner) if kind == 4 else 0)[kind]
        line[at] = (line[at] + guess) & 255
    return line


def read(content):
    """Returns the width and the lines of a picture of 8 bits for each part, each a list of colours."""
    parts = list(chunks(content))
    width, _, depth, colour = struct.unpack(">IIBB", parts[0][1][:10])
    size = {2: 3, 6: 4}[colour]
    assert depth == 8
    data = zlib.decompress(b"".join(it for kind, it in parts if kind == b"IDAT"))
    lines, before, row = [], bytearray(width * size), width * size + 1
    for at in range(0, len(data), row):
        before = unfiltered(data[at], bytearray(data[at + 1:at + row]), before, size)
        lines.append([bytes(before[x:x + 3]) for x in range(0, width * size, size)])
    return width, lines


def distance(one, two):
    """Returns how far two colours are from each other."""
    return sum((a - b) ** 2 for a, b in zip(one, two))


def palette_of(counts):
    """Returns the colours that are kept: frequent ones, and those that are far from all others."""
    kept = [colour for colour, _ in counts.most_common(COLOURS // 2)]
    others = [it for it, _ in counts.most_common(2000)]
    gaps = {it: counts[it] ** 0.5 * min(distance(it, own) for own in kept) for it in others}
    while len(kept) < COLOURS and gaps:
        colour = max(gaps, key=gaps.get)
        kept.append(colour)
        gaps = {it: min(gap, counts[it] ** 0.5 * distance(it, colour)) for it, gap in gaps.items() if gap > 0}
    return kept


def written(kind, content):
    """Returns a chunk."""
    return struct.pack(">I4s", len(content), kind) + content + struct.pack(">I", zlib.crc32(kind + content))


def smaller(content):
    """Returns a picture with at most COLOURS colours."""
    width, lines = read(content)
    counts = Counter(colour for line in lines for colour in line)
    palette = palette_of(counts)
    index = {it: min(range(len(palette)), key=lambda at: distance(it, palette[at])) for it in counts}
    data = b"".join(b"\0" + bytes(index[it] for it in line) for line in lines)
    return MAGIC + b"".join([
        written(b"IHDR", struct.pack(">IIBBBBB", width, len(lines), 8, 3, 0, 0, 0)),
        written(b"PLTE", b"".join(palette)),
        written(b"IDAT", zlib.compress(data, 9)),
        written(b"IEND", b""),
    ])
