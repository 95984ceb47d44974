"""`check`: what breaks a rule alone, and the rows of it, for `messages`, `bundles` and `security`.

Offsets: a recording begins with a contact header of 6 bytes and a SESS_INIT of 32. The lengths
before the data of a segment are in `lines`. An XFER_ACK has 18 bytes, an XFER_REFUSE has 10, and a
SESS_TERM and a MSG_REJECT have 3. The bundle CLEAN has 33 bytes. So a transfer of it in one segment
ends at 93.

The rows of a rule are what breaks it, with the lines, and what keeps it. What keeps it has no lines,
or lines of other rules beside it. The lines of a bundle are without the offset and with a `:` for
the words ` transfer=0` or ` bundle=0`.
"""

import make
from inputs.spelling import (
    array, canonical, encoded, endpoint, head, hop_count, primary, security, spelled, status_report,
)

from . import Row
from .lines import BOTH, END, HEAD, START

CONTACT, INIT, KEEPALIVE = make.CONTACT, make.sess_init(), make.KEEPALIVE

# The numbers of the heads of a checked primary block, from that of its array on
VERSION, CHECK_FIELD = 1, 21


def blocks_of(*blocks, flags=0, stamp=(1, 0), lifetime=20, kind=1, source=(1, 1), destination=(2, 1), report=None,
              fragment=(), payload=b"x", payload_flags=0):
    """The blocks of a bundle. Its primary block is at 1, and has 24 bytes if nothing is changed."""
    begin = primary(destination, source, report, kind, flags, stamp, lifetime, fragment)
    return [begin, *blocks, canonical(1, 1, payload, flags=payload_flags)]


def bundle(*blocks, **fields):
    """A bundle as bytes. An extension block is at 25, and its data at 31."""
    return spelled(blocks_of(*blocks, **fields))[0]


def spelled_long(number, *blocks):
    """A bundle with head number `number` one byte longer than needed."""
    them = blocks_of(*blocks)
    it = [each for block in them for each in block][number]
    return spelled(them, number, head(it.major, it.value, 1))[0]


def block(kind, number, data, flags=0):
    """An extension block, whose data is heads or bytes."""
    return canonical(kind, number, data if isinstance(data, bytes) else encoded(data), flags=flags)


def protecting(number, *targets, context=1, source=(1, 1), flags=0, context_flags=0):
    """A block integrity block with these targets, and no results (RFC 9172 section 3.6).

    With one target below 24 it has 15 bytes, and `flags` are those of the block.
    """
    return block(11, number, security(targets, context, source, context_flags), flags)


def hiding(number, *targets, context=2, source=(1, 1), flags=None, context_flags=0):
    """A block confidentiality block with these targets, and no results.

    With one target below 24 it has 17 bytes. It is in every fragment if the payload is a target.
    """
    heads = [*security(targets, context, source, context_flags), array(len(targets)), *[array(0) for _ in targets]]
    return block(12, number, heads, (0x01 if 1 in targets else 0) if flags is None else flags)


# A bundle that breaks no rule: 33 bytes. The payload's head is at 25, and its data at 31.
CLEAN = bundle()

# Blocks by their types: previous node, bundle age, hop count. An age has 7 bytes.
NODE = block(6, 2, endpoint((1, 0)))
AGE = block(7, 2, b"\x05")
HOPS = block(10, 2, hop_count(30, 1))

# The same age as another block
AGE_3 = block(7, 3, b"\x05")

# Blocks of integrity and of confidentiality. These say of the payload that it is ciphertext, of
# block 2, of 64 and of 65 blocks that are not there. The last has the beginning of a target, and 8
# bytes.
INTEGRITY = protecting(2, 1)
HIDDEN = hiding(9, 1)
HIDDEN_2 = hiding(9, 2)
HIDDEN_64, HIDDEN_65 = hiding(9, *range(300, 364)), hiding(9, *range(300, 365))
HIDDEN_CUT = block(12, 9, b"\x81\x18")

# What the blocks break whose targets are not there, in a bundle that is no fragment
MISSING = "should security-targets: block=9 target=300"


def cut(at):
    """What HIDDEN_CUT breaks as a block at this offset. Its data ends inside a head."""
    return f"must block-data: block=9 byte={at + 8}"


# An age with a check, which is at 32 in a bundle
CHECKED_AGE = canonical(7, 2, b"\x05", 1)

def report(*statuses, reason=0, source=(2, 1)):
    """An administrative record: a status report of a bundle (RFC 9171 section 6.1.1).

    With four statuses without times it has 21 bytes.
    """
    return encoded(status_report(statuses, reason, source, (1, 0)))


# A status report of a bundle that was received, and a record whose array is of indefinite length
RECORD = report(True, False, False, False)
OPEN_RECORD = b"\x9f\x01\x00\xff"

# Extension types for private use: the first, and the last (RFC 9174 sections 8.3 and 8.4)
PRIVATE, LAST_TYPE = 0x8000, 0xFFFF

# The greatest transfer ID
LAST = 2**64 - 1

# An XFER_ACK of a first segment, and a MSG_REJECT that says that a type is unknown
ACK_0, UNKNOWN = make.xfer_ack(START, 0, 9), make.msg_reject(1, 0x20)

# A SESS_INIT with another interval, with another segment MRU, and with another transfer MRU
OTHER_INTERVAL = make.sess_init(keepalive=30)
OTHER_SEGMENT, OTHER_TRANSFER = (INIT[:at] + b"\x01" + INIT[at + 1:] for at in (10, 18))


def sent(data, ident=0, *items):
    """A transfer in one segment."""
    return make.xfer_segment(BOTH, ident, data, *items)


def of_ids(*idents):
    """Transfers in one segment each, which have these IDs and 55 bytes."""
    return b"".join(sent(CLEAN, it) for it in idents)


def two(data, at, *items):
    """A transfer in two segments, the first with `at` bytes."""
    return make.xfer_segment(START, 0, data[:at], *items) + make.xfer_segment(END, 0, data[at:])


def row(name, content, lines, options=None):
    """A run of `check` without a fault of the stream."""
    return Row(name, "check", options or {}, content, lines, [], int(bool(lines)))


def kept(recordings):
    """The recordings that keep a rule, each with its options, if it has any."""
    return [it if isinstance(it, tuple) else (it,) for it in recordings]


def named(rules):
    """Yields a name, a recording, and its lines and options, for each of some rules."""
    for rule, (breaking, keeping) in rules.items():
        yield from ((f"{rule}, broken {number}", *it) for number, it in enumerate(breaking))
        yield from ((f"{rule}, kept {number}", it, [], *options) for number, (it, *options) in enumerate(kept(keeping)))


def of(lines, at, word):
    """The lines of a transfer or a bundle: a line, or a list of them, spelled as above."""
    each = [lines] if isinstance(lines, str) else lines
    return [f"{at} {line.replace(':', f' {word}')}" for line in each]


def bundles_of(rules):
    """Yields a name, a bundle, and its lines, for each of some rules of bundles."""
    for rule, (breaking, keeping) in rules.items():
        yield from ((f"{rule}, broken {number}", *it) for number, it in enumerate(breaking))
        yield from ((f"{rule}, kept {number}", it, *(lines or [[]])) for number, (it, *lines) in enumerate(kept(keeping)))


def alone(lines, at):
    """The lines of a bundle at an offset, without a recording.

    Nothing shows that its source sent it, so `primary-check` is no must.
    """
    return [line.replace("must primary-check", "should primary-check") for line in of(lines, at, "bundle=0")]


def rows_of_bundles(rules):
    """The rows of rules of bundles. Each bundle is in a transfer of one segment at 38, and alone.

    In the transfer, the SESS_INIT names the node ipn:1.0, of which most bundles are.
    """
    for name, content, lines in bundles_of(rules):
        yield row(name, HEAD + sent(content), of(lines, 38, "transfer=0"))
        yield row(f"{name}, alone", content, alone(lines, 0), {"bundles": True})
