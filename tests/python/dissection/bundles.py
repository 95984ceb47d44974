"""The bundles and the recordings that both programs read, and a capture of them."""

import random

from inputs import block_data, prefixes, randoms
from inputs.randoms import NUMBERS, any_bytes, width_of
from inputs.spelling import (
    CONTACT, END, START, array, canonical, data, encoded, hop_count, laid, primary, security,
    segment, sess_init, spelled, status_report, unsigned,
)
from inputs.spelling import endpoint as heads_of_endpoint
from model import texts, wire
from script_tests.capture import Link, Segment, opening, pcap

from . import TOP

SEED = 9174
EXAMPLES = ["every-block", "status-reports", "transfers"]

# How many bundles are drawn, and how many of those have another head in place of one
DRAWN, CHANGED = 600, 200
# Of the bundles whose data has another head or is cut, each of this number is taken
STEP = 25

# The most bytes of a TCP segment
MOST = 1400


# ---- bundles that are drawn


def endpoint(draw):
    """Returns an endpoint ID of a form that both programs show."""
    numbers, name = (draw.choice(NUMBERS), draw.choice(NUMBERS)), b"a" * draw.choice((1, 30, 300))
    return draw.choice([None, b"//node/", b"~" + name, numbers, numbers])


def results(targets):
    """Returns the heads of the rest of a security block: a result of each target."""
    each = [array(1), array(2), unsigned(200), data(b"ZZ")]
    return [array(len(targets)), *(len(targets) * each)]


def security_data(draw, numbers):
    """Returns the heads of a security block of some of the blocks with these numbers."""
    targets = draw.sample(numbers, draw.randint(1, len(numbers)))
    context = draw.choice((1, 2, 3, -1, -24, 2**40, 2**63 - 1, -(2**63)))
    return security(targets, context, endpoint(draw)) + results(targets)


def report(draw):
    """Returns the heads of a status report, of a fragment in some cases."""
    statuses = [draw.choice((False, True, draw.choice(NUMBERS))) for _ in range(4)]
    fragment = draw.choice([(), (), (draw.choice(NUMBERS), draw.choice(NUMBERS))])
    stamp, reason = draw.choices(NUMBERS, k=2), draw.choice((*range(18), *NUMBERS))
    return status_report(statuses, reason, endpoint(draw), stamp, fragment)


def data_of(draw, kind, numbers):
    """Returns the data of an extension block of a type, beside blocks with these numbers."""
    one, two = draw.choice(NUMBERS), draw.choice(NUMBERS)
    if kind == 6:
        return encoded(heads_of_endpoint(endpoint(draw)))
    if kind == 7:
        return encoded([unsigned(one)])
    if kind == 10:
        return encoded(hop_count(one, two))
    if kind in (11, 12):
        return encoded(security_data(draw, numbers))
    return any_bytes(draw, draw.randint(1, 30))


def blocks_of(draw, sequence):
    """Returns the blocks of a bundle. Its sequence number tells it from the other bundles."""
    flags = draw.choice((0, 0, 2, 2, 1, 3, 4, 0x40000, 0x44004, 2**63))
    fragment = [draw.choice(NUMBERS), draw.choice(NUMBERS)] if flags & 1 else []
    names = [endpoint(draw) for _ in range(3)]
    stamp, lifetime = (draw.choice(NUMBERS), sequence), draw.choice(NUMBERS)
    blocks = [primary(*names, draw.randint(0, 2), flags, stamp, lifetime, fragment)]
    numbers = draw.sample((2, 3, 23, 24, 255, 256, 65536, 2**64 - 1), draw.choice((0, 1, 2, 5)))
    for number in numbers:
        kind = draw.choice((0, 192, 2**64 - 1, *[6, 7, 10, 11] * 3, 12))
        content, own_flags = data_of(draw, kind, [1, *numbers]), draw.choice((0, 1, *NUMBERS))
        blocks.append(canonical(kind, number, content, draw.randint(0, 2), own_flags))
    payload = encoded(report(draw)) if flags & 2 else any_bytes(draw, draw.choice((1, 30, 3000)))
    return [*blocks, canonical(1, 1, payload, draw.randint(0, 2))]


def drawn():
    """Yields bundles. Some have another head in place of one."""
    for number in range(DRAWN):
        draw = random.Random(f"{SEED} {number}")
        blocks, widths = blocks_of(draw, number), width_of(draw)
        if number < CHANGED:
            yield randoms.changed(draw, blocks, widths)
        else:
            yield spelled(blocks, widths=widths)[0]


def of_data():
    """Yields bundles whose data has another head, is cut, or has a byte more."""
    kinds = block_data.DATA.values()
    made = [(kind, it) for kind, heads in kinds for it in block_data.contents(heads)]
    for sequence, (kind, content) in enumerate(made[::STEP]):
        yield block_data.bundle(kind, content, sequence)


# ---- bundles that are written by hand


def bundle(number, *blocks, report_to=None, flags=0):
    """Returns a bundle of these blocks, which has the number as its time."""
    begin = primary((2, 1), (1, 1), report_to, flags=flags, stamp=(number, 0))
    return spelled([begin, *blocks])[0]


def damaged():
    """Yields bundles of which a byte differs from that of the check."""
    for kind in (1, 2):
        yield bundle(10 + kind, canonical(1, 1, b"hello", kind)).replace(b"hello", b"jello")


def reports():
    """Yields a status report of each reason that has a name, and of the one after these."""
    for reason in range(len(texts.REPORT) + 1):
        content = encoded(status_report(4 * [False], reason, None, (1, reason)))
        yield bundle(60 + reason, canonical(1, 1, content), flags=2)


def special():
    """Yields bundles that tshark shows in another way, as `differences` says."""
    payload = canonical(1, 1, b"x")
    names = [(4196, 2, 1), b"//gr\xc3\xb6\xc3\x9fe/a b\\", b""]
    for number, name in enumerate(names):
        node = canonical(6, 2, encoded(heads_of_endpoint(name)))
        yield bundle(20 + number, payload, report_to=name)
        yield bundle(30 + number, node, payload)
    yield bundle(40, canonical(192, 2, b""), canonical(1, 1, b""))
    six = status_report(6 * [True], 1, None, (1, 1), (300, 7))
    yield bundle(41, canonical(1, 1, encoded(six)), flags=2)
    for number, context in enumerate((-(2**64), -(2**63) - 1, 2**63, 2**64 - 1)):
        content = encoded(security([1], context, None) + results([1]))
        yield bundle(50 + number, canonical(11, 2, content), payload)


# ---- recordings, and the capture of them


def recordings():
    """Returns the recordings by their names: examples, and one with a transfer for each bundle."""
    read = {}
    for name in EXAMPLES:
        with open(f"{TOP}/examples/{name}.tcpcl", "rb") as it:
            read[name] = it.read()
    encoded_elsewhere = [it for _, it in prefixes.bundles()]
    bundles = [*drawn(), *of_data(), *damaged(), *reports(), *special(), *encoded_elsewhere]
    sent = [segment(START | END, number, it) for number, it in enumerate(bundles)]
    pieces = [CONTACT, *sess_init(), *(piece for it in sent for piece in it)]
    return {**read, "bundles": laid(pieces)[0]}


def segments_of(link, stream):
    """Returns the TCP segments of a session in which side `a` sends a stream.

    No segment has more than one message. Side `b` answers with a contact header and a SESS_INIT.
    """
    answer, segments = laid([CONTACT, *sess_init()])[0], opening(link)
    segments.append(Segment(link, "a", 0, CONTACT))
    segments.append(Segment(link, "b", 0, answer, seen=len(CONTACT)))
    cuts = [*(at for at, _ in wire.reading(stream).messages), len(stream)]
    pieces = [(at, end) for begin, end in zip(cuts, cuts[1:]) for at in range(begin, end, MOST)]
    for at, end in pieces:
        content = stream[at : min(end, at + MOST)]
        segments.append(Segment(link, "a", at, content, seen=len(answer)))
    return segments


def capture(streams):
    """Returns a capture of a session for each stream, and the stream's name for each packet."""
    frames, senders = [], []
    for number, (name, stream) in enumerate(streams.items()):
        segments = segments_of(Link((50000 + number, 1000), (4556, 2000)), stream)
        frames += [it.frame(len(frames) + at) for at, it in enumerate(segments)]
        senders += [name] * len(segments)
    return pcap(frames), senders
