"""What the rules of messages depend on, at its limits and in each combination.

The other groups go through `check` too. These are for rules that depend on several messages or
flags. Those of bundles are in `bundle_rules`.
"""

import itertools
import struct

from .prefixes import CHECKS
from .spelling import CONTACT, END, START, item, laid, segment, sess_init, total

LAST = 2**64 - 1


def stream(*pieces):
    """The bytes of a stream that begins with a contact header."""
    return laid([CONTACT, *[it for piece in pieces for it in piece]])[0]


def ack(flags, number, length):
    """XFER_ACK (RFC 9174 section 5.2.3)."""
    return [struct.pack(">BBQQ", 0x02, flags, number, length)]


def messages_before():
    """Every three messages that a rule judges by those before them, alone and after a SESS_INIT."""
    messages = [
        ack(0, 0, 5), ack(END, 0, 4), ack(START, 0, 3), ack(0, 1, 4), [b"\x03\x00" + bytes(8)], [b"\x04"], sess_init(),
        sess_init(keepalive=0), [b"\x05\x02\x00"], segment(START | END, 0, b""),
    ]
    for them in itertools.product(messages, repeat=3):
        yield stream(*them), CHECKS[:1]
        yield stream(sess_init(), *them), CHECKS[:1]
        yield stream(sess_init(keepalive=0), *them), CHECKS[:1]


def session_parameters():
    """Every three SESS_INITs of some with other parameters, with each message before and between.

    One of these messages is a segment of a transfer that began before the first SESS_INIT.
    """
    inits = [
        sess_init(), sess_init(keepalive=61), sess_init(segment_mru=65537), sess_init(transfer_mru=2**63),
        sess_init(node=b"", items=[item("session", 0, 0x8000, b"")]),
    ]
    between = [
        [], [b"\x04"], [b"\x05\x00\x00"], [b"\x06\x03\x07"], ack(0, 0, 5), [b"\x03\x00" + bytes(8)],
        segment(START, 0, b""), segment(0, 0, b"x"), segment(END, 1, b""),
    ]
    for one, two in itertools.product(between, repeat=2):
        for them in itertools.product(inits[:2], inits, (sess_init(), sess_init(keepalive=61))):
            first, second, third = them
            yield stream(one, first, two, second, third), CHECKS[:1]
            yield stream(segment(START, 0, b""), first, one, second, two, third), CHECKS[:1]


def transfer_ids():
    """Every five of some IDs. The last transfer of each is left open."""
    for them in itertools.product((0, 1, 2, 4, LAST), repeat=5):
        ends = [segment(START | END, it, b"") for it in them[:-1]]
        yield stream(sess_init(), *ends, segment(START, them[-1], b"")), CHECKS[:1]
    for them in itertools.product((0, 1), (START, START | END, END, 0), repeat=3):
        ends = [segment(flags, number, b"") for number, flags in zip(them[::2], them[1::2])]
        yield stream(sess_init(), *ends), CHECKS[:1]


def limits_of_the_peer():
    """Transfers of three segments, with each announcement, at limits around their lengths.

    The last segment is whole, or is cut and has a great length. A stray one comes before it.
    """
    items = [[], [total(0)], [total(7)], [total(LAST)], [total(9), total(9)], [item("transfer", 0, 1, bytes(7))]]
    ends = [segment(END, 0, b"ab")] + [[b"\x01\x01" + bytes(8) + struct.pack(">Q", it)] for it in (2, LAST - 3, LAST)]
    limits = [{"peer_segment": it} for it in (1, 2, 5, LAST)] + [{"peer_transfer": it} for it in (0, 4, 5, 6, 7, 9, LAST)]
    runs = [("check", it) for it in [*limits, {"peer_segment": 3, "peer_transfer": 3}]]
    for announced, one, two, end in itertools.product(items, (0, 5), (0, 2, 5), ends):
        begins, stray = segment(START, 0, bytes(one), announced), segment(END, 1, bytes(6))
        yield stream(sess_init(), begins, segment(0, 0, bytes(two)), stray, end), runs


def node_ids():
    """Every node ID of a few bytes, and each byte in each part of one."""
    for length in range(6):
        for them in itertools.product(b"a1+: ", repeat=length):
            yield stream(sess_init(node=bytes(them))), CHECKS[:1]
    for byte in range(256):
        for node in (b"%c:", b"a%c:", b"a:%c", b"dtn://%c/", b"dtn://n/%c", b"ipn:%c.0", b"ipn:1.%c", b"a:%%%c0", b"a:%%0%c"):
            yield stream(sess_init(node=node % byte)), CHECKS[:1]
    parts = [b"", b"none", b"NonE", b"n", b"/", b"//", b"///", b"//n", b"//n/", b"//n/~", b"//n/a~", b"//%4a/", b"//%4/", b"~"]
    parts += [b".".join(them) for length in range(5) for them in itertools.product((b"", b"0", b"00", b"10"), repeat=length)]
    for scheme, part in itertools.product((b"dtn", b"DTN", b"ipn", b"iPn", b"dtn2", b"ip", b""), [*parts, b"!", b"!1.1", b"1.0!"]):
        yield stream(sess_init(node=scheme + b":" + part)), CHECKS[:1]


def intervals_and_codes():
    """Each interval around its limits, each type of an item, each reason, and each rejected header."""
    for interval in (*range(33), *range(598, 603), 65535):
        yield stream(sess_init(keepalive=interval)), CHECKS[:1]
    for kind in (0, 1, 2, 3, 0x00FF, 0x0100, 0x7FFE, 0x7FFF, 0x8000, 0x8001, 0xFFFF):
        yield stream(sess_init(items=[item("session", 0, 0x8000, b""), item("session", 0, kind, b"")])), CHECKS[:1]
        yield stream(sess_init(), segment(START | END, 0, b"", [item("transfer", 0, kind, b"")])), CHECKS[:1]
        yield stream(sess_init(), segment(START, 0, b"", [total(0), item("transfer", 0, kind, b"")])), CHECKS[:1]
    for reason in range(256):
        for message in (b"\x06%c\x07", b"\x06%c\x08", b"\x05\x00%c", b"\x05\x01%c", b"\x03%c" + bytes(8)):
            yield stream(sess_init(), [message % reason]), CHECKS[:1]
        for why in range(5):
            yield stream(sess_init(), [b"\x06%c%c" % (why, reason)]), CHECKS[:1]


def orders_of_answers():
    """Every four of some XFER_ACKs and XFER_REFUSEs, after a SESS_INIT and around one."""
    answers = [ack(flags, number, 5) for flags in (0, START, END) for number in (0, 1)]
    answers += [[b"\x03%c" % reason + bytes(7) + bytes([number])] for reason, number in ((0, 0), (4, 0), (0, 1))]
    for them in itertools.product(answers, repeat=4):
        yield stream(sess_init(), *them), CHECKS[:1]
        yield stream(*them[:2], sess_init(), *them[2:]), CHECKS[:1]


def after_the_end():
    """Every four of some messages, among them a MSG_REJECT that ends the session and a SESS_TERM."""
    messages = [
        [b"\x06\x01\x20"], [b"\x06\x02\x07"], [b"\x05\x00\x00"], [b"\x05\x01\x00"], sess_init(), [b"\x04"],
        segment(START, 0, b""), segment(0, 0, b"x"), ack(START, 0, 5),
    ]
    for them in itertools.product(messages, repeat=4):
        yield stream(*them), CHECKS[:1]
        yield stream(sess_init(), *them), CHECKS[:1]


def many_runs():
    """As many runs of IDs as are remembered and one more, and then each ID of the first ones again."""
    for count in (62, 63, 64, 65, 66):
        for last in (0, 1, 3, 4, 6, 7, 3 * count - 2):
            ids = [it for run in range(count) for it in (3 * run, 3 * run + 1)]
            ends = [segment(START | END, it, b"") for it in (*ids, last)]
            yield stream(sess_init(), *ends), CHECKS[:1]


def flags_of_messages():
    """Each flag of each message that has flags, and of each of two items."""
    for byte in range(256):
        yield stream(sess_init(), [b"\x05%c\x00" % byte]), CHECKS[:1]
        yield stream(sess_init(), segment(byte, 0, b"", [item("transfer", byte ^ 0xFF, 2, b"")])), CHECKS[:1]
        for one, two in ((byte, 0), (0, byte), (byte, byte)):
            yield stream(sess_init(items=[item("session", one, 2, b""), item("session", two, 2, b"")])), CHECKS[:1]


def groups():
    """The groups of this file."""
    for make in (messages_before, session_parameters, transfer_ids, limits_of_the_peer, node_ids, intervals_and_codes,
                 orders_of_answers, after_the_end, many_runs, flags_of_messages):
        yield f"rules: {make.__name__.replace('_', ' ')}", make
