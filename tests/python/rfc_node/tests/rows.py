"""What peers do, and what the node has to answer: a row for each way in which a peer can be wrong or odd.

The answers follow RFC 9174. Where it leaves a choice, a row has the choice of this node.
"""

from rfc_node.octets import (
    Kind, Reason, Refusal, Rejection, SegmentFlag, U64_MAX, ack, contact_header, item, keepalive, msg_reject, refuse,
    segment, sess_init, sess_term, transfer_length)
from rfc_node.session import Settings
from rfc_node.tests.talking import BUNDLE, HEADER, OWN, PEER, Bits, Came, Fin, Reset, Row, Send, Wait

START, END = SegmentFlag.START, SegmentFlag.END
WHOLE = START | END
MOMENT = Wait(0.2)
DONE = len(HEADER + OWN)
# An item of an unknown type
UNKNOWN, CRITICAL = item(0, 9, b"abc"), item(1, 9, b"abc")
OVERRUN, UNDERRUN = b"\0\0\x09\0\x04abc", UNKNOWN + b"\0\0"
SMALL = Settings(segment_mru=10, transfer_mru=20)
SENDER = Settings(bundles=1)


def rejected(kind, reason=Rejection.UNEXPECTED):
    """Returns the MSG_REJECT of a message."""
    return msg_reject(reason, kind)


def raw(name, steps, answer, closes=False, **more):
    """Returns a row without an opening."""
    return Row(name, tuple(steps), answer, closes, **more)


def opened(name, steps, answer, closes=False, init=PEER, own=OWN, **more):
    """Returns a row whose steps follow both SESS_INIT."""
    opening = Send(HEADER), Came(len(HEADER)), Send(init), Came(len(HEADER + own))
    return raw(name, [*opening, *steps], HEADER + own + answer, closes, **more)


def active(name, steps, answer, closes=False, **more):
    """Returns a row for a node that opens the connection."""
    return raw(name, steps, answer, closes, is_active=True, **more)


def with_init(name, init, answer=b"", steps=(), closes=False, **more):
    """Returns a row for a SESS_INIT, and what the node sends after its own."""
    return raw(name, [Send(HEADER), Came(len(HEADER)), Send(init), Came(DONE), *steps],
               HEADER + OWN + answer, closes, **more)


def init(interval=60, segment_mru=65536, transfer_mru=2**20, node="ipn:2.0", items=b""):
    """Returns a SESS_INIT of the peer."""
    return sess_init(interval, segment_mru, transfer_mru, node, items)


def init_of(name):
    """Returns a SESS_INIT whose node ID is these bytes."""
    return init(node="")[:19] + len(name).to_bytes(2, "big") + name + bytes(4)


# A transfer that a good peer sends, and its answer
GOOD, ACKED = Send(segment(WHOLE, 77, b"good")), ack(WHOLE, 77, 4)
FAILURE, MISMATCH = sess_term(0, Reason.CONTACT_FAILURE), sess_term(0, Reason.VERSION_MISMATCH)

CONTACT = [
    raw("contact-wait", [MOMENT], b""),
    raw("contact-bytes", [Bits(HEADER), Came(6), Send(PEER), Came(DONE), GOOD], HEADER + OWN + ACKED),
    raw("contact-flags", [Send(contact_header(flags=0xFE)), Came(6), Send(PEER), Came(DONE), GOOD],
        HEADER + OWN + ACKED),
    raw("can-tls", [Send(contact_header(flags=1)), Came(6), Send(PEER), Came(DONE), GOOD], HEADER + OWN + ACKED),
    raw("one-write", [Send(HEADER + PEER + segment(WHOLE, 0, b"ab"))], HEADER + OWN + ack(WHOLE, 0, 2)),
    raw("magic", [Send(b"dtn?\4\0")], b"", True),
    raw("magic-text", [Send(b"GET / HTTP/1.1\r\n\r\n")], b"", True),
    raw("version-0", [Send(contact_header(0))], HEADER + MISMATCH, True),
    raw("version-3", [Send(contact_header(3))], HEADER + MISMATCH, True),
    raw("version-5", [Send(contact_header(5))], HEADER + MISMATCH, True),
    raw("version-255", [Send(contact_header(255))], HEADER + MISMATCH, True),
    active("reply-version-0", [Came(6), Send(contact_header(0))], HEADER, True),
    active("reply-version-3", [Came(6), Send(contact_header(3))], HEADER, True),
    active("reply-version-5", [Came(6), Send(contact_header(5))], HEADER + MISMATCH, True),
    active("reply-magic", [Came(6), Send(b"nope")], HEADER, True),
    raw("contact-cut", [Send(HEADER[:3]), MOMENT, Fin()], b"", True),
    active("reply-cut", [Came(6), Send(HEADER[:3]), MOMENT, Fin()], HEADER, True),
    raw("connect-close", [Fin()], b"", True),
]
SESSION = [
    *(with_init(f"keepalive-{number}", init(interval=number), ACKED, [GOOD]) for number in (0, 1, 65535)),
    *(with_init(f"segment-mru-{name}", init(segment_mru=number), ACKED, [GOOD])
      for name, number in (("0", 0), ("1", 1), ("max", U64_MAX))),
    *(with_init(f"transfer-mru-{name}", init(transfer_mru=number), ACKED, [GOOD])
      for name, number in (("0", 0), ("1", 1), ("max", U64_MAX))),
    with_init("segment-mru-0-to-a-sender", init(segment_mru=0), FAILURE, settings=SENDER),
    with_init("node-empty", init(node=""), ACKED, [GOOD]),
    with_init("node-long", init(node="ipn:" + "1" * 65531), ACKED, [GOOD]),
    with_init("node-no-uri", init(node="no URI"), ACKED, [GOOD]),
    with_init("node-not-utf8", init_of(b"dtn:\xff"), FAILURE),
    with_init("item-unknown", init(items=UNKNOWN), ACKED, [GOOD]),
    with_init("item-flags", init(items=item(0xFE, 9, b"abc")), ACKED, [GOOD]),
    with_init("item-critical", init(items=UNKNOWN + CRITICAL), FAILURE),
    raw("item-overrun", [Send(HEADER), Came(6), Send(init(items=OVERRUN))], HEADER + FAILURE),
    raw("item-underrun", [Send(HEADER), Came(6), Send(init(items=UNDERRUN))], HEADER + FAILURE),
    raw("item-overrun-replied", [Send(HEADER), Came(6), Send(init(items=OVERRUN)), Came(9), Send(b"\5\1\4")],
        HEADER + FAILURE, True),
    raw("item-list-huge", [Send(HEADER), Came(6), Send(init()[:-4] + b"\xff" * 4), MOMENT, Fin()], HEADER, True),
    raw("init-bytes", [Send(HEADER), Came(6), Bits(PEER), Came(DONE), GOOD], HEADER + OWN + ACKED),
    opened("second-init", [Send(PEER), GOOD], rejected(Kind.SESS_INIT) + ACKED),
    raw("early-segment", [Send(HEADER), Came(6), Send(segment(WHOLE, 0, b"ab")), Came(9), Send(PEER)],
        HEADER + rejected(Kind.XFER_SEGMENT) + OWN),
    raw("early-ack", [Send(HEADER), Came(6), Send(ack(WHOLE, 0, 2)), MOMENT, Send(PEER)],
        HEADER + rejected(Kind.XFER_ACK) + OWN),
    raw("early-refuse", [Send(HEADER), Came(6), Send(refuse(0, 0)), MOMENT, Send(PEER)],
        HEADER + rejected(Kind.XFER_REFUSE) + OWN),
    raw("early-keepalive", [Send(HEADER), Came(6), Send(keepalive()), MOMENT, Send(PEER)],
        HEADER + rejected(Kind.KEEPALIVE) + OWN),
    raw("early-reject", [Send(HEADER), Came(6), Send(msg_reject(3, 1)), MOMENT, Send(PEER)],
        HEADER + rejected(Kind.MSG_REJECT) + OWN),
    raw("early-term", [Send(HEADER), Came(6), Send(b"\5\0\3")], HEADER + b"\5\1\3", True),
    raw("early-unknown", [Send(HEADER), Came(6), Send(b"\x08")], HEADER + msg_reject(1, 8), True),
]


def first(identifier, data, *announced):
    """Returns a first segment that announces these lengths."""
    return segment(START, identifier, data, b"".join(map(transfer_length, announced)))


def pairs(identifier):
    """Returns a transfer of two long segments, and its answers."""
    return (segment(START, identifier, bytes(100)) + segment(END, identifier, bytes(100)),
            ack(START, identifier, 100) + ack(END, identifier, 200))


REFUSED = refuse(Refusal.EXTENSION_FAILURE, 0)
BAD, LARGE = Refusal.NOT_ACCEPTABLE, Refusal.NO_RESOURCES
TO = [
    opened("good", [GOOD], ACKED),
    opened("segments", [Send(segment(START, 0, b"ab") + segment(END, 0, b"cd"))], ack(START, 0, 2) + ack(END, 0, 4)),
    opened("segments-of-1", [Send(segment(START, 0, b"a") + segment(0, 0, b"b") + segment(END, 0, b"c"))],
           ack(START, 0, 1) + ack(0, 0, 2) + ack(END, 0, 3)),
    opened("segment-bytes", [Bits(segment(START, 0, b"ab")), Bits(segment(END, 0, b"cd"))],
           ack(START, 0, 2) + ack(END, 0, 4)),
    opened("segment-flags", [Send(segment(START | 0xFC, 0, b"ab") + segment(END | 0xFC, 0, b"cd"))],
           ack(START | 0xFC, 0, 2) + ack(END | 0xFC, 0, 4)),
    opened("pipelined", [Send(b"".join(pairs(number)[0] for number in range(4)))],
           b"".join(pairs(number)[1] for number in range(4))),
    opened("empty-first", [Send(segment(START, 0, b"") + segment(END, 0, b"cd"))], ack(START, 0, 0) + ack(END, 0, 2)),
    opened("empty-middle", [Send(segment(START, 0, b"ab") + segment(0, 0, b"") + segment(END, 0, b"cd"))],
           ack(START, 0, 2) + ack(0, 0, 2) + ack(END, 0, 4)),
    opened("empty-last", [Send(segment(START, 0, b"ab") + segment(END, 0, b""))], ack(START, 0, 2) + ack(END, 0, 2)),
    opened("empty-transfer", [Send(segment(WHOLE, 0, b""))], ack(WHOLE, 0, 0)),
    opened("id-max", [Send(segment(WHOLE, U64_MAX, b"ab"))], ack(WHOLE, U64_MAX, 2)),
    opened("id-again", [Send(segment(WHOLE, 5, b"ab")), Send(segment(WHOLE, 5, b"ab")), GOOD],
           ack(WHOLE, 5, 2) + rejected(Kind.XFER_SEGMENT) + ACKED),
    opened("segment-above-mru", [Send(segment(WHOLE, 0, bytes(11)) + segment(WHOLE, 1, bytes(10)))],
           msg_reject(Rejection.UNSUPPORTED, Kind.XFER_SEGMENT) + ack(WHOLE, 1, 10), settings=SMALL,
           own=sess_init(60, 10, 20, "ipn:1.0")),
    opened("segment-above-mru-goes-on", [Send(segment(START, 0, bytes(11)) + segment(END, 0, bytes(10)))],
           msg_reject(Rejection.UNSUPPORTED, Kind.XFER_SEGMENT) + refuse(BAD, 0), settings=SMALL,
           own=sess_init(60, 10, 20, "ipn:1.0")),
    opened("transfer-above-mru",
           [Send(segment(START, 0, bytes(10)) + segment(0, 0, bytes(10)) + segment(END, 0, b"a"))],
           ack(START, 0, 10) + ack(0, 0, 20) + refuse(LARGE, 0), settings=SMALL, own=sess_init(60, 10, 20, "ipn:1.0")),
    opened("transfer-above-mru-announced", [Send(first(0, bytes(10), 21))], refuse(LARGE, 0), settings=SMALL,
           own=sess_init(60, 10, 20, "ipn:1.0")),
    opened("length-right", [Send(first(0, b"ab", 4) + segment(END, 0, b"cd"))], ack(START, 0, 2) + ack(END, 0, 4)),
    opened("length-small", [Send(first(0, b"ab", 3) + segment(END, 0, b"cd"))], ack(START, 0, 2) + refuse(BAD, 0)),
    opened("length-large", [Send(first(0, b"ab", 5) + segment(END, 0, b"cd"))], ack(START, 0, 2) + refuse(BAD, 0)),
    opened("length-max", [Send(first(0, b"ab", U64_MAX) + segment(END, 0, b"cd"))], 2 * refuse(LARGE, 0)),
    opened("length-twice", [Send(first(0, b"ab", 4, 4) + segment(END, 0, b"cd"))], REFUSED + REFUSED),
    opened("length-of-one", [Send(segment(WHOLE, 0, b"ab", transfer_length(2)))], ack(WHOLE, 0, 2)),
    opened("length-of-one-wrong", [Send(segment(WHOLE, 0, b"ab", transfer_length(3)))], refuse(BAD, 0)),
    opened("length-of-7-bytes", [Send(segment(WHOLE, 0, b"ab", item(0, 1, bytes(7)))), GOOD], REFUSED + ACKED),
    opened("xfer-item-unknown", [Send(segment(WHOLE, 0, b"ab", UNKNOWN)), GOOD], ack(WHOLE, 0, 2) + ACKED),
    opened("xfer-item-flags", [Send(segment(WHOLE, 0, b"ab", item(0xFE, 9, b"abc"))), GOOD],
           ack(WHOLE, 0, 2) + ACKED),
    opened("xfer-item-critical", [Send(segment(WHOLE, 0, b"ab", CRITICAL)), GOOD], REFUSED + ACKED),
    opened("xfer-item-overrun", [Send(segment(WHOLE, 0, b"ab", OVERRUN)), GOOD], REFUSED + ACKED),
    opened("xfer-item-underrun", [Send(segment(WHOLE, 0, b"ab", UNDERRUN)), GOOD], REFUSED + ACKED),
    opened("xfer-list-huge", [Send(segment(WHOLE, 0, b"")[:10] + b"\xff" * 4), MOMENT, Fin()], b"", True),
    opened("segment-huge", [Send(segment(WHOLE, 0, b"")[:14] + b"\x80" + bytes(7) + b"abc"), MOMENT, Fin()],
           msg_reject(Rejection.UNSUPPORTED, Kind.XFER_SEGMENT), True),
    opened("refused-goes-on", [Send(segment(START, 0, b"ab", CRITICAL)), MOMENT, Send(segment(END, 0, b"cd")), GOOD],
           REFUSED + REFUSED + ACKED),
    opened("refuse-order", [Send(segment(WHOLE, 1, b"ab") + segment(WHOLE, 0, b"ab", CRITICAL))],
           ack(WHOLE, 1, 2) + REFUSED),
    opened("stray-segment", [Send(segment(0, 9, b"ab")), GOOD], rejected(Kind.XFER_SEGMENT) + ACKED),
    opened("start-twice", [Send(segment(START, 0, b"ab")), Send(segment(START, 0, b"ab")), Send(segment(END, 0, b"c"))],
           ack(START, 0, 2) + rejected(Kind.XFER_SEGMENT) + ack(END, 0, 3)),
    opened("interleaved", [Send(segment(START, 0, b"ab") + segment(START, 1, b"ab") + segment(END, 0, b"c")
                                + segment(END, 1, b"c"))],
           ack(START, 0, 2) + rejected(Kind.XFER_SEGMENT) + ack(END, 0, 3) + rejected(Kind.XFER_SEGMENT)),
    opened("cut-fin", [Send(segment(START, 0, b"ab")), MOMENT, Fin()], ack(START, 0, 2), True),
    opened("cut-term", [Send(segment(START, 0, b"ab") + b"\5\0\0"), MOMENT, Fin()], ack(START, 0, 2) + b"\5\1\0", True),
]


def sent(size, identifier=0):
    """Returns the segments in which the node sends its bundle to a peer whose Segment MRU is `size`."""
    made = []
    for at in range(0, len(BUNDLE), size):
        flags = (START if at == 0 else 0) | (END if at + size >= len(BUNDLE) else 0)
        items = transfer_length(len(BUNDLE)) if flags == START else b""
        made.append(segment(flags, identifier, BUNDLE[at:at + size], items))
    return made


def acks(size):
    """Returns what a peer answers to these segments, each in one write."""
    ends = range(size, len(BUNDLE) + size, size)
    flags = [0] * len(ends)
    flags[0] |= START
    flags[-1] |= END
    return [ack(flag, 0, min(end, len(BUNDLE))) for flag, end in zip(flags, ends)]


def sending(name, size, steps, answer, closes=False, **more):
    """Returns a row for a node that sends a bundle in segments of `size` bytes."""
    return opened(name, steps, answer, closes, init=init(segment_mru=size), settings=SENDER, **more)


def seen(*parts):
    """Waits until the node's opening and these parts have come."""
    return Came(DONE + len(b"".join(parts)))


WINDOW = sent(100)[:4]
FROM = [
    sending("sent-good", 100, [seen(*WINDOW), Send(b"".join(acks(100)[:4])), seen(*sent(100)),
                              Send(b"".join(acks(100)[4:]))], b"".join(sent(100))),
    sending("sent-whole", 65536, [seen(*sent(65536)), *map(Send, acks(65536))], b"".join(sent(65536))),
    opened("sent-twice", [seen(*sent(65536), *sent(65536, 1)), Send(ack(WHOLE, 0, 800) + ack(WHOLE, 1, 800))],
           b"".join(sent(65536) + sent(65536, 1)), settings=Settings(bundles=2)),
    sending("sent-segment-1", 1, [Wait(2.5)], b"".join(sent(1))),
    sending("sent-segment-100", 100, [Wait(2.5)], b"".join(sent(100))),
    *(opened(f"sent-transfer-{number}", [], b"", init=init(transfer_mru=number), settings=SENDER)
      for number in (1, 100)),
    *(sending(f"refuse-first-{reason:02x}", 100, [seen(*WINDOW), Send(refuse(reason, 0)), Wait(0.5)], b"".join(WINDOW))
      for reason in (*range(8), 0xFF)),
    sending("refuse-middle", 100, [seen(*WINDOW), Send(b"".join(acks(100)[:2]) + refuse(0, 0)), Wait(0.5)],
            b"".join(WINDOW)),
    sending("refuse-last", 100,
            [seen(*WINDOW), Send(b"".join(acks(100)[:4])), seen(*sent(100)), Send(refuse(0, 0)), GOOD],
            b"".join(sent(100)) + ACKED),
    sending("ack-long", 65536, [seen(*sent(65536)), Send(ack(WHOLE, 0, 801))],
            b"".join(sent(65536)) + rejected(Kind.XFER_ACK)),
    sending("ack-reserved-flags", 65536, [seen(*sent(65536)), Send(ack(0xFF, 0, 800)), GOOD],
            b"".join(sent(65536)) + ACKED),
    sending("ack-other-id", 65536, [seen(*sent(65536)), Send(ack(WHOLE, 9, 800)), GOOD],
            b"".join(sent(65536)) + rejected(Kind.XFER_ACK) + ACKED),
    sending("reject-segment", 100, [seen(*WINDOW), Send(msg_reject(3, Kind.XFER_SEGMENT)), Wait(0.5)],
            b"".join(WINDOW) + sess_term(0, 0)),
    sending("sent-term", 100, [seen(*WINDOW), Send(b"\5\0\0" + b"".join(acks(100)[:4])), seen(*sent(100), b"..."),
                              Send(b"".join(acks(100)[4:]))],
            b"".join(WINDOW) + b"\5\1\0" + b"".join(sent(100)[4:]), True),
    sending("sent-fin", 100, [seen(*WINDOW), Fin()], b"".join(WINDOW), True),
]
ANSWERS = [
    opened("ack-nothing", [Send(ack(WHOLE, 9, 1)), GOOD], rejected(Kind.XFER_ACK) + ACKED),
    opened("refuse-nothing", [Send(refuse(0, 9)), GOOD], rejected(Kind.XFER_REFUSE) + ACKED),
    opened("reject-nothing", [Send(msg_reject(3, Kind.XFER_SEGMENT)), GOOD], rejected(Kind.MSG_REJECT) + ACKED),
    *(opened(f"type-{number:02x}", [Send(bytes([number]) + bytes(3))], msg_reject(1, number), True)
      for number in (*range(8, 16), 0, 0xF0, 0xFF)),
]
FINISH = [
    *(opened(f"term-{reason:02x}", [Send(sess_term(0, reason))], sess_term(1, reason), True)
      for reason in (*range(7), 0xFF)),
    opened("term-flags", [Send(sess_term(0xFE, 0))], sess_term(1, 0), True),
    opened("term-bytes", [Bits(sess_term(0, 0))], sess_term(1, 0), True),
    opened("term-inside",
           [Send(segment(START, 0, b"ab")), Send(sess_term(0, 0)), Wait(0.3), Send(segment(END, 0, b"c"))],
           ack(START, 0, 2) + sess_term(1, 0) + ack(END, 0, 3), True),
    opened("term-reply", [Send(sess_term(1, 0))], sess_term(1, 0), True),
    opened("term-twice", [Send(sess_term(0, 0) * 2)], sess_term(1, 0), True),
    opened("transfer-after-term", [Send(sess_term(0, 0)), Wait(0.3), Send(segment(WHOLE, 0, b"ab"))],
           sess_term(1, 0), True),
    opened("transfer-inside-ending", [Send(segment(START, 0, b"ab") + sess_term(0, 0)), MOMENT,
                                      Send(segment(END, 0, b"c")), Send(segment(WHOLE, 1, b"ab"))],
           ack(START, 0, 2) + sess_term(1, 0) + ack(END, 0, 3), True),
    opened("sends-after-term", [Send(segment(START, 0, b"ab")), seen(*sent(65536), b"." * 18), Send(sess_term(0, 0))],
           b"".join(sent(65536)) + ack(START, 0, 2) + sess_term(1, 0), settings=SENDER),
    opened("keepalive-after-term", [Send(sess_term(0, 0) + keepalive())], sess_term(1, 0), True),
    opened("init-after-term", [Send(sess_term(0, 0) + PEER)], sess_term(1, 0), True),
    opened("close-without-term", [Fin()], b"", True),
    active("term-both", [Came(6), Send(HEADER + PEER), Came(DONE + 3), Send(sess_term(0, 0))],
           HEADER + OWN + sess_term(0, 0), True),
    active("ends-by-itself", [Came(6), Send(HEADER + PEER), Came(DONE + 3), Send(sess_term(1, 0))],
           HEADER + OWN + sess_term(0, 0), True),
]
SLOW = [
    with_init("keepalive-due", init(interval=1), keepalive() * 2, [Wait(1.5), Send(keepalive()), Wait(0.7)], hold=0.1),
    opened("keepalive-none", [Wait(1.5)], b"", init=init(interval=0), settings=Settings(keepalive=1),
           own=sess_init(1, 65536, 2**20, "ipn:1.0")),
    with_init("silence-session", init(interval=1), keepalive() + sess_term(0, Reason.IDLE_TIMEOUT), [Wait(2.6)],
              hold=0.1),
    raw("silence-connected", [Wait(11)], b"", True),
    raw("silence-header", [Send(HEADER[:3]), Wait(11)], b"", True),
]
# The peer of such a row sees nothing: the node has to serve the next one
RESETS = [
    raw("contact-reset", [Send(HEADER[:3]), MOMENT, Reset()], b""),
    opened("reset-without-term", [Reset()], b""),
    opened("cut-reset", [Send(segment(START, 0, b"ab")), MOMENT, Reset()], b""),
    sending("sent-reset", 100, [seen(*WINDOW), Reset()], b""),
]
ROWS = [*SLOW, *FROM, *CONTACT, *SESSION, *TO, *ANSWERS, *FINISH]
