"""`check`: for each rule of messages and transfers, recordings that break it alone and that keep it."""

import make

from .broken import (
    ACK_0, AGE, CHECKED_AGE, CLEAN, CONTACT, INIT, KEEPALIVE, LAST, LAST_TYPE, OTHER_INTERVAL, OTHER_SEGMENT,
    OTHER_TRANSFER, PRIVATE, UNKNOWN, block, bundle, named, of, of_ids, row, sent, two,
)
from .lines import BOTH, END, HEAD, START


def of_sess_init():
    """Recordings with a second SESS_INIT, and their lines.

    It is a must if it changes a parameter after a message of a transfer (RFC 9174 section 4.7).
    """
    ack, refuse, stray = make.xfer_ack(BOTH, 0, 1), make.xfer_refuse(0, 0), make.xfer_segment(END, 5, b"")
    second, before = "order fault=second-session-initiation", "order fault=segment-before-session-initiation"
    return [
        (HEAD + INIT, [f"38 should {second}"]),
        (HEAD + INIT + INIT, [f"38 should {second}", f"70 should {second}"]),
        # After a message of a transfer, with each parameter
        (HEAD + sent(CLEAN) + OTHER_INTERVAL, [f"93 must {second}"]),
        (HEAD + ack + OTHER_SEGMENT, [f"56 must {second}"]),
        (HEAD + refuse + OTHER_TRANSFER, [f"48 must {second}"]),
        (HEAD + stray + OTHER_INTERVAL, ["38 must order fault=no-such-open-transfer", f"56 must {second}"]),
        (HEAD + INIT + sent(CLEAN) + OTHER_INTERVAL, [f"38 should {second}", f"125 must {second}"]),
        # The first one counts, and not the one before
        (HEAD + sent(CLEAN) + OTHER_INTERVAL + INIT, [f"93 must {second}", f"125 should {second}"]),
        (HEAD + OTHER_INTERVAL + sent(CLEAN) + OTHER_INTERVAL, [f"38 should {second}", f"125 must {second}"]),
        # With the same parameters, and another node ID or an item
        (HEAD + sent(CLEAN) + INIT, [f"93 should {second}"]),
        (HEAD + ack + make.sess_init(node=b"ipn:9.0"), [f"56 should {second}"]),
        (HEAD + refuse + make.sess_init(make.item(0, 0x8000, b"")), [f"48 should {second}"]),
        # With others, after no message of a transfer
        (HEAD + OTHER_INTERVAL, [f"38 should {second}"]),
        (HEAD + OTHER_SEGMENT + sent(CLEAN), [f"38 should {second}"]),
        (HEAD + KEEPALIVE + OTHER_TRANSFER, [f"39 should {second}"]),
        (HEAD + make.sess_term(0, 0) + OTHER_INTERVAL, [f"41 should {second}"]),
        (HEAD + make.msg_reject(3, 7) + OTHER_SEGMENT, [f"41 should {second}"]),
        (CONTACT + sent(CLEAN) + INIT + OTHER_INTERVAL, [f"6 must {before}", f"93 should {second}"]),
    ]


# For each rule of messages, the lines of recordings that break it alone, and recordings that keep
# it. Options follow the lines, or the recording that keeps the rule.
MESSAGES = {
    "contact-flags": (
        [
            (b"dtn!\x04\x80", ["0 must contact-flags flags=80"]),
            (b"dtn!\x04\xff", ["0 must contact-flags flags=ff"]),
            (b"dtn!\x04\x02" + INIT, ["0 must contact-flags flags=02"]),
        ],
        [b"dtn!\x04\x01", CONTACT],
    ),
    "node-id": (
        [
            (CONTACT + make.sess_init(node=node), [f"6 must node-id length={len(node)}"])
            for node in [
                b"1pn:1.0", b"ipn", b"ip_n:1", b":", b"ipn:1 0", b"ipn:\x7f", b"a:\xc3\xa4", b"\x00", b"//n/", b"+a:",
                # Bytes that no URI has, and `%` without two hexadecimal digits
                *[b"a:%c" % byte for byte in b'"<>\\^`{|}'], b"a:%", b"a:%4", b"a:%4g", b"a:%%41",
                # The syntax of dtn: no slashes, one, no slash after the name, and names that are none
                b"dtn:", b"dtn:n", b"dtn:/n/", b"dtn://n", b"dtn:none/", b"dtn://n:1/", b"dtn://n@m/", b"dtn://[n]/",
                b"dtn://n?/", b"DTN:nonE.",
                # The syntax of ipn: one number, four, none, no decimal ones
                b"ipn:1", b"ipn:1.2.3.0", b"ipn:.0", b"ipn:1.", b"ipn:1..0", b"ipn:", b"ipn:-1.0", b"ipn:0x1.0", b"IPN:a.0",
            ]
        ],
        [
            CONTACT + make.sess_init(node=node)
            for node in [
                b"", b"dtn://n/", b"dtn:///", b"DtN://%4a-._~!$&'()*+,;=/", b"ipn:1.0", b"ipn:0.1.0", b"iPn:01.00", b"ipn:!",
                b"ipn:!.0",
            ]
        ],
    ),
    "item-flags": (
        [
            (CONTACT + make.sess_init(make.item(1, LAST_TYPE, b""), make.item(3, PRIVATE, b""), make.item(4, PRIVATE, b"")),
             ["6 must item-flags item=1 flags=03"]),
            (HEAD + sent(CLEAN, 0, make.item(0x80, PRIVATE, b"a")), ["38 must item-flags item=0 flags=80"]),
            (CONTACT + make.sess_init(make.item(0x80, PRIVATE, b"")), ["6 must item-flags item=0 flags=80"]),
        ],
        [
            CONTACT + make.sess_init(make.item(0, PRIVATE, b"")),
            CONTACT + make.sess_init(make.item(1, PRIVATE, b""), make.item(0, LAST_TYPE, b"")),
            HEAD + sent(CLEAN, 0, make.item(1, PRIVATE, b"")),
        ],
    ),
    "order": (
        [
            (CONTACT + sent(CLEAN), ["6 must order fault=segment-before-session-initiation"]),
            (CONTACT + sent(CLEAN) + INIT, ["6 must order fault=segment-before-session-initiation"]),
            (CONTACT + make.xfer_segment(END, 0, b""), ["6 must order fault=segment-before-session-initiation"]),
            (HEAD + make.xfer_segment(END, 0, b""), ["38 must order fault=no-such-open-transfer"]),
            (HEAD + make.sess_term(0, 0) + sent(CLEAN), ["41 must order fault=start-after-session-termination"]),
            *of_sess_init(),
        ],
        [
            HEAD + make.xfer_segment(START, 0, CLEAN[:9]) + make.sess_term(0, 0) + make.xfer_segment(END, 0, CLEAN[9:]),
            HEAD + sent(CLEAN),
        ],
    ),
    "before-session": (
        [
            (CONTACT + make.xfer_ack(3, 0, 1), ["6 should before-session type=02"]),
            (CONTACT + make.xfer_refuse(0, 0), ["6 should before-session type=03"]),
            (CONTACT + KEEPALIVE, ["6 should before-session type=04"]),
            (CONTACT + KEEPALIVE + KEEPALIVE + INIT, [
                "6 should before-session type=04", "7 should before-session type=04",
            ]),
        ],
        [
            HEAD + KEEPALIVE,
            HEAD + make.xfer_ack(3, 0, 1) + make.xfer_refuse(0, 1) + KEEPALIVE,
            CONTACT + make.sess_term(0, 4) + make.msg_reject(3, 7),
        ],
    ),
    "interleaved": (
        [(HEAD + make.xfer_segment(START, 0, b"") + sent(CLEAN, 1), ["60 should interleaved id=1 open=0"])],
        [HEAD + sent(CLEAN) + sent(CLEAN, 1)],
    ),
    "segment-flags": (
        [
            (HEAD + make.xfer_segment(BOTH | 0x04, 0, CLEAN), ["38 must segment-flags flags=07"]),
            (HEAD + make.xfer_segment(START, 0, CLEAN) + make.xfer_segment(END | 0x80, 0, b""),
             ["93 must segment-flags flags=81"]),
        ],
        [HEAD + two(CLEAN, 9)],
    ),
    "transfer-id": (
        [
            (HEAD + sent(CLEAN) + sent(CLEAN), ["93 must transfer-id id=0"]),
            (HEAD + of_ids(0, 1, 2, 0), ["203 must transfer-id id=0"]),
            # Runs of one ID, of which the first breaks the order
            (HEAD + of_ids(5, 7, 5), ["38 should transfer-id-order id=5", "148 must transfer-id id=5"]),
            (HEAD + of_ids(1, 0, 1), ["38 should transfer-id-order id=1", "148 must transfer-id id=1"]),
            (HEAD + of_ids(LAST, LAST), [f"38 should transfer-id-order id={LAST}", f"93 must transfer-id id={LAST}"]),
            # The first of 64 runs, and its last ID
            (HEAD + of_ids(0, 1, *range(3, 129, 2), 1), ["148 should transfer-id-order id=3", "3613 must transfer-id id=1"]),
        ],
        [HEAD + of_ids(0, 1)],
    ),
    "peer-segment": (
        [
            (HEAD + sent(CLEAN), ["38 must peer-segment length=33 limit=32"], {"peer_segment": 32}),
            (HEAD + two(CLEAN, 9), ["69 must peer-segment length=24 limit=23"], {"peer_segment": 23}),
        ],
        [(HEAD + sent(CLEAN), {"peer_segment": 33}), HEAD + sent(CLEAN)],
    ),
    "peer-transfer": (
        [
            (HEAD + sent(CLEAN), ["38 must peer-transfer length=33 limit=32"], {"peer_transfer": 32}),
            (HEAD + two(CLEAN, 9), ["69 must peer-transfer length=33 limit=32"], {"peer_transfer": 32}),
            (HEAD + two(CLEAN, 9, make.length_item(33)), ["38 must peer-transfer announced=33 limit=32"],
             {"peer_transfer": 32}),
            (HEAD + two(CLEAN, 9), ["38 must peer-transfer length=9 limit=0"], {"peer_transfer": 0}),
        ],
        [
            (HEAD + sent(CLEAN), {"peer_transfer": 33}),
            (HEAD + two(CLEAN, 9), {"peer_transfer": 33}),
            (HEAD + two(CLEAN, 9, make.length_item(33)), {"peer_transfer": 33}),
            HEAD + two(CLEAN, 9, make.length_item(33)),
        ],
    ),
    "ack-length": (
        [(HEAD + make.xfer_ack(START, 0, 20) + make.xfer_ack(END, 0, 19), ["56 should ack-length length=19 before=20"])],
        [
            HEAD + make.xfer_ack(START, 0, 20) + make.xfer_ack(END, 0, 20),
            HEAD + make.xfer_ack(BOTH, 0, 20) + make.xfer_ack(BOTH, 1, 19),
            HEAD + make.xfer_ack(BOTH, 0, 20) + make.xfer_ack(BOTH, 1, 5) + make.xfer_ack(BOTH, 0, 19),
        ],
    ),
    "keepalive": (
        [
            (CONTACT + make.sess_init(keepalive=0) + KEEPALIVE, ["38 should keepalive"]),
            (CONTACT + make.sess_init(keepalive=0) + KEEPALIVE + KEEPALIVE, ["38 should keepalive"]),
        ],
        [CONTACT + make.sess_init(keepalive=30) + KEEPALIVE, CONTACT + make.sess_init(keepalive=0)],
    ),
    "term-flags": (
        [
            (HEAD + make.sess_term(0x02, 0), ["38 must term-flags flags=02"]),
            (CONTACT + make.sess_term(0x02, 0), ["6 must term-flags flags=02"]),
        ],
        [HEAD + make.sess_term(0x00, 0), HEAD + make.sess_term(0x01, 0), HEAD + make.sess_term(0xFF, 0)],
    ),
    "node-name": (
        [
            *[(CONTACT + make.sess_init(node=node), [f"6 should node-name length={len(node)}"]) for node in [
                b"dtn:none", b"DTN:NONE", b"dtn://n/a", b"dtn:///a", b"dtn://n/a~", b"dtn://n//", b"ipn:1.1", b"ipn:0.1.10",
                b"ipn:0.0.01", b"a:", b"Z+-.9:!~", b"a:dtn://n/", b"ipn2:1.0",
            ]],
            *[(CONTACT + make.sess_init(node=node), [f"6 must node-name length={len(node)}"]) for node in [
                b"dtn://n/~", b"DTN:///~a", b"dtn://n/~/~",
            ]],
        ],
        [
            CONTACT + make.sess_init(node=node)
            for node in [b"", b"dtn://n/", b"dtn://~n/", b"ipn:1.0", b"ipn:1.2.0", b"ipn:1.00", b"ipn:!.1", b"IPN:!"]
        ],
    ),
    "keepalive-interval": (
        [
            (CONTACT + make.sess_init(keepalive=it), [f"6 should keepalive-interval interval={it}"])
            for it in [1, 29, 601, 65535]
        ],
        [CONTACT + make.sess_init(keepalive=it) for it in [0, 30, 600]],
    ),
    "item-type": (
        [
            *[(CONTACT + make.sess_init(make.item(0, it, b"")), [f"6 should item-type item=0 type={it:04x}"]) for it in
              [0x0000, 0x0001, 0x0002, 0x7FFF]],
            *[(HEAD + sent(CLEAN, 0, make.item(0, it, b"")), [f"38 should item-type item=0 type={it:04x}"]) for it in
              [0x0000, 0x0002, 0x7FFF]],
            (CONTACT + make.sess_init(make.item(0, PRIVATE, b""), make.item(0, 9, b""), make.item(0, 0, b"")),
             ["6 should item-type item=1 type=0009"]),
            (HEAD + two(CLEAN, 9, make.length_item(33), make.item(0, 0x0100, b"")),
             ["38 should item-type item=1 type=0100"]),
        ],
        [
            CONTACT + make.sess_init(make.item(0, PRIVATE, b""), make.item(0, LAST_TYPE, b"")),
            HEAD + two(CLEAN, 9, make.length_item(33), make.item(0, PRIVATE, b"")),
        ],
    ),
    "transfer-id-order": (
        [
            (HEAD + of_ids(1), ["38 should transfer-id-order id=1"]),
            (HEAD + of_ids(LAST), [f"38 should transfer-id-order id={LAST}"]),
            (HEAD + of_ids(0, 2), ["93 should transfer-id-order id=2"]),
            # Once a recording, also after IDs that count up again
            (HEAD + of_ids(7, 6, 8, 9), ["38 should transfer-id-order id=7"]),
            (HEAD + of_ids(LAST, 0), [f"38 should transfer-id-order id={LAST}"]),
            # Not where an ID comes twice, but after it
            (HEAD + of_ids(0, 0, 2), ["93 must transfer-id id=0", "148 should transfer-id-order id=2"]),
            # The first run is forgotten
            (HEAD + of_ids(0, *range(2, 130, 2), 0), ["93 should transfer-id-order id=2"]),
            # A START before the SESS_INIT is no case, and counts for the next
            (CONTACT + sent(CLEAN, 3) + INIT + sent(CLEAN, 5),
             ["6 must order fault=segment-before-session-initiation", "93 should transfer-id-order id=5"]),
            # After the greatest ID, none is the next one
            (CONTACT + sent(CLEAN, LAST) + INIT + sent(CLEAN, 0),
             ["6 must order fault=segment-before-session-initiation", "93 should transfer-id-order id=0"]),
        ],
        [HEAD + of_ids(0), HEAD + of_ids(*range(70))],
    ),
    "answer-order": (
        [
            (HEAD + make.xfer_ack(END, 5, 1), ["38 should answer-order id=5 fault=not-the-last"]),
            (HEAD + ACK_0 + make.xfer_ack(0, 1, 9), ["56 should answer-order id=1 fault=not-the-last"]),
            (HEAD + ACK_0 + make.xfer_refuse(0, 1) + make.xfer_ack(0, 2, 9),
             ["66 should answer-order id=2 fault=not-the-last"]),
            (HEAD + ACK_0 + make.xfer_ack(START, 0, 9), ["56 should answer-order id=0 fault=start-repeats"]),
            (HEAD + ACK_0 + make.xfer_ack(END, 0, 9) + make.xfer_ack(BOTH, 0, 9),
             ["74 should answer-order id=0 fault=start-repeats"]),
            (HEAD + ACK_0 + make.xfer_ack(END, 0, 9) + make.xfer_ack(END, 0, 9),
             ["74 should answer-order id=0 fault=after-end"]),
            (HEAD + ACK_0 + make.xfer_refuse(0, 0) + make.xfer_ack(0, 0, 9),
             ["66 should answer-order id=0 fault=after-refusal"]),
            (HEAD + make.xfer_refuse(0, 3) + make.xfer_ack(0, 3, 9),
             ["48 should answer-order id=3 fault=after-refusal"]),
            (HEAD + make.xfer_ack(BOTH, 0, 9) + make.xfer_refuse(0, 0),
             ["56 should answer-order id=0 fault=refused-after-end"]),
            # The end goes before the refusal
            (HEAD + make.xfer_ack(BOTH, 0, 9) + make.xfer_refuse(4, 0) + make.xfer_ack(0, 0, 9),
             ["66 should answer-order id=0 fault=after-end"]),
        ],
        [
            HEAD + ACK_0 + make.xfer_ack(0, 0, 9) + make.xfer_ack(END, 0, 10) + make.xfer_ack(BOTH, 1, 5),
            HEAD + make.xfer_ack(BOTH, 0, 9) + make.xfer_refuse(4, 0) + make.xfer_refuse(0, 1),
            # An XFER_ACK with START, and then another, of a transfer that was refused
            HEAD + make.xfer_refuse(0, 3) + make.xfer_ack(START, 3, 9) + make.xfer_ack(0, 3, 9),
            HEAD + make.xfer_refuse(0, 3) + make.xfer_ack(START, 3, 9) + make.xfer_ack(START, 4, 9) + make.xfer_ack(0, 3, 9),
            HEAD + ACK_0 + make.xfer_refuse(0, 0) + make.xfer_refuse(0, 0),
        ],
    ),
    "after-reject": (
        [
            (HEAD + UNKNOWN + KEEPALIVE, ["41 should after-reject type=04"]),
            (HEAD + UNKNOWN + KEEPALIVE + KEEPALIVE + UNKNOWN, ["41 should after-reject type=04"]),
            (HEAD + UNKNOWN + UNKNOWN, ["41 should after-reject type=06"]),
            (HEAD + UNKNOWN + make.sess_term(0, 0), ["41 must after-reject type=05"]),
            (HEAD + UNKNOWN + sent(CLEAN) + KEEPALIVE, ["41 must after-reject type=01"]),
            (CONTACT + UNKNOWN + INIT, ["9 must after-reject type=07"]),
            (HEAD + UNKNOWN + KEEPALIVE + sent(CLEAN) + make.sess_term(0, 0),
             ["41 should after-reject type=04", "42 must after-reject type=01"]),
            (HEAD + make.xfer_segment(START, 0, b"") + UNKNOWN + make.xfer_segment(END, 0, CLEAN) + make.sess_term(0, 0),
             ["63 should after-reject type=01", "114 must after-reject type=05"]),
            (HEAD + UNKNOWN + make.xfer_refuse(0, 1) + make.xfer_ack(BOTH, 2, 9), ["41 should after-reject type=03"]),
        ],
        [
            HEAD + UNKNOWN,
            HEAD + make.msg_reject(2, 7) + KEEPALIVE,
            HEAD + make.msg_reject(3, 7) + sent(CLEAN) + make.sess_term(0, 0),
            HEAD + make.msg_reject(0xF0, 1) + KEEPALIVE,
        ],
    ),
    "term-order": (
        [
            (HEAD + make.sess_term(0, 0) + make.sess_term(0, 0), ["41 should term-order type=05"]),
            (HEAD + make.sess_term(0, 0) + make.sess_term(1, 0) + make.sess_term(1, 0),
             ["41 should term-order type=05", "44 should term-order type=05"]),
            (CONTACT + make.sess_term(0, 0) + INIT, ["9 should term-order type=07"]),
            (CONTACT + make.sess_term(0, 0) + INIT + make.sess_term(0, 0),
             ["9 should term-order type=07", "41 should term-order type=05"]),
        ],
        [HEAD + make.sess_term(0, 0), CONTACT + make.sess_term(0, 2), HEAD + make.sess_term(1, 0) + make.xfer_ack(BOTH, 0, 9)],
    ),
    "reject-known": (
        [
            *[(HEAD + make.msg_reject(1, it), [f"38 should reject-known reason=01 header={it:02x}"]) for it in (1, 7)],
            *[(HEAD + make.msg_reject(it, 0), [f"38 should reject-known reason={it:02x} header=00"]) for it in (2, 3)],
        ],
        [
            *[HEAD + make.msg_reject(1, it) for it in (0, 8, 255)],
            # The receiver may know types that are private, or were assigned later
            *[HEAD + make.msg_reject(reason, it) for reason in (2, 3) for it in (1, 7, 8, 0xEF, 0xF0, 255)],
            HEAD + make.msg_reject(0xF0, 0),
        ],
    ),
    "reason": (
        [
            *[(HEAD + make.msg_reject(it, 7), [f"38 should reason type=06 reason={it:02x}"]) for it in (0, 4, 0xEF)],
            *[(HEAD + make.xfer_refuse(it, 0), [f"38 should reason type=03 reason={it:02x}"]) for it in (7, 0xEF)],
            *[(HEAD + make.sess_term(0, it), [f"38 should reason type=05 reason={it:02x}"]) for it in (6, 0xEF)],
        ],
        [
            *[HEAD + make.msg_reject(it, 7) for it in (2, 3, 0xF0, 0xFF)],
            *[HEAD + make.xfer_refuse(it, 0) for it in (0, 6, 0xF0, 0xFF)],
            *[HEAD + make.sess_term(0, it) for it in (0, 5, 0xF0, 0xFF)],
            HEAD + make.sess_term(1, 6),
        ],
    ),
}

# The same for each rule of transfers. A line is here without its offset, which is 38, and with a
# `:` for the words ` transfer=0`.
TRANSFERS = {
    "unfinished": (
        [
            (make.xfer_segment(START, 0, b""), "should unfinished: length=0"),
            (make.xfer_segment(START, 0, b"ab"), "should unfinished: length=2"),
            (make.xfer_segment(START, 0, CLEAN) + make.sess_term(0, 0), "should unfinished: length=33"),
        ],
        [sent(CLEAN)],
    ),
    "length-item": (
        [
            (two(CLEAN, 9, make.length_item(33), make.length_item(33)), "must length-item:"),
            (two(CLEAN, 9, make.item(0, 1, bytes(7))), "must length-item:"),
            (two(CLEAN, 9, make.item(0, 1, b"")), "must length-item:"),
        ],
        [two(CLEAN, 9, make.length_item(33)), two(CLEAN, 9, make.length_item(33), make.item(0, PRIVATE, b""))],
    ),
    "length-differs": (
        [(two(CLEAN, 9, make.length_item(34)), "must length-differs: announced=34 length=33")],
        [two(CLEAN, 9, make.length_item(33)), two(CLEAN, 9)],
    ),
    "length-of-one-segment": (
        [(sent(CLEAN, 0, make.length_item(33)), "should length-of-one-segment:")],
        [two(CLEAN, 9, make.length_item(33)), sent(CLEAN, 0, make.item(0, PRIVATE, bytes(8)))],
    ),
    "bundle": (
        [
            (sent(b""), "must bundle: code=B1 byte=0"),
            (sent(b"\xbf"), "must bundle: code=B3 byte=0"),
            (sent(CLEAN + b"\x00"), "must bundle: code=B2 byte=33"),
            (sent(CLEAN[:-3] + b"\x00" + CLEAN[-2:]), "must bundle: code=B5 byte=30"),
            (sent(CLEAN[:32] + b"\x9f"), "must bundle: code=B17 byte=32"),
            (sent(b"\x9f\xff"), "must bundle: code=B5 byte=1"),
            (sent(b"\x9f\x88\x3f"), "must bundle: code=B4 byte=2"),
            (sent(b"\x9f\x88\x07\x00\x00\x82\x01\x80"), "must bundle: code=B10 byte=7"),
            # Byte strings of indefinite length: the payload, the data of a block, and check values
            (sent(CLEAN[:30] + b"\x5f\x41x\xff\xff"), "must bundle: code=B5 byte=30"),
            (sent(bundle(AGE)[:30] + b"\x5f"), "must bundle: code=B5 byte=30"),
            (sent(CLEAN[:22] + b"\x5f"), "must bundle: code=B5 byte=22"),
            (sent(bundle(CHECKED_AGE)[:32] + b"\x5f"), "must bundle: code=B5 byte=32"),
            # The tag of CBOR itself before less than a bundle, and another
            (sent(b"\xd9\xd9\xf7"), "must bundle: code=B3 byte=0"),
            (sent(b"\xd9\xd9\xf7\x98"), "must bundle: code=B3 byte=0"),
            (sent(b"\xd9\xd9\xf8" + CLEAN), "must bundle: code=B3 byte=0"),
            (sent(b"\xd9\xd9\xf7\xd9\xd9\xf7" + CLEAN), "must bundle: code=B3 byte=0"),
            (sent(b"\x5f" + CLEAN), "must bundle: code=B3 byte=0"),
            # The tag of embedded CBOR where something else than data is due, and in a longer form
            (sent(CLEAN[:22] + b"\xd8\x18\x42"), "must bundle: code=B5 byte=22"),
            (sent(CLEAN[:21] + b"\xd8\x18\x00"), "must bundle: code=B5 byte=21"),
            (sent(CLEAN[:25] + b"\xd8\x18\x85"), "must bundle: code=B5 byte=25"),
            (sent(CLEAN[:30] + b"\xd9\x00\x18\x41x\xff"), "must bundle: code=B5 byte=30"),
            (sent(CLEAN[:30] + b"\xd8\x19\x41x\xff"), "must bundle: code=B5 byte=30"),
            (sent(CLEAN[:30] + b"\xd8"), "must bundle: code=B1 byte=31"),
        ],
        [sent(CLEAN)],
    ),
    "not-read": (
        [
            # An unknown scheme, and a name of 1,025 bytes
            (sent(b"\x9f\x88\x07\x00\x00\x82\x03"), "should not-read: code=B9 byte=6"),
            (sent(b"\x9f\x88\x07\x00\x00\x82\x01\x79\x04\x01"), "should not-read: code=B11 byte=7"),
            # The 65th block. The primary block has 24 bytes, 22 blocks have 6, and 42 have 7.
            (sent(bundle(*[block(0, number, b"") for number in range(2, 67)])), "should not-read: code=B16 byte=451"),
            # Of indefinite length: an array, a map, a name, an ipn part, and a byte string for each
            (sent(b"\x9f\x9f"), "should not-read: code=B5 byte=1"),
            (sent(b"\x9f\x88\xbf"), "should not-read: code=B5 byte=2"),
            (sent(b"\x9f\x88\x07\x00\x00\x82\x01\x7f"), "should not-read: code=B10 byte=7"),
            (sent(b"\x9f\x88\x07\x00\x00\x82\x02\x9f"), "should not-read: code=B10 byte=7"),
            (sent(b"\x9f\x5f"), "should not-read: code=B5 byte=1"),
            (sent(b"\x9f\x88\x5f"), "should not-read: code=B5 byte=2"),
            (sent(b"\x9f\x88\x07\x00\x00\x82\x01\x5f"), "should not-read: code=B10 byte=7"),
            (sent(b"\x9f\x88\x07\x00\x00\x82\x02\x5f"), "should not-read: code=B10 byte=7"),
            (sent(CLEAN[:25] + b"\x5f"), "should not-read: code=B5 byte=25"),
            # Of indefinite length, but no byte string: a payload and a check value
            (sent(CLEAN[:30] + b"\x9f"), "should not-read: code=B5 byte=30"),
            (sent(CLEAN[:30] + b"\x7f"), "should not-read: code=B5 byte=30"),
            (sent(CLEAN[:22] + b"\x9f"), "should not-read: code=B5 byte=22"),
            # The tag of CBOR itself before a bundle, and that of embedded CBOR before data
            (sent(b"\xd9\xd9\xf7" + CLEAN), "should not-read: code=B3 byte=0"),
            (sent(b"\xd9\xd9\xf7\x9f"), "should not-read: code=B3 byte=0"),
            (two(b"\xd9\xd9\xf7" + CLEAN, 2), "should not-read: code=B3 byte=0"),
            (sent(CLEAN[:30] + b"\xd8\x18\x41x\xff"), "should not-read: code=B5 byte=30"),
            (sent(CLEAN[:30] + b"\xd8\x18"), "should not-read: code=B5 byte=30"),
            (two(bundle(AGE)[:30] + b"\xd8\x18\x41\x05", 31), "should not-read: code=B5 byte=30"),
        ],
        [sent(bundle(*[block(192, number, b"") for number in range(2, 65)]))],
    ),
}


def rows():
    """The rows of this file."""
    yield from (row(*it) for it in named(MESSAGES))
    for name, content, lines in named(TRANSFERS):
        yield row(name, HEAD + content, of(lines, 38, "transfer=0"))
