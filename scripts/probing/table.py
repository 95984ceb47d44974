"""The cases of the probe: what each does, and which answers pass.

A row names a sentence of RFC 9174 by its line (sentences.py). `role` says which nodes it is for: those
that accept the probe's connection, those that connect to it, or both. `passes` has the answers that keep
the sentence. If none of them came, the line of the case is at most of level `level`. A case of level
LIVES only looks whether the node serves afterwards.

An answer is a word, or several with `+` between them:

  served     a good transfer of the probe, later in the session, is answered as in `good`
  acks       every segment of the case has an XFER_ACK
  sent       the node sent a transfer, and all of it came
  stops      the node sends no further segment of the transfer
  refuse-NN  an XFER_REFUSE with this reason; without a number, with any
  reject-NN  a MSG_REJECT with this reason; without a number, with any
  term-NN    a SESS_TERM without REPLY, with this reason; without a number, with any
  reply      a SESS_TERM after the probe's own
  contact    the node's contact header
  silence    nothing comes
  keepalive  a KEEPALIVE in time
  close      the node ends the connection
  lives      whatever the node does, it serves afterwards
"""

from typing import NamedTuple

MUST, SHOULD, LIVES = "must", "should", "lives"

# The roles of a node: it accepts a connection, or it connects
ANY, ACCEPTS, CONNECTS = "any", "accepts", "connects"

# What a case needs of the node: a bundle may be sent to it; it sends bundles; its contact header lacks
# CAN_TLS; it has a segment MRU, or a transfer MRU, that the probe can exceed
TAKES, SENDS, NO_TLS, SEGMENT_MRU, TRANSFER_MRU = "takes", "sends", "no-tls", "segment-mru", "transfer-mru"


class Case(NamedTuple):
    """A row of the table."""

    name: str
    group: str
    line: int
    role: str
    does: str
    passes: str
    level: str
    needs: tuple = ()


def rows(group, *cases):
    """Returns the rows of a group, from the words of each and what it needs."""
    return [Case(name, group, *words, tuple(needs)) for name, *words, needs in map(split, cases)]


def split(words):
    """Returns the words of a row, with what it needs as the last one."""
    return (*words[:6], words[6:])


GOOD = rows(
    "good",
    ("good", 1053, ANY, "one session with a bundle of one segment, and a clean end", "acks+reply refuse+reply term", MUST),
)

CONTACT = rows(
    "contact",
    ("contact-wait", 1088, ACCEPTS, "connects, and sends nothing at first", "silence", MUST),
    ("contact-bytes", 1089, ANY, "its contact header comes byte by byte", "served", MUST),
    ("contact-flags", 1159, ANY, "sets all reserved flags of its contact header", "served", MUST),
    ("can-tls", 1221, ANY, "sets CAN_TLS", "served term", SHOULD, NO_TLS),
    ("one-write", 2131, ANY, "sends its contact header, SESS_INIT and a transfer in one write", "acks refuse term", MUST, TAKES),
    ("magic", 1179, ANY, "sends `dtn?` in place of `dtn!`", "close", MUST),
    ("magic-text", 1179, ANY, "sends a request of HTTP in place of a contact header", "close", MUST),
    ("version-0", 1201, ACCEPTS, "sends version 0", "lives", LIVES),
    ("version-3", 1201, ACCEPTS, "sends version 3", "lives", LIVES),
    ("version-5", 1201, ACCEPTS, "sends version 5", "contact+term-02", MUST),
    ("version-255", 1201, ACCEPTS, "sends version 255", "contact+term-02", MUST),
    ("reply-version-0", 1193, CONNECTS, "answers with version 0", "close", MUST),
    ("reply-version-3", 1193, CONNECTS, "answers with version 3", "close", MUST),
    ("reply-version-5", 1215, CONNECTS, "answers with version 5", "lives", LIVES),
    ("contact-cut", 2475, ANY, "closes the connection inside its contact header", "close", MUST),
    ("contact-reset", 1110, ANY, "resets the connection inside its contact header", "lives", LIVES),
    ("connect-close", 1110, ANY, "closes the connection before it sends anything", "lives", LIVES),
)

SESSION = rows(
    "session",
    ("keepalive-0", 1777, ANY, "asks for no KEEPALIVE", "served term-04", MUST),
    ("keepalive-1", 1777, ANY, "asks for an interval of 1 s", "served term-04", MUST),
    ("keepalive-65535", 1777, ANY, "asks for an interval of 65,535 s", "served term-04", MUST),
    ("segment-mru-0", 1768, ANY, "has a segment MRU of 0", "served term-04", MUST),
    ("segment-mru-1", 1768, ANY, "has a segment MRU of 1", "served term-04", MUST),
    ("segment-mru-max", 1768, ANY, "has a segment MRU of 2^64-1", "served term-04", MUST),
    ("transfer-mru-0", 1768, ANY, "has a transfer MRU of 0", "served term-04", MUST),
    ("transfer-mru-1", 1768, ANY, "has a transfer MRU of 1", "served term-04", MUST),
    ("transfer-mru-max", 1768, ANY, "has a transfer MRU of 2^64-1", "served term-04", MUST),
    ("node-empty", 1713, ANY, "has an empty node ID", "served term", SHOULD),
    ("node-long", 1716, ANY, "has a node ID of 65,535 bytes", "lives", LIVES),
    ("node-no-uri", 1718, ANY, "has a node ID that is no URI", "lives", LIVES),
    ("node-not-utf8", 1716, ANY, "has a node ID that is not UTF-8", "lives", LIVES),
    ("item-unknown", 1802, ANY, "has a session item of an unknown type, without CRITICAL", "served", MUST),
    ("item-flags", 1798, ANY, "the same, and sets all reserved flags of the item", "served", MUST),
    ("item-critical", 1799, ANY, "has a session item of an unknown type, with CRITICAL", "term-04", MUST),
    ("item-overrun", 1732, ANY, "has a session item that runs past the list", "term close", SHOULD),
    ("item-underrun", 1732, ANY, "has a session item that ends two bytes before the list", "term close", SHOULD),
    ("item-list-huge", 1732, ANY, "announces a list of session items of 2^32-1 bytes, sends none of it, and closes", "lives", LIVES),
    ("init-bytes", 1768, ANY, "its SESS_INIT comes byte by byte", "served term-04", MUST),
    ("second-init", 1906, ANY, "sends its SESS_INIT again", "reject-03", MUST),
    ("early-segment", 1053, ANY, "sends a transfer before its SESS_INIT", "reject term close", SHOULD, TAKES),
    ("early-ack", 1906, ANY, "sends an XFER_ACK before its SESS_INIT", "reject term close", SHOULD),
    ("early-refuse", 1906, ANY, "sends an XFER_REFUSE before its SESS_INIT", "reject term close", SHOULD),
    ("early-keepalive", 1906, ANY, "sends a KEEPALIVE before its SESS_INIT", "lives", LIVES),
    ("early-reject", 1906, ANY, "sends a MSG_REJECT before its SESS_INIT", "lives", LIVES),
    ("early-term", 2362, ANY, "sends a SESS_TERM in place of its SESS_INIT", "reply", SHOULD),
)

TO_NODE = rows(
    "to",
    ("segments", 2131, ANY, "a transfer of two segments, without its length", "acks refuse term", MUST, TAKES),
    ("segments-of-1", 2131, ANY, "a transfer in segments of 1 byte", "acks refuse term", MUST, TAKES),
    ("segment-bytes", 2131, ANY, "a transfer of two segments, byte by byte", "acks refuse term", MUST, TAKES),
    ("segment-flags", 2034, ANY, "sets all reserved flags of both segments", "acks refuse term", MUST, TAKES),
    ("pipelined", 2131, ANY, "sends four transfers of two segments in one write", "acks refuse term", MUST, TAKES),
    ("empty-first", 2131, ANY, "the first segment of a transfer is empty", "acks refuse term", MUST, TAKES),
    ("empty-middle", 2131, ANY, "a segment between others is empty", "acks refuse term", MUST, TAKES),
    ("empty-last", 2131, ANY, "the last segment is empty", "acks refuse term", MUST, TAKES),
    ("empty-transfer", 2131, ANY, "a transfer without data", "lives", LIVES, TAKES),
    ("id-max", 2131, ANY, "a transfer with the ID 2^64-1", "acks refuse term", MUST, TAKES),
    ("id-again", 1989, ANY, "two transfers with one ID", "lives", LIVES, TAKES),
    ("segment-above-mru", 1697, ANY, "a segment above the node's segment MRU", "lives", LIVES, TAKES, SEGMENT_MRU),
    ("transfer-above-mru", 2160, ANY, "a transfer above the node's transfer MRU", "lives", LIVES, TAKES, TRANSFER_MRU),
    ("transfer-above-mru-announced", 2160, ANY, "the same, with its length announced", "lives", LIVES, TAKES, TRANSFER_MRU),
    ("length-right", 2131, ANY, "a transfer of two segments with its length announced", "acks refuse term", MUST, TAKES),
    ("length-small", 2339, ANY, "announces a length that is too small", "refuse-04", MUST, TAKES),
    ("length-large", 2339, ANY, "announces a length that is too large by one", "refuse-04", MUST, TAKES),
    ("length-max", 2339, ANY, "announces a length of 2^64-1", "refuse reject", MUST, TAKES),
    ("length-twice", 2315, ANY, "announces its right length twice", "lives", LIVES, TAKES),
    ("length-of-one", 2131, ANY, "announces the right length of a transfer of one segment", "acks refuse term", MUST, TAKES),
    ("length-of-one-wrong", 2339, ANY, "announces a wrong length of a transfer of one segment", "refuse-04", MUST, TAKES),
    ("xfer-item-unknown", 2269, ANY, "a transfer with an item of an unknown type, without CRITICAL", "served", MUST, TAKES),
    ("xfer-item-flags", 2265, ANY, "the same, and sets all reserved flags of the item", "served", MUST, TAKES),
    ("xfer-item-critical", 2266, ANY, "a transfer with an item of an unknown type, with CRITICAL", "refuse-05", MUST, TAKES),
    ("xfer-item-overrun", 2051, ANY, "a transfer with an item that runs past its list", "refuse reject term close", SHOULD, TAKES),
    ("xfer-list-huge", 2051, ANY, "announces a list of transfer items of 2^32-1 bytes, sends none of it, and closes", "lives", LIVES, TAKES),
    ("segment-huge", 2131, ANY, "announces a segment of 2^63 bytes, sends some of it, and closes", "lives", LIVES, TAKES),
    ("refused-goes-on", 2244, ANY, "continues a transfer that the node has refused", "refuse+refuse", MUST, TAKES),
    ("refuse-order", 2234, ANY, "a good transfer, and one with a critical item of an unknown type, in one write", "acks+refuse-05 refuse+refuse-05", MUST, TAKES),
    ("stray-segment", 1906, ANY, "a segment without START, of no open transfer", "reject refuse term close", SHOULD, TAKES),
    ("start-twice", 1906, ANY, "the START of an open transfer comes again", "reject refuse term close", SHOULD, TAKES),
    ("start-open", 1971, ANY, "the START of another transfer comes while one is open", "lives", LIVES, TAKES),
    ("interleaved", 1971, ANY, "two transfers are interleaved", "lives", LIVES, TAKES),
    ("cut-fin", 1110, ANY, "the END of a transfer never comes: FIN", "lives", LIVES, TAKES),
    ("cut-reset", 1110, ANY, "the END of a transfer never comes: RST", "lives", LIVES, TAKES),
    ("cut-term", 2362, ANY, "the END of a transfer never comes: SESS_TERM, then FIN", "lives", LIVES, TAKES),
    ("no-bundle", 1966, ANY, "a transfer whose bytes are no bundle", "lives", LIVES, TAKES),
    ("two-bundles", 1966, ANY, "a transfer of two bundles", "lives", LIVES, TAKES),
    ("wrong-check", 1966, ANY, "a bundle whose check value is wrong", "lives", LIVES, TAKES),
)

FROM_NODE = rows(
    "from",
    ("sent-good", 2138, ANY, "takes a transfer of the node", "sent", SHOULD, SENDS),
    ("sent-segment-1", 1697, ANY, "has a segment MRU of 1", "lives", LIVES, SENDS),
    ("sent-segment-100", 1697, ANY, "has a segment MRU of 100", "lives", LIVES, SENDS),
    ("sent-transfer-1", 1704, ANY, "has a transfer MRU of 1", "lives", LIVES, SENDS),
    ("sent-transfer-100", 1704, ANY, "has a transfer MRU of 100", "lives", LIVES, SENDS),
    *((f"refuse-first-{reason:02x}", line, ANY, f"refuses the first segment, with reason {reason:02x}", "stops", MUST, SENDS)
      for reason, line in [*((it, 2242) for it in range(7)), (0x07, 2176), (0xFF, 2176)]),
    ("refuse-middle", 2242, ANY, "refuses a transfer after it acknowledged two segments", "stops", MUST, SENDS),
    ("refuse-last", 2169, ANY, "refuses a transfer once its END has come", "lives", LIVES, SENDS),
    ("no-ack", 2131, ANY, "acknowledges nothing", "lives", LIVES, SENDS),
    ("ack-short", 1906, ANY, "acknowledges a byte less than it got", "lives", LIVES, SENDS),
    ("ack-long", 1906, ANY, "acknowledges a byte more than it got", "lives", LIVES, SENDS),
    ("ack-flags", 1906, ANY, "acknowledges with other flags than the segment has", "lives", LIVES, SENDS),
    ("ack-reserved-flags", 2122, ANY, "acknowledges with all reserved flags", "served", MUST, SENDS),
    ("ack-other-id", 1906, ANY, "acknowledges a transfer with an ID that the node has not used", "reject-03", MUST, SENDS),
    ("ack-before", 1906, ANY, "acknowledges the first byte of a segment that has not come", "lives", LIVES, SENDS),
    ("reject-segment", 1906, ANY, "sends a MSG_REJECT of a segment", "lives", LIVES, SENDS),
    ("sent-term", 2362, ANY, "sends a SESS_TERM in the middle of a transfer of the node", "reply", MUST, SENDS),
    ("sent-fin", 1110, ANY, "closes the connection in the middle of a transfer of the node", "lives", LIVES, SENDS),
    ("sent-reset", 1110, ANY, "resets the connection in the middle of a transfer of the node", "lives", LIVES, SENDS),
)

ANSWERS = rows(
    "answers",
    ("ack-nothing", 1906, ANY, "sends an XFER_ACK with an ID that the node has not used", "reject-03", MUST),
    ("refuse-nothing", 1906, ANY, "sends an XFER_REFUSE with an ID that the node has not used", "reject-03", MUST),
    ("reject-nothing", 1906, ANY, "sends a MSG_REJECT of a type that the node has not sent", "lives", LIVES),
    *((f"type-{kind:02x}", 1898, ANY, f"sends a message of type {kind:02x}", "reject-01+close", MUST) for kind in range(0x08, 0x10)),
    *((f"type-{kind:02x}", 1898, ANY, f"sends a message of type {kind:02x}", "lives", LIVES) for kind in (0x00, 0xF0, 0xFF)),
)

END = rows(
    "end",
    *((f"term-{reason:02x}", line, ANY, f"ends the session with reason {reason:02x}", "reply", MUST)
      for reason, line in [*((it, 2362) for it in range(6)), (0x06, 2406), (0xFF, 2406)]),
    ("term-flags", 2426, ANY, "sets all reserved flags of its SESS_TERM", "reply", MUST),
    ("term-bytes", 2362, ANY, "its SESS_TERM comes byte by byte", "reply", MUST),
    ("term-inside", 2362, ANY, "sends a SESS_TERM inside a transfer, and then the rest of the transfer", "reply", MUST, TAKES),
    ("term-reply", 2362, ANY, "sends a SESS_TERM with REPLY though the node sent none", "lives", LIVES),
    ("term-twice", 2362, ANY, "sends its SESS_TERM twice", "reply", MUST),
    ("term-both", 2362, ANY, "answers the node's SESS_TERM by one without REPLY, as if both came at once", "lives", LIVES),
    ("transfer-after-term", 2381, ANY, "begins a transfer after both have sent a SESS_TERM", "refuse-06 close", MUST, TAKES),
    ("sends-after-term", 2375, ANY, "leaves a transfer open, ends the session, and waits for a transfer of the node", "lives", LIVES, TAKES, SENDS),
    ("keepalive-after-term", 2359, ANY, "sends a KEEPALIVE after its SESS_TERM", "reply", MUST),
    ("init-after-term", 1906, ANY, "sends a SESS_INIT after its SESS_TERM", "reply reject close", MUST),
    ("close-without-term", 1110, ANY, "closes the connection without a SESS_TERM", "lives", LIVES),
    ("reset-without-term", 1110, ANY, "resets the connection without a SESS_TERM", "lives", LIVES),
)

SLOW = rows(
    "slow",
    ("keepalive-due", 1879, ANY, "asks for an interval of 1 s, and waits for two KEEPALIVE", "keepalive term-04", MUST),
    ("keepalive-none", 1858, ANY, "asks for no KEEPALIVE, and waits for longer than the node's own interval", "silence", SHOULD),
    ("silence-session", 1883, ANY, "asks for an interval of 1 s, and sends nothing more", "term-01 term-04", SHOULD),
    ("silence-connected", 1091, ANY, "sends no contact header", "close", MUST),
    ("silence-header", 1091, ANY, "sends three bytes of its contact header", "close", MUST),
)

CROWD = rows(
    "crowd",
    ("crowd", 1053, ACCEPTS, "holds eight sessions that are silent or half open, and one that is to be served", "served term", SHOULD),
)

# Cases of these groups run only if `--only` names them.
APART = ("slow", "crowd")

# What proves that a case breaks its sentence, whatever else the node does. `late` and `open`: the time
# of the sentence is over. `goes-on`: a segment of a transfer came after the node had read its refusal.
PROOFS = {
    "contact-wait": "contact", "magic": "term", "magic-text": "term", "contact-cut": "term",
    "version-5": "term-04 init", "version-255": "term-04 init", "item-critical": "served",
    "xfer-item-unknown": "refuse-05", "xfer-item-flags": "refuse-05", "transfer-after-term": "ack",
    "keepalive-due": "late", "silence-connected": "open term", "silence-header": "open term",
    **{case.name: "goes-on" for case in FROM_NODE if case.passes == "stops"},
}

# The name of a broken sentence, by its line. A rule of tcpclkit-check-session about the same sentence
# has the same name.
RULES = {
    1053: "session", 1088: "contact-order", 1089: "contact", 1091: "contact-timeout", 1159: "flags-not-ignored",
    1179: "not-closed", 1193: "not-closed", 1201: "version", 1221: "tls", 1713: "node-id", 1732: "list-taken",
    1768: "limits", 1777: "limits", 1798: "flags-not-ignored", 1799: "critical-ignored", 1802: "item-not-ignored",
    1858: "keepalive", 1879: "keepalive-late", 1883: "idle", 1898: "not-rejected", 1906: "not-rejected",
    2034: "flags-not-ignored", 2051: "list-taken", 2122: "flags-not-ignored", 2131: "ack-missing", 2138: "unsent",
    2176: "refused-continued", 2234: "refuse-order", 2242: "refused-continued", 2244: "not-refused-again",
    2265: "flags-not-ignored", 2266: "critical-ignored", 2269: "item-not-ignored", 2339: "length-not-refused",
    2359: "term-unanswered", 2362: "term-unanswered", 2381: "ending", 2406: "term-unanswered",
    2426: "flags-not-ignored", 2475: "not-closed",
}

CASES = (*GOOD, *CONTACT, *SESSION, *TO_NODE, *FROM_NODE, *ANSWERS, *END, *SLOW, *CROWD)
