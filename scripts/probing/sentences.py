"""The sentences of RFC 9174, sections 4 to 6, that the probe's cases rest on, and those without a case.

The key is the line at which the sentence begins in rfc9174.txt of the RFC editor. Section 4.4 is left
out, since the probe speaks no TLS. `why` says why no case provokes what the sentence asks for.
"""

from typing import NamedTuple


class Sentence(NamedTuple):
    """A sentence, its section, and why no case is about it, if none is."""

    section: str
    text: str
    why: str = ""


SENTENCES = {
    1053: Sentence(
        "4",
        "For bundle transmissions to occur using the TCPCL, a TCPCL session MUST first be "
        "established between communicating entities.",
    ),
    1064: Sentence(
        "4.1",
        "To establish a TCPCL session, an entity MUST first establish a TCP connection with the "
        "intended peer entity, typically by using the services provided by the operating system.",
        "a connection is there before any case begins",
    ),
    1078: Sentence(
        "4.1",
        "If it does so, it MUST NOT overwhelm its target with repeated connection attempts.",
        "of the node's own attempts, which no fault of the peer provokes",
    ),
    1079: Sentence(
        "4.1",
        "Therefore, the entity MUST NOT retry the connection setup earlier than some delay time "
        "from the last attempt, and it SHOULD use a (binary) exponential backoff mechanism to "
        "increase this delay in the case of repeated failures.",
        "of the node's own attempts; how long it waits is its own choice",
    ),
    1082: Sentence(
        "4.1",
        "The upper limit on a reattempt backoff is implementation defined but SHOULD be no longer"
        " than one minute (60 seconds) before signaling to the BPA that a connection cannot be "
        "made.",
        "of the node's own attempts; how long it waits is its own choice",
    ),
    1087: Sentence(
        "4.1",
        "Once a TCP connection is established, the active entity SHALL immediately transmit its "
        "Contact Header.",
        "without the contact header of an active node, there is no session at all",
    ),
    1088: Sentence(
        "4.1",
        "The passive entity SHALL wait for the active entity's Contact Header.",
    ),
    1089: Sentence(
        "4.1",
        "Upon reception of a Contact Header, the passive entity SHALL transmit its Contact "
        "Header.",
    ),
    1091: Sentence(
        "4.1",
        "If either entity does not receive a Contact Header after some implementation-defined "
        "time duration after the TCP connection is established, the waiting entity SHALL close "
        "the TCP connection.",
    ),
    1094: Sentence(
        "4.1",
        "Entities SHOULD choose a Contact Header reception timeout interval no longer than one "
        "minute (60 seconds).",
        "`silence-connected` waits for longer than this minute",
    ),
    1108: Sentence(
        "4.1",
        'Within this specification, when an entity is said to "close" a TCP connection the entity'
        " SHALL use the TCP FIN mechanism and not the RST mechanism.",
        "every session shows it: the rule `reset`",
    ),
    1110: Sentence(
        "4.1",
        "However, either mechanism, when received, will cause a TCP connection to become closed.",
    ),
    1118: Sentence(
        "4.2",
        "If the entity is configured to enable the exchange of messages according to TLS 1.3 "
        "[RFC8446] or any successors that are compatible with that TLS ClientHello, the CAN_TLS "
        "flag within its Contact Header SHALL be set to 1.",
        "about TLS, which the probe does not speak",
    ),
    1121: Sentence(
        "4.2",
        "The RECOMMENDED policy is to enable TLS for all sessions, even if security policy does "
        "not allow or require authentication.",
        "about TLS, which the probe does not speak",
    ),
    1158: Sentence(
        "4.2",
        "All reserved header flag bits SHALL be set to 0 by the sender.",
        "every session shows it: the rule `contact-flags`",
    ),
    1159: Sentence(
        "4.2",
        "All reserved header flag bits SHALL be ignored by the receiver.",
    ),
    1179: Sentence(
        "4.3",
        'If the "magic string" is not present or is not valid, the connection MUST be terminated.',
    ),
    1190: Sentence(
        "4.3",
        "During contact initiation, the active TCPCL entity SHALL send the highest TCPCL protocol"
        " version on a first session attempt for a TCPCL peer.",
        "whether a version is the node's highest, a peer cannot know",
    ),
    1193: Sentence(
        "4.3",
        "If the active entity receives a Contact Header with a lower protocol version than the "
        "one sent earlier on the TCP connection, the TCP connection SHALL be closed.",
    ),
    1201: Sentence(
        "4.3",
        "If the passive entity receives a Contact Header containing a version that is not a "
        "version of the TCPCL protocol that the entity implements, then the entity SHALL send its"
        ' Contact Header and immediately terminate the session with a reason code of "Version '
        'mismatch".',
    ),
    1215: Sentence(
        "4.3",
        "Both Contact Headers of a successful contact negotiation have identical TCPCL version "
        "numbers as described above.",
    ),
    1221: Sentence(
        "4.3",
        "Negotiation of the Enable TLS parameter is performed by taking the logical AND of the "
        "two Contact Headers' CAN_TLS flags.",
    ),
    1226: Sentence(
        "4.3",
        "The RECOMMENDED policy is to require TLS for all sessions, even if security policy does "
        "not allow or require authentication.",
        "about TLS, which the probe does not speak",
    ),
    1232: Sentence(
        "4.3",
        "If the Enable TLS state is unacceptable, the entity SHALL terminate the session with a "
        'reason code of "Contact Failure".',
        "about TLS, which the probe does not speak",
    ),
    1697: Sentence(
        "4.6",
        "Any XFER_SEGMENT sent to this peer SHALL have a data payload no longer than the peer's "
        "Segment MRU.",
    ),
    1704: Sentence(
        "4.6",
        "Any bundle transfer sent to this peer SHALL have a Total Bundle Length payload no longer"
        " than the peer's Transfer MRU.",
    ),
    1713: Sentence(
        "4.6",
        "A zero-length node ID SHALL be used to indicate the lack of a node ID rather than a "
        "truly empty node ID.",
    ),
    1716: Sentence(
        "4.6",
        "A non-zero-length Node ID Data SHALL contain the UTF-8 encoded node ID of the entity "
        "that sent the SESS_INIT message.",
    ),
    1718: Sentence(
        "4.6",
        "Every node ID SHALL be a URI consistent with the requirements in [RFC3986] and the URI "
        'schemes of the IANA "Bundle Protocol URI Scheme Types" registry [IANA-BUNDLE].',
    ),
    1732: Sentence(
        "4.6",
        "If the content of the Session Extension Items list disagrees with the Session Extension "
        "Items Length (e.g., the last item claims to use more or fewer octets than are indicated "
        "in the Session Extension Items Length), the reception of the SESS_INIT is considered to "
        "have failed.",
    ),
    1739: Sentence(
        "4.6",
        "If an entity receives a peer node ID that is not authenticated (by the procedure "
        "described in Section 4.4.4.3), that node ID SHOULD NOT be used by a BPA for any "
        "discovery or routing functions.",
        "what a node does with a node ID, a peer does not see",
    ),
    1749: Sentence(
        "4.6",
        "If allowed, such a session SHALL be associated with the node ID provided in the "
        "SESS_INIT message rather than any intended value.",
        "what a node does with a node ID, a peer does not see",
    ),
    1768: Sentence(
        "4.7",
        "If either the Transfer MRU or Segment MRU is unacceptable, the entity SHALL terminate "
        'the session with a reason code of "Contact Failure".',
    ),
    1777: Sentence(
        "4.7",
        "If the Session Keepalive Interval is unacceptable, the entity SHALL terminate the "
        'session with a reason code of "Contact Failure".',
    ),
    1784: Sentence(
        "4.7",
        "Once this process of parameter negotiation is completed, this protocol defines no "
        "additional mechanism to change the parameters of an established session; to effect such "
        "a change, the TCPCL session MUST be terminated and a new session established.",
        "asks for nothing that a peer could provoke",
    ),
    1791: Sentence(
        "4.8",
        "Each of the Session Extension Items SHALL be encoded in an identical Type-Length-Value "
        "(TLV) container form as indicated in Figure 20.",
        "every session shows it: the rules `item-flags` and `bundle`",
    ),
    1797: Sentence(
        "4.8",
        "All reserved header flag bits SHALL be set to 0 by the sender.",
        "every session shows it: the rule `item-flags`",
    ),
    1798: Sentence(
        "4.8",
        "All reserved header flag bits SHALL be ignored by the receiver.",
    ),
    1799: Sentence(
        "4.8",
        "If a TCPCL entity receives a Session Extension Item with an unknown Item Type and the "
        "CRITICAL flag set to 1, the entity SHALL terminate the TCPCL session with a SESS_TERM "
        'reason code of "Contact Failure".',
    ),
    1802: Sentence(
        "4.8",
        "If the CRITICAL flag is 0, an entity SHALL skip over and ignore any item with an unknown"
        " Item Type.",
    ),
    1817: Sentence(
        "4.8",
        "Extension specifications SHOULD avoid the use of large data lengths, as no bundle "
        "transfers can begin until the full extension data is sent.",
        "binds who defines an extension",
    ),
    1858: Sentence(
        "5.1.1",
        "If the negotiated Session Keepalive is zero (i.e., one or both SESS_INIT messages "
        "contain a zero Keepalive Interval), then the keepalive feature is disabled.",
    ),
    1864: Sentence(
        "5.1.1",
        "For shared network use, entities SHOULD choose a Keepalive Interval no shorter than 30 "
        "seconds.",
        "every session shows it: keepalive-interval",
    ),
    1869: Sentence(
        "5.1.1",
        "Entities SHOULD choose a Keepalive Interval no longer than 10 minutes (600 seconds).",
        "every session shows it: keepalive-interval",
    ),
    1872: Sentence(
        "5.1.1",
        "The chosen Keepalive Interval SHOULD NOT be too short, as TCP retransmissions may occur "
        "in the case of packet loss.",
        "how short is too short, nobody says",
    ),
    1879: Sentence(
        "5.1.1",
        "Both sides SHALL send a KEEPALIVE message whenever the negotiated interval has elapsed "
        "with no transmission of any message (KEEPALIVE or other).",
    ),
    1883: Sentence(
        "5.1.1",
        "If no message (KEEPALIVE or other) has been received in a session after some "
        "implementation-defined time duration, then the entity SHALL terminate the session by "
        "transmitting a SESS_TERM message (as described in Section 6.1) with a reason code of "
        '"Idle timeout".',
    ),
    1886: Sentence(
        "5.1.1",
        "If configurable, the idle timeout duration SHOULD be no shorter than twice the Keepalive"
        " Interval.",
        "how long a node waits, it need not say; `silence-session` waits for it",
    ),
    1888: Sentence(
        "5.1.1",
        "If not configurable, the idle timeout duration SHOULD be exactly twice the Keepalive "
        "Interval.",
        "how long a node waits, it need not say; `silence-session` waits for it",
    ),
    1898: Sentence(
        "5.1.2",
        "If a TCPCL entity receives a message type that is unknown to it (possibly due to an "
        "unhandled protocol version mismatch or an incorrectly negotiated session extension that "
        "defines a new message type), the entity SHALL send a MSG_REJECT message with a reason "
        'code of "Message Type Unknown" and close the TCP connection.',
    ),
    1902: Sentence(
        "5.1.2",
        "If a TCPCL entity receives a message type that is known but is inappropriate for the "
        "negotiated session parameters (possibly due to an incorrectly negotiated session "
        'extension), the entity SHALL send a MSG_REJECT message with a reason code of "Message '
        'Unsupported".',
        "without a session extension, no known message is of that kind",
    ),
    1906: Sentence(
        "5.1.2",
        "If a TCPCL entity receives a message that is inappropriate for the current session state"
        " (e.g., a SESS_INIT after the session has already been established or a XFER_ACK message"
        " with an unknown Transfer ID), the entity SHALL send a MSG_REJECT message with a reason "
        'code of "Message Unexpected".',
    ),
    1960: Sentence(
        "5.2",
        "The choice of the length to use for segments is an implementation matter, but each "
        "segment MUST NOT be larger than the receiving entity's Segment MRU.",
        "the cases of `from` show it: the rule `peer-segment`",
    ),
    1966: Sentence(
        "5.2",
        "A single transfer (and, by extension, a single segment) SHALL NOT contain data of more "
        "than a single bundle.",
    ),
    1971: Sentence(
        "5.2",
        "If multiple bundles are transmitted on a single TCPCL connection, they MUST be "
        "transmitted consecutively, without the interleaving of segments from multiple bundles.",
    ),
    1989: Sentence(
        "5.2.1",
        "Transfer IDs from each entity SHALL be unique within a single TCPCL session.",
    ),
    1990: Sentence(
        "5.2.1",
        "Upon exhaustion of the entire 64-bit Transfer ID space, the sending entity SHALL "
        'terminate the session with a SESS_TERM reason code of "Resource Exhaustion".',
        "no case can use up 2^64 IDs",
    ),
    1992: Sentence(
        "5.2.1",
        "For bidirectional bundle transfers, a TCPCL entity SHOULD NOT rely on any relationship "
        "between Transfer IDs originating from each side of the TCPCL session.",
        "the probe's IDs count from 0, whatever the node's IDs are",
    ),
    1996: Sentence(
        "5.2.1",
        "Although there is not a strict requirement for initial Transfer ID values or the "
        "ordering of Transfer IDs (see Section 7.13), in the absence of any other mechanism for "
        "generating Transfer IDs, an entity SHALL use the following algorithm: the initial "
        "Transfer ID from each entity is zero, and subsequent Transfer ID values are incremented "
        "from the prior Transfer ID value by one.",
        "the cases of `from` show it: the rule `transfer-id-order`",
    ),
    2033: Sentence(
        "5.2.2",
        "All reserved header flag bits SHALL be set to 0 by the sender.",
        "the cases of `from` show it: the rule `segment-flags`",
    ),
    2034: Sentence(
        "5.2.2",
        "All reserved header flag bits SHALL be ignored by the receiver.",
    ),
    2042: Sentence(
        "5.2.2",
        "The Transfer Extension Items Length and Transfer Extension Items list SHALL only be "
        "present when the START flag is set to 1 on the message.",
        "with a list in another segment, the bytes would be read as others",
    ),
    2051: Sentence(
        "5.2.2",
        "If the content of the Transfer Extension Items list disagrees with the Transfer "
        "Extension Items Length (e.g., the last item claims to use more or fewer octets than are "
        "indicated in the Transfer Extension Items Length), the reception of the XFER_SEGMENT is "
        "considered to have failed.",
    ),
    2078: Sentence(
        "5.2.2",
        "The START flag SHALL be set to 1 when transmitting the first segment of a transfer.",
        "the cases of `from` show it: the rule `order`",
    ),
    2080: Sentence(
        "5.2.2",
        "The END flag SHALL be set to 1 when transmitting the last segment of a transfer.",
        "the cases of `from` show it: the rule `unfinished`",
    ),
    2081: Sentence(
        "5.2.2",
        "In the case where an entire transfer is accomplished in a single segment, both the START"
        " flag and the END flag SHALL be set to 1.",
        "the cases of `from` show it: the rule `order`",
    ),
    2085: Sentence(
        "5.2.2",
        "Once a transfer of a bundle has commenced, the entity MUST only send segments containing"
        " sequential portions of that bundle until it sends a segment with the END flag set to 1.",
        "the cases of `from` show it: the rule `interleaved`",
    ),
    2121: Sentence(
        "5.2.3",
        "All reserved header flag bits SHALL be set to 0 by the sender.",
        "every acknowledgement shows it: the rule `ack-flags`",
    ),
    2122: Sentence(
        "5.2.3",
        "All reserved header flag bits SHALL be ignored by the receiver.",
    ),
    2131: Sentence(
        "5.2.3",
        "A receiving TCPCL entity SHALL send a XFER_ACK message in response to each received "
        "XFER_SEGMENT message after the segment has been fully processed.",
    ),
    2133: Sentence(
        "5.2.3",
        "The flags portion of the XFER_ACK header SHALL be set to match the corresponding "
        "XFER_SEGMENT message being acknowledged (including flags not decodable to the entity).",
        "every acknowledgement shows it: the rule `ack-flags`",
    ),
    2138: Sentence(
        "5.2.3",
        "The sending entity SHOULD transmit multiple XFER_SEGMENT messages without waiting for "
        "the corresponding XFER_ACK responses.",
    ),
    2155: Sentence(
        "5.2.4",
        "As data segments and acknowledgments can cross on the wire, the bundle that is being "
        "refused SHALL be identified by the Transfer ID of the refusal.",
        "every refusal shows it: the rule `refuse-unknown`",
    ),
    2160: Sentence(
        "5.2.4",
        "There is no required relationship between the Transfer MRU of a TCPCL entity (which is "
        "supposed to represent a firm limitation of what the entity will accept) and the sending "
        "of a XFER_REFUSE message.",
    ),
    2169: Sentence(
        "5.2.4",
        "The transfer sender MUST be prepared for this and MUST associate the refusal with the "
        "correct bundle via the Transfer ID fields.",
    ),
    2176: Sentence(
        "5.2.4",
        "If a transfer refusal has a reason code that is not decodable to the BPA, the agent "
        'SHOULD treat the refusal as having a reason code of "Unknown".',
    ),
    2211: Sentence(
        "5.2.4",
        "The sender SHOULD apply reactive bundle fragmentation before retrying.",
        "a node may also drop the bundle; the rule `retried` judges a second attempt in the same "
        "session",
    ),
    2220: Sentence(
        "5.2.4",
        "The sender SHOULD NOT retry the same bundle with the same extensions.",
        "the rule `retried` judges a second attempt in the same session",
    ),
    2234: Sentence(
        "5.2.4",
        "The receiver MUST, for each transfer preceding the one to be refused, have either "
        "acknowledged all XFER_SEGMENT messages or refused the bundle transfer.",
    ),
    2239: Sentence(
        "5.2.4",
        "If a sender receives a XFER_REFUSE message, the sender MUST complete the transmission of"
        " any partially sent XFER_SEGMENT message.",
        "a message that is cut shows it: the rule `order`, or a fault of the node's bytes",
    ),
    2242: Sentence(
        "5.2.4",
        "The sender MUST NOT subsequently commence transmission of any further segments of the "
        "refused bundle.",
    ),
    2244: Sentence(
        "5.2.4",
        "Note, however, that this requirement does not ensure that an entity will not receive "
        "another XFER_SEGMENT for the same bundle after transmitting a XFER_REFUSE message, since"
        " messages can cross on the wire; if this happens, subsequent segments of the bundle "
        "SHALL also be refused with a XFER_REFUSE message.",
    ),
    2258: Sentence(
        "5.2.5",
        "Each of the Transfer Extension Items SHALL be encoded in an identical Type-Length-Value "
        "(TLV) container form as indicated in Figure 25.",
        "the cases of `from` show it: the rule `bundle`",
    ),
    2264: Sentence(
        "5.2.5",
        "All reserved header flag bits SHALL be set to 0 by the sender.",
        "the cases of `from` show it: the rule `item-flags`",
    ),
    2265: Sentence(
        "5.2.5",
        "All reserved header flag bits SHALL be ignored by the receiver.",
    ),
    2266: Sentence(
        "5.2.5",
        "If a TCPCL entity receives a Transfer Extension Item with an unknown Item Type and the "
        "CRITICAL flag is 1, the entity SHALL refuse the transfer with a XFER_REFUSE reason code "
        'of "Extension Failure".',
    ),
    2269: Sentence(
        "5.2.5",
        "If the CRITICAL flag is 0, an entity SHALL skip over and ignore any item with an unknown"
        " Item Type.",
    ),
    2283: Sentence(
        "5.2.5",
        "Extension specifications SHOULD avoid the use of large data lengths, as the associated "
        "transfer cannot begin until the full extension data is sent.",
        "binds who defines an extension",
    ),
    2315: Sentence(
        "5.2.5.1",
        "Multiple Transfer Length Extension Items SHALL NOT occur within the same transfer.",
    ),
    2316: Sentence(
        "5.2.5.1",
        "The lack of a Transfer Length Extension Item in any transfer SHALL NOT imply anything "
        "regarding the potential length of the transfer.",
        "`segments` has no such item",
    ),
    2318: Sentence(
        "5.2.5.1",
        "The Transfer Length Extension SHALL use the IANA-assigned code point from Section 8.4.",
        "the cases of `from` show it: the rule `item-type`",
    ),
    2321: Sentence(
        "5.2.5.1",
        "If a transfer occupies exactly one segment (i.e., both the START flag and the END flag "
        "are 1), the Transfer Length Extension SHOULD NOT be present.",
        "the cases of `from` show it: the rule `length-of-one-segment`",
    ),
    2338: Sentence(
        "5.2.5.1",
        "The Total Length field SHALL be treated as authoritative by the receiver.",
        "the sentence after it says what this means",
    ),
    2339: Sentence(
        "5.2.5.1",
        "If, for whatever reason, the actual total length of bundle data received differs from "
        "the value indicated by the Total Length value, the receiver SHALL treat the transmitted "
        'data as invalid and send a XFER_REFUSE with a reason code of "Not Acceptable".',
    ),
    2359: Sentence(
        "6.1",
        "To cleanly terminate a session, a SESS_TERM message SHALL be transmitted by either "
        "entity at any point following complete transmission of any other message.",
    ),
    2361: Sentence(
        "6.1",
        "When sent to initiate a termination, the REPLY flag of a SESS_TERM message SHALL be 0.",
        "every session shows it: the rules `reply-alone` and `term-order`",
    ),
    2362: Sentence(
        "6.1",
        "Upon receiving a SESS_TERM message after not sending a SESS_TERM message in the same "
        "session, an entity SHALL send an acknowledging SESS_TERM message.",
    ),
    2365: Sentence(
        "6.1",
        "When sent to acknowledge a termination, a SESS_TERM message SHALL have identical data "
        "content from the message being acknowledged except for the REPLY flag, which is set to 1"
        " to indicate acknowledgment.",
        "every answer shows it: the rule `reply-differs`",
    ),
    2375: Sentence(
        "6.1",
        "an entity SHALL NOT begin any new outgoing transfer for the remainder of the session.",
    ),
    2378: Sentence(
        "6.1",
        "an entity SHALL NOT accept any new incoming transfer for the remainder of the session.",
        "the sentence about its refusal says what a peer sees of it: `transfer-after-term`",
    ),
    2381: Sentence(
        "6.1",
        "If a new incoming transfer is attempted while in the Ending state, the receiving entity "
        'SHALL send a XFER_REFUSE with a reason code of "Session Terminating".',
    ),
    2392: Sentence(
        "6.1",
        "When performing an unclean termination, an entity SHOULD acknowledge all received "
        "XFER_SEGMENTs with a XFER_ACK before closing the TCP connection.",
        "every session shows it: the rule `ack-missing`",
    ),
    2398: Sentence(
        "6.1",
        "If the underlying TCP connection is closed during a transmission (in either transfer "
        "stream), the transfer SHALL be indicated to the BPA as failed (see the transmission "
        "failure and reception failure indications defined in Section 3.1).",
        "what a node tells its agent, a peer does not see",
    ),
    2406: Sentence(
        "6.1",
        "If a termination has a reason code that is not decodable to the BPA, the agent SHOULD "
        'treat the termination as having a reason code of "Unknown".',
    ),
    2425: Sentence(
        "6.1",
        "All reserved header flag bits SHALL be set to 0 by the sender.",
        "every session shows it: the rule `term-flags`",
    ),
    2426: Sentence(
        "6.1",
        "All reserved header flag bits SHALL be ignored by the receiver.",
    ),
    2471: Sentence(
        "6.1",
        "However, an entity MUST always send the Contact Header to its peer before sending a "
        "SESS_TERM message.",
        "every session shows it: the rule `order`",
    ),
    2475: Sentence(
        "6.1",
        "If reception of the Contact Header itself somehow fails (e.g., an invalid magic string "
        "is received), an entity SHALL close the TCP connection without sending a SESS_TERM "
        "message.",
    ),
    2480: Sentence(
        "6.1",
        "If a session is to be terminated before the sending of a protocol message has completed,"
        " then the entity MUST NOT transmit the SESS_TERM message but still SHALL close the TCP "
        "connection.",
        "every session shows it: a message that is cut is a fault of the node's bytes",
    ),
}
