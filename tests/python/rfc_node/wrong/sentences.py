"""The sentences of RFC 9174 that a wrong switch breaks, each with its section."""

ESTABLISHED_FIRST = "4", (
    "For bundle transmissions to occur using the TCPCL, a TCPCL session MUST first be established between "
    "communicating entities.")
PASSIVE_WAITS = "4.1", "The passive entity SHALL wait for the active entity's Contact Header."
PASSIVE_ANSWERS = "4.1", (
    "Upon reception of a Contact Header, the passive entity SHALL transmit its Contact Header.")
NO_HEADER_CLOSES = "4.1", (
    "If either entity does not receive a Contact Header after some implementation-defined time duration after "
    "the TCP connection is established, the waiting entity SHALL close the TCP connection.")
FIN = "4.1", (
    'Within this specification, when an entity is said to "close" a TCP connection the entity SHALL use the TCP '
    "FIN mechanism and not the RST mechanism.")
RESERVED_SENT = "All reserved header flag bits SHALL be set to 0 by the sender."
RESERVED_IGNORED = "All reserved header flag bits SHALL be ignored by the receiver."
CONTACT_FLAGS_SENT, CONTACT_FLAGS = ("4.2", RESERVED_SENT), ("4.2", RESERVED_IGNORED)
SESSION_ITEM_FLAGS = "4.8", RESERVED_IGNORED
SEGMENT_FLAGS_SENT, SEGMENT_FLAGS = ("5.2.2", RESERVED_SENT), ("5.2.2", RESERVED_IGNORED)
ACK_FLAGS_IGNORED = "5.2.3", RESERVED_IGNORED
TRANSFER_ITEM_FLAGS_SENT, TRANSFER_ITEM_FLAGS = ("5.2.5", RESERVED_SENT), ("5.2.5", RESERVED_IGNORED)
TERM_FLAGS_SENT, TERM_FLAGS = ("6.1", RESERVED_SENT), ("6.1", RESERVED_IGNORED)
MAGIC = "4.3", 'If the "magic string" is not present or is not valid, the connection MUST be terminated.'
LOWER_VERSION = "4.3", (
    "If the active entity receives a Contact Header with a lower protocol version than the one sent earlier on "
    "the TCP connection, the TCP connection SHALL be closed.")
OTHER_VERSION = "4.3", (
    "If the passive entity receives a Contact Header containing a version that is not a version of the TCPCL "
    "protocol that the entity implements, then the entity SHALL send its Contact Header and immediately "
    'terminate the session with a reason code of "Version mismatch".')
TLS = "4.3", (
    "Negotiation of the Enable TLS parameter is performed by taking the logical AND of the two Contact Headers' "
    "CAN_TLS flags.")
SEGMENT_MRU = "4.6", (
    "Any XFER_SEGMENT sent to this peer SHALL have a data payload no longer than the peer's Segment MRU.")
TRANSFER_MRU = "4.6", (
    "Any bundle transfer sent to this peer SHALL have a Total Bundle Length payload no longer than the peer's "
    "Transfer MRU.")
NO_NODE_ID = "4.6", (
    "A zero-length node ID SHALL be used to indicate the lack of a node ID rather than a truly empty node ID.")
SESSION_LIST = "4.6", (
    "If the content of the Session Extension Items list disagrees with the Session Extension Items Length (e.g., "
    "the last item claims to use more or fewer octets than are indicated in the Session Extension Items Length), "
    "the reception of the SESS_INIT is considered to have failed.")
MRU_UNACCEPTABLE = "4.7", (
    "If either the Transfer MRU or Segment MRU is unacceptable, the entity SHALL terminate the session with a "
    'reason code of "Contact Failure".')
KEEPALIVE_UNACCEPTABLE = "4.7", (
    "If the Session Keepalive Interval is unacceptable, the entity SHALL terminate the session with a reason code "
    'of "Contact Failure".')
CRITICAL_SESSION_ITEM = "4.8", (
    "If a TCPCL entity receives a Session Extension Item with an unknown Item Type and the CRITICAL flag set to "
    '1, the entity SHALL terminate the TCPCL session with a SESS_TERM reason code of "Contact Failure".')
UNKNOWN_ITEM = (
    "If the CRITICAL flag is 0, an entity SHALL skip over and ignore any item with an unknown Item Type.")
UNKNOWN_SESSION_ITEM, UNKNOWN_TRANSFER_ITEM = ("4.8", UNKNOWN_ITEM), ("5.2.5", UNKNOWN_ITEM)
NO_KEEPALIVE = "5.1.1", (
    "If the negotiated Session Keepalive is zero (i.e., one or both SESS_INIT messages contain a zero Keepalive "
    "Interval), then the keepalive feature is disabled.")
INTERVAL_LONG_ENOUGH = "5.1.1", (
    "For shared network use, entities SHOULD choose a Keepalive Interval no shorter than 30 seconds.")
INTERVAL_SHORT_ENOUGH = "5.1.1", (
    "Entities SHOULD choose a Keepalive Interval no longer than 10 minutes (600 seconds).")
KEEPALIVE = "5.1.1", (
    "Both sides SHALL send a KEEPALIVE message whenever the negotiated interval has elapsed with no transmission "
    "of any message (KEEPALIVE or other).")
IDLE = "5.1.1", (
    "If no message (KEEPALIVE or other) has been received in a session after some implementation-defined time "
    "duration, then the entity SHALL terminate the session by transmitting a SESS_TERM message (as described in "
    'Section 6.1) with a reason code of "Idle timeout".')
UNKNOWN_TYPE = "5.1.2", (
    "If a TCPCL entity receives a message type that is unknown to it (possibly due to an unhandled protocol "
    "version mismatch or an incorrectly negotiated session extension that defines a new message type), the entity "
    'SHALL send a MSG_REJECT message with a reason code of "Message Type Unknown" and close the TCP connection.')
UNEXPECTED = "5.1.2", (
    "If a TCPCL entity receives a message that is inappropriate for the current session state (e.g., a SESS_INIT "
    "after the session has already been established or a XFER_ACK message with an unknown Transfer ID), the entity "
    'SHALL send a MSG_REJECT message with a reason code of "Message Unexpected".')
CONSECUTIVE = "5.2", (
    "If multiple bundles are transmitted on a single TCPCL connection, they MUST be transmitted consecutively, "
    "without the interleaving of segments from multiple bundles.")
UNIQUE_IDS = "5.2.1", "Transfer IDs from each entity SHALL be unique within a single TCPCL session."
FIRST_ID = "5.2.1", (
    "Although there is not a strict requirement for initial Transfer ID values or the ordering of Transfer IDs "
    "(see Section 7.13), in the absence of any other mechanism for generating Transfer IDs, an entity SHALL use "
    "the following algorithm: the initial Transfer ID from each entity is zero, and subsequent Transfer ID values "
    "are incremented from the prior Transfer ID value by one.")
TRANSFER_LIST = "5.2.2", (
    "If the content of the Transfer Extension Items list disagrees with the Transfer Extension Items Length (e.g., "
    "the last item claims to use more or fewer octets than are indicated in the Transfer Extension Items Length), "
    "the reception of the XFER_SEGMENT is considered to have failed.")
START = "5.2.2", "The START flag SHALL be set to 1 when transmitting the first segment of a transfer."
END = "5.2.2", "The END flag SHALL be set to 1 when transmitting the last segment of a transfer."
UNTIL_END = "5.2.2", (
    "Once a transfer of a bundle has commenced, the entity MUST only send segments containing sequential portions "
    "of that bundle until it sends a segment with the END flag set to 1.")
ACK = "5.2.3", (
    "A receiving TCPCL entity SHALL send a XFER_ACK message in response to each received XFER_SEGMENT message "
    "after the segment has been fully processed.")
ACK_FLAGS = "5.2.3", (
    "The flags portion of the XFER_ACK header SHALL be set to match the corresponding XFER_SEGMENT message being "
    "acknowledged (including flags not decodable to the entity).")
ACK_LENGTH = "5.2.3", (
    "The acknowledged length of each XFER_ACK contains the sum of the Data length fields of all XFER_SEGMENT "
    "messages received so far in the course of the indicated transfer.")
PIPELINING = "5.2.3", (
    "The sending entity SHOULD transmit multiple XFER_SEGMENT messages without waiting for the corresponding "
    "XFER_ACK responses.")
REFUSED_ID = "5.2.4", (
    "As data segments and acknowledgments can cross on the wire, the bundle that is being refused SHALL be "
    "identified by the Transfer ID of the refusal.")
REFUSAL_REASON = "5.2.4", (
    "If a transfer refusal has a reason code that is not decodable to the BPA, the agent SHOULD treat the refusal "
    'as having a reason code of "Unknown".')
NO_RETRY = "5.2.4", "The sender SHOULD NOT retry the same bundle with the same extensions."
REFUSE_ORDER = "5.2.4", (
    "The receiver MUST, for each transfer preceding the one to be refused, have either acknowledged all "
    "XFER_SEGMENT messages or refused the bundle transfer.")
REFUSED_STOPS = "5.2.4", (
    "The sender MUST NOT subsequently commence transmission of any further segments of the refused bundle.")
REFUSED_AGAIN = "5.2.4", (
    "Note, however, that this requirement does not ensure that an entity will not receive another XFER_SEGMENT "
    "for the same bundle after transmitting a XFER_REFUSE message, since messages can cross on the wire; if this "
    "happens, subsequent segments of the bundle SHALL also be refused with a XFER_REFUSE message.")
CRITICAL_TRANSFER_ITEM = "5.2.5", (
    "If a TCPCL entity receives a Transfer Extension Item with an unknown Item Type and the CRITICAL flag is 1, "
    'the entity SHALL refuse the transfer with a XFER_REFUSE reason code of "Extension Failure".')
ONE_LENGTH = "5.2.5.1", (
    "Multiple Transfer Length Extension Items SHALL NOT occur within the same transfer.")
LENGTH_TYPE = "5.2.5.1", (
    "The Transfer Length Extension SHALL use the IANA-assigned code point from Section 8.4.")
LENGTH_OF_ONE = "5.2.5.1", (
    "If a transfer occupies exactly one segment (i.e., both the START flag and the END flag are 1), the Transfer "
    "Length Extension SHOULD NOT be present.")
TOTAL_LENGTH = "5.2.5.1", (
    "If, for whatever reason, the actual total length of bundle data received differs from the value indicated by "
    "the Total Length value, the receiver SHALL treat the transmitted data as invalid and send a XFER_REFUSE with "
    'a reason code of "Not Acceptable".')
CLEAN_END = "6.1", (
    "To cleanly terminate a session, a SESS_TERM message SHALL be transmitted by either entity at any point "
    "following complete transmission of any other message.")
INITIAL_TERM = "6.1", "When sent to initiate a termination, the REPLY flag of a SESS_TERM message SHALL be 0."
REPLY = "6.1", (
    "Upon receiving a SESS_TERM message after not sending a SESS_TERM message in the same session, an entity SHALL "
    "send an acknowledging SESS_TERM message.")
REPLY_CONTENT = "6.1", (
    "When sent to acknowledge a termination, a SESS_TERM message SHALL have identical data content from the message "
    "being acknowledged except for the REPLY flag, which is set to 1 to indicate acknowledgment.")
NO_NEW_OUTGOING = "6.1", (
    "an entity SHALL NOT begin any new outgoing transfer for the remainder of the session.")
NEW_INCOMING = "6.1", (
    "If a new incoming transfer is attempted while in the Ending state, the receiving entity SHALL send a "
    'XFER_REFUSE with a reason code of "Session Terminating".')
TERM_REASON = "6.1", (
    "If a termination has a reason code that is not decodable to the BPA, the agent SHOULD treat the termination "
    'as having a reason code of "Unknown".')
HEADER_FIRST = "6.1", (
    "However, an entity MUST always send the Contact Header to its peer before sending a SESS_TERM message.")
HEADER_FAILS = "6.1", (
    "If reception of the Contact Header itself somehow fails (e.g., an invalid magic string is received), an entity "
    "SHALL close the TCP connection without sending a SESS_TERM message.")
WHOLE_MESSAGES = "6.1", (
    "If a session is to be terminated before the sending of a protocol message has completed, then the entity MUST "
    "NOT transmit the SESS_TERM message but still SHALL close the TCP connection.")
