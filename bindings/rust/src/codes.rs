//! Numbers of the RFCs: flags, reasons, and types of items and of blocks.

/// The flag of a contact header that offers TLS (RFC 9174 section 4.2).
pub const CONTACT_CAN_TLS: u8 = 1;

/// The flag of a SESS_TERM that answers another one (RFC 9174 section 6.1).
pub const SESS_TERM_REPLY: u8 = 1;

/// The flag of an extension item that the receiver has to know (RFC 9174 sections 4.8, 5.2.5).
pub const ITEM_CRITICAL: u8 = 1;

/// The type of a Transfer Length item (RFC 9174 section 5.2.5.1).
pub const ITEM_TYPE_TRANSFER_LENGTH: u16 = 1;

// ---- the reasons of an XFER_REFUSE (RFC 9174 section 5.2.4)

/// The reason of an XFER_REFUSE: the reason is unknown or not specified.
pub const REFUSE_UNKNOWN: u8 = 0;

/// The reason of an XFER_REFUSE: the receiver already has the whole bundle.
pub const REFUSE_COMPLETED: u8 = 1;

/// The reason of an XFER_REFUSE: the receiver's resources are exhausted.
pub const REFUSE_NO_RESOURCES: u8 = 2;

/// The reason of an XFER_REFUSE: the whole bundle has to be sent again.
pub const REFUSE_RETRANSMIT: u8 = 3;

/// The reason of an XFER_REFUSE: something is wrong with the data of the bundle or of its items.
pub const REFUSE_NOT_ACCEPTABLE: u8 = 4;

/// The reason of an XFER_REFUSE: the items could not be processed.
pub const REFUSE_EXTENSION_FAILURE: u8 = 5;

/// The reason of an XFER_REFUSE: the receiver is ending the session.
pub const REFUSE_SESSION_TERMINATING: u8 = 6;

// ---- the reasons of a SESS_TERM (RFC 9174 section 6.1)

/// The reason of a SESS_TERM: no reason is available.
pub const TERM_UNKNOWN: u8 = 0;

/// The reason of a SESS_TERM: the session is idle.
pub const TERM_IDLE_TIMEOUT: u8 = 1;

/// The reason of a SESS_TERM: the version of the protocol is not supported.
pub const TERM_VERSION_MISMATCH: u8 = 2;

/// The reason of a SESS_TERM: the sender is too busy.
pub const TERM_BUSY: u8 = 3;

/// The reason of a SESS_TERM: the contact header or the SESS_INIT could not be interpreted or
/// negotiated.
pub const TERM_CONTACT_FAILURE: u8 = 4;

/// The reason of a SESS_TERM: a resource limit was reached.
pub const TERM_RESOURCE_EXHAUSTION: u8 = 5;

// ---- the reasons of a MSG_REJECT (RFC 9174 section 5.1.2)

/// The reason of a MSG_REJECT: the type of the message is unknown.
pub const REJECT_TYPE_UNKNOWN: u8 = 1;

/// The reason of a MSG_REJECT: the contents of the message are not supported.
pub const REJECT_UNSUPPORTED: u8 = 2;

/// The reason of a MSG_REJECT: the message is not expected in this state of the session.
pub const REJECT_UNEXPECTED: u8 = 3;

// ---- the types of canonical blocks (RFC 9171 sections 4.4 and 9.1, RFC 9172 section 11.1)

/// The type of the payload block.
pub const BLOCK_TYPE_PAYLOAD: u64 = 1;

/// The type of a previous node block.
pub const BLOCK_TYPE_PREVIOUS_NODE: u64 = 6;

/// The type of a bundle age block.
pub const BLOCK_TYPE_BUNDLE_AGE: u64 = 7;

/// The type of a hop count block.
pub const BLOCK_TYPE_HOP_COUNT: u64 = 10;

/// The type of a block integrity block.
pub const BLOCK_TYPE_INTEGRITY: u64 = 11;

/// The type of a block confidentiality block.
pub const BLOCK_TYPE_CONFIDENTIALITY: u64 = 12;
