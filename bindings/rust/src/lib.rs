//! Bundles of the Bundle Protocol 7 (RFC 9171) and sessions of TCPCLv4 (RFC 9174), read and written
//! by functions that are proved to do what their definitions say.
//!
//! ```
//! let bytes = std::fs::read("examples/hello.bundle").unwrap();
//! match tcpclkit::bundle(&bytes) {
//!     Ok(bundle) => assert_eq!(bundle.payload, b"hello"),
//!     Err(fault) if fault.is_truncated() => println!("more bytes are needed"),
//!     Err(fault) => println!("byte {}: {fault}", fault.offset),
//! }
//! ```
//!
//! This crate is a wrapper: each function calls functions of the C library `libtcpclkit`, and makes
//! values of Rust of what they wrote. `tcpclkit.h` says what is proved of each of them. The wrapper
//! itself is tested and not proved.
//!
//! The archive `libtcpclkit.a` is linked in. The environment variable `TCPCLKIT_LIB` names its
//! folder; without it, the archive is looked for in `/usr/local/lib`, `/usr/lib/x86_64-linux-gnu`
//! and `/usr/lib`.

mod answer;
mod block;
mod building;
mod bundle;
mod codes;
mod fault;
mod order;
mod raw;
mod recording;
mod scan;
mod text;
mod tools;
mod writing;

pub use answer::Sent;
pub use block::{blocks_of, Block, BlockHead, BlockKind, Blocks, CheckType};
pub use building::{
    write_age, write_block, write_block_head, write_eid, write_hop_count, write_primary, Check,
    BUNDLE_FIRST, BUNDLE_LAST,
};
pub use bundle::{bundle, primary, verdict, Bundle, EndpointId, Fragment, Primary, Verdict};
pub use codes::{
    BLOCK_TYPE_BUNDLE_AGE, BLOCK_TYPE_CONFIDENTIALITY, BLOCK_TYPE_HOP_COUNT, BLOCK_TYPE_INTEGRITY,
    BLOCK_TYPE_PAYLOAD, BLOCK_TYPE_PREVIOUS_NODE, CONTACT_CAN_TLS, ITEM_CRITICAL,
    ITEM_TYPE_TRANSFER_LENGTH, REFUSE_COMPLETED, REFUSE_EXTENSION_FAILURE, REFUSE_NOT_ACCEPTABLE,
    REFUSE_NO_RESOURCES, REFUSE_RETRANSMIT, REFUSE_SESSION_TERMINATING, REFUSE_UNKNOWN,
    REJECT_TYPE_UNKNOWN, REJECT_UNEXPECTED, REJECT_UNSUPPORTED, SESS_TERM_REPLY, TERM_BUSY,
    TERM_CONTACT_FAILURE, TERM_IDLE_TIMEOUT, TERM_RESOURCE_EXHAUSTION, TERM_UNKNOWN,
    TERM_VERSION_MISMATCH,
};
pub use fault::{Code, Fault};
pub use order::{Order, Taken, Turn};
pub use recording::{
    contact, messages, Announced, Contact, Fields, Item, Items, Message, Messages, CONTACT_LENGTH,
    HEAD_LIMIT, SEGMENT_END, SEGMENT_START,
};
pub use scan::Scan;
pub use text::{block_type_name, report_reason_name, ParseEndpointIdError};
pub use tools::{
    blocks, check, list, pack, pack_more, unpack, BlocksOptions, CheckOptions, MoreOptions,
    PackOptions, Run, ToolError, UnpackOptions,
};
pub use writing::{write_contact, write_item, write_message, write_total, OutOfRange};
