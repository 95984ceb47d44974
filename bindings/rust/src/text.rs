//! Texts: the words of faults and of the data of blocks, endpoint IDs, and names.

use crate::block::{Block, BlockKind};
use crate::bundle::EndpointId;
use crate::fault::Fault;
use crate::raw;
use crate::recording::Fields;
use std::fmt;
use std::str::FromStr;

/// Room for the text of every fault.
const FAULT_ROOM: usize = 64;

/// Room for the text of every endpoint ID.
const EID_ROOM: usize = 4100;

/// Room for the words of the data of every block.
const WORDS_ROOM: usize = 4500;

/// Room for every name of a reason or of a block type.
const NAME_ROOM: usize = 64;

/// The text that a function of the library writes into the slice, or `None` if it has none.
fn text(room: &mut [u8], call: impl FnOnce(*mut u8, usize, &mut u64) -> u32) -> Option<String> {
    let (status, written) = raw::answer(|written| call(room.as_mut_ptr(), room.len(), written));
    let text = || String::from_utf8_lossy(&room[..written as usize]).into_owned();
    (status == raw::OK).then(text)
}

impl fmt::Display for Fault {
    /// Writes the words that the program has for the fault, without the offset.
    fn fmt(&self, formatter: &mut fmt::Formatter<'_>) -> fmt::Result {
        let (code, number) = (self.code as u64, self.number);
        let words = text(&mut [0; FAULT_ROOM], |text, room, written| {
            // SAFETY: the text has that room, and nothing else is lent.
            unsafe { raw::tcpclkit_raw_write_fault_text(code, number, text, room, written) }
        });
        match words {
            Some(words) => formatter.write_str(&words),
            None => write!(formatter, "{:?} {}", self.code, self.number),
        }
    }
}

impl std::error::Error for Fault {}

impl EndpointId {
    /// The endpoint ID as the library takes it, and its name.
    pub(crate) fn lent(&self) -> (raw::Eid, &[u8]) {
        let (kind, numbers, name): (_, _, &[u8]) = match *self {
            EndpointId::DtnNone => (raw::EID_DTN_NONE, (0, 0, 0), &[]),
            EndpointId::Dtn(ref name) => (raw::EID_DTN, (0, 0, 0), name),
            EndpointId::Ipn { node, service } => (raw::EID_IPN, (0, node, service), &[]),
            EndpointId::Ipn3 {
                allocator,
                node,
                service,
            } => (raw::EID_IPN3, (allocator, node, service), &[]),
        };
        let (allocator, node, service) = numbers;
        let name_length = name.len() as u64;
        (
            raw::Eid {
                kind,
                allocator,
                node,
                service,
                name_length,
            },
            name,
        )
    }
}

impl fmt::Display for EndpointId {
    /// Writes the endpoint ID as the program shows it: each byte of a name that is no visible ASCII
    /// character, and each `\`, is `\x` and two digits.
    ///
    /// A name longer than 1,024 bytes, which no bundle has, is an error.
    fn fmt(&self, formatter: &mut fmt::Formatter<'_>) -> fmt::Result {
        let (eid, name) = self.lent();
        let words = text(&mut [0; EID_ROOM], |text, room, written| {
            // SAFETY: the slices and the structs are valid, and do not overlap.
            unsafe {
                raw::tcpclkit_raw_write_eid_text(
                    &eid,
                    name.as_ptr(),
                    name.len(),
                    text,
                    room,
                    written,
                )
            }
        });
        formatter.write_str(&words.ok_or(fmt::Error)?)
    }
}

/// No endpoint ID has the text.
#[derive(Clone, Copy, Debug, PartialEq, Eq, Hash)]
pub struct ParseEndpointIdError;

impl fmt::Display for ParseEndpointIdError {
    fn fmt(&self, formatter: &mut fmt::Formatter<'_>) -> fmt::Result {
        formatter.write_str("no endpoint ID has this text")
    }
}

impl std::error::Error for ParseEndpointIdError {}

impl FromStr for EndpointId {
    type Err = ParseEndpointIdError;

    /// Reads an endpoint ID in exactly the texts that `Display` writes.
    ///
    /// `dtn:none` is [`EndpointId::DtnNone`], and not the name `none`, whose text it is too.
    ///
    /// ```
    /// use tcpclkit::{EndpointId, ParseEndpointIdError};
    /// assert_eq!("ipn:2.1".parse(), Ok(EndpointId::Ipn { node: 2, service: 1 }));
    /// assert_eq!(r"dtn://a\x20b/".parse(), Ok(EndpointId::Dtn(b"//a b/"[..].into())));
    /// assert_eq!("ipn:02.1".parse::<EndpointId>(), Err(ParseEndpointIdError));
    /// ```
    fn from_str(text: &str) -> Result<EndpointId, ParseEndpointIdError> {
        let mut name = [0; raw::EID_LIMIT];
        let (status, eid) = raw::answer(|eid: &mut raw::Eid| {
            // SAFETY: the slices and the struct are valid, and do not overlap.
            unsafe {
                raw::tcpclkit_raw_read_eid_text(
                    text.as_ptr(),
                    text.len(),
                    eid,
                    name.as_mut_ptr(),
                    name.len(),
                )
            }
        });
        match status {
            raw::OK => Ok(EndpointId::of(&eid, &name)),
            _ => Err(ParseEndpointIdError),
        }
    }
}

impl Fields<'_> {
    /// The name of the message's reason, as the lines of `tcpclkit list` have it, or `?` for a code
    /// without a name.
    ///
    /// XFER_REFUSE, SESS_TERM and MSG_REJECT have one (RFC 9174 sections 5.2.4, 6.1 and 5.1.2).
    ///
    /// ```
    /// use tcpclkit::Fields;
    /// let refused = Fields::Refuse { reason: 2, id: 0 };
    /// assert_eq!(refused.reason_name().as_deref(), Some("no-resources"));
    /// assert_eq!(Fields::Keepalive.reason_name(), None);
    /// ```
    pub fn reason_name(&self) -> Option<String> {
        let it = self.numbers();
        text(&mut [0; NAME_ROOM], |text, room, written| {
            // SAFETY: the text has that room, and nothing else is lent.
            unsafe { raw::tcpclkit_raw_write_reason_text(it.kind, it.reason, text, room, written) }
        })
    }
}

/// The name of the reason of a status report (RFC 9171 section 6.1.1), as the lines of `tcpclkit
/// blocks` have it, or `?` for a code without a name.
///
/// ```
/// assert_eq!(tcpclkit::report_reason_name(1), "lifetime-expired");
/// ```
pub fn report_reason_name(reason: u64) -> String {
    name(|text, room, written| {
        // SAFETY: the text has that room, and nothing else is lent.
        unsafe { raw::tcpclkit_raw_write_report_reason_text(reason, text, room, written) }
    })
}

/// The name of a block type (RFC 9171 section 9.1), as the lines of `tcpclkit blocks` have it, or
/// `?` for a code without a name.
///
/// ```
/// assert_eq!(tcpclkit::block_type_name(7), "bundle-age");
/// ```
pub fn block_type_name(block_type: u64) -> String {
    name(|text, room, written| {
        // SAFETY: the text has that room, and nothing else is lent.
        unsafe { raw::tcpclkit_raw_write_block_type_text(block_type, text, room, written) }
    })
}

/// The name that a function of the library has for every number.
fn name(call: impl FnOnce(*mut u8, usize, &mut u64) -> u32) -> String {
    text(&mut [0; NAME_ROOM], call).expect("every number has a name")
}

impl Block<&[u8]> {
    /// What the data says, in the words of the line that `tcpclkit blocks` has for the block.
    ///
    /// `primary` is the primary block of the same bundle. The words are empty for the data of a type
    /// that is not read, and for a primary block.
    ///
    /// ```
    /// let hello = std::fs::read("examples/hello.bundle").unwrap();
    /// let age = [0x85, 7, 2, 0, 0, 0x41, 5]; // a block of type 7
    /// let bytes = [&hello[..22], &age, &hello[22..]].concat();
    /// let blocks = tcpclkit::blocks_of(&bytes).collect::<Result<Vec<_>, _>>()?;
    /// assert_eq!(blocks[1].words(&blocks[0]), "age=5");
    /// # Ok::<(), tcpclkit::Fault>(())
    /// ```
    ///
    /// # Panics
    ///
    /// If `primary` is no primary block, or the data ends past 2^64 - 1.
    pub fn words<P>(&self, primary: &Block<P>) -> String {
        let BlockKind::Canonical { data, .. } = self.kind else {
            return String::new();
        };
        let (primary, block) = (primary.numbers(0), self.numbers(data.len() as u64));
        let words = text(&mut [0; WORDS_ROOM], |text, room, written| {
            // SAFETY: the slices and the structs are valid, and do not overlap.
            unsafe {
                raw::tcpclkit_raw_read_block_data(
                    &primary,
                    &block,
                    data.as_ptr(),
                    data.len(),
                    text,
                    room,
                    written,
                )
            }
        });
        words.expect("the blocks of a bundle")
    }
}
