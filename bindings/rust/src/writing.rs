//! Contact headers, extension items and messages, written as the readers read them.

use crate::codes::ITEM_TYPE_TRANSFER_LENGTH;
use crate::raw;
use crate::recording::{Contact, Fields, Item};
use std::fmt;

/// What was to be written has a number or a length that the readers would refuse.
///
/// Nothing was appended.
#[derive(Clone, Copy, Debug, PartialEq, Eq, Hash)]
pub struct OutOfRange;

impl fmt::Display for OutOfRange {
    fn fmt(&self, formatter: &mut fmt::Formatter<'_>) -> fmt::Result {
        formatter.write_str("a number or a length is out of its range")
    }
}

impl std::error::Error for OutOfRange {}

/// The room that a writer gets at first, which is enough for most messages and blocks.
const FIRST_ROOM: usize = 64;

/// Appends what a function of the library writes into a slice that is lent to it.
pub(crate) fn append(
    bytes: &mut Vec<u8>,
    call: impl Fn(*mut u8, usize, &mut raw::Written) -> u32,
) -> Result<(), OutOfRange> {
    let (start, mut room) = (bytes.len(), FIRST_ROOM);
    loop {
        bytes.resize(start + room, 0);
        let slice = &mut bytes[start..];
        let (status, it) = raw::answer(|written| call(slice.as_mut_ptr(), room, written));
        bytes.truncate(start + it.count as usize);
        match status {
            raw::OK => return Ok(()),
            raw::TOO_SMALL => room = it.needed as usize,
            _ => return Err(OutOfRange),
        }
    }
}

/// Appends a contact header of version 4 (RFC 9174 section 4.2).
///
/// ```
/// let mut bytes = vec![];
/// tcpclkit::write_contact(tcpclkit::Contact { flags: 0 }, &mut bytes);
/// assert_eq!(bytes, b"dtn!\x04\x00");
/// ```
pub fn write_contact(contact: Contact, bytes: &mut Vec<u8>) {
    let written = append(bytes, |slice, room, written| {
        // SAFETY: the slice and the struct are valid, and do not overlap.
        unsafe { raw::tcpclkit_raw_write_contact(contact.flags.into(), slice, room, written) }
    });
    written.expect("flags of one byte are in range");
}

/// Appends an extension item (RFC 9174 sections 4.8 and 5.2.5). Its `total` is not read.
///
/// Items one after another are the list of a message, which [`Items`](crate::Items) judges. At most
/// 64 items, of at most 65,536 bytes in all, are one.
///
/// ```
/// use tcpclkit::{write_item, Item, Items, ITEM_CRITICAL};
/// let mut list = vec![];
/// let item = Item { flags: ITEM_CRITICAL, kind: 0x8000, value: b"hello", total: None };
/// write_item(&item, &mut list)?;
/// assert_eq!(Items::of_session(&list)?.next(), Some(item));
/// # Ok::<(), Box<dyn std::error::Error>>(())
/// ```
///
/// # Errors
///
/// The value has more than 65,531 bytes, for which no list has room.
pub fn write_item(item: &Item<'_>, bytes: &mut Vec<u8>) -> Result<(), OutOfRange> {
    append(bytes, |slice, room, written| {
        // SAFETY: the slices and the struct are valid, and do not overlap.
        unsafe {
            raw::tcpclkit_raw_write_item(
                item.flags.into(),
                item.kind.into(),
                item.value.as_ptr(),
                item.value.len(),
                slice,
                room,
                written,
            )
        }
    })
}

/// Appends a Transfer Length item (RFC 9174 section 5.2.5.1), which announces the length of a
/// transfer in the items of its first segment.
///
/// ```
/// use tcpclkit::{write_total, Announced, Items};
/// let mut list = vec![];
/// write_total(0, 34, &mut list);
/// assert_eq!(Items::of_segment(&list)?.announced(), Announced::Total(34));
/// # Ok::<(), Box<dyn std::error::Error>>(())
/// ```
pub fn write_total(flags: u8, total: u64, bytes: &mut Vec<u8>) {
    let (kind, value) = (ITEM_TYPE_TRANSFER_LENGTH, &total.to_be_bytes());
    let item = Item {
        flags,
        kind,
        value,
        total: None,
    };
    write_item(&item, bytes).expect("a value of 8 bytes is in range");
}

/// Appends a message (RFC 9174 sections 4.6, 5.1, 5.2 and 6.1), and of a segment the data that is
/// there.
///
/// The other bytes of a segment's `length` follow as the caller sends them. So one whose `data` is
/// empty is written up to its data.
///
/// ```
/// use tcpclkit::{messages, write_message, Fields, SEGMENT_END, SEGMENT_START};
/// let acknowledged = Fields::Ack { flags: SEGMENT_START | SEGMENT_END, id: 7, length: 5 };
/// let mut bytes = vec![];
/// write_message(&acknowledged, &mut bytes)?;
/// assert_eq!(messages(&bytes, 0).next().unwrap()?.fields, acknowledged);
/// # Ok::<(), Box<dyn std::error::Error>>(())
/// ```
///
/// # Errors
///
/// The node ID has more than 1,024 bytes, a segment without [`SEGMENT_START`] has items, or a
/// segment has more data than its `length`.
///
/// [`SEGMENT_START`]: crate::SEGMENT_START
pub fn write_message(fields: &Fields<'_>, bytes: &mut Vec<u8>) -> Result<(), OutOfRange> {
    let (node, items, data): (&[u8], &[u8], &[u8]) = match fields {
        Fields::SessInit { node, items, .. } => (node, items.list(), &[]),
        Fields::Segment { length, data, .. } if (data.len() as u64) > *length => {
            return Err(OutOfRange)
        }
        Fields::Segment { items, data, .. } => (&[], items.list(), data),
        _ => (&[], &[], &[]),
    };
    let message = fields.numbers();
    append(bytes, |slice, room, written| {
        // SAFETY: the slices and the structs are valid, and do not overlap.
        unsafe {
            raw::tcpclkit_raw_write_message(
                &message,
                node.as_ptr(),
                node.len(),
                items.as_ptr(),
                items.len(),
                slice,
                room,
                written,
            )
        }
    })?;
    bytes.extend(data);
    Ok(())
}
