//! Recordings: the contact header, the messages after it, and their extension items.

use crate::fault::{Code, Fault};
use crate::raw;

/// The length of a contact header. The first message begins there.
pub const CONTACT_LENGTH: usize = 6;

/// The greatest length of a message without its data. A buffer of that size holds every head.
pub const HEAD_LIMIT: usize = 66585;

/// The flag of the last segment of a transfer.
pub const SEGMENT_END: u8 = 1;

/// The flag of the first segment of a transfer.
pub const SEGMENT_START: u8 = 2;

/// A contact header of version 4.
#[derive(Clone, Copy, Debug, PartialEq, Eq, Hash)]
pub struct Contact {
    /// The flags.
    pub flags: u8,
}

/// A message, where it begins, and where it ends.
#[derive(Clone, Debug, PartialEq, Eq)]
pub struct Message<'a> {
    /// The offset of its type byte.
    pub offset: usize,
    /// Where its head ends, and the data of a segment begins.
    pub head_end: usize,
    /// What it says.
    pub fields: Fields<'a>,
}

/// What a message says.
#[derive(Clone, Debug, PartialEq, Eq)]
pub enum Fields<'a> {
    /// XFER_SEGMENT.
    Segment {
        /// [`SEGMENT_END`], [`SEGMENT_START`] and reserved flags.
        flags: u8,
        /// The transfer.
        id: u64,
        /// The extension items; none without [`SEGMENT_START`].
        items: Items<'a>,
        /// The length of the data by the head.
        length: u64,
        /// The data that is there. It is shorter than `length` if the recording ends inside it.
        data: &'a [u8],
    },
    /// XFER_ACK.
    Ack {
        /// The flags of the segment that is acknowledged.
        flags: u8,
        /// The transfer.
        id: u64,
        /// The number of bytes that are acknowledged.
        length: u64,
    },
    /// XFER_REFUSE.
    Refuse {
        /// The reason.
        reason: u8,
        /// The transfer.
        id: u64,
    },
    /// KEEPALIVE.
    Keepalive,
    /// SESS_TERM.
    SessTerm {
        /// The flags.
        flags: u8,
        /// The reason.
        reason: u8,
    },
    /// MSG_REJECT.
    Reject {
        /// The reason.
        reason: u8,
        /// The type byte of the rejected message.
        header: u8,
    },
    /// SESS_INIT.
    SessInit {
        /// The keepalive interval, in seconds.
        keepalive: u16,
        /// The longest data of a segment that the sender receives.
        segment_mru: u64,
        /// The longest transfer that the sender receives.
        transfer_mru: u64,
        /// The node ID.
        node: &'a [u8],
        /// The extension items.
        items: Items<'a>,
    },
}

/// An extension item.
#[derive(Clone, Copy, Debug, PartialEq, Eq, Hash)]
pub struct Item<'a> {
    /// The flags.
    pub flags: u8,
    /// The type.
    pub kind: u16,
    /// The value.
    pub value: &'a [u8],
    /// The length of the whole transfer that an item of a segment announces: its value, if the
    /// type is 1 and the value has 8 bytes.
    pub total: Option<u64>,
}

/// What the items of a transfer's first segment announce.
#[derive(Clone, Copy, Debug, PartialEq, Eq, Hash)]
pub enum Announced {
    /// No length.
    Nothing,
    /// The length of the whole transfer.
    Total(u64),
    /// More than one length, or an item of type 1 whose value has not 8 bytes.
    Badly,
}

/// The messages of a recording, in order.
///
/// The first fault ends the iteration. If the recording ends inside the data of a segment, the
/// segment comes with the data that is there, and then the fault.
#[derive(Clone, Debug, PartialEq, Eq)]
pub struct Messages<'a> {
    bytes: &'a [u8],
    state: State,
}

/// Where the iteration over messages is.
#[derive(Clone, Debug, PartialEq, Eq)]
enum State {
    /// A message is read next, at this offset.
    At(usize),
    /// The data of the last segment is cut. Its fault is next.
    Cut(Fault),
    Ended,
}

/// The extension items of a message, in order. The default is none.
#[derive(Clone, Debug, PartialEq, Eq)]
pub struct Items<'a> {
    bytes: &'a [u8],
    /// The kind of the message.
    kind: u64,
    offset: usize,
}

/// How many items a message has at most.
const ITEM_LIMIT: usize = 64;

/// Reads the contact header that a recording begins with.
///
/// # Errors
///
/// The fault, which [is truncated](Fault::is_truncated) if there are fewer than six bytes.
pub fn contact(bytes: &[u8]) -> Result<Contact, Fault> {
    let (status, contact) = raw::answer(|contact: &mut raw::Contact| {
        // SAFETY: the slice and the struct are valid, and do not overlap.
        unsafe { raw::tcpclkit_raw_read_contact(bytes.as_ptr(), bytes.len(), contact) }
    });
    match status {
        raw::OK => Ok(Contact {
            flags: contact.flags as u8,
        }),
        _ => Err(Fault::of(contact.fault)),
    }
}

/// The messages of a recording, from the one that begins at `offset`.
///
/// Those of a whole recording begin at [`CONTACT_LENGTH`]. The offsets of messages and faults are
/// offsets in `bytes`. There are no messages at an offset past the end.
pub fn messages(bytes: &[u8], offset: usize) -> Messages<'_> {
    Messages {
        bytes,
        state: State::At(offset),
    }
}

impl<'a> Iterator for Messages<'a> {
    type Item = Result<Message<'a>, Fault>;

    fn next(&mut self) -> Option<Self::Item> {
        match std::mem::replace(&mut self.state, State::Ended) {
            State::At(offset) => self.read(offset),
            State::Cut(fault) => Some(Err(fault)),
            State::Ended => None,
        }
    }
}

impl<'a> Messages<'a> {
    /// Reads the message at an offset, and sets the state to what comes after it.
    fn read(&mut self, offset: usize) -> Option<Result<Message<'a>, Fault>> {
        let (status, it) = raw::answer(|it: &mut raw::Message| {
            let (start, length) = (self.bytes.as_ptr(), self.bytes.len());
            // SAFETY: the slice and the struct are valid, and do not overlap.
            unsafe { raw::tcpclkit_raw_read_message(start, length, offset as u64, it) }
        });
        match status {
            raw::OK => self.state = State::At(it.next as usize),
            raw::DATA_TRUNCATED => self.state = State::Cut(Fault::of(it.fault)),
            raw::TRUNCATED | raw::FAULT => return Some(Err(Fault::of(it.fault))),
            _ => return None, // the end, or an offset past it
        }
        Some(Ok(Message::of(self.bytes, offset, &it)))
    }
}

/// The part of the bytes at an offset.
fn part(bytes: &[u8], offset: u64, length: u64) -> &[u8] {
    &bytes[offset as usize..(offset + length) as usize]
}

/// The items of a message.
fn items<'a>(bytes: &'a [u8], it: &raw::Message) -> Items<'a> {
    Items {
        bytes: part(bytes, it.items_offset, it.items_length),
        kind: it.kind,
        offset: 0,
    }
}

/// The fields of a segment.
fn segment<'a>(bytes: &'a [u8], it: &raw::Message) -> Fields<'a> {
    let flags = it.flags as u8;
    let has_items = flags & SEGMENT_START != 0;
    Fields::Segment {
        flags,
        id: it.id,
        items: if has_items {
            items(bytes, it)
        } else {
            Items::default()
        },
        length: it.data_length,
        data: part(bytes, it.data_offset, it.data_seen),
    }
}

/// The fields of a SESS_INIT.
fn session<'a>(bytes: &'a [u8], it: &raw::Message) -> Fields<'a> {
    Fields::SessInit {
        keepalive: it.keepalive as u16,
        segment_mru: it.segment_mru,
        transfer_mru: it.transfer_mru,
        node: part(bytes, it.node_offset, it.node_length),
        items: items(bytes, it),
    }
}

impl<'a> Message<'a> {
    /// The message that the library wrote of these bytes.
    fn of(bytes: &'a [u8], offset: usize, it: &raw::Message) -> Message<'a> {
        let (flags, reason, header) = (it.flags as u8, it.reason as u8, it.header as u8);
        let (id, length) = (it.id, it.acknowledged);
        let fields = match it.kind {
            raw::XFER_SEGMENT => segment(bytes, it),
            raw::XFER_ACK => Fields::Ack { flags, id, length },
            raw::XFER_REFUSE => Fields::Refuse { reason, id },
            raw::KEEPALIVE => Fields::Keepalive,
            raw::SESS_TERM => Fields::SessTerm { flags, reason },
            raw::MSG_REJECT => Fields::Reject { reason, header },
            raw::SESS_INIT => session(bytes, it),
            kind => panic!("libtcpclkit returned a message of the unknown kind {kind}"),
        };
        let head_end = it.data_offset as usize;
        Message {
            offset,
            head_end,
            fields,
        }
    }

    /// Whether the recording ends inside the data of this segment.
    pub fn is_cut(&self) -> bool {
        match self.fields {
            Fields::Segment { length, data, .. } => (data.len() as u64) < length,
            _ => false,
        }
    }
}

impl Fields<'_> {
    /// The numbers of the message as the library takes them.
    pub(crate) fn numbers(&self) -> raw::Message {
        let of = |kind| raw::Message {
            kind,
            ..Default::default()
        };
        match *self {
            Fields::Segment {
                flags, id, length, ..
            } => raw::Message {
                flags: flags.into(),
                id,
                data_length: length,
                ..of(raw::XFER_SEGMENT)
            },
            Fields::Ack { flags, id, length } => raw::Message {
                flags: flags.into(),
                id,
                acknowledged: length,
                ..of(raw::XFER_ACK)
            },
            Fields::Refuse { reason, id } => raw::Message {
                reason: reason.into(),
                id,
                ..of(raw::XFER_REFUSE)
            },
            Fields::Keepalive => of(raw::KEEPALIVE),
            Fields::SessTerm { flags, reason } => raw::Message {
                flags: flags.into(),
                reason: reason.into(),
                ..of(raw::SESS_TERM)
            },
            Fields::Reject { reason, header } => raw::Message {
                reason: reason.into(),
                header: header.into(),
                ..of(raw::MSG_REJECT)
            },
            Fields::SessInit {
                keepalive,
                segment_mru,
                transfer_mru,
                ..
            } => raw::Message {
                keepalive: keepalive.into(),
                segment_mru,
                transfer_mru,
                ..of(raw::SESS_INIT)
            },
        }
    }
}

impl<'a> Items<'a> {
    /// The items of a list, as a segment that begins a transfer has it.
    ///
    /// # Errors
    ///
    /// The fault that a message with this list has. Its offset is 0.
    pub fn of_segment(list: &'a [u8]) -> Result<Items<'a>, Fault> {
        Items::judged(list, raw::XFER_SEGMENT)
    }

    /// The items of a list, as a SESS_INIT has it. None of them announces a length.
    ///
    /// # Errors
    ///
    /// The fault that a message with this list has. Its offset is 0.
    pub fn of_session(list: &'a [u8]) -> Result<Items<'a>, Fault> {
        Items::judged(list, raw::SESS_INIT)
    }

    /// The length of the transfer that the items announce, wherever the iteration is.
    ///
    /// The items of a SESS_INIT announce none.
    ///
    /// ```
    /// use tcpclkit::{Announced, Items};
    /// let list = [1, 0, 1, 0, 8, 0, 0, 0, 0, 0, 0, 0, 34];
    /// let items = Items::of_segment(&list)?;
    /// assert_eq!(items.announced(), Announced::Total(34));
    /// assert_eq!(Items::default().announced(), Announced::Nothing);
    /// # Ok::<(), tcpclkit::Fault>(())
    /// ```
    pub fn announced(&self) -> Announced {
        if self.kind != raw::XFER_SEGMENT {
            return Announced::Nothing;
        }
        let (start, length) = (self.bytes.as_ptr(), self.bytes.len());
        let message = self.message();
        let (status, it) = raw::answer(|it: &mut raw::Announced| {
            // SAFETY: the slice and the structs are valid, and do not overlap.
            unsafe { raw::tcpclkit_raw_read_announced(start, length, &message, it) }
        });
        match it.kind {
            _ if status != raw::OK => panic!("the list of a message has the status {status}"),
            raw::ANNOUNCED_NONE => Announced::Nothing,
            raw::ANNOUNCED_TOTAL => Announced::Total(it.total),
            _ => Announced::Badly,
        }
    }

    /// The list, wherever the iteration is.
    pub(crate) fn list(&self) -> &'a [u8] {
        self.bytes
    }

    /// The message whose list this is, as far as its list is read.
    fn message(&self) -> raw::Message {
        raw::Message {
            kind: self.kind,
            items_length: self.bytes.len() as u64,
            ..Default::default()
        }
    }

    /// Judges the list of a message of this kind.
    fn judged(list: &'a [u8], kind: u64) -> Result<Items<'a>, Fault> {
        let items = Items {
            bytes: list,
            kind,
            offset: 0,
        };
        let mut rest = items.clone();
        let count = rest.by_ref().count();
        let (code, number) = match rest.read().0 {
            raw::RANGE => (Code::WireListTooLong, list.len() as u64),
            _ if count > ITEM_LIMIT => (Code::WireTooManyItems, 0),
            raw::END => return Ok(items),
            _ => (Code::WireItemsOverrun, 0),
        };
        Err(Fault {
            code,
            number,
            offset: 0,
        })
    }

    /// Reads the next item, without passing it.
    fn read(&self) -> (u32, raw::Item) {
        let (start, length, offset) = (self.bytes.as_ptr(), self.bytes.len(), self.offset as u64);
        let message = self.message();
        raw::answer(|it: &mut raw::Item| {
            // SAFETY: the slice and the structs are valid, and do not overlap.
            unsafe { raw::tcpclkit_raw_read_item(start, length, &message, offset, it) }
        })
    }
}

impl Default for Items<'_> {
    fn default() -> Self {
        Items {
            bytes: &[],
            kind: raw::XFER_SEGMENT,
            offset: 0,
        }
    }
}

impl<'a> Iterator for Items<'a> {
    type Item = Item<'a>;

    fn next(&mut self) -> Option<Item<'a>> {
        let (status, it) = self.read();
        if status != raw::OK {
            return None; // the end: the list was judged before
        }
        self.offset = it.next as usize;
        let value = it.value_offset as usize..(it.value_offset + it.value_length) as usize;
        Some(Item {
            flags: it.flags as u8,
            kind: it.item_type as u16,
            value: &self.bytes[value],
            total: (it.has_total == 1 && self.kind == raw::XFER_SEGMENT).then_some(it.total),
        })
    }
}
