//! The order of a session's messages.

use crate::fault::{Code, Fault};
use crate::raw;
use crate::recording::Message;

/// Which messages of one side of a session have come so far. It judges the next one of this side.
///
/// A node may also judge what it is about to send. Of such a message, the order looks only at the
/// kind, the flags and the transfer, and a fault has its `offset`.
///
/// ```
/// use tcpclkit::{Fields, Items, Message, Order, SEGMENT_START};
/// let (flags, id, items, data) = (SEGMENT_START, 0, Items::default(), b"hello");
/// let fields = Fields::Segment { flags, id, items, length: 5, data };
/// let segment = Message { offset: 0, head_end: 22, fields };
/// assert!(Order::new().judge(&segment).is_err()); // A SESS_INIT has to come before it.
/// ```
#[derive(Clone, Copy, Debug, Default, PartialEq, Eq)]
pub struct Order(raw::Order);

/// What an accepted message does to the transfers of its session.
#[derive(Clone, Copy, Debug, PartialEq, Eq, Hash)]
pub enum Turn {
    /// Nothing: it is no segment.
    Other,
    /// It begins a transfer.
    Begin {
        /// Whether it is the last segment of the transfer, too.
        last: bool,
        /// The transfer that was open until then, and stays without an end.
        abandoned: Option<u64>,
    },
    /// It goes on with the open transfer.
    Continue {
        /// Whether it is the last segment of the transfer.
        last: bool,
    },
}

/// A message that was taken, whether or not it may come.
#[derive(Clone, Copy, Debug, PartialEq, Eq, Hash)]
pub struct Taken {
    /// Why it may not come, or `None` if it may.
    pub fault: Option<Fault>,
    /// What it does all the same, or `None` for a stray segment: a further segment of no open
    /// transfer, whose data belongs nowhere.
    pub turn: Option<Turn>,
}

/// A function of the library that judges or takes a message.
type Judge = unsafe extern "C" fn(*mut raw::Order, *const raw::Message, *mut raw::Turn) -> u32;

impl Order {
    /// The order of a session before its first message.
    pub fn new() -> Order {
        Order::default()
    }

    /// Judges whether a message may come now, and if so counts it among those that came.
    ///
    /// # Errors
    ///
    /// The fault, if it may not. The order is then as it was.
    pub fn judge(&mut self, message: &Message<'_>) -> Result<Turn, Fault> {
        let taken = self.call(raw::tcpclkit_raw_judge_message, message);
        match taken.fault {
            Some(fault) => Err(fault),
            None => Ok(taken.turn.expect("a message that may come is not stray")),
        }
    }

    /// Takes a message whether or not it may come now, as `unpack --keep-going` does.
    pub fn take(&mut self, message: &Message<'_>) -> Taken {
        self.call(raw::tcpclkit_raw_take_message, message)
    }

    /// Hands a message to a function of the library.
    fn call(&mut self, function: Judge, message: &Message<'_>) -> Taken {
        let numbers = message.fields.numbers();
        let (status, it) = raw::answer(|turn: &mut raw::Turn| {
            // SAFETY: the structs are valid, and do not overlap.
            unsafe { function(&mut self.0, &numbers, turn) }
        });
        Taken {
            fault: (status != raw::OK).then(|| Fault {
                code: Code::of(it.fault),
                number: 0,
                offset: message.offset as u64,
            }),
            turn: turn(&it),
        }
    }
}

/// What the library wrote that a message does, or `None` for a stray segment.
fn turn(it: &raw::Turn) -> Option<Turn> {
    let last = it.last == 1;
    match it.turn {
        raw::TURN_BEGIN => Some(Turn::Begin {
            last,
            abandoned: (it.abandons == 1).then_some(it.abandoned),
        }),
        raw::TURN_CONTINUE => Some(Turn::Continue { last }),
        raw::TURN_STRAY => None,
        _ => Some(Turn::Other),
    }
}
