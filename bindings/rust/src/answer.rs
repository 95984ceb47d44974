//! The peer's answers to a transfer.

use crate::fault::{Code, Fault};
use crate::raw;
use crate::recording::Message;

/// What was sent of one transfer, and how much of it was acknowledged (RFC 9174 sections 5.2.3 and
/// 5.2.4).
///
/// After each segment the caller adds the length of its data to `length`, and after the last one,
/// which has END, sets `whole`.
///
/// ```
/// use tcpclkit::{messages, write_message, Code, Fields, Sent};
/// let mut sent = Sent::new(7);
/// sent.length += 5;
/// let mut answers = vec![];
/// for length in [5, 6] {
///     write_message(&Fields::Ack { flags: 0, id: 7, length }, &mut answers)?;
/// }
/// let mut answers = messages(&answers, 0);
/// sent.judge(&answers.next().unwrap()?)?;
/// assert_eq!(sent.acknowledged, 5);
/// let fault = sent.judge(&answers.next().unwrap()?).unwrap_err();
/// assert_eq!(fault.code, Code::AnswerLengthNotSent);
/// # Ok::<(), Box<dyn std::error::Error>>(())
/// ```
#[derive(Clone, Copy, Debug, PartialEq, Eq, Hash)]
pub struct Sent {
    /// The transfer.
    pub id: u64,
    /// How many bytes of data were sent in its segments.
    pub length: u64,
    /// Whether its last segment was sent.
    pub whole: bool,
    /// The length in the last XFER_ACK that was accepted, or 0.
    pub acknowledged: u64,
}

impl Sent {
    /// A transfer of which nothing was sent.
    pub fn new(id: u64) -> Sent {
        Sent {
            id,
            length: 0,
            whole: false,
            acknowledged: 0,
        }
    }

    /// Judges an XFER_ACK or an XFER_REFUSE of the peer, and keeps the length in an XFER_ACK.
    ///
    /// It has the ID of the transfer. An XFER_ACK acknowledges no less than the one before it, and
    /// no more than was sent; with END it acknowledges the whole transfer.
    ///
    /// # Errors
    ///
    /// The fault, if one of these does not hold. Its offset is that of the message, and nothing
    /// changes.
    ///
    /// # Panics
    ///
    /// If the message is another one.
    pub fn judge(&mut self, message: &Message<'_>) -> Result<(), Fault> {
        let answer = message.fields.numbers();
        let mut sent = raw::Sent {
            id: self.id,
            length: self.length,
            whole: self.whole.into(),
            acknowledged: self.acknowledged,
            fault: 0,
        };
        let (status, ()) = raw::answer(|()| {
            // SAFETY: the structs are valid, and do not overlap.
            unsafe { raw::tcpclkit_raw_judge_answer(&mut sent, &answer) }
        });
        self.acknowledged = sent.acknowledged;
        match status {
            raw::OK => Ok(()),
            raw::FAULT => Err(Fault {
                code: Code::of(sent.fault),
                number: 0,
                offset: message.offset as u64,
            }),
            _ => panic!("the message is neither an XFER_ACK nor an XFER_REFUSE"),
        }
    }
}
