//! Faults: why bytes are refused, and where.

use crate::raw;

/// Declares the codes of faults, with the numbers that the library has for them.
macro_rules! codes {
    ($($(#[$doc:meta])* $name:ident = $number:literal,)*) => {
        /// What is wrong. `docs/FORMATS.md` has the rule that each one breaks.
        #[derive(Clone, Copy, Debug, PartialEq, Eq, Hash)]
        #[non_exhaustive]
        #[repr(u64)]
        pub enum Code { $($(#[$doc])* $name = $number,)* }

        impl Code {
            /// The code with this number.
            pub(crate) fn of(number: u64) -> Code {
                match number {
                    $($number => Code::$name,)*
                    _ => panic!("libtcpclkit returned the unknown code {number}"),
                }
            }
        }
    };
}

codes! {
    /// The recording ends inside the contact header, a head or the data of a segment.
    WireTruncated = 1,
    /// The six bytes of the contact header do not begin with `dtn!`.
    WireBadMagic = 2,
    /// The version is not 4. The number is the version.
    WireBadVersion = 3,
    /// No message has this type byte, which is the number.
    WireUnknownType = 4,
    /// The node ID is longer than 1,024 bytes. The number is its length.
    WireNodeIdTooLong = 5,
    /// The extension list is longer than 65,536 bytes. The number is its length.
    WireListTooLong = 6,
    /// An extension list has more than 64 items.
    WireTooManyItems = 7,
    /// An extension item goes past the end of its list.
    WireItemsOverrun = 8,
    /// A SESS_INIT after a SESS_INIT.
    OrderSecondSessInit = 51,
    /// A segment with no SESS_INIT before it.
    OrderSegmentBeforeSessInit = 52,
    /// A segment without START whose transfer is not open.
    OrderNoSuchOpenTransfer = 53,
    /// A START whose transfer is open.
    OrderStartRepeatsOpenId = 54,
    /// A START after a SESS_TERM.
    OrderStartAfterSessTerm = 55,
    /// An answer that has the ID of another transfer.
    AnswerOtherTransfer = 71,
    /// An XFER_ACK of less than an XFER_ACK before it.
    AnswerLengthFalls = 72,
    /// An XFER_ACK of more than was sent.
    AnswerLengthNotSent = 73,
    /// An XFER_ACK with END that does not acknowledge the whole transfer.
    AnswerEndTooEarly = 74,
    /// B1: the bytes end inside the bundle.
    BundleCut = 101,
    /// B2: a byte follows the bundle.
    BundleTrailing = 102,
    /// B3: the first byte begins no bundle.
    BundleNotABundle = 103,
    /// B4: a head is ill-formed.
    BundleBadHead = 104,
    /// B5: an item of another kind belongs here.
    BundleWrongKind = 105,
    /// B6: an array has another number of elements.
    BundleBadCount = 106,
    /// B7: the version is not 7.
    BundleBadVersion = 107,
    /// B8: the check type is unknown.
    BundleBadCheckType = 108,
    /// B9: the scheme of an endpoint ID is unknown.
    BundleBadScheme = 109,
    /// B10: an endpoint ID does not fit its scheme.
    BundleBadSpecificPart = 110,
    /// B11: the name of an endpoint ID is longer than 1,024 bytes.
    BundleEidTooLong = 111,
    /// B12: a check field has another length than its type.
    BundleBadCheckLength = 112,
    /// B13: a check differs.
    BundleCheckDiffers = 113,
    /// B14: a block has a wrong number.
    BundleBadBlockNumber = 114,
    /// B15: two blocks have one number.
    BundleRepeatedBlockNumber = 115,
    /// B16: there are more than 64 canonical blocks.
    BundleTooManyBlocks = 116,
    /// B17: the last block is no payload block.
    BundleNoPayloadLast = 117,
}

/// The first fault of some bytes, or of a message.
#[derive(Clone, Copy, Debug, PartialEq, Eq, Hash)]
pub struct Fault {
    /// What is wrong.
    pub code: Code,
    /// The number that the code is about, or 0.
    pub number: u64,
    /// Of a bundle: where the fault is. Of a recording: where the message with the fault begins.
    pub offset: u64,
}

impl Fault {
    /// The fault that the library wrote.
    pub(crate) fn of(raw: raw::Fault) -> Fault {
        Fault {
            code: Code::of(raw.code),
            number: raw.number,
            offset: raw.offset,
        }
    }

    /// Whether the bytes are cut, so that more bytes may complete them.
    pub fn is_truncated(&self) -> bool {
        matches!(self.code, Code::WireTruncated | Code::BundleCut)
    }
}
