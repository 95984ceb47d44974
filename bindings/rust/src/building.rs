//! Bundles, written block by block.

use crate::block::{Block, BlockHead, BlockKind, CheckType};
use crate::bundle::{Bundle, EndpointId};
use crate::raw;
use crate::writing::{append, OutOfRange};

/// The first byte of a bundle, before its primary block (RFC 9171 section 4.1).
pub const BUNDLE_FIRST: u8 = raw::BUNDLE_FIRST;

/// The last byte of a bundle, after its payload block.
pub const BUNDLE_LAST: u8 = raw::BUNDLE_LAST;

/// Appends a primary block with its check field (RFC 9171 section 4.3.1).
///
/// A bundle is [`BUNDLE_FIRST`], its primary block, canonical blocks, and [`BUNDLE_LAST`]. The
/// payload block is the last block. It alone has type 1 and number 1, and each other block has a
/// number of its own, at least 2. There are at most 64 canonical blocks.
///
/// The RFC asks for a check value here, unless an integrity block protects the primary block. The
/// `blocks` and the `payload` of the value are not read.
///
/// ```
/// use tcpclkit::{Block, BlockKind, Bundle, CheckType, BUNDLE_FIRST, BUNDLE_LAST};
/// let primary = Bundle {
///     flags: 0,
///     destination: "ipn:2.1".parse()?,
///     source: "dtn://node/a".parse()?,
///     report_to: "dtn:none".parse()?,
///     time: 0,
///     sequence: 1,
///     lifetime: 60_000,
///     fragment: None,
///     blocks: 0,
///     payload: (),
/// };
/// let payload: Block<&[u8]> = Block {
///     place: 0..0,
///     flags: 0,
///     check: CheckType::Crc32,
///     kind: BlockKind::Canonical { block_type: 1, number: 1, data_at: 0, data: b"hello" },
/// };
/// let mut bytes = vec![BUNDLE_FIRST];
/// tcpclkit::write_primary(&primary, CheckType::Crc32, &mut bytes)?;
/// tcpclkit::write_block(&payload, &mut bytes)?;
/// bytes.push(BUNDLE_LAST);
/// let read = tcpclkit::bundle(&bytes)?;
/// assert_eq!((read.source, read.payload), (primary.source, &b"hello"[..]));
/// # Ok::<(), Box<dyn std::error::Error>>(())
/// ```
///
/// # Errors
///
/// The name of an endpoint ID has more than 1,024 bytes, or bit 0x01 of the flags and `fragment` do
/// not both say whether the bundle is a fragment.
pub fn write_primary<P>(
    bundle: &Bundle<P>,
    check: CheckType,
    bytes: &mut Vec<u8>,
) -> Result<(), OutOfRange> {
    let (destination, destination_name) = bundle.destination.lent();
    let (source, source_name) = bundle.source.lent();
    let (report_to, report_to_name) = bundle.report_to.lent();
    let lent = raw::Bundle {
        flags: bundle.flags,
        destination,
        source,
        report_to,
        time: bundle.time,
        sequence: bundle.sequence,
        lifetime: bundle.lifetime,
        is_fragment: bundle.fragment.is_some().into(),
        fragment_offset: bundle.fragment.map_or(0, |it| it.offset),
        fragment_total: bundle.fragment.map_or(0, |it| it.total),
        ..Default::default()
    };
    append(bytes, |slice, room, written| {
        // SAFETY: the slices and the structs are valid, and do not overlap.
        unsafe {
            raw::tcpclkit_raw_write_primary(
                &lent,
                check.number(),
                destination_name.as_ptr(),
                destination_name.len(),
                source_name.as_ptr(),
                source_name.len(),
                report_to_name.as_ptr(),
                report_to_name.len(),
                slice,
                room,
                written,
            )
        }
    })
}

/// Appends a canonical block with its data and its check field (RFC 9171 section 4.3.2).
///
/// The `place` of the block and the `data_at` are not read.
///
/// # Errors
///
/// The block is a primary block, its number is 0, or it has number 1 or type 1, but not both.
pub fn write_block(block: &Block<&[u8]>, bytes: &mut Vec<u8>) -> Result<(), OutOfRange> {
    let BlockKind::Canonical {
        block_type,
        number,
        data,
        ..
    } = block.kind
    else {
        return Err(OutOfRange);
    };
    let head = BlockHead {
        offset: 0,
        block_type,
        number,
        flags: block.flags,
        check: block.check,
        data_length: data.len() as u64,
        data: 0..0,
    };
    let start = bytes.len();
    write_block_head(&head, bytes)?;
    bytes.extend(data);
    let mut check = Check::new(block.check);
    check.feed(&bytes[start..]);
    bytes.extend(check.field());
    Ok(())
}

/// Appends a canonical block up to its data, whose `data_length` bytes follow as the caller sends
/// them.
///
/// The field of a [`Check`] follows the data. The `offset` of the head and the place of its `data`
/// are not read.
///
/// ```
/// use tcpclkit::{write_block_head, BlockHead, Check, CheckType};
/// let mut head = vec![];
/// let check = CheckType::Crc16;
/// let (block_type, number, flags, data_length) = (1, 1, 0, 5);
/// write_block_head(
///     &BlockHead { offset: 0, block_type, number, flags, check, data_length, data: 0..0 },
///     &mut head,
/// )?;
/// let mut sent = head.clone();
/// let mut check = Check::new(check);
/// check.feed(&head);
/// for piece in [b"hel", &b"lo"[..]] {
///     check.feed(piece);
///     sent.extend(piece);
/// }
/// sent.extend(check.field());
/// assert_eq!(sent[..6], [0x86, 1, 1, 0, 1, 0x45]);
/// assert_eq!((sent[11], sent.len()), (0x42, 14));
/// # Ok::<(), tcpclkit::OutOfRange>(())
/// ```
///
/// # Errors
///
/// The number is 0, or the block has number 1 or type 1, but not both.
pub fn write_block_head(head: &BlockHead, bytes: &mut Vec<u8>) -> Result<(), OutOfRange> {
    let lent = head.numbers();
    append(bytes, |slice, room, written| {
        // SAFETY: the slice and the structs are valid, and do not overlap.
        unsafe { raw::tcpclkit_raw_write_block_head(&lent, slice, room, written) }
    })
}

/// The check value of bytes that come in pieces of any size (RFC 9171 section 4.2.1).
///
/// ```
/// use tcpclkit::{Check, CheckType};
/// let mut check = Check::new(CheckType::Crc32);
/// check.feed(b"1234");
/// check.feed(b"56789");
/// assert_eq!(check.value(), Some(0xe306_9283));
/// ```
#[derive(Clone, Copy, Debug, PartialEq, Eq)]
pub struct Check(Option<raw::Crc>);

impl Check {
    /// A check to which no byte was fed. One of [`CheckType::None`] has no value and an empty
    /// field.
    pub fn new(kind: CheckType) -> Check {
        let (status, check) = raw::answer(|check: &mut raw::Crc| {
            // SAFETY: the struct is valid.
            unsafe { raw::tcpclkit_raw_start_check(check, kind.number()) }
        });
        Check((status == raw::OK).then_some(check))
    }

    /// Feeds a piece. Of a block, the head is the first piece, and then comes the data.
    pub fn feed(&mut self, piece: &[u8]) {
        if let Some(check) = &mut self.0 {
            raw::answer(|()| {
                // SAFETY: the slice and the struct are valid, and do not overlap.
                unsafe { raw::tcpclkit_raw_feed_check(check, piece.as_ptr(), piece.len()) }
            });
        }
    }

    /// The check value of the bytes that were fed.
    ///
    /// A block has another, over zeros in place of the field too: that of [`field`](Check::field).
    pub fn value(&self) -> Option<u32> {
        let check = self.0?;
        let (_, value) = raw::answer(|value: &mut u64| {
            // SAFETY: the structs are valid, and do not overlap.
            unsafe { raw::tcpclkit_raw_end_check(&check, value) }
        });
        Some(value as u32)
    }

    /// The check field of a block whose head and data were fed (RFC 9171 section 4.2.2).
    pub fn field(&self) -> Vec<u8> {
        let mut bytes = vec![];
        if let Some(check) = self.0 {
            let written = append(&mut bytes, |slice, room, written| {
                // SAFETY: the slice and the structs are valid, and do not overlap.
                unsafe { raw::tcpclkit_raw_write_check(&check, slice, room, written) }
            });
            written.expect("the numbers of a check are in range");
        }
        bytes
    }
}

/// Appends an endpoint ID in CBOR (RFC 9171 section 4.2.5.1). It is also the data of a previous
/// node block (section 4.4.1).
///
/// # Errors
///
/// The name has more than 1,024 bytes.
pub fn write_eid(eid: &EndpointId, bytes: &mut Vec<u8>) -> Result<(), OutOfRange> {
    let (lent, name) = eid.lent();
    append(bytes, |slice, room, written| {
        // SAFETY: the slices and the structs are valid, and do not overlap.
        unsafe {
            raw::tcpclkit_raw_write_eid(&lent, name.as_ptr(), name.len(), slice, room, written)
        }
    })
}

/// Appends the data of a bundle age block, in milliseconds (RFC 9171 section 4.4.2).
pub fn write_age(age: u64, bytes: &mut Vec<u8>) {
    let written = append(bytes, |slice, room, written| {
        // SAFETY: the slice and the struct are valid, and do not overlap.
        unsafe { raw::tcpclkit_raw_write_age(age, slice, room, written) }
    });
    written.expect("every age is in range");
}

/// Appends the data of a hop count block: the hop limit and the hop count (RFC 9171 section 4.4.3).
///
/// The RFC asks for a limit from 1 to 255, and this call for none.
pub fn write_hop_count(limit: u64, count: u64, bytes: &mut Vec<u8>) {
    let written = append(bytes, |slice, room, written| {
        // SAFETY: the slice and the struct are valid, and do not overlap.
        unsafe { raw::tcpclkit_raw_write_hop_count(limit, count, slice, room, written) }
    });
    written.expect("every limit and every count is in range");
}
