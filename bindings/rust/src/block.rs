//! The blocks of a bundle, one after another.

use crate::bundle::part;
use crate::fault::Fault;
use crate::raw;
use crate::scan::Scan;
use std::iter::FusedIterator;
use std::ops::Range;

/// A whole block of a bundle.
///
/// `P` is what it has of a canonical block's data: the bytes, or their place in the bundle if a
/// [`Scan`] has passed them.
#[derive(Clone, Debug, PartialEq, Eq)]
pub struct Block<P> {
    /// The offsets in the bundle where the block begins and where it ends.
    pub place: Range<u64>,
    /// The flags of the block, or those of the bundle if it is the primary block.
    pub flags: u64,
    /// The type of its check value.
    pub check: CheckType,
    /// Which block it is.
    pub kind: BlockKind<P>,
}

/// The type of a block's check value.
#[derive(Clone, Copy, Debug, PartialEq, Eq, Hash)]
pub enum CheckType {
    /// The block has none.
    None,
    /// CRC-16/X-25, two bytes.
    Crc16,
    /// CRC-32C, four bytes.
    Crc32,
}

/// Which block of its bundle a block is.
#[derive(Clone, Debug, PartialEq, Eq)]
pub enum BlockKind<P> {
    /// The primary block.
    Primary,
    /// A canonical block.
    Canonical {
        /// The block type code. The payload block has 1, and is the last one.
        block_type: u64,
        /// The block number.
        number: u64,
        /// The offset in the bundle where the data begins.
        data_at: u64,
        /// The data.
        data: P,
    },
}

/// The head of a canonical block that is not whole yet.
///
/// [`Scan::block_head`] returns it, and [`write_block_head`](crate::write_block_head) writes it.
#[derive(Clone, Debug, PartialEq, Eq)]
pub struct BlockHead {
    /// The offset in the bundle where the block begins.
    pub offset: u64,
    /// The block type code.
    pub block_type: u64,
    /// The block number.
    pub number: u64,
    /// The flags of the block.
    pub flags: u64,
    /// The type of its check value.
    pub check: CheckType,
    /// The length of its data, as the head gives it.
    pub data_length: u64,
    /// The place in the bundle of the data that is there.
    pub data: Range<u64>,
}

/// The blocks of the bundle that the bytes begin with.
///
/// The first fault ends them. It [is truncated](Fault::is_truncated) if the bytes end inside the
/// bundle.
///
/// ```
/// use tcpclkit::{blocks_of, BlockKind};
/// let bytes = std::fs::read("examples/hello.bundle").unwrap();
/// for block in blocks_of(&bytes) {
///     if let BlockKind::Canonical { block_type: 1, data, .. } = block?.kind {
///         assert_eq!(data, b"hello");
///     }
/// }
/// # Ok::<(), tcpclkit::Fault>(())
/// ```
pub fn blocks_of(bytes: &[u8]) -> Blocks<'_> {
    Blocks {
        bytes,
        taken: 0,
        scan: Some(Scan::new()),
    }
}

/// The iterator that [`blocks_of`] returns.
#[derive(Clone, Debug)]
pub struct Blocks<'a> {
    bytes: &'a [u8],
    taken: usize,
    /// `None` after the last block and after a fault.
    scan: Option<Scan>,
}

impl<'a> Iterator for Blocks<'a> {
    type Item = Result<Block<&'a [u8]>, Fault>;

    fn next(&mut self) -> Option<Self::Item> {
        let scan = self.scan.as_mut()?;
        let (taken, block) = scan.next_block(&self.bytes[self.taken..]);
        self.taken += taken;
        if let Some(block) = block {
            return Some(Ok(block.map_data(|place| part(self.bytes, place))));
        }
        self.scan.take()?.verdict().fault.map(Err)
    }
}

impl FusedIterator for Blocks<'_> {}

impl CheckType {
    /// The type that the library wrote.
    fn of(number: u64) -> CheckType {
        match number {
            raw::CHECK_NONE => CheckType::None,
            raw::CHECK_CRC16 => CheckType::Crc16,
            raw::CHECK_CRC32 => CheckType::Crc32,
            _ => panic!("libtcpclkit returned the unknown check type {number}"),
        }
    }

    /// The number of the type (RFC 9171 section 4.2.1).
    pub(crate) fn number(self) -> u64 {
        match self {
            CheckType::None => raw::CHECK_NONE,
            CheckType::Crc16 => raw::CHECK_CRC16,
            CheckType::Crc32 => raw::CHECK_CRC32,
        }
    }
}

impl BlockHead {
    /// The head that the library wrote.
    pub(crate) fn of(it: &raw::Block) -> BlockHead {
        BlockHead {
            offset: it.offset,
            block_type: it.block_type,
            number: it.number,
            flags: it.flags,
            check: CheckType::of(it.check),
            data_length: it.data_length,
            data: it.data_offset..it.data_offset + it.data_seen,
        }
    }

    /// The head as the library takes it to write it.
    pub(crate) fn numbers(&self) -> raw::Block {
        raw::Block {
            kind: raw::BLOCK_CANONICAL,
            block_type: self.block_type,
            number: self.number,
            flags: self.flags,
            check: self.check.number(),
            data_length: self.data_length,
            ..Default::default()
        }
    }
}

impl<P> Block<P> {
    /// The block as the library takes it, with data of this length.
    pub(crate) fn numbers(&self, data_length: u64) -> raw::Block {
        let primary = raw::Block {
            kind: raw::BLOCK_PRIMARY,
            offset: self.place.start,
            length: self.place.end.saturating_sub(self.place.start),
            flags: self.flags,
            check: self.check.number(),
            ..Default::default()
        };
        match self.kind {
            BlockKind::Primary => primary,
            BlockKind::Canonical {
                block_type,
                number,
                data_at,
                ..
            } => raw::Block {
                kind: raw::BLOCK_CANONICAL,
                block_type,
                number,
                data_offset: data_at,
                data_length,
                data_seen: data_length,
                ..primary
            },
        }
    }
}

impl Block<Range<u64>> {
    /// The block with its data, which a caller of a [`Scan`] has kept.
    ///
    /// A primary block has none, and stays as it is.
    ///
    /// # Panics
    ///
    /// If the data has another length than its place.
    pub fn with_data<'a>(&self, data: &'a [u8]) -> Block<&'a [u8]> {
        self.clone().map_data(|place| {
            let length = place.end - place.start;
            assert_eq!(data.len() as u64, length, "the length of a block's data");
            data
        })
    }

    /// The block that the library wrote, if it is one.
    pub(crate) fn of(it: &raw::Block) -> Option<Block<Range<u64>>> {
        let kind = match it.kind {
            0 => return None,
            raw::BLOCK_PRIMARY => BlockKind::Primary,
            raw::BLOCK_CANONICAL => BlockKind::Canonical {
                block_type: it.block_type,
                number: it.number,
                data_at: it.data_offset,
                data: it.data_offset..it.data_offset + it.data_length,
            },
            kind => panic!("libtcpclkit returned a block of the unknown kind {kind}"),
        };
        Some(Block {
            place: it.offset..it.offset + it.length,
            flags: it.flags,
            check: CheckType::of(it.check),
            kind,
        })
    }

    /// The block with what is made of the place of its data.
    fn map_data<P>(self, data_of: impl FnOnce(Range<u64>) -> P) -> Block<P> {
        Block {
            place: self.place,
            flags: self.flags,
            check: self.check,
            kind: match self.kind {
                BlockKind::Primary => BlockKind::Primary,
                BlockKind::Canonical {
                    block_type,
                    number,
                    data_at,
                    data,
                } => BlockKind::Canonical {
                    block_type,
                    number,
                    data_at,
                    data: data_of(data),
                },
            },
        }
    }
}
