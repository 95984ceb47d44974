//! Bundles that come in pieces.

use crate::block::{Block, BlockHead};
use crate::bundle::{Bundle, Described, Primary, Verdict};
use crate::fault::Fault;
use crate::raw;
use std::fmt;
use std::ops::Range;

/// A scan of one bundle that comes in pieces of any size.
///
/// It keeps what the heads of the bundle say, and the first 3,257 bytes. So the payload of what it
/// returns is a place: the offsets in the bundle where it begins and where it ends.
///
/// ```
/// let bytes = std::fs::read("examples/hello.bundle").unwrap();
/// let mut scan = tcpclkit::Scan::new();
/// let mut taken = 0;
/// for piece in bytes.chunks(10) {
///     taken += scan.feed(piece);
///     if !scan.verdict().is_truncated() {
///         break;
///     }
/// }
/// let bundle = scan.bundle().unwrap();
/// assert_eq!((taken, bundle.payload), (34, 28..33));
/// ```
#[derive(Clone)]
pub struct Scan {
    /// The library's. A copy of it is a scan that has seen the same bytes.
    memory: Box<[u64; raw::SCAN_WORDS]>,
}

impl Scan {
    /// A scan that has seen no byte.
    pub fn new() -> Scan {
        let mut scan = Scan {
            memory: Box::new([0; raw::SCAN_WORDS]),
        };
        scan.restart();
        scan
    }

    /// Makes the scan new, whatever it has seen.
    pub fn restart(&mut self) {
        raw::answer(|()| {
            // SAFETY: the memory is as large and as aligned as a scan.
            unsafe { raw::tcpclkit_raw_start_scan(self.memory.as_mut_ptr()) }
        });
    }

    /// Takes the bytes of the next piece that belong to the bundle, and returns their number.
    ///
    /// After the end of the bundle and after its first fault, that is 0: [`restart`](Scan::restart)
    /// comes before the next bundle. The verdict is truncated while the bundle goes on.
    ///
    /// # Panics
    ///
    /// If the pieces have 2^63 bytes or more.
    pub fn feed(&mut self, piece: &[u8]) -> usize {
        let (status, taken) = raw::answer(|taken: &mut u64| {
            // SAFETY: the memory has a scan, the slice is valid, and nothing overlaps.
            unsafe {
                raw::tcpclkit_raw_feed_scan(
                    self.memory.as_mut_ptr(),
                    piece.as_ptr(),
                    piece.len(),
                    taken,
                )
            }
        });
        assert_ne!(status, raw::RANGE, "a bundle of 2^63 bytes");
        taken as usize
    }

    /// Takes the bytes of the next piece up to the end of a block, and returns their number and the
    /// block.
    ///
    /// The block is `None` if none ends in the piece. The call then has taken what
    /// [`feed`](Scan::feed) would take.
    ///
    /// # Panics
    ///
    /// If the pieces have 2^63 bytes or more.
    pub fn next_block(&mut self, piece: &[u8]) -> (usize, Option<Block<Range<u64>>>) {
        let mut taken = 0;
        let (status, block) = raw::answer(|block| {
            // SAFETY: the memory has a scan, the slice and the struct are valid, and nothing
            // overlaps.
            unsafe {
                raw::tcpclkit_raw_next_block(
                    self.memory.as_mut_ptr(),
                    piece.as_ptr(),
                    piece.len(),
                    &mut taken,
                    block,
                )
            }
        });
        assert_ne!(status, raw::RANGE, "a bundle of 2^63 bytes");
        (taken as usize, Block::of(&block))
    }

    /// The head of the canonical block that the bytes taken end in: in its data, at the beginning of
    /// its data, or in its check value. It is `None` if they end elsewhere.
    ///
    /// So a block whose data is too long can be refused before the data comes, and the data of any
    /// block can be handed on while it comes.
    ///
    /// ```
    /// let bytes = std::fs::read("examples/hello.bundle").unwrap();
    /// let mut scan = tcpclkit::Scan::new();
    /// scan.feed(&bytes[..30]);
    /// let head = scan.block_head().unwrap();
    /// assert_eq!((head.block_type, head.data_length, head.data), (1, 5, 28..30));
    /// ```
    pub fn block_head(&self) -> Option<BlockHead> {
        let (status, it) = raw::answer(|block| {
            // SAFETY: the memory has a scan, the struct is valid, and they do not overlap.
            unsafe { raw::tcpclkit_raw_judge_block(self.memory.as_ptr(), block) }
        });
        (status == raw::OK).then(|| BlockHead::of(&it))
    }

    /// The verdict on the bytes that were taken.
    ///
    /// A byte that follows the bundle is no fault, since it is not taken: [`end`](Scan::end) counts
    /// it.
    pub fn verdict(&self) -> Verdict<Range<u64>> {
        let (status, it) = raw::answer(|verdict| {
            // SAFETY: the memory has a scan, the struct is valid, and they do not overlap.
            unsafe { raw::tcpclkit_raw_judge_scan(self.memory.as_ptr(), verdict) }
        });
        Verdict::of(status, &it, |place| place)
    }

    /// The verdict on a whole transfer of `length` bytes as one bundle, after its last byte. The
    /// bytes are the ones that were taken, and bytes after them that were not needed.
    ///
    /// If the bundle still needed bytes, the fault is [`BundleCut`](crate::Code::BundleCut). If more
    /// came than the bundle has, it is [`BundleTrailing`](crate::Code::BundleTrailing).
    ///
    /// ```
    /// let bytes = std::fs::read("examples/hello.bundle").unwrap();
    /// let mut scan = tcpclkit::Scan::new();
    /// let mut came = 0;
    /// for piece in [&bytes[..20], &bytes[20..], b"more"] {
    ///     scan.feed(piece);
    ///     came += piece.len() as u64;
    /// }
    /// assert!(scan.verdict().is_good());
    /// let fault = scan.end(came).fault.unwrap();
    /// assert_eq!((fault.code, fault.offset), (tcpclkit::Code::BundleTrailing, 34));
    /// ```
    ///
    /// # Panics
    ///
    /// If more than `length` bytes were taken, or fewer, while the bundle needed more: those that
    /// are missing were not fed.
    pub fn end(&self, length: u64) -> Verdict<Range<u64>> {
        let (status, it) = raw::answer(|verdict| {
            // SAFETY: the memory has a scan, the struct is valid, and they do not overlap.
            unsafe { raw::tcpclkit_raw_end_scan(self.memory.as_ptr(), length, verdict) }
        });
        assert_ne!(status, raw::RANGE, "a transfer that was not all fed");
        Verdict::of(status, &it, |place| place)
    }

    /// The fields of a good bundle, if the bytes that were taken are one.
    ///
    /// # Errors
    ///
    /// The first fault. It [is truncated](Fault::is_truncated) while the bundle goes on.
    pub fn bundle(&self) -> Result<Bundle<Range<u64>>, Fault> {
        self.described().bundle(|place| place)
    }

    /// The fields of the primary block, as far as they were taken and accepted.
    pub fn primary(&self) -> Primary {
        self.described().primary()
    }

    fn described(&self) -> Described {
        Described::by(|[destination, source, report_to], bundle| {
            // SAFETY: the memory has a scan, the slices and the struct are valid, and nothing
            // overlaps.
            unsafe {
                raw::tcpclkit_raw_describe_scan(
                    self.memory.as_ptr(),
                    destination.as_mut_ptr(),
                    destination.len(),
                    source.as_mut_ptr(),
                    source.len(),
                    report_to.as_mut_ptr(),
                    report_to.len(),
                    bundle,
                )
            }
        })
    }
}

impl Default for Scan {
    fn default() -> Scan {
        Scan::new()
    }
}

/// Shows nothing of the bundle.
impl fmt::Debug for Scan {
    fn fmt(&self, f: &mut fmt::Formatter<'_>) -> fmt::Result {
        f.debug_struct("Scan").finish_non_exhaustive()
    }
}
