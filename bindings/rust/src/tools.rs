//! The tools of the program, over slices.

use crate::raw;
use std::fmt;

/// What a run of a tool wrote, and how it ended.
#[derive(Clone, Debug, PartialEq, Eq)]
pub struct Run {
    /// What the program writes on standard output.
    pub output: Vec<u8>,
    /// What the program writes on standard error.
    pub report: Vec<u8>,
    /// The exit status of the program: 0, 1 or 3.
    pub exit_status: u8,
}

/// Which data `unpack` writes, and where it ends. The default is all data, up to the first fault.
#[derive(Clone, Copy, Debug, Default, PartialEq, Eq)]
pub struct UnpackOptions {
    /// Only the transfers with this ID.
    pub transfer: Option<u64>,
    /// Of each transfer only the payload of its bundle.
    pub payload: bool,
    /// Whether the run goes on after a fault of the order of messages.
    pub keep_going: bool,
}

/// Which blocks `blocks` shows, and where it ends. The default is all blocks of a recording, up to
/// the first fault.
#[derive(Clone, Copy, Debug, Default, PartialEq, Eq)]
pub struct BlocksOptions {
    /// Only the transfers with this ID.
    pub transfer: Option<u64>,
    /// Whether the run goes on after a fault of the order of messages.
    pub keep_going: bool,
    /// Whether the bytes are bundles, one after another, and no recording. The other options are
    /// then not set.
    pub bundles: bool,
}

/// What `check` judges, and of what. The default is every rule of a recording that needs no limit
/// of the peer.
#[derive(Clone, Copy, Debug, Default, PartialEq, Eq)]
pub struct CheckOptions {
    /// Whether only the rules of level `must` have a line, and count.
    pub must: bool,
    /// The longest data of a segment that the peer receives, if it is known: at least 1.
    pub peer_segment: Option<u64>,
    /// The longest transfer that the peer receives, if it is known.
    pub peer_transfer: Option<u64>,
    /// Whether the bytes are bundles, one after another, and no recording. The limits of the peer
    /// are then not set.
    pub bundles: bool,
}

/// What the stream of `pack` says. `docs/MANUAL.md` has each option.
#[derive(Clone, Copy, Debug, PartialEq, Eq)]
pub struct PackOptions {
    /// The keepalive interval, in seconds.
    pub keepalive: u16,
    /// The longest data of a segment that the sender receives.
    pub segment_mru: u64,
    /// The longest transfer that the sender receives.
    pub transfer_mru: u64,
    /// The longest data of a segment that the peer receives: at least 1.
    pub peer_segment: u64,
    /// The longest transfer that the peer receives.
    pub peer_transfer: u64,
    /// The length up to which a bundle's length is announced: at most 1,048,576.
    pub announce: u64,
    /// Whether a SESS_TERM ends the stream.
    pub send_term: bool,
}

impl Default for PackOptions {
    /// The defaults of the program.
    fn default() -> PackOptions {
        PackOptions {
            keepalive: 60,
            segment_mru: 65536,
            transfer_mru: 1048576,
            peer_segment: 65536,
            peer_transfer: u64::MAX,
            announce: 0,
            send_term: false,
        }
    }
}

/// What [`pack_more`] writes. The fields are those of [`PackOptions`], and `first`.
#[derive(Clone, Copy, Debug, PartialEq, Eq)]
pub struct MoreOptions {
    /// The ID of the first transfer. Each bundle has the next one.
    pub first: u64,
    /// The longest data of a segment that the peer receives: at least 1.
    pub peer_segment: u64,
    /// The longest transfer that the peer receives.
    pub peer_transfer: u64,
    /// The length up to which a bundle's length is announced: at most 1,048,576.
    pub announce: u64,
}

impl Default for MoreOptions {
    /// The ID 0, and the defaults of the program.
    fn default() -> MoreOptions {
        let PackOptions {
            peer_segment,
            peer_transfer,
            announce,
            ..
        } = PackOptions::default();
        MoreOptions {
            first: 0,
            peer_segment,
            peer_transfer,
            announce,
        }
    }
}

/// Why a tool did not run to its end.
#[derive(Clone, Copy, Debug, PartialEq, Eq, Hash)]
pub enum ToolError {
    /// An option of `pack`, `pack_more` or `check` or the length of a node ID is out of its range,
    /// or `blocks` or `check` was given an option for recordings beside `bundles`.
    Range,
    /// The memory that the tool asked for was refused.
    Memory,
}

impl fmt::Display for ToolError {
    fn fmt(&self, formatter: &mut fmt::Formatter<'_>) -> fmt::Result {
        formatter.write_str(match self {
            ToolError::Range => "an option is out of its range",
            ToolError::Memory => "out of memory",
        })
    }
}

impl std::error::Error for ToolError {}

/// A text of a run: whether it is wanted, and the slice for it.
struct Text {
    wants: u64,
    start: *mut u8,
    room: usize,
}

impl Text {
    /// Lends a slice for a text that is wanted.
    fn lent(text: &mut [u8]) -> Text {
        Text {
            wants: 1,
            start: text.as_mut_ptr(),
            room: text.len(),
        }
    }
}

/// Calls a tool, and if a text does not fit once more with the room that it needs.
fn run(
    first_room: usize,
    call: impl Fn(Text, Text, &mut raw::Run) -> u32,
) -> Result<Run, ToolError> {
    let (mut output, mut report) = (vec![0; first_room], vec![0; first_room]);
    loop {
        let (status, it) =
            raw::answer(|run| call(Text::lent(&mut output), Text::lent(&mut report), run));
        if status == raw::RANGE {
            return Err(ToolError::Range);
        }
        if status == raw::MEMORY {
            return Err(ToolError::Memory);
        }
        output.resize(it.output_length as usize, 0);
        report.resize(it.report_length as usize, 0);
        if status == raw::OK {
            return Ok(Run {
                output,
                report,
                exit_status: it.exit_status as u8,
            });
        }
    }
}

/// `tcpclkit list`: a line for the contact header and for each message of a recording.
///
/// # Errors
///
/// None: this tool asks for no memory, and has no option that may be out of its range.
pub fn list(bytes: &[u8]) -> Result<Run, ToolError> {
    run(bytes.len() + 4096, |output, report, run| {
        // SAFETY: the slices and the struct are valid, and do not overlap.
        unsafe {
            raw::tcpclkit_raw_list(
                bytes.as_ptr(),
                bytes.len(),
                output.wants,
                output.start,
                output.room,
                report.wants,
                report.start,
                report.room,
                run,
            )
        }
    })
}

/// `tcpclkit unpack`: the data of a recording's transfers, and a line for each as the report.
///
/// # Errors
///
/// None: this tool asks for no memory, and each of these options is in its range.
pub fn unpack(bytes: &[u8], options: &UnpackOptions) -> Result<Run, ToolError> {
    let lent: [u64; 4] = [
        options.transfer.is_some().into(),
        options.transfer.unwrap_or_default(),
        options.payload.into(),
        options.keep_going.into(),
    ];
    run(bytes.len() + 4096, |output, report, run| {
        // SAFETY: the slices and the structs are valid, and do not overlap.
        unsafe {
            raw::tcpclkit_raw_unpack(
                bytes.as_ptr(),
                bytes.len(),
                lent.as_ptr(),
                lent.len(),
                output.wants,
                output.start,
                output.room,
                report.wants,
                report.start,
                report.room,
                run,
            )
        }
    })
}

/// `tcpclkit blocks`: a line for each block of the bundles of a recording, or of bundles.
///
/// # Errors
///
/// `bundles` is set beside another option. This tool asks for no memory.
pub fn blocks(bytes: &[u8], options: &BlocksOptions) -> Result<Run, ToolError> {
    let lent: [u64; 4] = [
        options.transfer.is_some().into(),
        options.transfer.unwrap_or_default(),
        options.keep_going.into(),
        options.bundles.into(),
    ];
    run(bytes.len() + 4096, |output, report, run| {
        // SAFETY: the slices and the structs are valid, and do not overlap.
        unsafe {
            raw::tcpclkit_raw_blocks(
                bytes.as_ptr(),
                bytes.len(),
                lent.as_ptr(),
                lent.len(),
                output.wants,
                output.start,
                output.room,
                report.wants,
                report.start,
                report.room,
                run,
            )
        }
    })
}

/// `tcpclkit check`: a line for each judged rule of the RFCs that the sender of a recording breaks,
/// or that bundles break. The exit status is 0 if no line was written, and 3 after a fault.
///
/// # Errors
///
/// `bundles` is set beside a limit of the peer. This tool asks for no memory.
pub fn check(bytes: &[u8], options: &CheckOptions) -> Result<Run, ToolError> {
    let lent: [u64; 6] = [
        options.must.into(),
        options.peer_segment.is_some().into(),
        options.peer_segment.unwrap_or_default(),
        options.peer_transfer.is_some().into(),
        options.peer_transfer.unwrap_or_default(),
        options.bundles.into(),
    ];
    run(bytes.len() + 4096, |output, report, run| {
        // SAFETY: the slices and the structs are valid, and do not overlap.
        unsafe {
            raw::tcpclkit_raw_check(
                bytes.as_ptr(),
                bytes.len(),
                lent.as_ptr(),
                lent.len(),
                output.wants,
                output.start,
                output.room,
                report.wants,
                report.start,
                report.room,
                run,
            )
        }
    })
}

/// `tcpclkit pack`: bundles, one after another, as the stream of a sender with this node ID, and a
/// line for each as the report.
///
/// # Errors
///
/// An option or the length of the node ID is out of its range, or memory was refused.
pub fn pack(bytes: &[u8], node: &[u8], options: &PackOptions) -> Result<Run, ToolError> {
    let lent: [u64; 7] = [
        options.keepalive.into(),
        options.segment_mru,
        options.transfer_mru,
        options.peer_segment,
        options.peer_transfer,
        options.announce,
        options.send_term.into(),
    ];
    run(bytes.len() + 4096, |output, report, run| {
        // SAFETY: the slices and the structs are valid, and do not overlap.
        unsafe {
            raw::tcpclkit_raw_pack(
                bytes.as_ptr(),
                bytes.len(),
                lent.as_ptr(),
                lent.len(),
                node.as_ptr(),
                node.len(),
                output.wants,
                output.start,
                output.room,
                report.wants,
                report.start,
                report.room,
                run,
            )
        }
    })
}

/// Bundles, one after another, as the segments of a sender whose session is open, and a line for
/// each as the report.
///
/// That is what [`pack`] writes without the contact header, SESS_INIT and SESS_TERM. The next call
/// begins with the sum of `first` and the number of lines in the report. After a fault, the output
/// may end with segments of a transfer that gets no END, which the line of the fault counts.
///
/// ```
/// use tcpclkit::{messages, pack_more, Fields, MoreOptions};
/// let bundle = std::fs::read("examples/hello.bundle").unwrap();
/// let options = MoreOptions { first: 7, peer_segment: 20, ..MoreOptions::default() };
/// let run = pack_more(&bundle, &options).unwrap();
/// for message in messages(&run.output, 0) {
///     assert!(matches!(message?.fields, Fields::Segment { id: 7, .. }));
/// }
/// # Ok::<(), tcpclkit::Fault>(())
/// ```
///
/// # Errors
///
/// An option is out of its range, or memory was refused. `first` and the length of the bytes are
/// together at most 2^64 - 1, since the IDs could run out otherwise.
pub fn pack_more(bytes: &[u8], options: &MoreOptions) -> Result<Run, ToolError> {
    let lent: [u64; 4] = [
        options.first,
        options.peer_segment,
        options.peer_transfer,
        options.announce,
    ];
    run(bytes.len() + 4096, |output, report, run| {
        // SAFETY: the slices and the structs are valid, and do not overlap.
        unsafe {
            raw::tcpclkit_raw_pack_more(
                bytes.as_ptr(),
                bytes.len(),
                lent.as_ptr(),
                lent.len(),
                output.wants,
                output.start,
                output.room,
                report.wants,
                report.start,
                report.room,
                run,
            )
        }
    })
}
