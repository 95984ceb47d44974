//! Examples of how the crate is called, which docs/LIBRARIES.md shows word for word.
//!
//!     example bundle < BUNDLE      writes the endpoint IDs of a bundle, or its fault
//!     example blocks < BUNDLE      writes the types of its blocks, and the lengths of their data
//!     example payload < BUNDLE     writes the payload of a bundle while it comes
//!     example data < RECORDING     writes the data of a recording
//!     example receive < RECORDING  writes the same as it comes, and judges the order of messages
//!     example pack < BUNDLES       writes bundles as the stream of a sender
//!     example send < BUNDLE        writes a bundle as the segments of a transfer
//!     example acknowledge < RECORDING  writes the XFER_ACK of each segment of a recording
//!     example make < PAYLOAD       writes a bundle with this payload

use std::error::Error;
use std::io::{self, Read, Write};
use std::process::ExitCode;
use tcpclkit::{
    blocks_of, bundle, contact, messages, pack, write_block, write_message, write_primary, Block,
    BlockKind, Bundle, CheckType, Code, Fault, Fields, Items, Message, Order, OutOfRange,
    PackOptions, Run, Scan, ToolError, BUNDLE_FIRST, BUNDLE_LAST, CONTACT_LENGTH, SEGMENT_END,
    SEGMENT_START,
};

/// Returns the endpoint IDs and the length of the payload of a good bundle, as a text.
fn show_bundle(bytes: &[u8]) -> Result<String, Fault> {
    let it = bundle(bytes)?;
    let length = it.payload.len();
    Ok(format!(
        "{} -> {}: {length} bytes",
        it.source, it.destination
    ))
}

/// Writes a line for each canonical block of a bundle.
fn show_blocks(bytes: &[u8]) -> Result<(), Fault> {
    for block in blocks_of(bytes) {
        if let BlockKind::Canonical {
            block_type, data, ..
        } = block?.kind
        {
            println!("type {block_type}: {} bytes", data.len());
        }
    }
    Ok(())
}

/// Writes the payload of a bundle while it comes.
fn copy_payload(input: &mut impl Read, output: &mut impl Write) -> Result<(), Box<dyn Error>> {
    let (mut scan, mut piece, mut before) = (Scan::new(), [0; 32], 0);
    loop {
        let length = input.read(&mut piece)?;
        let taken = scan.feed(&piece[..length]);
        let verdict = scan.verdict();
        if let Some(payload) = &verdict.payload {
            let start = payload.start.max(before);
            if start < payload.end {
                let (start, end) = (start - before, payload.end - before);
                output.write_all(&piece[start as usize..end as usize])?;
            }
        }
        before += taken as u64;
        match verdict.fault {
            None => return Ok(()),
            Some(fault) if length == 0 || !fault.is_truncated() => return Err(fault.into()),
            Some(_) => {}
        }
    }
}

/// Writes the data of a recording's segments, joined.
fn copy_data(recording: &[u8], output: &mut impl Write) -> Result<(), Box<dyn Error>> {
    contact(recording)?;
    for message in messages(recording, CONTACT_LENGTH) {
        if let Fields::Segment { data, .. } = message?.fields {
            output.write_all(data)?;
        }
    }
    Ok(())
}

/// Writes the data of a session's segments as it comes.
fn receive_data(input: &mut impl Read, output: &mut impl Write) -> Result<(), Box<dyn Error>> {
    let (mut held, mut piece, mut order) = (Vec::new(), [0; 32], Order::new());
    input.take(CONTACT_LENGTH as u64).read_to_end(&mut held)?;
    contact(&held)?;
    held.clear();
    // where `held` begins, where the last message began, and its data that is still to come
    let (mut at, mut begun, mut left) = (CONTACT_LENGTH, CONTACT_LENGTH, 0);
    loop {
        let length = input.read(&mut piece)?;
        held.extend(&piece[..length]);
        let mut used = usize::try_from(left).map_or(held.len(), |it| held.len().min(it));
        output.write_all(&held[..used])?;
        left -= used as u64;
        // A fault has an offset in `held`.
        let moved = |it: Fault| Fault {
            offset: it.offset + at as u64,
            ..it
        };
        for message in messages(&held, used).take_while(|it| !is_cut(it)) {
            let message = message.map_err(moved)?;
            order.judge(&message).map_err(moved)?;
            (begun, used) = (at + message.offset, message.head_end);
            if let Fields::Segment { length, data, .. } = message.fields {
                output.write_all(data)?;
                used += data.len();
                left = length - data.len() as u64;
            }
        }
        at += used;
        held.drain(..used);
        if length == 0 && held.is_empty() && left == 0 {
            return Ok(());
        }
        if length == 0 {
            let (code, number) = (Code::WireTruncated, 0);
            let offset = if left > 0 { begun as u64 } else { at as u64 };
            let cut = Fault {
                code,
                number,
                offset,
            };
            return Err(cut.into());
        }
    }
}

/// Whether more bytes may complete a message. Its data that is there came before.
fn is_cut(message: &Result<Message<'_>, Fault>) -> bool {
    matches!(message, Err(fault) if fault.is_truncated())
}

/// Packs bundles as the stream of a sender whose peer takes segments of 20 bytes.
fn pack_bundles(bundles: &[u8]) -> Result<Run, ToolError> {
    let options = PackOptions {
        peer_segment: 20,
        ..PackOptions::default()
    };
    pack(bundles, b"ipn:1.0", &options)
}

/// Returns a bundle as the segments of a transfer to a peer that takes 20 bytes in each.
fn segments_of(bundle: &[u8], id: u64) -> Result<Vec<u8>, OutOfRange> {
    let (mut segments, mut flags) = (vec![], SEGMENT_START);
    for (at, data) in bundle.chunks(20).enumerate() {
        if 20 * at + data.len() == bundle.len() {
            flags |= SEGMENT_END;
        }
        let segment = Fields::Segment {
            flags,
            id,
            items: Items::default(),
            length: data.len() as u64,
            data,
        };
        write_message(&segment, &mut segments)?;
        flags = 0;
    }
    Ok(segments)
}

/// Returns the XFER_ACK of each segment of a recording.
fn acknowledge_all(recording: &[u8]) -> Result<Vec<u8>, OutOfRange> {
    let (mut answers, mut received) = (vec![], 0);
    if contact(recording).is_err() {
        return Ok(answers);
    }
    for message in messages(recording, CONTACT_LENGTH).map_while(Result::ok) {
        match message.fields {
            Fields::Segment {
                flags, id, length, ..
            } if !message.is_cut() => {
                if flags & SEGMENT_START != 0 {
                    received = 0;
                }
                received += length;
                let length = received;
                write_message(&Fields::Ack { flags, id, length }, &mut answers)?;
            }
            _ => {}
        }
    }
    Ok(answers)
}

/// Returns a bundle from dtn://node/a to ipn:2.1 with this payload.
fn make_bundle(payload: &[u8]) -> Result<Vec<u8>, Box<dyn Error>> {
    let primary = Bundle {
        flags: 0,
        destination: "ipn:2.1".parse()?,
        source: "dtn://node/a".parse()?,
        report_to: "dtn:none".parse()?,
        time: 800_000_000_000,
        sequence: 1,
        lifetime: 60000,
        fragment: None,
        blocks: 0,
        payload: (),
    };
    let block = Block {
        place: 0..0,
        flags: 0,
        check: CheckType::Crc32,
        kind: BlockKind::Canonical {
            block_type: 1,
            number: 1,
            data_at: 0,
            data: payload,
        },
    };
    let mut bytes = vec![BUNDLE_FIRST];
    write_primary(&primary, CheckType::Crc32, &mut bytes)?;
    write_block(&block, &mut bytes)?;
    bytes.push(BUNDLE_LAST);
    Ok(bytes)
}

/// Does what the argument asks for. Returns the exit status.
fn run() -> Result<u8, Box<dyn Error>> {
    let mut bytes = Vec::new();
    if std::env::args().nth(1).as_deref() == Some("payload") {
        copy_payload(&mut io::stdin(), &mut io::stdout())?;
        return Ok(0);
    }
    if std::env::args().nth(1).as_deref() == Some("receive") {
        receive_data(&mut io::stdin(), &mut io::stdout())?;
        return Ok(0);
    }
    io::stdin().read_to_end(&mut bytes)?;
    match std::env::args().nth(1).as_deref() {
        Some("bundle") => println!("{}", show_bundle(&bytes)?),
        Some("blocks") => show_blocks(&bytes)?,
        Some("pack") => {
            let run = pack_bundles(&bytes)?;
            io::stdout().write_all(&run.output)?;
            io::stderr().write_all(&run.report)?;
            return Ok(run.exit_status);
        }
        Some("send") => io::stdout().write_all(&segments_of(&bytes, 0)?)?,
        Some("acknowledge") => io::stdout().write_all(&acknowledge_all(&bytes)?)?,
        Some("make") => io::stdout().write_all(&make_bundle(&bytes)?)?,
        _ => copy_data(&bytes, &mut io::stdout())?,
    }
    Ok(0)
}

fn main() -> ExitCode {
    match run() {
        Ok(status) => return ExitCode::from(status),
        Err(error) => match error.downcast_ref::<Fault>() {
            Some(fault) => eprintln!("byte {}: {fault}", fault.offset),
            None => eprintln!("{error}"),
        },
    }
    ExitCode::FAILURE
}
