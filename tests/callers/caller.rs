//! Does what tests/gate/library-callers asks for on standard input, with the crate `tcpclkit`.
//!
//! The jobs and the answers are those of `caller.c` beside this file.

use std::fmt::Write as _;
use std::io::{BufRead, Read, Write};
use std::ops::Range;
use tcpclkit::{
    block_type_name, blocks, blocks_of, bundle, check, contact, list, messages, pack, pack_more,
    primary, report_reason_name, unpack, verdict, write_age, write_block, write_block_head,
    write_contact, write_eid, write_hop_count, write_item, write_message, write_primary, Announced,
    Block, BlockHead, BlockKind, BlocksOptions, Bundle, Check, CheckOptions, CheckType, EndpointId,
    Fault, Fields, Items, Message, MoreOptions, Order, PackOptions, Primary, Run, Scan, Sent,
    ToolError, Turn, UnpackOptions, BUNDLE_FIRST, BUNDLE_LAST, CONTACT_LENGTH, SEGMENT_START,
};

/// A status and two texts.
type Answer = (u8, Vec<u8>, Vec<u8>);

/// Bytes as the program's lines show them.
fn escaped(bytes: &[u8]) -> String {
    let byte = |it: &u8| match *it {
        b'\\' => r"\x5c".to_string(),
        0x21..=0x7e => char::from(*it).to_string(),
        _ => format!(r"\x{it:02x}"),
    };
    bytes.iter().map(byte).collect()
}

/// The line of a fault of a recording.
fn fault_line(fault: &Fault) -> String {
    format!("tcpclkit: byte {}: {fault}\n", fault.offset)
}

/// The judgement of a bundle as `unpack` writes it.
fn judgement(it: &Result<Bundle<&[u8]>, Fault>) -> String {
    match it {
        Ok(it) => {
            let mut text = format!("good source={} time={}", it.source, it.time);
            let (sequence, payload) = (it.sequence, it.payload.len());
            let _ = write!(text, " sequence={sequence} destination={}", it.destination);
            let _ = write!(text, " payload={payload}");
            if let Some(part) = it.fragment {
                let _ = write!(text, " fragment={}/{}", part.offset, part.total);
            }
            text
        }
        Err(fault) => bad(fault),
    }
}

/// The words of a fault of a bundle.
fn bad(fault: &Fault) -> String {
    let words = fault.to_string();
    let code = words.split(' ').next().unwrap_or_default();
    format!("bad={code} byte={}", fault.offset)
}

/// The line of the fields of a primary block that come before its first fault.
fn primary_line(it: &Primary) -> String {
    let (accepted, whole) = (it.accepted, u8::from(it.is_whole));
    let mut text = format!("primary accepted={accepted} whole={whole}");
    let mut put = |name, value: Option<String>| {
        if let Some(value) = value {
            let _ = write!(text, " {name}={value}");
        }
    };
    put("flags", it.flags.map(|flags| flags.to_string()));
    put(
        "destination",
        it.destination.as_ref().map(|eid| eid.to_string()),
    );
    put("source", it.source.as_ref().map(|eid| eid.to_string()));
    put(
        "report-to",
        it.report_to.as_ref().map(|eid| eid.to_string()),
    );
    let of = |(one, other): (u64, u64)| format!("{one}/{other}");
    put("creation", it.creation.map(of));
    put("lifetime", it.lifetime.map(|lifetime| lifetime.to_string()));
    let fragment = it.fragment.map(|part| (part.offset, part.total));
    put("fragment", fragment.map(of));
    text + "\n"
}

/// Feeds the bytes to a scan in pieces. What it has found is what the bytes that it took are.
fn compare_scan(bytes: &[u8]) {
    let (mut scan, mut at) = (Scan::new(), 0);
    for piece in bytes.chunks(1 + bytes.len() % 13) {
        at += scan.feed(piece);
    }
    let (found, same) = (scan.verdict(), verdict(&bytes[..at]));
    let part = |place: Range<u64>| &bytes[place.start as usize..place.end as usize];
    assert_eq!(
        (found.fault, found.payload.map(part)),
        (same.fault, same.payload)
    );
    assert_eq!(scan.primary(), primary(&bytes[..at]));
    let (end, whole) = (scan.end(bytes.len() as u64), verdict(bytes));
    assert_eq!(
        (end.fault, end.payload.map(part)),
        (whole.fault, whole.payload)
    );
    match (scan.bundle(), bundle(&bytes[..at])) {
        (Ok(found), Ok(same)) => assert_eq!(
            (
                found.source,
                found.destination,
                found.report_to,
                part(found.payload)
            ),
            (same.source, same.destination, same.report_to, same.payload)
        ),
        (found, same) => assert_eq!(found.err(), same.err()),
    }
}

/// The verdict, where the payload is, and further fields of a good bundle.
fn judge(bytes: &[u8]) -> Answer {
    let (it, verdict) = (bundle(bytes), verdict(bytes));
    assert_eq!(it.as_ref().err(), verdict.fault.as_ref());
    compare_scan(bytes);
    let mut text = judgement(&it) + "\n";
    if let Some(payload) = verdict.payload {
        let offset = payload.as_ptr() as usize - bytes.as_ptr() as usize;
        let _ = writeln!(text, "payload {offset} {}", payload.len());
    }
    if let Ok(it) = &it {
        let _ = writeln!(
            text,
            "flags={} lifetime={} blocks={}",
            it.flags, it.lifetime, it.blocks
        );
    }
    text += &primary_line(&primary(bytes));
    (it.is_err().into(), text.into(), vec![])
}

/// The line of a block.
fn block_line(it: &Block<Range<u64>>) -> String {
    let check = match it.check {
        CheckType::None => 0,
        CheckType::Crc16 => 1,
        CheckType::Crc32 => 2,
    };
    let (at, length, flags) = (it.place.start, it.place.end - it.place.start, it.flags);
    let words = match &it.kind {
        BlockKind::Primary => "primary".to_string(),
        BlockKind::Canonical {
            block_type,
            number,
            data_at,
            data,
        } => {
            let (start, length) = (data.start, data.end - data.start);
            assert_eq!(start, *data_at);
            format!("block type={block_type} number={number} data-at={start} data-length={length}")
        }
    };
    format!("{words} at={at} length={length} flags={flags} check={check}\n")
}

/// The line of a block of these bytes, which has its data.
fn whole_line(it: Block<&[u8]>, bytes: &[u8]) -> String {
    let kind = match it.kind {
        BlockKind::Primary => BlockKind::Primary,
        BlockKind::Canonical {
            block_type,
            number,
            data_at,
            data,
        } => {
            let start = data.as_ptr() as u64 - bytes.as_ptr() as u64;
            BlockKind::Canonical {
                block_type,
                number,
                data_at,
                data: start..start + data.len() as u64,
            }
        }
    };
    block_line(&Block {
        place: it.place,
        flags: it.flags,
        check: it.check,
        kind,
    })
}

/// Whether a block that went on is the one that ends next.
fn is_begun(head: &BlockHead, ended: &Block<Range<u64>>) -> bool {
    let BlockKind::Canonical {
        block_type,
        number,
        ref data,
        ..
    } = ended.kind
    else {
        return false;
    };
    let same = BlockHead {
        offset: ended.place.start,
        block_type,
        number,
        flags: ended.flags,
        check: ended.check,
        data_length: data.end - data.start,
        data: data.start..head.data.end,
    };
    *head == same && head.data.end <= data.end
}

/// The lines of the blocks of a bundle that comes in pieces of this size, and of its fault.
fn lines_in_pieces(bytes: &[u8], size: usize) -> String {
    let (mut scan, mut at, mut text) = (Scan::new(), 0, String::new());
    let mut head = None;
    loop {
        let end = bytes.len().min(at + size);
        let (taken, block) = scan.next_block(&bytes[at..end]);
        at += taken;
        text.extend(block.as_ref().map(block_line));
        if let (Some(head), Some(block)) = (&head, &block) {
            assert!(is_begun(head, block), "a block ends as another one");
        }
        head = scan.block_head();
        match scan.verdict().fault {
            None => return text,
            Some(fault) if taken == 0 || !fault.is_truncated() => {
                return text + &bad(&fault) + "\n"
            }
            Some(_) => {}
        }
    }
}

/// Compares the words of a block's data with the lines of the tool from some line on, and drops the
/// lines up to that of the block.
fn compare_words(block: &Block<&[u8]>, primary: &Block<&[u8]>, lines: &mut &str) {
    let BlockKind::Canonical {
        block_type,
        data_at,
        data,
        ..
    } = block.kind
    else {
        return;
    };
    let (at, length) = (block.place.start, block.place.end - block.place.start);
    let name = block_type_name(block_type);
    let line_start = format!(" at={at} length={length} type={block_type}/{name} flags=");
    let at = lines.find(&line_start).expect("the type of a block");
    *lines = &lines[at + line_start.len()..];
    let words = block.words(primary);
    let space = if words.is_empty() { "" } else { " " };
    let line_end = format!(
        " data-at={data_at} data-length={}{space}{words}\n",
        data.len()
    );
    let at = lines.find(&line_end).expect("the words of a block");
    *lines = &lines[at + line_end.len()..];
}

/// The blocks of the bundle that the bytes begin with, and its fault if there is one.
fn show(bytes: &[u8]) -> Answer {
    let (mut text, mut status) = (String::new(), 0);
    let options = BlocksOptions {
        bundles: true,
        ..BlocksOptions::default()
    };
    let run = blocks(bytes, &options).expect("the options are in range");
    let all_lines = String::from_utf8(run.output).expect("lines are ASCII");
    let (mut lines, mut primary) = (&all_lines[..], None);
    for block in blocks_of(bytes) {
        match block {
            Ok(block) => {
                let primary = primary.get_or_insert_with(|| block.clone());
                compare_words(&block, primary, &mut lines);
                text += &whole_line(block, bytes);
            }
            Err(fault) => {
                text += &(bad(&fault) + "\n");
                status = 1;
            }
        }
    }
    assert_eq!(text, lines_in_pieces(bytes, 1 + bytes.len() % 13));
    (status, text.into(), vec![])
}

/// The number of extension items and each of them.
fn items(items: &Items<'_>) -> String {
    let mut each = String::new();
    for it in items.clone() {
        let _ = write!(
            each,
            " item={:02x}:{:04x}:{}",
            it.flags,
            it.kind,
            it.value.len()
        );
    }
    format!(" items={}{each}", items.clone().count())
}

/// The line of a SESS_INIT after its offset.
fn session_line(it: &Fields<'_>) -> String {
    let Fields::SessInit {
        keepalive,
        segment_mru,
        transfer_mru,
        node,
        items: listed,
    } = it
    else {
        return String::new();
    };
    let numbers = format!("keepalive={keepalive} segment-mru={segment_mru}");
    let (node, listed) = (escaped(node), items(listed));
    format!("sess-init {numbers} transfer-mru={transfer_mru} node={node}{listed}")
}

/// The name of the reason of a message that has one.
fn name_of(it: &Fields<'_>) -> String {
    it.reason_name().expect("the message has a reason")
}

/// The line of a message after its offset.
fn line(it: &Message<'_>) -> String {
    match &it.fields {
        Fields::Segment {
            flags,
            id,
            items: listed,
            length,
            ..
        } => {
            let listed = if flags & SEGMENT_START != 0 {
                items(listed)
            } else {
                String::new()
            };
            format!("xfer-segment flags={flags:02x} id={id}{listed} length={length}")
        }
        Fields::Ack { flags, id, length } => {
            format!("xfer-ack flags={flags:02x} id={id} length={length}")
        }
        Fields::Refuse { reason, id } => {
            format!(
                "xfer-refuse reason={reason:02x}/{} id={id}",
                name_of(&it.fields)
            )
        }
        Fields::Keepalive => "keepalive".to_string(),
        Fields::SessTerm { flags, reason } => {
            let name = name_of(&it.fields);
            format!("sess-term flags={flags:02x} reason={reason:02x}/{name}")
        }
        Fields::Reject { reason, header } => {
            let name = name_of(&it.fields);
            format!("msg-reject reason={reason:02x}/{name} header={header:02x}")
        }
        Fields::SessInit { .. } => session_line(&it.fields),
    }
}

/// What `list` writes, made of the messages.
fn read(bytes: &[u8]) -> Answer {
    let mut output = String::new();
    let mut lines = || {
        let _ = writeln!(
            output,
            "0 contact version=4 flags={:02x}",
            contact(bytes)?.flags
        );
        for message in messages(bytes, CONTACT_LENGTH) {
            let it = message?;
            if !it.is_cut() {
                let _ = writeln!(output, "{} {}", it.offset, line(&it));
            }
        }
        Ok(())
    };
    match lines() {
        Ok(()) => (0, output.into(), vec![]),
        Err(fault) => (3, output.into(), fault_line(&fault).into()),
    }
}

/// What `unpack` writes, made of messages and bundles.
#[derive(Default)]
struct Walk {
    output: Vec<u8>,
    report: String,
    is_bad: bool,
    id: u64,
    start: usize,
    /// What the first segment announces.
    announced: Option<Announced>,
    is_open: bool,
}

impl Walk {
    /// Adds the line of the transfer that is over.
    fn end(&mut self) {
        let data = &self.output[self.start..];
        let (length, start, id) = (data.len(), self.start, self.id);
        let words = match self.announced {
            _ if self.is_open => "abandoned".to_string(),
            Some(Announced::Badly) => "bad-length-item".to_string(),
            Some(Announced::Total(total)) if total != length as u64 => {
                format!("length-differs announced={total}")
            }
            _ => judgement(&bundle(data)),
        };
        self.is_bad |= !words.starts_with("good ");
        let place = format!("start={start} written={length} length={length}");
        let _ = writeln!(self.report, "transfer {id} {place} {words}");
    }

    /// Takes a message that is not stray, and its turn.
    fn take(&mut self, message: &Message<'_>, turn: Turn) {
        let Fields::Segment {
            id,
            ref items,
            data,
            ..
        } = message.fields
        else {
            return;
        };
        if let Turn::Begin { abandoned, .. } = turn {
            if abandoned.is_some() {
                self.end();
            }
            (self.id, self.start) = (id, self.output.len());
            self.announced = Some(items.announced());
        }
        self.output.extend(data);
        self.is_open = !matches!(
            turn,
            Turn::Begin { last: true, .. } | Turn::Continue { last: true }
        );
        if !self.is_open && !message.is_cut() {
            self.end();
        }
    }

    /// Takes all messages of a recording.
    fn take_all(&mut self, bytes: &[u8], goes_on: bool) -> Result<(), Fault> {
        let mut order = Order::new();
        contact(bytes)?;
        for message in messages(bytes, CONTACT_LENGTH) {
            let message = message?;
            if !goes_on {
                let turn = order.judge(&message)?;
                self.take(&message, turn);
                continue;
            }
            let taken = order.take(&message);
            if let Some(fault) = taken.fault {
                self.report += &fault_line(&fault);
                self.is_bad = true;
            }
            if let Some(turn) = taken.turn {
                self.take(&message, turn);
            }
        }
        if self.is_open {
            self.end();
        }
        Ok(())
    }
}

/// What `unpack` writes, made of messages and bundles; or what `unpack --keep-going` does.
fn walk(bytes: &[u8], goes_on: bool) -> Answer {
    let mut it = Walk::default();
    let mut status = 3;
    match it.take_all(bytes, goes_on) {
        Ok(()) => status = it.is_bad.into(),
        Err(fault) => it.report += &fault_line(&fault),
    }
    (status, it.output, it.report.into())
}

/// What the answers of a recording do to a transfer.
fn answers(bytes: &[u8], numbers: &[u64]) -> Answer {
    let [id, length, whole] = *numbers else {
        panic!("a transfer has three numbers");
    };
    let (mut sent, mut text) = (Sent::new(id), String::new());
    (sent.length, sent.whole) = (length, whole == 1);
    if contact(bytes).is_err() {
        return (0, vec![], vec![]);
    }
    for message in messages(bytes, CONTACT_LENGTH) {
        let Ok(message) = message else { break };
        if let Fields::Ack { .. } | Fields::Refuse { .. } = message.fields {
            let code = match sent.judge(&message) {
                Ok(()) => 0,
                Err(fault) => fault.code as u64,
            };
            let _ = writeln!(text, "{} {code} {}", message.offset, sent.acknowledged);
        }
    }
    (0, text.into(), vec![])
}

/// A message with the items of another list.
fn with_items<'a>(fields: &Fields<'a>, list: &'a [u8]) -> Fields<'a> {
    let mut fields = fields.clone();
    match &mut fields {
        Fields::Segment { items, .. } => *items = Items::of_segment(list).expect("a list"),
        Fields::SessInit { items, .. } => *items = Items::of_session(list).expect("a list"),
        _ => {}
    }
    fields
}

/// A recording, read and written message by message, up to its first fault.
fn rewrite(bytes: &[u8]) -> Answer {
    let mut output = vec![];
    let mut write_all = || {
        write_contact(contact(bytes)?, &mut output);
        for message in messages(bytes, CONTACT_LENGTH) {
            let it = message?;
            if it.is_cut() {
                continue;
            }
            let mut list = vec![];
            if let Fields::Segment { items, .. } | Fields::SessInit { items, .. } = &it.fields {
                for item in items.clone() {
                    write_item(&item, &mut list).expect("an item that was read");
                }
            }
            let fields = with_items(&it.fields, &list);
            write_message(&fields, &mut output).expect("a message that was read");
        }
        Ok(())
    };
    match write_all() {
        Ok(()) => (0, output, vec![]),
        Err(fault) => (3, output, fault_line(&fault).into()),
    }
}

/// Writes a canonical block in one go. In pieces, the bytes are the same.
fn put_block(block: &Block<&[u8]>, output: &mut Vec<u8>) {
    let BlockKind::Canonical {
        block_type,
        number,
        data,
        ..
    } = block.kind
    else {
        return;
    };
    let head = BlockHead {
        offset: 0,
        block_type,
        number,
        flags: block.flags,
        check: block.check,
        data_length: data.len() as u64,
        data: 0..0,
    };
    let (mut pieces, mut check) = (vec![], Check::new(block.check));
    write_block_head(&head, &mut pieces).expect("a block that was read");
    check.feed(&pieces);
    for piece in data.chunks(7) {
        check.feed(piece);
        pieces.extend(piece);
    }
    pieces.extend(check.field());
    let start = output.len();
    write_block(block, output).expect("a block that was read");
    assert_eq!(pieces, output[start..]);
}

/// The type of check values with this number.
fn check_type(number: u64) -> Option<CheckType> {
    [CheckType::None, CheckType::Crc16, CheckType::Crc32]
        .get(number as usize)
        .copied()
}

/// A good bundle, read and written block by block, with one type of check values or its own.
fn rebuild(bytes: &[u8], check: Option<CheckType>) -> Answer {
    let Ok(it) = bundle(bytes) else {
        return (1, vec![], vec![]);
    };
    let mut output = vec![BUNDLE_FIRST];
    for block in blocks_of(bytes) {
        let mut block = block.expect("a block of a good bundle");
        block.check = check.unwrap_or(block.check);
        match block.kind {
            BlockKind::Primary => {
                write_primary(&it, block.check, &mut output).expect("a bundle that was read")
            }
            BlockKind::Canonical { .. } => put_block(&block, &mut output),
        }
    }
    output.push(BUNDLE_LAST);
    (0, output, vec![])
}

/// The names that a number has as a block type and as reasons.
fn names(number: u64) -> String {
    let reason = (number % 256) as u8;
    let names = [
        Fields::Refuse { reason, id: 0 },
        Fields::SessTerm { flags: 0, reason },
        Fields::Reject { reason, header: 0 },
    ];
    let [refuse, term, reject] = names.map(|it| name_of(&it));
    let (block, report) = (block_type_name(number), report_reason_name(number));
    format!("{block} {report} {refuse} {term} {reject}\n")
}

/// A bundle that has an endpoint ID wherever it can have one.
fn bundle_of(eid: &EndpointId, text: &[u8]) -> Vec<u8> {
    let length = text.len() as u64;
    let check = check_type(length % 3).expect("a type");
    let it = Bundle {
        flags: 0,
        destination: eid.clone(),
        source: eid.clone(),
        report_to: eid.clone(),
        time: length,
        sequence: length,
        lifetime: length,
        fragment: None,
        blocks: 0,
        payload: (),
    };
    let (mut node, mut age, mut hops) = (vec![], vec![], vec![]);
    write_eid(eid, &mut node).expect("an endpoint ID that was read");
    write_age(length, &mut age);
    write_hop_count(length, u64::MAX - length, &mut hops);
    let mut output = vec![BUNDLE_FIRST];
    write_primary(&it, check, &mut output).expect("an endpoint ID that was read");
    for (block_type, number, data) in [
        (6, 2, &node[..]),
        (7, 3, &age),
        (10, 4, &hops),
        (1, 1, text),
    ] {
        let kind = BlockKind::Canonical {
            block_type,
            number,
            data_at: 0,
            data,
        };
        let block = Block {
            place: 0..0,
            flags: 0,
            check,
            kind,
        };
        put_block(&block, &mut output);
    }
    output.push(BUNDLE_LAST);
    output
}

/// The names of the number that is the length, and what is made of the text of an endpoint ID.
fn texts(bytes: &[u8]) -> Answer {
    let names = names(bytes.len() as u64);
    let found = std::str::from_utf8(bytes)
        .ok()
        .and_then(|text| text.parse().ok());
    match found {
        Some(eid) => (0, bundle_of(&eid, bytes), format!("{names}{eid}").into()),
        None => (1, vec![], names.into()),
    }
}

/// What a tool writes.
fn tool(name: &str, numbers: &[u64], bytes: &[u8]) -> Result<Run, ToolError> {
    match *numbers {
        [] => list(bytes),
        [only_one, transfer, keep_going, bundles] if name == "blocks" => {
            let options = BlocksOptions {
                transfer: (only_one == 1).then_some(transfer),
                keep_going: keep_going == 1,
                bundles: bundles == 1,
            };
            blocks(bytes, &options)
        }
        [must, has_peer_segment, peer_segment, has_peer_transfer, peer_transfer, bundles] => {
            let options = CheckOptions {
                must: must == 1,
                peer_segment: (has_peer_segment == 1).then_some(peer_segment),
                peer_transfer: (has_peer_transfer == 1).then_some(peer_transfer),
                bundles: bundles == 1,
            };
            check(bytes, &options)
        }
        [first, peer_segment, peer_transfer, announce] if name == "more" => {
            let options = MoreOptions {
                first,
                peer_segment,
                peer_transfer,
                announce,
            };
            pack_more(bytes, &options)
        }
        [only_one, transfer, payload, keep_going] => {
            let options = UnpackOptions {
                transfer: (only_one == 1).then_some(transfer),
                payload: payload == 1,
                keep_going: keep_going == 1,
            };
            unpack(bytes, &options)
        }
        [keepalive, segment_mru, transfer_mru, peer_segment, peer_transfer, announce, term, node] =>
        {
            let (node, bytes) = bytes.split_at(node as usize);
            let options = PackOptions {
                keepalive: keepalive as u16,
                segment_mru,
                transfer_mru,
                peer_segment,
                peer_transfer,
                announce,
                send_term: term == 1,
            };
            pack(bytes, node, &options)
        }
        _ => panic!("no tool has {} numbers", numbers.len()),
    }
}

/// Answers a job.
fn answer(name: &str, numbers: &[u64], bytes: &[u8]) -> Answer {
    match name {
        "show" => show(bytes),
        "judge" => judge(bytes),
        "read" => read(bytes),
        "walk" => walk(bytes, false),
        "go-on" => walk(bytes, true),
        "answers" => answers(bytes, numbers),
        "rewrite" => rewrite(bytes),
        "rebuild" => rebuild(bytes, check_type(numbers[0])),
        "texts" => texts(bytes),
        _ => {
            let run = tool(name, numbers, bytes).expect("the options are in range");
            (run.exit_status, run.output, run.report)
        }
    }
}

fn main() -> std::io::Result<()> {
    let (mut jobs, mut answers) = (std::io::stdin().lock(), std::io::stdout().lock());
    let mut line = String::new();
    while jobs.read_line(&mut line)? > 0 {
        let mut words = line.split_whitespace();
        let name = words.next().expect("a job has a name");
        let mut numbers: Vec<u64> = words.map(|it| it.parse().expect("a number")).collect();
        let mut bytes = vec![0; numbers.pop().expect("a length") as usize];
        jobs.read_exact(&mut bytes)?;
        let (status, output, report) = answer(name, &numbers, &bytes);
        writeln!(answers, "{status} {} {}", output.len(), report.len())?;
        answers.write_all(&output)?;
        answers.write_all(&report)?;
        answers.flush()?;
        line.clear();
    }
    Ok(())
}
