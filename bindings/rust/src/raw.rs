//! The names of `tcpclkit.h` that the safe functions use: structs, numbers and functions.
//!
//! A slice of Rust is never null, also where it is empty, and never longer than `isize::MAX`. So
//! the functions `tcpclkit_raw_..` take it as it is.

#![allow(dead_code)] // The header is here whole.

/// The version of the interface that these declarations are of.
pub const ABI: u32 = 4;

pub const OK: u32 = 0;
pub const END: u32 = 1;
pub const TRUNCATED: u32 = 2;
pub const DATA_TRUNCATED: u32 = 3;
pub const FAULT: u32 = 4;
pub const TOO_SMALL: u32 = 5;
pub const RANGE: u32 = 6;
pub const MEMORY: u32 = 8;
pub const SCAN_ENDED: u32 = 9;

pub const EID_DTN_NONE: u64 = 1;
pub const EID_DTN: u64 = 2;
pub const EID_IPN: u64 = 3;
pub const EID_IPN3: u64 = 4;
pub const EID_LIMIT: usize = 1024;

pub const BLOCK_PRIMARY: u64 = 1;
pub const BLOCK_CANONICAL: u64 = 2;

pub const CHECK_NONE: u64 = 0;
pub const CHECK_CRC16: u64 = 1;
pub const CHECK_CRC32: u64 = 2;

pub const SCAN_WORDS: usize = 1024;

pub const XFER_SEGMENT: u64 = 1;
pub const XFER_ACK: u64 = 2;
pub const XFER_REFUSE: u64 = 3;
pub const KEEPALIVE: u64 = 4;
pub const SESS_TERM: u64 = 5;
pub const MSG_REJECT: u64 = 6;
pub const SESS_INIT: u64 = 7;

pub const ANNOUNCED_NONE: u64 = 0;
pub const ANNOUNCED_TOTAL: u64 = 1;
pub const ANNOUNCED_BADLY: u64 = 2;

pub const TURN_OTHER: u64 = 0;
pub const TURN_BEGIN: u64 = 1;
pub const TURN_CONTINUE: u64 = 2;
pub const TURN_STRAY: u64 = 3;

pub const BUNDLE_FIRST: u8 = 0x9f;
pub const BUNDLE_LAST: u8 = 0xff;

/// Declares structs of the header. Each of their fields is a `u64` or such a struct.
macro_rules! structs {
    ($($name:ident { $($field:ident: $type:ty),* $(,)? })*) => {$(
        #[repr(C)]
        #[derive(Clone, Copy, Debug, Default, PartialEq, Eq)]
        pub struct $name { $(pub $field: $type),* }
    )*};
}

structs! {
    Fault { code: u64, number: u64, offset: u64 }
    Verdict { fault: Fault, has_payload: u64, payload_offset: u64, payload_seen: u64 }
    Eid { kind: u64, allocator: u64, node: u64, service: u64, name_length: u64 }
    Bundle {
        verdict: Verdict, primary_fields: u64, primary_whole: u64, flags: u64, destination: Eid,
        source: Eid, report_to: Eid, time: u64, sequence: u64, lifetime: u64, is_fragment: u64,
        fragment_offset: u64, fragment_total: u64, blocks: u64, payload_length: u64,
    }
    Block {
        kind: u64, offset: u64, length: u64, block_type: u64, number: u64, flags: u64, check: u64,
        data_offset: u64, data_length: u64, data_seen: u64,
    }
    Contact { fault: Fault, flags: u64 }
    Message {
        fault: Fault, kind: u64, flags: u64, reason: u64, header: u64, id: u64, acknowledged: u64,
        keepalive: u64, segment_mru: u64, transfer_mru: u64, node_offset: u64, node_length: u64,
        items_offset: u64, items_length: u64, data_offset: u64, data_length: u64, data_seen: u64,
        next: u64,
    }
    Item {
        fault: Fault, flags: u64, item_type: u64, value_offset: u64, value_length: u64,
        has_total: u64, total: u64, next: u64,
    }
    Announced { kind: u64, total: u64 }
    Order { initiated: u64, terminated: u64, is_open: u64, transfer: u64 }
    Turn { fault: u64, turn: u64, last: u64, abandons: u64, abandoned: u64 }
    Sent { id: u64, length: u64, whole: u64, acknowledged: u64, fault: u64 }
    Written { count: u64, needed: u64 }
    Crc { kind: u64, state: u64 }
    Run { exit_status: u64, output_length: u64, report_length: u64 }
}

extern "C" {
    pub fn tcpclkit_abi() -> u32;
    pub fn tcpclkit_raw_judge_bundle(bytes: *const u8, length: usize, verdict: *mut Verdict)
        -> u32;
    pub fn tcpclkit_raw_describe_bundle(
        bytes: *const u8,
        length: usize,
        destination_name: *mut u8,
        destination_room: usize,
        source_name: *mut u8,
        source_room: usize,
        report_to_name: *mut u8,
        report_to_room: usize,
        bundle: *mut Bundle,
    ) -> u32;
    pub fn tcpclkit_raw_start_scan(memory: *mut u64) -> u32;
    pub fn tcpclkit_raw_feed_scan(
        memory: *mut u64,
        piece: *const u8,
        length: usize,
        taken: *mut u64,
    ) -> u32;
    pub fn tcpclkit_raw_next_block(
        memory: *mut u64,
        piece: *const u8,
        length: usize,
        taken: *mut u64,
        block: *mut Block,
    ) -> u32;
    pub fn tcpclkit_raw_judge_block(memory: *const u64, block: *mut Block) -> u32;
    pub fn tcpclkit_raw_judge_scan(memory: *const u64, verdict: *mut Verdict) -> u32;
    pub fn tcpclkit_raw_end_scan(memory: *const u64, length: u64, verdict: *mut Verdict) -> u32;
    pub fn tcpclkit_raw_describe_scan(
        memory: *const u64,
        destination_name: *mut u8,
        destination_room: usize,
        source_name: *mut u8,
        source_room: usize,
        report_to_name: *mut u8,
        report_to_room: usize,
        bundle: *mut Bundle,
    ) -> u32;
    pub fn tcpclkit_raw_scan_size() -> usize;
    pub fn tcpclkit_raw_scan_alignment() -> usize;
    pub fn tcpclkit_raw_read_contact(bytes: *const u8, length: usize, contact: *mut Contact)
        -> u32;
    pub fn tcpclkit_raw_read_message(
        bytes: *const u8,
        length: usize,
        offset: u64,
        message: *mut Message,
    ) -> u32;
    pub fn tcpclkit_raw_read_item(
        bytes: *const u8,
        length: usize,
        message: *const Message,
        offset: u64,
        item: *mut Item,
    ) -> u32;
    pub fn tcpclkit_raw_read_announced(
        bytes: *const u8,
        length: usize,
        message: *const Message,
        announced: *mut Announced,
    ) -> u32;
    pub fn tcpclkit_raw_start_order(order: *mut Order) -> u32;
    pub fn tcpclkit_raw_judge_message(
        order: *mut Order,
        message: *const Message,
        turn: *mut Turn,
    ) -> u32;
    pub fn tcpclkit_raw_take_message(
        order: *mut Order,
        message: *const Message,
        turn: *mut Turn,
    ) -> u32;
    pub fn tcpclkit_raw_judge_answer(sent: *mut Sent, message: *const Message) -> u32;
    pub fn tcpclkit_raw_write_contact(
        flags: u64,
        bytes: *mut u8,
        room: usize,
        written: *mut Written,
    ) -> u32;
    pub fn tcpclkit_raw_write_item(
        flags: u64,
        item_type: u64,
        value: *const u8,
        value_length: usize,
        bytes: *mut u8,
        room: usize,
        written: *mut Written,
    ) -> u32;
    pub fn tcpclkit_raw_write_message(
        message: *const Message,
        node: *const u8,
        node_length: usize,
        items: *const u8,
        items_length: usize,
        bytes: *mut u8,
        room: usize,
        written: *mut Written,
    ) -> u32;
    pub fn tcpclkit_raw_write_primary(
        bundle: *const Bundle,
        check: u64,
        destination_name: *const u8,
        destination_length: usize,
        source_name: *const u8,
        source_length: usize,
        report_to_name: *const u8,
        report_to_length: usize,
        bytes: *mut u8,
        room: usize,
        written: *mut Written,
    ) -> u32;
    pub fn tcpclkit_raw_write_block_head(
        block: *const Block,
        bytes: *mut u8,
        room: usize,
        written: *mut Written,
    ) -> u32;
    pub fn tcpclkit_raw_start_check(check: *mut Crc, kind: u64) -> u32;
    pub fn tcpclkit_raw_feed_check(check: *mut Crc, piece: *const u8, length: usize) -> u32;
    pub fn tcpclkit_raw_end_check(check: *const Crc, value: *mut u64) -> u32;
    pub fn tcpclkit_raw_write_check(
        check: *const Crc,
        bytes: *mut u8,
        room: usize,
        written: *mut Written,
    ) -> u32;
    pub fn tcpclkit_raw_write_eid(
        eid: *const Eid,
        name: *const u8,
        name_length: usize,
        bytes: *mut u8,
        room: usize,
        written: *mut Written,
    ) -> u32;
    pub fn tcpclkit_raw_write_age(
        age: u64,
        bytes: *mut u8,
        room: usize,
        written: *mut Written,
    ) -> u32;
    pub fn tcpclkit_raw_write_hop_count(
        limit: u64,
        count: u64,
        bytes: *mut u8,
        room: usize,
        written: *mut Written,
    ) -> u32;
    pub fn tcpclkit_raw_write_fault_text(
        code: u64,
        number: u64,
        text: *mut u8,
        room: usize,
        written: *mut u64,
    ) -> u32;
    pub fn tcpclkit_raw_write_eid_text(
        eid: *const Eid,
        name: *const u8,
        name_length: usize,
        text: *mut u8,
        room: usize,
        written: *mut u64,
    ) -> u32;
    pub fn tcpclkit_raw_read_eid_text(
        text: *const u8,
        length: usize,
        eid: *mut Eid,
        name: *mut u8,
        name_room: usize,
    ) -> u32;
    pub fn tcpclkit_raw_write_reason_text(
        kind: u64,
        reason: u64,
        text: *mut u8,
        room: usize,
        written: *mut u64,
    ) -> u32;
    pub fn tcpclkit_raw_write_report_reason_text(
        reason: u64,
        text: *mut u8,
        room: usize,
        written: *mut u64,
    ) -> u32;
    pub fn tcpclkit_raw_write_block_type_text(
        block_type: u64,
        text: *mut u8,
        room: usize,
        written: *mut u64,
    ) -> u32;
    pub fn tcpclkit_raw_read_block_data(
        primary: *const Block,
        block: *const Block,
        data: *const u8,
        length: usize,
        text: *mut u8,
        room: usize,
        written: *mut u64,
    ) -> u32;
    pub fn tcpclkit_raw_list(
        bytes: *const u8,
        length: usize,
        wants_output: u64,
        output: *mut u8,
        output_room: usize,
        wants_report: u64,
        report: *mut u8,
        report_room: usize,
        run: *mut Run,
    ) -> u32;
    pub fn tcpclkit_raw_unpack(
        bytes: *const u8,
        length: usize,
        options: *const u64,
        option_count: usize,
        wants_output: u64,
        output: *mut u8,
        output_room: usize,
        wants_report: u64,
        report: *mut u8,
        report_room: usize,
        run: *mut Run,
    ) -> u32;
    pub fn tcpclkit_raw_blocks(
        bytes: *const u8,
        length: usize,
        options: *const u64,
        option_count: usize,
        wants_output: u64,
        output: *mut u8,
        output_room: usize,
        wants_report: u64,
        report: *mut u8,
        report_room: usize,
        run: *mut Run,
    ) -> u32;
    pub fn tcpclkit_raw_check(
        bytes: *const u8,
        length: usize,
        options: *const u64,
        option_count: usize,
        wants_output: u64,
        output: *mut u8,
        output_room: usize,
        wants_report: u64,
        report: *mut u8,
        report_room: usize,
        run: *mut Run,
    ) -> u32;
    pub fn tcpclkit_raw_pack(
        bytes: *const u8,
        length: usize,
        options: *const u64,
        option_count: usize,
        node: *const u8,
        node_length: usize,
        wants_output: u64,
        output: *mut u8,
        output_room: usize,
        wants_report: u64,
        report: *mut u8,
        report_room: usize,
        run: *mut Run,
    ) -> u32;
    pub fn tcpclkit_raw_pack_more(
        bytes: *const u8,
        length: usize,
        options: *const u64,
        option_count: usize,
        wants_output: u64,
        output: *mut u8,
        output_room: usize,
        wants_report: u64,
        report: *mut u8,
        report_room: usize,
        run: *mut Run,
    ) -> u32;
}

/// Returns the status of a call, and what it wrote into the struct that it was lent.
///
/// # Panics
///
/// If the library that is linked has another version of the interface.
pub fn answer<T: Default>(call: impl FnOnce(&mut T) -> u32) -> (u32, T) {
    // SAFETY: the function takes nothing and returns a number.
    let abi = unsafe { tcpclkit_abi() };
    assert_eq!(abi, ABI, "libtcpclkit has another version of the interface");
    let mut answer = T::default();
    let status = call(&mut answer);
    (status, answer)
}
