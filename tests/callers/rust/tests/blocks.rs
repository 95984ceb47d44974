//! The blocks of bundles, and of `examples/` as the tool shows them.

use std::ops::Range;
use tcpclkit::{
    blocks, blocks_of, Block, BlockHead, BlockKind, BlocksOptions, CheckType, Code, Fault, Scan,
    ToolError,
};

/// A bundle with a block of each check type: a bundle age, a hop count, and the payload `hi`.
const SEVERAL: [u8; 55] = [
    0x9f, 0x88, 0x07, 0x04, 0x00, 0x82, 0x02, 0x82, 0x02, 0x01, 0x82, 0x02, 0x82, 0x01, 0x01, 0x82,
    0x01, 0x00, 0x82, 0x00, 0x00, 0x00, 0x86, 0x07, 0x02, 0x10, 0x01, 0x41, 0x05, 0x42, 0x6d, 0xcc,
    0x85, 0x0a, 0x03, 0x00, 0x00, 0x43, 0x82, 0x04, 0x01, 0x86, 0x01, 0x01, 0x01, 0x02, 0x42, b'h',
    b'i', 0x44, 0xd4, 0xa3, 0xfe, 0x01, 0xff,
];

fn canonical<P>(
    place: Range<u64>,
    (block_type, number, flags): (u64, u64, u64),
    check: CheckType,
    (data_at, data): (u64, P),
) -> Block<P> {
    Block {
        place,
        flags,
        check,
        kind: BlockKind::Canonical {
            block_type,
            number,
            data_at,
            data,
        },
    }
}

/// The blocks of that bundle.
fn rows() -> Vec<Block<&'static [u8]>> {
    let primary = Block {
        place: 1..22,
        flags: 4,
        check: CheckType::None,
        kind: BlockKind::Primary,
    };
    vec![
        primary,
        canonical(22..32, (7, 2, 16), CheckType::Crc16, (28, b"\x05")),
        canonical(32..41, (10, 3, 0), CheckType::None, (38, b"\x82\x04\x01")),
        canonical(41..54, (1, 1, 1), CheckType::Crc32, (47, b"hi")),
    ]
}

#[test]
fn the_blocks_of_a_bundle_come_in_order() {
    let found: Result<Vec<_>, Fault> = blocks_of(&SEVERAL).collect();
    assert_eq!(found, Ok(rows()));
    // A byte after the bundle belongs to it no more.
    let longer = [&SEVERAL[..], b"\x9f"].concat();
    assert_eq!(blocks_of(&longer).count(), 4);
}

#[test]
fn a_fault_comes_after_the_blocks_before_it() {
    for length in 0..SEVERAL.len() {
        let mut found = blocks_of(&SEVERAL[..length]);
        for row in rows()
            .into_iter()
            .filter(|row| row.place.end <= length as u64)
        {
            assert_eq!(found.next(), Some(Ok(row)));
        }
        let fault = found.next().unwrap().unwrap_err();
        assert_eq!((fault.is_truncated(), fault.offset), (true, length as u64));
        assert_eq!(found.next(), None);
    }
    let mut bad = SEVERAL;
    bad[30] ^= 1;
    let mut found = blocks_of(&bad);
    assert_eq!(found.next(), Some(Ok(rows().remove(0))));
    let fault = found.next().unwrap().unwrap_err();
    assert_eq!((fault.code, fault.offset), (Code::BundleCheckDiffers, 29));
    assert_eq!(found.next(), None);
}

#[test]
fn the_pieces_make_no_difference() {
    for size in 1..=SEVERAL.len() {
        let (mut scan, mut at, mut places) = (Scan::new(), 0, vec![]);
        while scan.verdict().is_truncated() {
            let end = SEVERAL.len().min(at + size);
            let (taken, block) = scan.next_block(&SEVERAL[at..end]);
            at += taken;
            if let Some(block) = block {
                assert_eq!(block.place.end, at as u64);
                places.push(block.place);
            }
        }
        assert!(scan.verdict().is_good());
        assert_eq!(places, [1..22, 22..32, 32..41, 41..54]);
        assert_eq!(scan.next_block(&SEVERAL), (0, None));
    }
}

#[test]
fn a_scan_that_was_fed_goes_on_block_by_block() {
    let mut scan = Scan::new();
    assert_eq!(scan.feed(&SEVERAL[..25]), 25);
    let (taken, block) = scan.next_block(&SEVERAL[25..]);
    let aged = canonical(22..32, (7, 2, 16), CheckType::Crc16, (28, 28..29));
    assert_eq!((taken, block), (7, Some(aged)));
    assert_eq!(scan.feed(&SEVERAL[32..]), 23);
    assert_eq!(scan.bundle().unwrap().blocks, 3);
}

#[test]
fn the_head_of_a_block_is_there_before_its_data() {
    let heads = [
        (28..29, 22..32, 7, 2, 16, CheckType::Crc16),
        (38..41, 32..41, 10, 3, 0, CheckType::None),
        (47..49, 41..54, 1, 1, 1, CheckType::Crc32),
    ];
    let mut scan = Scan::new();
    for at in 0..=SEVERAL.len() as u64 {
        let wanted = heads.iter().find(|it| it.0.start <= at && at < it.1.end);
        let wanted = wanted.map(|it| BlockHead {
            offset: it.1.start,
            block_type: it.2,
            number: it.3,
            flags: it.4,
            check: it.5,
            data_length: it.0.end - it.0.start,
            data: it.0.start..at.min(it.0.end),
        });
        assert_eq!(scan.block_head(), wanted, "after {at} bytes");
        if let Some(byte) = SEVERAL.get(at as usize) {
            assert_eq!(scan.feed(&[*byte]), 1);
        }
    }
}

#[test]
fn a_block_that_is_too_long_is_known_before_its_data() {
    // the head of a payload of as many bytes as a head can say
    let head = [
        0x85, 1, 1, 0, 0, 0x5b, 255, 255, 255, 255, 255, 255, 255, 255,
    ];
    let mut scan = Scan::new();
    assert_eq!(scan.feed(&SEVERAL[..22]), 22);
    assert_eq!(scan.feed(&head[..13]), 13);
    assert_eq!(scan.block_head(), None);
    assert_eq!(scan.feed(&head[13..]), 1);
    let found = scan.block_head().unwrap();
    assert_eq!((found.block_type, found.data_length), (1, u64::MAX));
    assert_eq!((found.offset, found.data), (22, 36..36));
    assert_eq!(scan.feed(b"data"), 4);
    assert_eq!(scan.block_head().unwrap().data, 36..40);
}

#[test]
fn the_data_of_each_block_has_its_words() {
    let found: Vec<_> = blocks_of(&SEVERAL).map(Result::unwrap).collect();
    let words: Vec<_> = found.iter().map(|it| it.words(&found[0])).collect();
    assert_eq!(words, ["", "age=5", "limit=4 count=1", ""]);
    // the same of a scan, whose caller keeps the data
    let (mut scan, mut at, mut primary) = (Scan::new(), 0, None);
    for wanted in words {
        let (taken, block) = scan.next_block(&SEVERAL[at..]);
        at += taken;
        let block = block.unwrap();
        let primary = primary.get_or_insert_with(|| block.clone());
        let data: &[u8] = match &block.kind {
            BlockKind::Primary => b"",
            BlockKind::Canonical { data, .. } => &SEVERAL[data.start as usize..data.end as usize],
        };
        assert_eq!(block.with_data(data).words(primary), wanted);
    }
}

#[test]
fn malformed_data_has_its_offset_in_the_bundle() {
    let mut bytes = SEVERAL;
    bytes[38] = 0x83; // an array of three, in a block without a check value
    let found: Vec<_> = blocks_of(&bytes).map(Result::unwrap).collect();
    assert_eq!(found[2].words(&found[0]), "malformed-at=38");
    // The flags of the bundle say whether its payload is an administrative record.
    let record = Block {
        flags: 2,
        ..found[0].clone()
    };
    assert_eq!(found[3].words(&found[0]), "");
    assert_eq!(found[3].words(&record), "malformed-at=47");
}

#[test]
#[should_panic(expected = "the length of a block's data")]
fn data_of_another_length_is_refused() {
    let mut scan = Scan::new();
    let (taken, _) = scan.next_block(&SEVERAL);
    let (_, block) = scan.next_block(&SEVERAL[taken..]);
    block.unwrap().with_data(b"");
}

fn example(name: &str) -> Vec<u8> {
    let path = format!("{}/../../../examples/{name}", env!("CARGO_MANIFEST_DIR"));
    std::fs::read(path).unwrap()
}

#[test]
fn the_tool_shows_each_block() {
    let options = BlocksOptions::default();
    let run = blocks(&example("prelude-and-transfer.tcpcl"), &options).unwrap();
    let text = String::from_utf8(run.output).unwrap();
    assert_eq!((text.lines().count(), run.exit_status), (3, 0));
    assert!(text.ends_with("0 end length=34 good\n"), "{text}");
    assert_eq!(run.report, b"");
    let late = example("late-transfers.tcpcl");
    assert_eq!(blocks(&late, &options).unwrap().exit_status, 3);
    let going_on = BlocksOptions {
        keep_going: true,
        ..options
    };
    assert_eq!(blocks(&late, &going_on).unwrap().exit_status, 1);
}

#[test]
fn bundles_have_no_transfers() {
    let options = BlocksOptions {
        bundles: true,
        ..BlocksOptions::default()
    };
    let run = blocks(&[SEVERAL, SEVERAL].concat(), &options).unwrap();
    let text = String::from_utf8(run.output).unwrap();
    assert_eq!((text.lines().count(), run.exit_status), (10, 0));
    let transfer = BlocksOptions {
        transfer: Some(0),
        ..options
    };
    assert_eq!(blocks(&SEVERAL, &transfer), Err(ToolError::Range));
}
