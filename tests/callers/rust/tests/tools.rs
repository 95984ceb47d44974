//! The tools, over slices.

use tcpclkit::{
    check, list, messages, pack, pack_more, unpack, CheckOptions, Fields, MoreOptions, PackOptions,
    ToolError, UnpackOptions,
};

fn example(name: &str) -> Vec<u8> {
    let path = format!("{}/../../../examples/{name}", env!("CARGO_MANIFEST_DIR"));
    std::fs::read(path).unwrap()
}

#[test]
fn list_writes_a_line_for_each_message() {
    let run = list(&example("prelude-and-transfer.tcpcl")).unwrap();
    let text = String::from_utf8(run.output).unwrap();
    assert_eq!((text.lines().count(), run.exit_status), (3, 0));
    assert!(
        text.ends_with("38 xfer-segment flags=03 id=0 items=0 length=34\n"),
        "{text}"
    );
    assert_eq!(run.report, b"");
}

#[test]
fn list_reports_a_fault() {
    let run = list(b"").unwrap();
    assert_eq!(run.exit_status, 3);
    assert_eq!(
        (run.output, run.report),
        (vec![], b"tcpclkit: byte 0: truncated\n".to_vec())
    );
}

#[test]
fn texts_much_longer_than_the_input_are_whole() {
    let mut bytes = b"dtn!\x04\x00".to_vec();
    bytes.extend([4; 20000]);
    let text = String::from_utf8(list(&bytes).unwrap().output).unwrap();
    assert_eq!(text.lines().count(), 20001);
    assert!(text.ends_with("20005 keepalive\n"));
}

#[test]
fn unpack_gives_back_what_pack_was_given() {
    let bundles = example("two.bundles");
    let options = PackOptions {
        peer_segment: 20,
        ..PackOptions::default()
    };
    let packed = pack(&bundles, b"ipn:1.0", &options).unwrap();
    assert_eq!(packed.exit_status, 0);
    let unpacked = unpack(&packed.output, &UnpackOptions::default()).unwrap();
    assert_eq!((unpacked.output, unpacked.exit_status), (bundles, 0));
    let options = UnpackOptions {
        transfer: Some(0),
        payload: true,
        ..UnpackOptions::default()
    };
    assert_eq!(unpack(&packed.output, &options).unwrap().output, b"hello");
}

#[test]
fn unpack_goes_on_after_a_fault_of_the_order() {
    let late = example("late-transfers.tcpcl");
    let run = unpack(&late, &UnpackOptions::default()).unwrap();
    assert_eq!((run.output.len(), run.exit_status), (13 * 34, 3));
    let options = UnpackOptions {
        keep_going: true,
        ..UnpackOptions::default()
    };
    let run = unpack(&late, &options).unwrap();
    assert_eq!((run.output.len(), run.exit_status), (30 * 34, 1));
    let text = String::from_utf8(run.report).unwrap();
    let faults = text.lines().filter(|line| line.starts_with("tcpclkit: "));
    assert_eq!((text.lines().count(), faults.count()), (47, 17));
}

#[test]
fn check_writes_a_line_for_each_broken_rule() {
    let options = CheckOptions {
        must: true,
        peer_segment: Some(33),
        peer_transfer: Some(33),
        ..CheckOptions::default()
    };
    let run = check(&example("prelude-and-transfer.tcpcl"), &options).unwrap();
    let lines = "38 must peer-segment length=34 limit=33\n\
                 38 must peer-transfer length=34 limit=33\n\
                 38 must primary-check transfer=0\n38 must age transfer=0 blocks=0\n";
    assert_eq!(String::from_utf8(run.output).unwrap(), lines);
    assert_eq!((run.report, run.exit_status), (vec![], 1));
    let early = check(b"dtn!\x04\x00\x04", &CheckOptions::default()).unwrap();
    let line = b"6 should before-session type=04\n".to_vec();
    assert_eq!((early.output, early.exit_status), (line, 1));
    let within = CheckOptions {
        peer_segment: Some(1),
        peer_transfer: Some(0),
        ..options
    };
    assert_eq!(check(b"dtn!\x04\x00\x04", &within).unwrap().exit_status, 0);
}

#[test]
fn check_of_bundles_has_no_peer() {
    let options = CheckOptions {
        bundles: true,
        ..CheckOptions::default()
    };
    let run = check(&example("two.bundles")[..34], &options).unwrap();
    let lines = b"0 should primary-check bundle=0\n0 must age bundle=0 blocks=0\n";
    assert_eq!((run.output, run.exit_status), (lines.to_vec(), 1));
    assert_eq!(check(b"", &options).unwrap().exit_status, 0);
    assert_eq!(check(b"\x00", &options).unwrap().exit_status, 3);
    let segment = CheckOptions {
        peer_segment: Some(1),
        ..options
    };
    let transfer = CheckOptions {
        peer_transfer: Some(0),
        ..options
    };
    for refused in [segment, transfer] {
        assert_eq!(check(b"", &refused), Err(ToolError::Range));
    }
}

#[test]
fn pack_refuses_options_out_of_range() {
    let options = PackOptions {
        peer_segment: 0,
        ..PackOptions::default()
    };
    assert_eq!(pack(b"", b"n", &options), Err(ToolError::Range));
    let longest = PackOptions {
        announce: 1 << 20,
        ..PackOptions::default()
    };
    assert!(pack(b"", &[b'n'; 1024], &longest).is_ok());
    assert_eq!(pack(b"", &[b'n'; 1025], &longest), Err(ToolError::Range));
}

#[test]
fn pack_more_writes_the_segments_of_pack() {
    let bundles = example("two.bundles");
    let options = PackOptions {
        peer_segment: 20,
        announce: 34,
        ..PackOptions::default()
    };
    let more = MoreOptions {
        peer_segment: 20,
        announce: 34,
        ..MoreOptions::default()
    };
    let packed = pack(&bundles, b"", &options).unwrap();
    let run = pack_more(&bundles, &more).unwrap();
    assert_eq!(
        (&run.output[..], run.report),
        (&packed.output[31..], packed.report)
    );

    let first = u64::MAX - bundles.len() as u64;
    let moved = MoreOptions { first, ..more };
    let run = pack_more(&bundles, &moved).unwrap();
    let ids = messages(&run.output, 0).map(|it| match it.unwrap().fields {
        Fields::Segment { id, .. } => id - first,
        other => panic!("{other:?}"),
    });
    assert_eq!(ids.collect::<Vec<_>>(), [0, 0, 1, 1]);
}

#[test]
fn pack_more_has_the_ranges_of_pack() {
    let default = MoreOptions::default();
    for wrong in [
        MoreOptions {
            first: u64::MAX,
            ..default
        },
        MoreOptions {
            peer_segment: 0,
            ..default
        },
        MoreOptions {
            announce: 1048577,
            ..default
        },
    ] {
        assert_eq!(pack_more(b"x", &wrong), Err(ToolError::Range));
    }
    let last = MoreOptions {
        first: u64::MAX,
        ..default
    };
    assert_eq!(pack_more(b"", &last).unwrap().output, b"");
}
