//! Bundles of `examples/` in pieces.

use tcpclkit::{bundle, primary, verdict, Code, EndpointId, Scan};

/// Two bundles, of 34 and of 37 bytes.
fn bundles() -> Vec<u8> {
    let path = format!(
        "{}/../../../examples/two.bundles",
        env!("CARGO_MANIFEST_DIR")
    );
    std::fs::read(path).unwrap()
}

#[test]
fn the_pieces_make_no_difference() {
    let bytes = bundles();
    let whole = bundle(&bytes[..34]).unwrap();
    let mut scan = Scan::new();
    for size in 1..=bytes.len() {
        scan.restart();
        let taken: usize = bytes.chunks(size).map(|piece| scan.feed(piece)).sum();
        let found = scan.bundle().unwrap();
        assert_eq!((taken, found.payload), (34, 28..33));
        assert_eq!(found.source, whole.source);
        assert_eq!(
            (found.sequence, found.blocks),
            (whole.sequence, whole.blocks)
        );
    }
}

#[test]
fn a_scan_shows_what_has_come() {
    let bytes = bundles();
    let mut scan = Scan::default();
    for length in 0..34 {
        let (found, same) = (scan.verdict(), verdict(&bytes[..length]));
        assert!(found.is_truncated());
        assert_eq!(found.fault, same.fault);
        assert_eq!(found.payload.is_some(), same.payload.is_some());
        assert!(scan.bundle().unwrap_err().is_truncated());
        assert_eq!(scan.primary(), primary(&bytes[..length]));
        assert_eq!(scan.feed(&[]), 0);
        assert_eq!(scan.feed(&bytes[length..=length]), 1);
    }
    assert!(scan.verdict().is_good());
    assert_eq!(scan.feed(&bytes[34..]), 0);
}

#[test]
fn the_end_of_a_transfer_is_judged() {
    let bytes = bundles();
    for fed in 0..=34 {
        let mut scan = Scan::new();
        assert_eq!(scan.feed(&bytes[..fed]), fed);
        assert_eq!(scan.end(fed as u64).fault, verdict(&bytes[..fed]).fault);
        assert_eq!(scan.end(fed as u64).payload, scan.verdict().payload);
    }
    // bytes after the bundle, which the scan does not take
    let mut scan = Scan::new();
    assert_eq!(scan.feed(&bytes), 34);
    for length in 34..=bytes.len() {
        let found = scan.end(length as u64);
        assert_eq!(found.fault, verdict(&bytes[..length]).fault);
        assert_eq!(found.payload, Some(28..33));
    }
    let fault = scan.end(u64::MAX).fault.unwrap();
    assert_eq!((fault.code, fault.offset), (Code::BundleTrailing, 34));
    // and bytes after a fault, which change nothing
    scan.restart();
    assert_eq!(scan.feed(&bytes[1..]), 1);
    assert_eq!(scan.end(1), scan.verdict());
    assert_eq!(scan.end(u64::MAX), scan.verdict());
}

#[test]
#[should_panic(expected = "a transfer that was not all fed")]
fn bytes_that_were_not_fed_are_no_end() {
    let mut scan = Scan::new();
    scan.feed(&bundles()[..20]);
    scan.end(21);
}

#[test]
#[should_panic(expected = "a transfer that was not all fed")]
fn bytes_that_were_taken_have_come() {
    let mut scan = Scan::new();
    scan.feed(&bundles());
    scan.end(33);
}

#[test]
fn bundles_follow_one_another() {
    let bytes = bundles();
    let (mut scan, mut left, mut lengths) = (Scan::new(), &bytes[..], vec![]);
    while !left.is_empty() {
        scan.restart();
        let taken = scan.feed(left);
        assert_eq!(
            scan.bundle().unwrap().source,
            bundle(&left[..taken]).unwrap().source
        );
        left = &left[taken..];
        lengths.push(taken);
    }
    assert_eq!(lengths.iter().sum::<usize>(), bytes.len());
    assert_eq!((lengths.len(), lengths[0]), (2, 34));
}

#[test]
fn a_fault_stays() {
    let mut bytes = bundles();
    bytes[2] = 6;
    let mut scan = Scan::new();
    assert_eq!(scan.feed(&bytes), 3);
    assert_eq!(scan.feed(&bytes), 0);
    let fault = scan.verdict().fault.unwrap();
    assert_eq!((fault.code, fault.offset), (Code::BundleBadVersion, 2));
    assert_eq!(scan.bundle(), Err(fault));
    scan.restart();
    assert_eq!(scan.feed(&bundles()), 34);
    let source = scan.bundle().unwrap().source;
    assert_eq!(
        source,
        EndpointId::Ipn {
            node: 1,
            service: 1
        }
    );
}

#[test]
fn a_copy_goes_on_by_itself() {
    let all = bundles();
    let bytes = &all[..34];
    let mut scan = Scan::new();
    scan.feed(&bytes[..20]);
    let mut copy = scan.clone();
    assert_eq!(copy.verdict(), scan.verdict());
    assert_eq!(copy.feed(&bytes[20..]), 14);
    assert!(copy.verdict().is_good());
    assert!(scan.verdict().is_truncated());
}
