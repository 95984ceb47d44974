//! Bundles of `examples/`, whole, cut and changed.

use tcpclkit::{bundle, primary, verdict, Code, EndpointId, Fault, Fragment, Primary};

/// A bundle from ipn:1.1 to ipn:2.1, with the payload `hello`.
fn hello() -> Vec<u8> {
    example("two.bundles")[..34].to_vec()
}

fn example(name: &str) -> Vec<u8> {
    let path = format!("{}/../../../examples/{name}", env!("CARGO_MANIFEST_DIR"));
    std::fs::read(path).unwrap()
}

/// The bytes that these hexadecimal digits spell.
fn hex(digits: &str) -> Vec<u8> {
    let pair = |at| u8::from_str_radix(&digits[at..at + 2], 16).unwrap();
    (0..digits.len()).step_by(2).map(pair).collect()
}

#[test]
fn a_good_bundle_has_its_fields() {
    let bytes = hello();
    let it = bundle(&bytes).unwrap();
    assert_eq!(
        it.source,
        EndpointId::Ipn {
            node: 1,
            service: 1
        }
    );
    assert_eq!(
        it.destination,
        EndpointId::Ipn {
            node: 2,
            service: 1
        }
    );
    assert_eq!(
        (it.flags, it.time, it.sequence, it.lifetime, it.blocks),
        (0, 0, 0, 0, 1)
    );
    assert_eq!((it.fragment, it.payload), (None, &b"hello"[..]));
    assert!(verdict(&bytes).is_good());
    assert_eq!(verdict(&bytes).payload, Some(&bytes[28..33]));
}

#[test]
fn a_fragment_and_a_name_are_shown() {
    let bytes = middle();
    let it = bundle(&bytes).unwrap();
    assert_eq!(it.source, EndpointId::Dtn(b"//x"[..].into()));
    assert_eq!(
        it.fragment,
        Some(Fragment {
            offset: 70000,
            total: 140000
        })
    );
    assert_eq!((it.flags, it.sequence, it.payload), (1, 9, &b"middle"[..]));
}

/// A fragment from dtn://x to ipn:2.1, whose primary block has a check value of four bytes.
fn middle() -> Vec<u8> {
    hex(concat!(
        "9f8b07010282028202018201632f2f78820100820009001a000111701a000222e04469890dbe",
        "8501010000466d6964646c65ff",
    ))
}

#[test]
fn a_bad_bundle_has_the_fields_before_its_fault() {
    let mut bytes = middle();
    let whole = primary(&bytes);
    assert_eq!((whole.accepted, whole.is_whole), (10, true));
    bytes[37] ^= 1;
    assert_eq!(bundle(&bytes).unwrap_err().code, Code::BundleCheckDiffers);
    let found = Primary {
        accepted: 10,
        is_whole: false,
        flags: Some(1),
        destination: Some(EndpointId::Ipn {
            node: 2,
            service: 1,
        }),
        source: Some(EndpointId::Dtn(b"//x"[..].into())),
        report_to: Some(EndpointId::DtnNone),
        creation: Some((0, 9)),
        lifetime: Some(0),
        fragment: Some(Fragment {
            offset: 70000,
            total: 140000,
        }),
    };
    assert_eq!(primary(&bytes), found);
}

#[test]
fn a_cut_bundle_has_the_fields_that_came() {
    let bytes = middle();
    let ends = [3, 4, 5, 10, 16, 19, 22, 23, 28, 33];
    for length in 0..bytes.len() {
        let found = primary(&bytes[..length]);
        let accepted = ends.iter().filter(|end| **end <= length).count() as u64;
        assert_eq!((found.accepted, found.is_whole), (accepted, length >= 38));
        assert_eq!(found.source.is_some(), length >= 16);
        assert_eq!(found.report_to.is_some(), length >= 19);
        assert_eq!(found.creation.is_some(), length >= 22);
        assert_eq!(found.fragment.is_some(), length >= 33);
    }
}

#[test]
fn a_bundle_says_where_reports_go() {
    assert_eq!(bundle(&hello()).unwrap().report_to, EndpointId::DtnNone);
    let mut bytes = hello();
    bytes.splice(15..18, hex("8201652f2f646566"));
    let name = EndpointId::Dtn(b"//def"[..].into());
    assert_eq!(bundle(&bytes).unwrap().report_to, name);
    assert_eq!(primary(&bytes[..22]).report_to, None);
    assert_eq!(primary(&bytes[..23]).report_to, Some(name));
}

#[test]
fn each_prefix_is_truncated() {
    let bytes = hello();
    for length in 0..bytes.len() {
        let judged = verdict(&bytes[..length]);
        let fault = Fault {
            code: Code::BundleCut,
            number: 0,
            offset: length as u64,
        };
        assert_eq!((judged.fault, judged.is_truncated()), (Some(fault), true));
        assert_eq!(bundle(&bytes[..length]), Err(fault));
        let payload = (length >= 28).then(|| &bytes[28..length.min(33)]);
        assert_eq!(judged.payload, payload);
    }
}

#[test]
fn a_fault_has_its_code_and_its_offset() {
    let (mut longer, mut other) = (hello(), hello());
    longer.push(0);
    other[2] = 6;
    for (bytes, code, offset) in [
        (longer, Code::BundleTrailing, 34),
        (other, Code::BundleBadVersion, 2),
        (b"hello".to_vec(), Code::BundleNotABundle, 0),
    ] {
        let fault = Fault {
            code,
            number: 0,
            offset,
        };
        assert_eq!(bundle(&bytes), Err(fault));
        assert_eq!(
            (verdict(&bytes).fault, fault.is_truncated()),
            (Some(fault), false)
        );
    }
}

#[test]
fn names_of_every_length_are_whole() {
    for length in [0, 1, 23, 24, 255, 256, 1024] {
        let name = vec![b'n'; length];
        let mut bytes = hex("9f88070000820100");
        bytes.extend(hex(&format!("820179{length:04x}")));
        bytes.extend(&name);
        bytes.extend(hex("82010082000000850101000040ff"));
        let it = bundle(&bytes).unwrap();
        assert_eq!(it.source, EndpointId::Dtn(name.into()));
        assert_eq!(
            (it.destination, it.payload),
            (EndpointId::DtnNone, &b""[..])
        );
    }
}
