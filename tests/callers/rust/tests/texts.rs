//! Texts of faults and endpoint IDs, and names.

use tcpclkit::{
    block_type_name, report_reason_name, Code, EndpointId, Fault, Fields, ParseEndpointIdError,
};

#[test]
fn faults_have_the_words_of_the_program() {
    for (code, number, text) in [
        (Code::WireTruncated, 0, "truncated"),
        (Code::WireBadVersion, 3, "unsupported version 3"),
        (Code::WireUnknownType, 0x16, "unknown message type 16"),
        (
            Code::WireListTooLong,
            u32::MAX.into(),
            "extension list too long: 4294967295",
        ),
        (
            Code::WireItemsOverrun,
            0,
            "extension items overrun their list",
        ),
        (
            Code::OrderStartRepeatsOpenId,
            0,
            "start repeats the open transfer",
        ),
        (Code::AnswerLengthFalls, 0, "acknowledged length falls"),
        (Code::BundleCheckDiffers, 0, "B13 check differs"),
        (
            Code::BundleNoPayloadLast,
            0,
            "B17 no payload block at the end",
        ),
    ] {
        assert_eq!(
            Fault {
                code,
                number,
                offset: 7
            }
            .to_string(),
            text
        );
    }
}

#[test]
fn endpoint_ids_are_shown_as_by_the_program() {
    let longest = EndpointId::Dtn(vec![0; 1024].into());
    for (eid, text) in [
        (EndpointId::DtnNone, "dtn:none"),
        (
            EndpointId::Dtn(b"//a b\\\xff/"[..].into()),
            r"dtn://a\x20b\x5c\xff/",
        ),
        (
            EndpointId::Ipn {
                node: 0,
                service: u64::MAX,
            },
            "ipn:0.18446744073709551615",
        ),
        (
            EndpointId::Ipn3 {
                allocator: 1,
                node: 2,
                service: 3,
            },
            "ipn:1.2.3",
        ),
        (longest, &format!("dtn:{}", r"\x00".repeat(1024))),
    ] {
        assert_eq!(eid.to_string(), text);
        assert_eq!(text.parse(), Ok(eid));
    }
    let none = EndpointId::Dtn(b"none"[..].into());
    assert_eq!(none.to_string().parse(), Ok(EndpointId::DtnNone));
}

#[test]
fn another_text_is_that_of_no_endpoint_id() {
    let longer = format!("dtn:{}", "n".repeat(1025));
    for text in [
        "",
        "dtn",
        "ipn:1",
        "ipn:01.2",
        "dtn:a b",
        "dtn:\u{e9}",
        r"dtn:\x41",
        &longer,
    ] {
        assert_eq!(text.parse::<EndpointId>(), Err(ParseEndpointIdError));
    }
}

#[test]
fn reasons_and_block_types_have_names() {
    for (fields, name) in [
        (Fields::Refuse { reason: 2, id: 0 }, Some("no-resources")),
        (Fields::Refuse { reason: 255, id: 0 }, Some("?")),
        (
            Fields::SessTerm {
                flags: 0,
                reason: 1,
            },
            Some("idle-timeout"),
        ),
        (
            Fields::Reject {
                reason: 1,
                header: 0,
            },
            Some("message-type-unknown"),
        ),
        (Fields::Keepalive, None),
    ] {
        assert_eq!(fields.reason_name().as_deref(), name);
    }
    assert_eq!(report_reason_name(2), "forwarded-over-unidirectional-link");
    assert_eq!(
        (report_reason_name(u64::MAX), block_type_name(u64::MAX)),
        ("?".into(), "?".into())
    );
    assert_eq!(block_type_name(12), "block-confidentiality");
}
