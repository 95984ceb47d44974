//! Messages, bundles and answers that are written.

use tcpclkit::{
    blocks_of, bundle, contact, messages, write_age, write_block, write_block_head, write_contact,
    write_eid, write_hop_count, write_item, write_message, write_primary, Block, BlockHead,
    BlockKind, Bundle, Check, CheckType, Code, Contact, EndpointId, Fields, Fragment, Item, Items,
    Message, OutOfRange, Sent, BUNDLE_FIRST, BUNDLE_LAST, CONTACT_LENGTH, SEGMENT_END,
    SEGMENT_START,
};

fn example(name: &str) -> Vec<u8> {
    let path = format!("{}/../../../examples/{name}", env!("CARGO_MANIFEST_DIR"));
    std::fs::read(path).unwrap()
}

fn written(fields: &Fields<'_>) -> Result<Vec<u8>, OutOfRange> {
    let mut bytes = vec![];
    write_message(fields, &mut bytes).map(|()| bytes)
}

fn segment<'a>(flags: u8, items: Items<'a>, length: u64, data: &'a [u8]) -> Fields<'a> {
    Fields::Segment {
        flags,
        id: 7,
        items,
        length,
        data,
    }
}

fn session<'a>(node: &'a [u8], items: Items<'a>) -> Fields<'a> {
    Fields::SessInit {
        keepalive: u16::MAX,
        segment_mru: u64::MAX,
        transfer_mru: 0,
        node,
        items,
    }
}

#[test]
fn a_recording_is_written_as_it_was_read() {
    for name in [
        "every-message.tcpcl",
        "transfers.tcpcl",
        "order-faults.tcpcl",
    ] {
        let (recording, mut bytes) = (example(name), vec![]);
        write_contact(contact(&recording).unwrap(), &mut bytes);
        for message in messages(&recording, CONTACT_LENGTH) {
            write_message(&message.unwrap().fields, &mut bytes).unwrap();
        }
        assert_eq!(bytes, recording, "{name}");
    }
    let mut bytes = b"kept".to_vec();
    write_contact(Contact { flags: 255 }, &mut bytes);
    assert_eq!(bytes, b"keptdtn!\x04\xff");
}

#[test]
fn a_segment_has_the_data_that_is_there() {
    let head = written(&segment(SEGMENT_END, Items::default(), 5, b"")).unwrap();
    assert_eq!(head.len(), 18);
    for data in [&b""[..], b"hel", b"hello"] {
        let bytes = written(&segment(SEGMENT_END, Items::default(), 5, data)).unwrap();
        assert_eq!(bytes, [&head, data].concat());
    }
    let longer = segment(SEGMENT_END, Items::default(), 5, b"hello!");
    assert_eq!(written(&longer), Err(OutOfRange));
}

fn item(value: &[u8]) -> Item<'_> {
    Item {
        flags: 255,
        kind: 65535,
        value,
        total: None,
    }
}

#[test]
fn lists_have_their_limits() {
    let zeros = vec![0; 65536];
    let mut list = vec![];
    write_item(&item(&zeros[..65531]), &mut list).unwrap();
    assert_eq!(list.len(), 65536);
    assert_eq!(
        write_item(&item(&zeros[..65532]), &mut list),
        Err(OutOfRange)
    );
    assert_eq!(list.len(), 65536);
    let of_session = Items::of_session(&list).unwrap();
    let bytes = written(&session(b"", of_session)).unwrap();
    assert_eq!(bytes.len(), 25 + 65536);
    write_item(&item(b""), &mut list).unwrap();
    assert_eq!(
        Items::of_segment(&list).unwrap_err().code,
        Code::WireListTooLong
    );

    let mut many = vec![];
    for count in 1..=65 {
        write_item(&item(b"v"), &mut many).unwrap();
        let items = Items::of_segment(&many);
        if count == 65 {
            assert_eq!(items.unwrap_err().code, Code::WireTooManyItems);
            continue;
        }
        let bytes = written(&segment(SEGMENT_START, items.clone().unwrap(), 0, b"")).unwrap();
        let read = messages(&bytes, 0).next().unwrap().unwrap();
        assert_eq!(
            read.fields,
            segment(SEGMENT_START, items.clone().unwrap(), 0, b"")
        );
        assert_eq!(
            written(&segment(SEGMENT_END, items.unwrap(), 0, b"")),
            Err(OutOfRange)
        );
    }
}

#[test]
fn an_iteration_does_not_change_what_is_written() {
    let mut list = vec![];
    write_item(&item(b"one"), &mut list).unwrap();
    write_item(&item(b"two"), &mut list).unwrap();
    let mut items = Items::of_segment(&list).unwrap();
    let whole = written(&segment(SEGMENT_START, items.clone(), 0, b"")).unwrap();
    assert_eq!(items.next().unwrap().value, b"one");
    assert_eq!(
        written(&segment(SEGMENT_START, items, 0, b"")).unwrap(),
        whole
    );
}

#[test]
fn a_node_id_has_its_limit() {
    let node = [b'n'; 1025];
    let bytes = written(&session(&node[..1024], Items::default())).unwrap();
    assert_eq!(bytes.len(), 25 + 1024);
    assert_eq!(written(&session(&node, Items::default())), Err(OutOfRange));
    let mut bytes = b"kept".to_vec();
    let longer = session(&node, Items::default());
    assert_eq!(write_message(&longer, &mut bytes), Err(OutOfRange));
    assert_eq!(bytes, b"kept");
    assert_eq!(
        OutOfRange.to_string(),
        "a number or a length is out of its range"
    );
}

#[test]
fn the_other_messages_are_read_as_they_were_written() {
    let (flags, reason, header, id, length) = (255, 255, 255, u64::MAX, u64::MAX);
    for fields in [
        Fields::Ack { flags, id, length },
        Fields::Refuse { reason, id },
        Fields::Keepalive,
        Fields::SessTerm { flags, reason },
        Fields::Reject { reason, header },
    ] {
        let bytes = written(&fields).unwrap();
        let read = messages(&bytes, 0).next().unwrap().unwrap();
        assert_eq!((read.head_end, read.fields), (bytes.len(), fields));
    }
}

/// A good bundle that is written from what is read of it.
fn written_again(bytes: &[u8]) -> Vec<u8> {
    let mut again = vec![BUNDLE_FIRST];
    for block in blocks_of(bytes) {
        let block = block.unwrap();
        match block.kind {
            BlockKind::Primary => {
                write_primary(&bundle(bytes).unwrap(), block.check, &mut again).unwrap()
            }
            BlockKind::Canonical { .. } => write_block(&block, &mut again).unwrap(),
        }
    }
    again.push(BUNDLE_LAST);
    again
}

#[test]
fn a_bundle_is_written_as_it_was_read() {
    let two = example("two.bundles");
    assert_eq!(written_again(&two[..34]), two[..34]);
}

/// The fields of a primary block.
fn fields() -> Bundle<()> {
    Bundle {
        flags: 0,
        destination: EndpointId::DtnNone,
        source: EndpointId::Dtn(b"//a/"[..].into()),
        report_to: EndpointId::DtnNone,
        time: u64::MAX,
        sequence: u64::MAX,
        lifetime: u64::MAX,
        fragment: None,
        blocks: 0,
        payload: (),
    }
}

#[test]
fn a_primary_block_has_its_ranges() {
    let (offset, total) = (u64::MAX, u64::MAX);
    let part = Some(Fragment { offset, total });
    for (flags, fragment, good) in [
        (0, None, true),
        (1, part, true),
        (u64::MAX, part, true),
        (1, None, false),
        (0, part, false),
    ] {
        let it = Bundle {
            flags,
            fragment,
            ..fields()
        };
        let mut bytes = vec![BUNDLE_FIRST];
        let outcome = write_primary(&it, CheckType::Crc16, &mut bytes);
        assert_eq!(outcome, if good { Ok(()) } else { Err(OutOfRange) });
        assert_eq!(tcpclkit::primary(&bytes).is_whole, good);
        assert!(!good || tcpclkit::primary(&bytes).fragment == fragment);
    }
}

#[test]
fn a_name_has_its_limit() {
    for (length, outcome) in [(1024, Ok(())), (1025, Err(OutOfRange))] {
        let name = EndpointId::Dtn(vec![b'n'; length].into());
        let mut bytes = vec![];
        assert_eq!(write_eid(&name, &mut bytes), outcome);
        assert_eq!(bytes.len(), if outcome.is_ok() { 1029 } else { 0 });
        let names = [
            Bundle {
                source: name.clone(),
                ..fields()
            },
            Bundle {
                destination: name.clone(),
                ..fields()
            },
            Bundle {
                report_to: name,
                ..fields()
            },
        ];
        for it in names {
            assert_eq!(write_primary(&it, CheckType::None, &mut bytes), outcome);
        }
    }
}

#[test]
fn a_block_has_its_ranges() {
    for (block_type, number, good) in [
        (1, 1, true),
        (u64::MAX, u64::MAX, true),
        (0, 2, true),
        (1, 2, false),
        (2, 1, false),
        (2, 0, false),
    ] {
        let head = BlockHead {
            offset: 0,
            block_type,
            number,
            flags: u64::MAX,
            check: CheckType::None,
            data_length: 2,
            data: 0..0,
        };
        let block: Block<&[u8]> = Block {
            place: 0..0,
            flags: u64::MAX,
            check: CheckType::None,
            kind: BlockKind::Canonical {
                block_type,
                number,
                data_at: 0,
                data: b"hi",
            },
        };
        let (mut bytes, mut whole) = (b"kept".to_vec(), b"kept".to_vec());
        let outcome = if good { Ok(()) } else { Err(OutOfRange) };
        assert_eq!(write_block_head(&head, &mut bytes), outcome);
        assert_eq!(write_block(&block, &mut whole), outcome);
        if good {
            bytes.extend(b"hi");
        }
        assert_eq!(bytes, whole);
    }
    let primary: Block<&[u8]> = Block {
        place: 1..2,
        flags: 0,
        check: CheckType::None,
        kind: BlockKind::Primary,
    };
    assert_eq!(write_block(&primary, &mut vec![]), Err(OutOfRange));
}

#[test]
fn a_check_may_be_fed_in_pieces_and_copied() {
    for (kind, value, length) in [
        (CheckType::None, None, 0),
        (CheckType::Crc16, Some(0x906e), 3),
        (CheckType::Crc32, Some(0xe306_9283), 5),
    ] {
        let mut check = Check::new(kind);
        check.feed(b"12345");
        let mut copied = check;
        copied.feed(b"");
        copied.feed(b"6789");
        assert_eq!((copied.value(), copied.field().len()), (value, length));
        check.feed(b"6789");
        assert_eq!(check, copied);
    }
}

#[test]
fn the_data_of_blocks_is_read_as_it_was_written() {
    let (mut age, mut hops, mut node) = (vec![], vec![], vec![]);
    write_age(u64::MAX, &mut age);
    write_hop_count(30, 2, &mut hops);
    write_eid(&fields().source, &mut node).unwrap();
    let primary: Block<&[u8]> = Block {
        place: 1..2,
        flags: 0,
        check: CheckType::None,
        kind: BlockKind::Primary,
    };
    for (block_type, data, words) in [
        (7, age, "age=18446744073709551615"),
        (10, hops, "limit=30 count=2"),
        (6, node, "node=dtn://a/"),
    ] {
        let block: Block<&[u8]> = Block {
            kind: BlockKind::Canonical {
                block_type,
                number: 2,
                data_at: 0,
                data: &data,
            },
            ..primary.clone()
        };
        assert_eq!(block.words(&primary), words);
    }
}

fn message(offset: usize, fields: Fields<'_>) -> Message<'_> {
    Message {
        offset,
        head_end: offset,
        fields,
    }
}

#[test]
fn answers_fit_what_was_sent() {
    let mut sent = Sent::new(7);
    sent.length = 10;
    let ack = |flags, id, length| message(3, Fields::Ack { flags, id, length });
    let refuse = |id| message(3, Fields::Refuse { reason: 2, id });
    for (answer, code, acknowledged) in [
        (ack(0, 7, 4), None, 4),
        (ack(0, 8, 4), Some(Code::AnswerOtherTransfer), 4),
        (ack(0, 7, 3), Some(Code::AnswerLengthFalls), 4),
        (ack(0, 7, 11), Some(Code::AnswerLengthNotSent), 4),
        (refuse(7), None, 4),
        (refuse(8), Some(Code::AnswerOtherTransfer), 4),
        (ack(0, 7, 10), None, 10),
        (ack(1, 7, 10), Some(Code::AnswerEndTooEarly), 10),
    ] {
        let judged = sent.judge(&answer);
        assert_eq!(
            judged.map_err(|fault| (fault.code, fault.offset)).err(),
            code.map(|it| (it, 3))
        );
        assert_eq!(sent.acknowledged, acknowledged);
    }
    sent.whole = true;
    assert_eq!(sent.judge(&ack(1, 7, 10)), Ok(()));
    let fault = sent.judge(&ack(0, 8, 0)).unwrap_err();
    assert_eq!(fault.to_string(), "another transfer");
}

#[test]
#[should_panic(expected = "the message is neither an XFER_ACK nor an XFER_REFUSE")]
fn another_message_is_no_answer() {
    let _ = Sent::new(0).judge(&message(0, Fields::Keepalive));
}
