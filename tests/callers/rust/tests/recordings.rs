//! Recordings of `examples/`: messages, items and their order.

use tcpclkit::{
    contact, messages, Announced, Code, Contact, Fault, Fields, Item, Items, Message, Order, Turn,
    CONTACT_LENGTH, SEGMENT_END, SEGMENT_START,
};

fn example(name: &str) -> Vec<u8> {
    let path = format!("{}/../../../examples/{name}", env!("CARGO_MANIFEST_DIR"));
    std::fs::read(path).unwrap()
}

#[test]
fn a_contact_header_is_read() {
    assert_eq!(contact(b"dtn!\x04\x80more"), Ok(Contact { flags: 0x80 }));
    for (bytes, code, number) in [
        (&b""[..], Code::WireTruncated, 0),
        (b"dtn!\x04", Code::WireTruncated, 0),
        (b"dtn?\x04\x00", Code::WireBadMagic, 0),
        (b"dtn!\x03\x00", Code::WireBadVersion, 3),
    ] {
        assert_eq!(
            contact(bytes),
            Err(Fault {
                code,
                number,
                offset: 0
            })
        );
    }
}

/// The messages of a recording without a fault.
fn all_of(recording: &[u8]) -> Vec<Message<'_>> {
    messages(recording, CONTACT_LENGTH)
        .map(Result::unwrap)
        .collect()
}

#[test]
fn every_message_is_read() {
    let bytes = example("every-message.tcpcl");
    let found = all_of(&bytes);
    let offsets: Vec<_> = found.iter().map(|it| it.offset).collect();
    assert_eq!(offsets, [6, 49, 101, 136, 154, 164, 165, 168, 171]);
    let (flags, reason) = (1, 3);
    let others = [
        Fields::Ack {
            flags: SEGMENT_END,
            id: 0,
            length: 34,
        },
        Fields::Refuse { reason: 2, id: 0 },
        Fields::Keepalive,
        Fields::SessTerm { flags, reason },
        Fields::Reject {
            reason: 1,
            header: 0x16,
        },
    ];
    for (it, wanted) in found[3..].iter().zip(others) {
        assert_eq!(it.fields, wanted);
    }
}

#[test]
fn a_session_initiation_has_its_items() {
    let bytes = example("every-message.tcpcl");
    let found = all_of(&bytes);
    let Fields::SessInit {
        keepalive: 60,
        node,
        ref items,
        ..
    } = found[0].fields
    else {
        panic!("{:?}", found[0]);
    };
    let items: Vec<_> = items
        .clone()
        .map(|it| (it.flags, it.kind, it.value.len()))
        .collect();
    assert_eq!(node, b"ipn:1.0");
    assert_eq!(items, [(1, 0x1234, 1), (0, 0xabcd, 0)]);
}

#[test]
fn a_segment_has_its_data() {
    let bytes = example("every-message.tcpcl");
    let found = all_of(&bytes);
    let Fields::Segment {
        flags,
        id,
        ref items,
        length,
        data,
    } = found[1].fields
    else {
        panic!("{:?}", found[1]);
    };
    assert_eq!((flags, id, length), (SEGMENT_START, 0, 17));
    assert_eq!(
        items.clone().map(|it| it.total).collect::<Vec<_>>(),
        [Some(34)]
    );
    assert_eq!(data, &bytes[found[1].head_end..101]);
}

#[test]
fn a_cut_recording_ends_with_its_fault() {
    let bytes = example("prelude-and-transfer.tcpcl");
    for length in CONTACT_LENGTH..=bytes.len() {
        let mut found = messages(&bytes[..length], CONTACT_LENGTH);
        let count = found.by_ref().filter(Result::is_ok).count();
        let whole = [6, 38, bytes.len()];
        let last = messages(&bytes[..length], CONTACT_LENGTH).last();
        if whole.contains(&length) {
            assert!(!matches!(last, Some(Err(_))));
        } else {
            let offset = if length < 38 { 6 } else { 38 };
            let fault = Fault {
                code: Code::WireTruncated,
                number: 0,
                offset,
            };
            assert_eq!(last, Some(Err(fault)));
        }
        assert_eq!(count, usize::from(length >= 38) + usize::from(length >= 60));
        assert_eq!(found.next(), None);
    }
}

#[test]
fn a_cut_segment_has_the_data_that_is_there() {
    let bytes = example("prelude-and-transfer.tcpcl");
    let cut = messages(&bytes[..70], 38).next().unwrap().unwrap();
    let Fields::Segment {
        length: 34, data, ..
    } = cut.fields
    else {
        panic!("{cut:?}")
    };
    assert_eq!((cut.is_cut(), data), (true, &bytes[60..70]));
}

#[test]
fn no_message_is_past_the_end() {
    let bytes = example("prelude-and-transfer.tcpcl");
    for offset in [bytes.len(), bytes.len() + 1, usize::MAX] {
        assert_eq!(messages(&bytes, offset).next(), None);
    }
    assert_eq!(messages(&[], 0).next(), None);
}

#[test]
fn the_order_of_messages_is_judged() {
    let bytes = b"\x01\x03\0\0\0\0\0\0\0\x07\0\0\0\0\0\0\0\0\0\0\0\0\x04";
    let found: Vec<_> = messages(bytes, 0).map(Result::unwrap).collect();
    let fault = Fault {
        code: Code::OrderSegmentBeforeSessInit,
        number: 0,
        offset: 0,
    };
    let mut order = Order::new();
    assert_eq!(order.judge(&found[0]), Err(fault));
    assert_eq!(
        (order.judge(&found[1]), order),
        (Ok(Turn::Other), Order::new())
    );
    let session = example("transfers.tcpcl");
    let turns: Vec<_> = messages(&session, CONTACT_LENGTH)
        .map(|message| order.judge(&message.unwrap()).unwrap())
        .collect();
    assert_eq!(turns[0], Turn::Other);
    let abandons = |it: &&Turn| {
        matches!(
            it,
            Turn::Begin {
                abandoned: Some(2),
                ..
            }
        )
    };
    assert_eq!(turns.iter().filter(abandons).count(), 1);
}

#[test]
fn messages_out_of_order_are_taken() {
    let bytes = example("order-faults.tcpcl");
    let mut order = Order::new();
    let taken: Vec<_> = messages(&bytes, CONTACT_LENGTH)
        .map(|message| order.take(&message.unwrap()))
        .collect();
    let codes: Vec<_> = taken
        .iter()
        .filter_map(|it| it.fault)
        .map(|it| it.code)
        .collect();
    for code in [
        Code::OrderSecondSessInit,
        Code::OrderSegmentBeforeSessInit,
        Code::OrderNoSuchOpenTransfer,
        Code::OrderStartRepeatsOpenId,
        Code::OrderStartAfterSessTerm,
    ] {
        assert!(codes.contains(&code), "{code:?}");
    }
    // A stray segment, and no other message, does nothing that `judge` has a word for.
    for it in taken.iter().filter(|it| it.turn.is_none()) {
        let fault = it.fault.unwrap().code;
        assert!(matches!(
            fault,
            Code::OrderNoSuchOpenTransfer | Code::OrderSegmentBeforeSessInit
        ));
    }
    assert!(taken.iter().any(|it| it.turn.is_none()));
}

/// A segment of transfer 0 with this list and no data, as a node sends it.
fn segment_with(list: &[u8]) -> Vec<u8> {
    let length = (list.len() as u32).to_be_bytes();
    let head = [1, SEGMENT_START | SEGMENT_END, 0, 0, 0, 0, 0, 0, 0, 0];
    [&head[..], &length, list, &[0; 8]].concat()
}

#[test]
fn a_list_is_judged_as_a_message_with_it_is() {
    let announced = [1, 0, 1, 0, 8, 0, 0, 0, 0, 0, 0, 0, 34];
    let total = Item {
        flags: 1,
        kind: 1,
        value: &announced[5..],
        total: Some(34),
    };
    let items: Vec<_> = Items::of_segment(&announced).unwrap().collect();
    assert_eq!(items, [total]);
    let of_session = Items::of_session(&announced).unwrap().next().unwrap();
    assert_eq!((of_session.kind, of_session.total), (1, None));
    assert_eq!(Items::of_segment(b""), Ok(Items::default()));
    for (length, wanted) in [
        (0, None),
        (64 * 5, None),
        (4, Some((Code::WireItemsOverrun, 0))),
        (64 * 5 + 1, Some((Code::WireItemsOverrun, 0))),
        (65 * 5, Some((Code::WireTooManyItems, 0))),
        (65 * 5 + 1, Some((Code::WireTooManyItems, 0))),
        (65536, Some((Code::WireTooManyItems, 0))),
        (65537, Some((Code::WireListTooLong, 65537))),
    ] {
        let list = vec![0; length];
        let judged = Items::of_segment(&list).map(|items| items.count());
        let message = segment_with(&list);
        let read = messages(&message, 0).next().unwrap();
        assert_eq!(judged.err(), read.err(), "{length}");
        assert_eq!(Items::of_session(&list).err(), judged.err(), "{length}");
        let found = judged.err().map(|it| (it.code, it.number));
        assert_eq!((found, judged.unwrap_or(length / 5)), (wanted, length / 5));
    }
}

#[test]
fn a_segment_announces_a_length() {
    let one = [1, 0, 1, 0, 8, 0, 0, 0, 0, 0, 0, 0, 34];
    let (short, other) = ([1, 0, 1, 0, 1, 34], [1, 0, 2, 0, 1, 34]);
    for (list, wanted) in [
        (vec![], Announced::Nothing),
        (other.to_vec(), Announced::Nothing),
        (one.to_vec(), Announced::Total(34)),
        ([&other[..], &one].concat(), Announced::Total(34)),
        (short.to_vec(), Announced::Badly),
        ([one, one].concat(), Announced::Badly),
        ([&one[..], &short].concat(), Announced::Badly),
    ] {
        let mut items = Items::of_segment(&list).unwrap();
        assert_eq!(items.announced(), wanted);
        items.next(); // Where the iteration is makes no difference.
        assert_eq!(items.announced(), wanted);
        let message = segment_with(&list);
        let read = messages(&message, 0).next().unwrap().unwrap();
        assert!(matches!(&read.fields, Fields::Segment { items, .. }
            if items.announced() == wanted));
        let of_session = Items::of_session(&list).unwrap();
        assert_eq!(of_session.announced(), Announced::Nothing);
    }
    assert_eq!(Items::default().announced(), Announced::Nothing);
    let further = b"\x01\x01\0\0\0\0\0\0\0\x07\0\0\0\0\0\0\0\0";
    let read = messages(further, 0).next().unwrap().unwrap();
    assert!(matches!(&read.fields, Fields::Segment { items, .. }
        if items.announced() == Announced::Nothing));
}

#[test]
fn the_order_judges_what_a_node_is_about_to_send() {
    let segment = |flags, id| Fields::Segment {
        flags,
        id,
        items: Items::default(),
        length: 0,
        data: b"",
    };
    let session = Fields::SessInit {
        keepalive: 60,
        segment_mru: 1,
        transfer_mru: 1,
        node: b"ipn:1.0",
        items: Items::default(),
    };
    let mut order = Order::new();
    let mut judge = |fields| {
        let (offset, head_end) = (7, 7);
        order.judge(&Message {
            offset,
            head_end,
            fields,
        })
    };
    let refused = |code| {
        let (number, offset) = (0, 7);
        Err(Fault {
            code,
            number,
            offset,
        })
    };
    let (last, abandoned) = (false, None);
    let early = refused(Code::OrderSegmentBeforeSessInit);
    assert_eq!(judge(segment(SEGMENT_START, 0)), early);
    assert_eq!(judge(session), Ok(Turn::Other));
    let begins = Turn::Begin { last, abandoned };
    assert_eq!(judge(segment(SEGMENT_START, 0)), Ok(begins));
    let ends = Turn::Continue { last: true };
    assert_eq!(judge(segment(SEGMENT_END, 0)), Ok(ends));
    let late = refused(Code::OrderNoSuchOpenTransfer);
    assert_eq!(judge(segment(SEGMENT_END, 0)), late);
}
