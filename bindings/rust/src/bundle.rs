//! Bundles that lie in one slice, and what is said of any bundle.

use crate::fault::Fault;
use crate::raw;
use std::ops::Range;

/// The verdict on bytes as one bundle.
///
/// `P` is what it has of the payload: the bytes, or their place in the bundle if a
/// [`Scan`](crate::Scan) has passed them.
#[derive(Clone, Copy, Debug, PartialEq, Eq)]
pub struct Verdict<P> {
    /// The first fault, or `None` if the bytes are a good bundle.
    pub fault: Option<Fault>,
    /// The payload's bytes that are there. They are `None` if the head of the payload was not
    /// accepted. A bad bundle may have them too.
    pub payload: Option<P>,
}

/// An endpoint ID.
#[derive(Clone, Debug, PartialEq, Eq, Hash)]
pub enum EndpointId {
    /// `dtn:none`.
    DtnNone,
    /// `dtn:` and this name.
    Dtn(Box<[u8]>),
    /// `ipn:` with two numbers.
    Ipn {
        /// The node number.
        node: u64,
        /// The service number.
        service: u64,
    },
    /// `ipn:` with three numbers.
    Ipn3 {
        /// The allocator identifier.
        allocator: u64,
        /// The node number.
        node: u64,
        /// The service number.
        service: u64,
    },
}

/// Which part of a bundle a fragment has.
#[derive(Clone, Copy, Debug, PartialEq, Eq, Hash)]
pub struct Fragment {
    /// Where the payload begins in that of the whole bundle.
    pub offset: u64,
    /// The length of the payload of the whole bundle.
    pub total: u64,
}

/// A good bundle.
///
/// `P` is what it has of the payload, as in a [`Verdict`].
#[derive(Clone, Debug, PartialEq, Eq)]
pub struct Bundle<P> {
    /// The bundle processing control flags.
    pub flags: u64,
    /// The destination.
    pub destination: EndpointId,
    /// The source node.
    pub source: EndpointId,
    /// Where status reports go.
    pub report_to: EndpointId,
    /// The creation time, in milliseconds since 2000-01-01 UTC.
    pub time: u64,
    /// The sequence number of the creation timestamp.
    pub sequence: u64,
    /// The lifetime, in milliseconds after the creation time.
    pub lifetime: u64,
    /// What a fragment is of, or `None` for a whole bundle.
    pub fragment: Option<Fragment>,
    /// The number of canonical blocks.
    pub blocks: u64,
    /// The payload.
    pub payload: P,
}

/// The fields of a bundle's primary block that come before its first fault.
///
/// They are numbered in their order (RFC 9171 section 4.3.1). Field 1 is the version, and 3 the
/// type of the check value.
#[derive(Clone, Debug, PartialEq, Eq)]
pub struct Primary {
    /// The number of the last field that was accepted, or 0.
    pub accepted: u64,
    /// Whether the whole block was accepted, its check value too.
    pub is_whole: bool,
    /// Field 2: the bundle processing control flags.
    pub flags: Option<u64>,
    /// Field 4: the destination.
    pub destination: Option<EndpointId>,
    /// Field 5: the source node.
    pub source: Option<EndpointId>,
    /// Field 6: where status reports go.
    pub report_to: Option<EndpointId>,
    /// Field 7: the creation time, in milliseconds since 2000-01-01 UTC, and the sequence number.
    pub creation: Option<(u64, u64)>,
    /// Field 8: the lifetime, in milliseconds after the creation time.
    pub lifetime: Option<u64>,
    /// Fields 9 and 10, which a fragment alone has.
    pub fragment: Option<Fragment>,
}

/// Judges the bytes as one bundle.
pub fn verdict(bytes: &[u8]) -> Verdict<&[u8]> {
    let (status, verdict) = raw::answer(|verdict| {
        // SAFETY: the slice and the struct are valid, and do not overlap.
        unsafe { raw::tcpclkit_raw_judge_bundle(bytes.as_ptr(), bytes.len(), verdict) }
    });
    Verdict::of(status, &verdict, |place| part(bytes, place))
}

/// Judges the bytes as one bundle, and returns the fields of a good one.
///
/// # Errors
///
/// The first fault, if the bytes are no good bundle. It [is truncated](Fault::is_truncated) if they
/// end inside one.
pub fn bundle(bytes: &[u8]) -> Result<Bundle<&[u8]>, Fault> {
    described(bytes).bundle(|place| part(bytes, place))
}

/// The fields of the primary block that come before the first fault, also of a bad bundle.
pub fn primary(bytes: &[u8]) -> Primary {
    described(bytes).primary()
}

fn described(bytes: &[u8]) -> Described {
    Described::by(|[destination, source, report_to], bundle| {
        // SAFETY: the slices and the struct are valid, and do not overlap.
        unsafe {
            raw::tcpclkit_raw_describe_bundle(
                bytes.as_ptr(),
                bytes.len(),
                destination.as_mut_ptr(),
                destination.len(),
                source.as_mut_ptr(),
                source.len(),
                report_to.as_mut_ptr(),
                report_to.len(),
                bundle,
            )
        }
    })
}

/// The bytes at a place that the library wrote.
pub(crate) fn part(bytes: &[u8], place: Range<u64>) -> &[u8] {
    &bytes[place.start as usize..place.end as usize]
}

/// What the library wrote of a bundle.
pub(crate) struct Described {
    status: u32,
    it: raw::Bundle,
    /// The slices for destination, source and report-to endpoint. Each begins with the name, if
    /// there is one.
    names: Names,
}

type Names = [[u8; raw::EID_LIMIT]; 3];

impl Described {
    /// What a call of the library writes.
    pub(crate) fn by(call: impl FnOnce(&mut Names, &mut raw::Bundle) -> u32) -> Described {
        let mut names = [[0; raw::EID_LIMIT]; 3];
        let (status, it) = raw::answer(|bundle| call(&mut names, bundle));
        Described { status, it, names }
    }

    /// The good bundle, or the fault.
    pub(crate) fn bundle<P>(
        &self,
        payload: impl FnOnce(Range<u64>) -> P,
    ) -> Result<Bundle<P>, Fault> {
        let it = &self.it;
        let verdict = Verdict::of(self.status, &it.verdict, payload);
        match verdict.fault {
            Some(fault) => Err(fault),
            None => Ok(Bundle {
                flags: it.flags,
                destination: EndpointId::of(&it.destination, &self.names[0]),
                source: EndpointId::of(&it.source, &self.names[1]),
                report_to: EndpointId::of(&it.report_to, &self.names[2]),
                time: it.time,
                sequence: it.sequence,
                lifetime: it.lifetime,
                fragment: (it.is_fragment == 1).then(|| self.fragment()),
                blocks: it.blocks,
                payload: verdict.payload.expect("a good bundle has a payload"),
            }),
        }
    }

    /// The fields of the primary block that were accepted.
    pub(crate) fn primary(&self) -> Primary {
        let it = &self.it;
        let has = |field| it.primary_fields >= field;
        Primary {
            accepted: it.primary_fields,
            is_whole: it.primary_whole == 1,
            flags: has(2).then_some(it.flags),
            destination: has(4).then(|| EndpointId::of(&it.destination, &self.names[0])),
            source: has(5).then(|| EndpointId::of(&it.source, &self.names[1])),
            report_to: has(6).then(|| EndpointId::of(&it.report_to, &self.names[2])),
            creation: has(7).then_some((it.time, it.sequence)),
            lifetime: has(8).then_some(it.lifetime),
            fragment: has(10).then(|| self.fragment()),
        }
    }

    fn fragment(&self) -> Fragment {
        Fragment {
            offset: self.it.fragment_offset,
            total: self.it.fragment_total,
        }
    }
}

impl<P> Verdict<P> {
    /// The verdict that the library wrote, with what is made of the place of the payload.
    pub(crate) fn of(
        status: u32,
        it: &raw::Verdict,
        payload: impl FnOnce(Range<u64>) -> P,
    ) -> Verdict<P> {
        let place = it.payload_offset..it.payload_offset + it.payload_seen;
        Verdict {
            fault: (status != raw::OK).then(|| Fault::of(it.fault)),
            payload: (it.has_payload == 1).then(|| payload(place)),
        }
    }

    /// Whether the bytes are a good bundle.
    pub fn is_good(&self) -> bool {
        self.fault.is_none()
    }

    /// Whether the bytes end inside a bundle, so that more bytes may complete it.
    pub fn is_truncated(&self) -> bool {
        self.fault.is_some_and(|fault| fault.is_truncated())
    }
}

impl EndpointId {
    /// The endpoint ID that the library wrote. `name` begins with its name, if it has one.
    pub(crate) fn of(it: &raw::Eid, name: &[u8]) -> EndpointId {
        let raw::Eid {
            allocator,
            node,
            service,
            ..
        } = *it;
        match it.kind {
            raw::EID_DTN_NONE => EndpointId::DtnNone,
            raw::EID_DTN => EndpointId::Dtn(name[..it.name_length as usize].into()),
            raw::EID_IPN => EndpointId::Ipn { node, service },
            raw::EID_IPN3 => EndpointId::Ipn3 {
                allocator,
                node,
                service,
            },
            kind => panic!("libtcpclkit returned an endpoint ID of the unknown kind {kind}"),
        }
    }
}
