"""The words and lines of `list` and of the report.

The sections of docs/FORMATS.md are "Report lines", "Fault lines", "Unpacking" and "Packing". The
lines of `blocks` are here too.
"""

import re

from . import block_data, bundle, wire

# The names of reasons, by their codes in RFC 9174 sections 5.2.4, 6.1 and 5.1.2
REFUSE = ["unknown", "completed", "no-resources", "retransmit", "not-acceptable", "extension-failure", "session-terminating"]
TERM = ["unknown", "idle-timeout", "version-mismatch", "busy", "contact-failure", "resource-exhaustion"]
REJECT = ["?", "message-type-unknown", "message-unsupported", "message-unexpected"]

# The names of check types (RFC 9171 section 4.2.1), and of block types (RFC 9171 section 4.4 and
# RFC 9172 section 3)
CHECKS = ["none", "crc16", "crc32c"]
BLOCKS = {
    block_data.PAYLOAD: "payload",
    block_data.PREVIOUS_NODE: "previous-node",
    block_data.BUNDLE_AGE: "bundle-age",
    block_data.HOP_COUNT: "hop-count",
    block_data.INTEGRITY: "block-integrity",
    block_data.CONFIDENTIALITY: "block-confidentiality",
}

# The names of the reasons of status reports, by their codes (RFC 9171 section 6.1.1 and RFC 9172
# section 7.1)
REPORT = [
    "no-additional-information", "lifetime-expired", "forwarded-over-unidirectional-link", "transmission-canceled",
    "depleted-storage", "destination-unavailable", "no-known-route", "no-timely-contact", "block-unintelligible",
    "hop-limit-exceeded", "traffic-pared", "block-unsupported", "missing-security-operation",
    "unknown-security-operation", "unexpected-security-operation", "failed-security-operation",
    "conflicting-security-operation",
]

# The texts of the faults of bundles, and of the one fault of `pack`.
FAULTS = {
    "B1": "input ends inside a bundle",
    "B3": "not a bundle",
    "B4": "ill-formed head",
    "B5": "wrong kind of item",
    "B6": "wrong number of elements",
    "B7": "unsupported bundle version",
    "B8": "unknown check type",
    "B9": "unknown endpoint scheme",
    "B10": "wrong scheme-specific part",
    "B11": "endpoint id too long",
    "B12": "wrong check length",
    "B13": "check differs",
    "B14": "wrong block number",
    "B15": "repeated block number",
    "B16": "too many blocks",
    "B17": "no payload block at the end",
    "P1": "longer than the peer's transfer limit",
}


def escaped(content):
    """Bytes as escaped text."""
    return "".join(chr(byte) if 0x21 <= byte <= 0x7E and byte != 0x5C else f"\\x{byte:02x}" for byte in content)


def name(names, code):
    """The name of a code in a list of names."""
    return names[code] if code < len(names) else "?"


def reason(names, code):
    """A reason code and its name."""
    return f"reason={code:02x}/{name(names, code)}"


def items(listed):
    """ITEMS: the number of extension items, and then each item."""
    return f"items={len(listed)}" + "".join(f" item={it.flags:02x}:{it.kind:04x}:{len(it.value)}" for it in listed)


def message(it):
    """The line of a message after its offset."""
    if isinstance(it, wire.SessInit):
        numbers = f"keepalive={it.keepalive} segment-mru={it.segment_mru} transfer-mru={it.transfer_mru}"
        return f"sess-init {numbers} node={escaped(it.node)} {items(it.items)}"
    if isinstance(it, wire.Segment):
        listed = "" if it.items is None else f" {items(it.items)}"
        return f"xfer-segment flags={it.flags:02x} id={it.id}{listed} length={it.length}"
    if isinstance(it, wire.Ack):
        return f"xfer-ack flags={it.flags:02x} id={it.id} length={it.length}"
    if isinstance(it, wire.Refuse):
        return f"xfer-refuse {reason(REFUSE, it.reason)} id={it.id}"
    if isinstance(it, wire.SessTerm):
        return f"sess-term flags={it.flags:02x} {reason(TERM, it.reason)}"
    if isinstance(it, wire.Reject):
        return f"msg-reject {reason(REJECT, it.reason)} header={it.header:02x}"
    return "keepalive"


def endpoint(it):
    """EID: an endpoint ID."""
    if it is None:
        return "dtn:none"
    return f"dtn:{escaped(it)}" if isinstance(it, bytes) else "ipn:" + ".".join(map(str, it))


def endpoint_of(content):
    """The endpoint ID with this text. One without a text of this form is a ValueError."""
    numbers = re.fullmatch(rb"ipn:(\d+(?:\.\d+){1,2})", content, re.ASCII)
    if content == b"dtn:none":
        it = None
    elif content.startswith(b"dtn:"):
        unescaped = lambda found: bytes.fromhex(found[1].decode())
        it = re.sub(rb"\\x([0-9a-f]{2})", unescaped, content[4:])
    elif numbers:
        it = tuple(map(int, numbers[1].split(b".")))
    else:
        raise ValueError("another scheme, or no numbers")
    is_long = len(it) > bundle.MAX_NAME if isinstance(it, bytes) else max(it or (0,)) >= 2**64
    if is_long or endpoint(it).encode() != content:
        raise ValueError("another spelling, or too long")
    return it


def identity(it):
    """IDENTITY: the words of a line that name a bundle."""
    text = f"source={endpoint(it.source)} time={it.time} sequence={it.sequence}"
    text += f" destination={endpoint(it.destination)} payload={it.payload}"
    return text + (f" fragment={it.fragment[0]}/{it.fragment[1]}" if it.fragment else "")


def hexadecimal(number):
    """H: flags of a bundle, a block or a security context, in as many pairs of digits as needed."""
    return number.to_bytes(max(1, (number.bit_length() + 7) // 8), "big").hex()


def primary(it):
    """The line of a primary block after its first word."""
    text = f"primary at={it.at} length={it.length} flags={hexadecimal(it.flags)} check={CHECKS[it.check]}"
    text += f" destination={endpoint(it.destination)} source={endpoint(it.source)} report-to={endpoint(it.report_to)}"
    text += f" time={it.time} sequence={it.sequence} lifetime={it.lifetime}"
    return text + (f" fragment={it.fragment[0]}/{it.fragment[1]}" if it.fragment else "")


def block(it, content):
    """The line of a canonical block after its first word. `content` is what its data says."""
    text = f"block {it.number} at={it.at} length={it.length} type={it.kind}/{BLOCKS.get(it.kind, '?')}"
    text += f" flags={hexadecimal(it.flags)} check={CHECKS[it.check]} data-at={it.data_at} data-length={len(it.data)}"
    return text if content is None else f"{text} {WORDS[type(content)](content)}"


def assertion(it):
    """W: a status of a status report, which is asserted or not, or has a time."""
    return {False: "no", True: "yes"}[it] if isinstance(it, bool) else f"{it}"


def security(it):
    """The words of a security block."""
    flags = hexadecimal(it.flags)
    return f"targets={len(it.targets)} context={it.context} context-flags={flags} source={endpoint(it.source)}"


def status_report(it):
    """The words of a status report."""
    statuses = zip(["received", "forwarded", "delivered", "deleted"], it.assertions)
    text = "record=1/status-report " + " ".join(f"{status}={assertion(each)}" for status, each in statuses)
    text += f" reason={it.reason}/{name(REPORT, it.reason)}"
    text += f" of-source={endpoint(it.source)} of-time={it.time} of-sequence={it.sequence}"
    return text + (f" of-fragment={it.fragment[0]}+{it.fragment[1]}" if it.fragment else "")


# The words of the data of each kind
WORDS = {
    block_data.Malformed: lambda it: f"malformed-at={it.at}",
    block_data.PreviousNode: lambda it: f"node={endpoint(it.node)}",
    block_data.BundleAge: lambda it: f"age={it.age}",
    block_data.HopCount: lambda it: f"limit={it.limit} count={it.count}",
    block_data.Security: security,
    block_data.StatusReport: status_report,
    block_data.OtherRecord: lambda it: f"record={it.kind}/?",
}


def wire_fault(fault):
    """The line of a fault of the wire or of the order of messages, if there is one."""
    return [] if fault is None else [f"tcpclkit: byte {fault[0]}: {fault[1]}"]


def bundle_fault(number, code, place):
    """The line of a fault of a bundle that was to be packed."""
    return f"tcpclkit: bundle {number} byte {place}: {code} {FAULTS[code]}"


def lines(them):
    """Lines as bytes, each ended by one byte 0a."""
    return "".join(f"{line}\n" for line in them).encode()
