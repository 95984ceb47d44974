"""The blocks that tshark shows of each bundle, with the texts that the lines of `blocks` have.

`tshark -T pdml` writes a tree of each packet. A field in it has a name, its text as tshark shows
it, its offset in the packet or in the joined data of the transfer, and its length.
"""

import re
import xml.etree.ElementTree as xml

from model import texts

from .lines import Bundle

# The protocols whose trees are read
PROTOCOLS = "tcpcl bpv7 bpv7.admin_rec"

# The remarks on an item that is ill-formed, or of another type than the one that is due
ITEM_REMARKS = {"_ws.wscbor.cbor_invalid", "_ws.wscbor.cbor_wrong_type"}
# The fields with remarks
REMARKS = ("_ws.expert", "_ws.malformed")
# A remark on a type, and not on data
UNKNOWN_TYPE = "Unknown type code"

# What tshark calls block types, records and reasons, if it has more or other words for them
NAMES = {
    "Unknown": "?",
    "Block Integrity Block": "block-integrity",
    "Block Confidentiality Block": "block-confidentiality",
    "Bundle Status Report": "status-report",
    "Destination endpoint ID unintelligible": "destination-unavailable",
    "No known route to destination from here": "no-known-route",
    "No timely contact with next node on route": "no-timely-contact",
}


# ---- texts of fields


def shown(field):
    """Returns the text of a field as tshark shows it."""
    return field.get("show")


def flags(field):
    """Returns flags as a line shows them."""
    return texts.hexadecimal(int(shown(field), 16))


def check(field):
    """Returns the name of a check type."""
    return texts.name(texts.CHECKS, int(shown(field)))


def check_value(field):
    """Returns whether a check has the value that it should have."""
    return {"0": "differs", "1": "good"}[shown(field)]


def named(field):
    """Returns a number and its name."""
    name = re.search(r": (.*) \(\d+\)$", field.get("showname"))[1]
    return f"{shown(field)}/{NAMES.get(name) or name.lower().replace(' ', '-')}"


def status(field):
    """Returns a status of a status report: its time, or whether it is asserted."""
    is_asserted = found(field, "bpv7.status_assert.val")
    time = found(field, "bpv7.status_assert.time bpv7.time.dtntime")
    if is_asserted is None or time is not None:
        return None if time is None else shown(time)
    return "yes" if shown(is_asserted) == "1" else "no"


# ---- the fields of each block: the path to each in its tree, and the text of it

CHECK = {
    "check": ("bpv7.crc_type", check),
    "check-value": ("bpv7.crc_status", check_value),
}
PRIMARY = {
    **CHECK,
    "flags": ("bpv7.primary.bundle_flags", flags),
    "destination": ("bpv7.primary.dst_eid bpv7.primary.dst_uri", shown),
    "source": ("bpv7.primary.src_nodeid bpv7.primary.src_uri", shown),
    "report-to": ("bpv7.primary.report_nodeid bpv7.primary.report_uri", shown),
    "time": ("bpv7.primary.create_ts bpv7.create_ts.time bpv7.time.dtntime", shown),
    "sequence": ("bpv7.primary.create_ts bpv7.create_ts.seqno", shown),
    "lifetime": ("bpv7.primary.lifetime", shown),
    "fragment-offset": ("bpv7.primary.frag_offset", shown),
    "fragment-total": ("bpv7.primary.total_len", shown),
}
CANONICAL = {
    **CHECK,
    "number": ("bpv7.canonical.block_num", shown),
    "type": ("bpv7.canonical.type_code", named),
    "flags": ("bpv7.canonical.block_flags", flags),
}
DATA = {
    "node": ("bpv7.previous_node.nodeid bpv7.previous_node.uri", shown),
    "age": ("bpv7.bundle_age.time", shown),
    "limit": ("bpv7.hop_count.limit", shown),
    "count": ("bpv7.hop_count.current", shown),
}
SECURITY = {
    "targets": ("bpsec.asb.target_count", shown),
    "context": ("bpsec.asb.ctxid", shown),
    "context-flags": ("bpsec.asb.flags", flags),
    "source": ("bpsec.asb.secsrc.nodeid bpsec.asb.secsrc.uri", shown),
}
RECORD = {"record": ("bpv7.admin_rec.type_code", named)}
STATUSES = {
    name: (f"bpv7.status_rep.status_info bpv7.status_rep.{name}", status)
    for name in ("received", "forwarded", "delivered", "deleted")
}
REPORT = {
    **STATUSES,
    "reason": ("bpv7.status_rep.reason_code", named),
    "of-source": ("bpv7.status_rep.subj_src_nodeid bpv7.status_rep.subj_src_uri", shown),
    "of-time": ("bpv7.status_rep.subj_ts bpv7.create_ts.time bpv7.time.dtntime", shown),
    "of-sequence": ("bpv7.status_rep.subj_ts bpv7.create_ts.seqno", shown),
    "of-fragment-offset": ("bpv7.status_rep.subj_frag_offset", shown),
    "of-fragment-length": ("bpv7.status_rep.subj_payload_len", shown),
}


# The fields of which each is compared at least once
FIELDS = {
    *("at", "length", "data-at", "data-length", "malformed-at"),
    *PRIMARY, *CANONICAL, *DATA, *SECURITY, *RECORD, *REPORT,
}


# ---- trees


def found(tree, path):
    """Returns what is at a path of names in a tree, or None."""
    for name in path.split():
        tree = next((it for it in tree if it.get("name") == name), None)
        if tree is None:
            return None
    return tree


def values(tree, table):
    """Returns the fields of a table that are in a tree."""
    fields = {name: (found(tree, path), text) for name, (path, text) in table.items()}
    fields = {name: text(it) for name, (it, text) in fields.items() if it is not None}
    return {name: it for name, it in fields.items() if it is not None}


def place(tree, start, prefix=""):
    """Returns the offset in the bundle that begins at `start`, and the length."""
    at = int(tree.get("pos")) - start
    return {f"{prefix}at": str(at), f"{prefix}length": tree.get("size")}


def malformed_at(data, start):
    """Returns the offset of the first item on which tshark has a remark, if there is one.

    A remark on an item that was expected after the data has an offset before the data.
    """
    remarks = (it for it in data.iter() if ITEM_REMARKS & {inner.get("name") for inner in it})
    offsets = [int(it.get("pos")) for it in remarks]
    first = min((it for it in offsets if it >= int(data.get("pos"))), default=None)
    return {} if first is None else {"malformed-at": str(first - start)}


def data_of(tree, start):
    """Returns where the data of a block is, and what is read of it, but for a record."""
    data = found(tree, "bpv7.canonical.data")
    if data is None:
        return {}
    fields = place(data, start, "data-") | values(data, DATA) | malformed_at(data, start)
    for name in ("bpsec.bib", "bpsec.bcb"):
        fields |= values(found(data, name) or (), SECURITY)
    return fields


def encrypted_in(tree):
    """Returns the numbers of the blocks that the block-confidentiality blocks of a bundle name."""
    numbers = set()
    for block in (it for it in tree.iter() if it.get("name") == "bpsec.bcb"):
        numbers |= {shown(it) for it in block.iter() if it.get("name") == "bpsec.asb.target"}
    return frozenset(numbers)


def has_remarks(packet):
    """Returns whether tshark finds something malformed, or does not read some of the data."""
    texts_of = (it.get("showname") or "" for it in packet.iter() if it.get("name") in REMARKS)
    return any(re.search("Malformed|Undecoded", it) and UNKNOWN_TYPE not in it for it in texts_of)


def bundle_of(tree, packet):
    """Returns the bundle of a tree in a packet, but for its record."""
    start, blocks = int(tree.get("pos")), []
    for it in (it for it in tree if it.get("name") == "bpv7.block"):
        fields = values(it, CANONICAL) | data_of(it, start) if blocks else values(it, PRIMARY)
        blocks.append(place(it, start) | fields)
    return Bundle(tree.get("size"), blocks, "", has_remarks(packet), encrypted_in(tree))


def record_of(tree, start):
    """Returns the fields of an administrative record in the bundle that begins at `start`."""
    report = found(tree, "bpv7.status_rep")
    fields = values(tree, RECORD) | malformed_at(tree, start)
    return fields | ({} if report is None else values(report, REPORT))


def bundles_of(packet):
    """Returns the bundles in a packet, by the ID of the transfer, which comes before each."""
    bundles, transfer, start = {}, None, 0
    for tree in packet:
        name = tree.get("name")
        if name == "tcpcl":
            for it in tree.iter():
                is_segment = it.get("name") == "tcpcl.v4.xfer_id"
                transfer = int(shown(it), 16) if is_segment else transfer
        elif name == "bpv7":
            bundles[transfer], start = bundle_of(tree, packet), int(tree.get("pos"))
        elif name == "bpv7.admin_rec":
            bundles[transfer].blocks[-1].update(record_of(tree, start))
    return bundles


def bundles_by_sender(pdml, senders):
    """Returns the bundles that each sender sent, by the ID of the transfer."""
    bundles = {it: {} for it in senders}
    for sender, packet in zip(senders, xml.parse(pdml).getroot(), strict=True):
        bundles[sender].update(bundles_of(packet))
    return bundles
