"""Rules of bundles (RFC 9171, and RFC 9172 sections 3.6 and 3.8): a function for each.

It takes a `Bundle`. It returns None if the bundle keeps the rule, and otherwise the words of its
line. A rule of the source is below `@binds_source`. Rules of the adder of a security block go by
`security_said`. All others bind the sender, or say whom.
"""

from . import bundle_facts, texts
from .block_data import (
    ADMINISTRATIVE, BUNDLE_AGE, CONFIDENTIALITY, FRAGMENT, HOP_COUNT, INTEGRITY, PREVIOUS_NODE, Malformed, OtherRecord,
    StatusReport,
)
from .bundle_facts import (
    OF_ADDER, OF_SENDER, PAYLOAD_NUMBER, PRIMARY_NUMBER, all_said, binds_source, content, first_said, has_all_blocks,
    has_plain_data, is_hidden, is_own, is_payload_hidden, is_record, of_kind, record_said, security_said,
)
from .names import demux_of, node_of_endpoint
from .rules import MUST, SHOULD, Rules

# Flags of a bundle (section 4.2.3): it must not be fragmented; reports are requested of its
# reception, forwarding, delivery and deletion
NO_FRAGMENTS = 0x000004
REPORTS = 0x004000 | 0x010000 | 0x020000 | 0x040000
# The flags that are defined. The two without a name ask the application for an acknowledgement, and
# reports for times.
BUNDLE_FLAGS = FRAGMENT | ADMINISTRATIVE | NO_FRAGMENTS | 0x000020 | 0x000040 | REPORTS

# Flags of a block (section 4.2.4). A block that cannot be processed is reported by flag 02, deletes
# its bundle by 04, and is discarded by 10. Flag 01 copies a block into every fragment.
BLOCK_REPORT = 0x02
BLOCK_FLAGS = 0x01 | BLOCK_REPORT | 0x04 | 0x10

# Block types of other versions, or of none (section 9.1), and the greatest that a bundle may have
FOREIGN_TYPES, LAST_TYPE = (0, 2, 3, 4, 5, 8, 9), 255

# The types of administrative records that are of version 6 alone, or of none (section 6.1)
OTHER_RECORDS = 0, 2

# The reason of a status report that is reserved (section 6.1.1)
RESERVED_REASON = 255

RULES = Rules()


def asks_for_reports(it):
    """Whether some status report is requested."""
    return bool(it.primary.flags & REPORTS)


def is_anonymous(it):
    """Whether the source is dtn:none."""
    return it.primary.source is None


def flags_of(it):
    """The words for the flags of a bundle."""
    return f"flags={texts.hexadecimal(it.primary.flags)}"


def long_heads(it, found):
    """The offset of the first long head in the data of each of some blocks, if it has one."""
    return [at for block, _ in found if (at := bundle_facts.long_head(it, block)) is not None]


def long_heads_of_source(it):
    """The first long head outside of data, which is the source's."""
    return [it.long_head] if it.long_head is not None and is_own(it, it.primary.source) else []


def long_heads_of_security(it):
    """Long heads of security blocks, which are their adders' (RFC 9172 section 3.6)."""
    return long_heads(it, security_said(it, *OF_ADDER))


def surely_long_heads(it):
    """Long heads of the fields of blocks, and of security blocks if these were not changed."""
    return long_heads_of_source(it) + (long_heads_of_security(it) if has_plain_data(it) else [])


@RULES.rule(lambda it: bool(surely_long_heads(it)))
def long_head(it):
    """Each head is the shortest for its number (section 4.1, RFC 9172 section 3.6).

    A head in the data of a previous node, bundle age or hop count block is no field of a block. It is
    the sender's.
    """
    places = surely_long_heads(it) or long_heads_of_security(it) + long_heads(it, all_said(it, *OF_SENDER))
    return f"byte={min(places)}" if places else None


@RULES.rule(SHOULD)
@binds_source
def bundle_flags(it):
    """A bundle has no flag but those that are defined (section 4.2.3)."""
    return flags_of(it) if it.primary.flags & ~BUNDLE_FLAGS else None


def may_protect(it, block):
    """Whether a block integrity block may have the primary block as a target."""
    said = content(it, block)
    return is_hidden(it, block) or isinstance(said, Malformed) or PRIMARY_NUMBER in said.targets


def is_of_source(it):
    """Whether the bundle has all blocks, and came from its source, or is judged as the source's."""
    source = node_of_endpoint(it.primary.source)
    return has_all_blocks(it) and source is not None and source in (it.own, it.sender)


@RULES.rule(is_of_source)
@binds_source
def primary_check(it):
    """The primary block has a check, or a block integrity block protects it (section 4.3.1).

    A block whose targets cannot be read may protect it. A node on the path may have removed such a
    block, and may not add a check.
    """
    is_protected = any(may_protect(it, block) for block in of_kind(it, INTEGRITY))
    return None if it.primary.check or is_protected else ""


@RULES.rule(MUST)
@binds_source
def anonymous(it):
    """A bundle without a source is not fragmented, and asks for no reports (section 4.2.3)."""
    is_wrong = not it.primary.flags & NO_FRAGMENTS or asks_for_reports(it)
    return flags_of(it) if is_anonymous(it) and is_wrong else None


@RULES.rule(MUST)
@binds_source
def record_reports(it):
    """An administrative record asks for no reports (section 4.2.3)."""
    return flags_of(it) if is_record(it) and asks_for_reports(it) else None


@RULES.rule(MUST)
@binds_source
def block_reports(it):
    """The blocks of an administrative record, or of a bundle without a source, ask for no reports.

    (Section 4.2.4: every canonical block.)
    """
    asking = [block for block in it.blocks if block.flags & BLOCK_REPORT]
    return f"block={asking[0].number}" if asking and (is_record(it) or is_anonymous(it)) else None


@RULES.rule(SHOULD)
@binds_source
def block_flags(it):
    """A block has no flag but those that are defined (section 4.2.4)."""
    wrong = [block for block in it.blocks if block.flags & ~BLOCK_FLAGS]
    return f"block={wrong[0].number} flags={texts.hexadecimal(wrong[0].flags)}" if wrong else None


def names_of_primary(it):
    """Each endpoint ID of the primary block with the words that say whose it is."""
    begin = it.primary
    return [("destination", begin.destination), ("source", begin.source), ("report-to", begin.report_to)]


def names_in_data(it):
    """The same of each endpoint ID in the data of blocks, in their order.

    A previous node is the sender's, and a security source its adder's.
    """
    for block, each in all_said(it, PREVIOUS_NODE, *OF_ADDER):
        if block.kind == PREVIOUS_NODE:
            yield f"previous-node block={block.number}", each.node
        elif is_own(it, each.source):
            yield f"security-source block={block.number}", each.source


def wrong_names(found):
    """The words of those endpoint IDs that are texts and no dtn names."""
    return [of for of, name in found if isinstance(name, bytes) and demux_of(name) is None]


def wrong_names_of_primary(it):
    """Those of the primary block, which are the source's."""
    return wrong_names(names_of_primary(it)) if is_own(it, it.primary.source) else []


@RULES.rule(lambda it: has_plain_data(it) or bool(wrong_names_of_primary(it)))
def dtn_name(it):
    """A dtn endpoint ID that is a text has the form of a dtn name (section 4.2.5.1.1).

    The last is that of a status report, which is the source's.
    """
    report = report_of(it) if is_own(it, it.primary.source) else None
    of_report = wrong_names([("report-source", report.source)] if report else [])
    wrong = [*wrong_names_of_primary(it), *wrong_names(names_in_data(it)), *of_report]
    return f"of={wrong[0]}" if wrong else None


def is_beyond(it):
    """Whether the payload of a fragment ends after the end of the whole data.

    The length of ciphertext may be another than that of the data.
    """
    offset, total = it.primary.fragment
    return offset + it.identity.payload > total and not is_payload_hidden(it)


def is_no_fragment(it):
    """Whether a fragment must be none, or has nothing of the data."""
    return it.primary.flags & NO_FRAGMENTS or it.identity.payload == 0


@RULES.rule(lambda it: is_no_fragment(it) or has_plain_data(it))
@binds_source
def fragment(it):
    """A fragment may be one, and is a part of its application data.

    (Sections 3.1, 4.3.1, 5.8 and 5.9.)
    """
    if it.primary.fragment is None or not (is_no_fragment(it) or is_beyond(it)):
        return None
    offset, total = it.primary.fragment
    return f"offset={offset} length={it.identity.payload} total={total}"


@RULES.rule(SHOULD)
@binds_source
def whole_fragment(it):
    """A fragment is less than the whole data (section 5.8).

    A node on the path may have put it together again (section 5.9).
    """
    is_whole = it.primary.fragment == (0, it.identity.payload) and not is_payload_hidden(it)
    return f"total={it.identity.payload}" if is_whole else None


def is_age_due(it):
    """Whether a wrong number of bundle age blocks is the node's fault, whatever was fragmented."""
    return has_all_blocks(it) or len(of_kind(it, BUNDLE_AGE)) > 1


@RULES.rule(is_age_due)
@binds_source
def age(it):
    """A bundle has at most one bundle age block, and one if its time is 0 (section 4.4.2)."""
    blocks = len(of_kind(it, BUNDLE_AGE))
    return f"blocks={blocks}" if blocks > 1 or it.primary.time == 0 and blocks == 0 else None


@RULES.rule(MUST)
def previous_node(it):
    """A bundle has one previous node block at most (section 4.4.1)."""
    blocks = len(of_kind(it, PREVIOUS_NODE))
    return f"blocks={blocks}" if blocks > 1 else None


@RULES.rule(lambda it: len(of_kind(it, HOP_COUNT)) > 1 or has_plain_data(it))
@binds_source
def hop_count(it):
    """A bundle has one hop count block at most, with a limit from 1 to 255 (section 4.4.3).

    The limit is that of the first one, and is not shown if that one cannot be read.
    """
    blocks, (_, first) = len(of_kind(it, HOP_COUNT)), first_said(it, HOP_COUNT)
    if blocks < 2 and (first is None or 1 <= first.limit <= 255):
        return None
    return f"blocks={blocks}" + (f" limit={first.limit}" if first else "")


@RULES.rule(has_plain_data)
def confidential_primary(it):
    """No block confidentiality block has the primary block as a target (RFC 9172 section 3.8)."""
    wrong = [block.number for block, each in security_said(it, CONFIDENTIALITY) if PRIMARY_NUMBER in each.targets]
    return f"block={wrong[0]}" if wrong else None


@RULES.rule(SHOULD)
def hops(it):
    """The hop count is within its limit (section 4.4.3)."""
    _, first = first_said(it, HOP_COUNT)
    return f"limit={first.limit} count={first.count}" if first and first.count > first.limit else None


def is_judged(it, block):
    """Whether what is malformed in the data of a block is judged.

    A record is the source's. A security block that is malformed is no known node's.
    """
    if block.kind in OF_ADDER:
        return it.own is None
    return block.kind in OF_SENDER or is_own(it, it.primary.source)


def malformed(it, is_limit):
    """The number of each block that is malformed, and where, in their order.

    The blocks are those whose data is read: also the payload of an administrative record that is no
    fragment. Data that may be ciphertext is passed over. `is_limit` says whether the blocks are
    those that the toolkit does not read, or those that the RFC forbids.
    """
    judged = [block for block in it.blocks if is_judged(it, block) and not is_hidden(it, block)]
    contents = [(block.number, content(it, block)) for block in judged]
    return [
        (number, each.at) for number, each in contents
        if isinstance(each, Malformed) and each.is_limit == is_limit
    ]


@RULES.rule(has_plain_data)
def block_data(it):
    """The data of previous node, bundle age, hop count and security blocks is well formed.

    (Sections 4.4.1 to 4.4.3, RFC 9172 section 3.6.)
    """
    wrong = [(number, at) for number, at in malformed(it, False) if number != PAYLOAD_NUMBER]
    return f"block={wrong[0][0]} byte={wrong[0][1]}" if wrong else None


@RULES.rule(SHOULD)
def data_not_read(it):
    """The data of blocks and an administrative record are within the limits of the toolkit.

    (Section 4.1, RFC 9172 section 3.6.)
    """
    wrong = malformed(it, True)
    return f"block={wrong[0][0]} byte={wrong[0][1]}" if wrong else None


@RULES.rule(has_plain_data)
def record(it):
    """The payload of an administrative record is well formed (sections 6.1 and 6.1.1).

    No fragment is read.
    """
    wrong = [at for number, at in malformed(it, False) if number == PAYLOAD_NUMBER]
    return f"byte={wrong[0]}" if wrong else None


def is_group(name):
    """Whether an endpoint ID is a dtn name of a group of nodes, or of no node (section 4.2.5.1.1)."""
    return isinstance(name, bytes) and (demux_of(name) or b"").startswith(b"~")


@RULES.rule(MUST)
@binds_source
def source_node(it):
    """The source is one node, or none (section 5.2, section 4.2.5.1.1)."""
    return "" if is_group(it.primary.source) else None


def is_no_node(it):
    """Whether the first previous node is none, or a group."""
    _, first = first_said(it, PREVIOUS_NODE)
    return first.node is None or is_group(first.node)


def is_service(name):
    """Whether an endpoint ID is not that of a node, but of an application on it.

    (Sections 4.2.5.1.1 and 4.2.5.1.2.)
    """
    return bool(demux_of(name)) if isinstance(name, bytes) else name[-1] != 0


@RULES.rule(lambda it: is_no_node(it) and has_plain_data(it))
def previous_node_id(it):
    """The previous node is a node ID (section 4.4.1, section 4.2.5.2)."""
    block, first = first_said(it, PREVIOUS_NODE)
    return f"block={block.number}" if first and (is_no_node(it) or is_service(first.node)) else None


@RULES.rule(SHOULD)
def expired(it):
    """The age of a bundle is at most its lifetime (section 4.3.1, section 5.5)."""
    _, first = first_said(it, BUNDLE_AGE)
    lifetime = it.primary.lifetime
    return f"lifetime={lifetime} age={first.age}" if first and first.age > lifetime else None


@RULES.rule(SHOULD)
@binds_source
def block_type(it):
    """The type of a block is one of this version, or free (section 4.3.2, section 9.1)."""
    wrong = [block for block in it.blocks if block.kind in FOREIGN_TYPES or block.kind > LAST_TYPE]
    return f"block={wrong[0].number} type={wrong[0].kind}" if wrong else None


@RULES.rule(SHOULD)
@binds_source
def record_type(it):
    """An administrative record is of a type of this version (section 6.1).

    Other documents may define more types.
    """
    record = record_said(it)
    return f"type={record.kind}" if isinstance(record, OtherRecord) and record.kind in OTHER_RECORDS else None


def report_of(it):
    """The status report that the payload is, or None."""
    record = record_said(it)
    return record if isinstance(record, StatusReport) else None


def asserted(report):
    """What a status report has of each status that is asserted: True, or a time."""
    return [each for each in report.assertions if each is not False]


@RULES.rule(has_plain_data)
@binds_source
def report_times(it):
    """A status report has a time for each status that is asserted, or for none (section 6.1.1)."""
    report = report_of(it)
    kinds = {isinstance(each, bool) for each in asserted(report)} if report else set()
    return "" if len(kinds) > 1 else None


@RULES.rule(SHOULD)
@binds_source
def report_empty(it):
    """A status report asserts some status (section 5.1, section 6.1.1)."""
    report = report_of(it)
    return "" if report and not asserted(report) else None


@RULES.rule(SHOULD)
@binds_source
def report_reason(it):
    """The reason of a status report is not the reserved one (section 6.1.1).

    Other documents may define more reasons.
    """
    report = report_of(it)
    return f"reason={report.reason}" if report and report.reason == RESERVED_REASON else None


@RULES.rule(SHOULD)
@binds_source
def report_source(it):
    """The bundle that a status report is about has a source (section 4.2.3, section 6.1.1).

    A bundle without one asks for no reports.
    """
    report = report_of(it)
    return "" if report and report.source is None else None
