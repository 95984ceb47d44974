"""The tool `check`: which rules a recording breaks, or a file of bundles."""

from . import (
    bundle, bundle_facts, bundle_rules, message_rules, names, rules, security_rules, texts, tools, transfer_rules, wire,
)

# The rule of a contact header, and those of messages. A transfer that is not closed when the stream
# ends breaks the first of transfers, and any other transfer keeps it.
CONTACT, MESSAGES = message_rules.RULES[:1], message_rules.RULES[1:]
UNFINISHED, CLOSED = transfer_rules.RULES[:1], transfer_rules.RULES[1:]

# The rules of a bundle
BUNDLES = [*bundle_rules.RULES, *security_rules.RULES]

# All rules in the order of docs/FORMATS.md
RULES = [*message_rules.RULES, *transfer_rules.RULES, *BUNDLES]


def of_bundle(judged, nodes, at, of, may_be_must=True):
    """The levels and lines of the rules that a bundle breaks. Only a good one is judged."""
    if judged.fault:
        return []
    it = bundle_facts.Bundle(judged.identity, judged.primary, judged.blocks, judged.long_head, *nodes)
    return [*rules.broken(BUNDLES, it, at, of, may_be_must)]


def of_transfer(transfer, nodes):
    """The levels and lines of the rules that a closed transfer breaks, and then its bundle."""
    at, of = transfer.heads[0].at, f"transfer={transfer.id}"
    found = of_bundle(transfer.judged, nodes, at, of, transfer_rules.is_plain(transfer))
    return [*rules.broken(CLOSED, transfer, at, of), *found]


def sender_of(heads):
    """The node that the first SESS_INIT among some heads names, or None."""
    ids = [head.it.node for head in heads if isinstance(head.it, wire.SessInit)]
    return names.node_of_id(ids[0]) if ids else None


def of_end(transfers, count):
    """The levels and lines of the transfer that a clean end after `count` heads abandons."""
    last = [it for it in transfers if it.due == (count, tools.ABANDONED)]
    return [found for it in last for found in rules.broken(UNFINISHED, it, it.heads[0].at, f"transfer={it.id}")]


def of_recording(stream, peer_segment, peer_transfer, own):
    """The levels and lines of the rules that a recording breaks, and the fault line, if any.

    A head has its own lines, and then those of the transfer that it closes. `own` is a node or None.
    """
    read = wire.reading(stream)
    heads, fault = tools.heads_of(read, keep_going=True)
    transfers = tools.walk(heads, fault)
    closed = {it.due[0]: it for it in transfers if it.due and it.due[1] == tools.CLOSED}
    found = [] if read.contact is None else [*rules.broken(CONTACT, read.contact, 0)]
    for head in heads:
        before = heads[:head.number]
        found += rules.broken(MESSAGES, message_rules.Turn(head, before, peer_segment, peer_transfer), head.at)
        found += of_transfer(closed[head.number], (own, sender_of(before))) if head.number in closed else []
    return found + of_end(transfers, len(heads)), texts.wire_fault(fault)


def of_bundles(content, own):
    """The same of bundles, one after another. As in `pack`, the first bad one ends the run."""
    found, number, at = [], 0, 0
    while at < len(content):
        judged = bundle.first(content[at:])
        if judged.fault:
            return found, [texts.bundle_fault(number, *judged.fault)]
        found += of_bundle(judged, (own, None), at, f"bundle={number}")
        at, number = at + judged.length, number + 1
    return found, []


def node_of_option(own):
    """The node of the option `--own`, or None without it. It has to name one."""
    node = None if own is None or len(own.encode()) > wire.MAX_NODE else names.node_of_id(own.encode())
    if own is not None and node is None:
        raise ValueError(f"{own} names no node")
    return node


def checking(content, must=False, own=None, peer_segment=None, peer_transfer=None, bundles=False):
    """`check` of a recording, or with `bundles` of bundles. Returns (output, report, status)."""
    node = node_of_option(own)
    found, report = of_bundles(content, node) if bundles else of_recording(content, peer_segment, peer_transfer, node)
    lines = [line for level, line in found if level == rules.MUST or not must]
    return texts.lines(lines), texts.lines(report), 3 if report else 1 if lines else 0
