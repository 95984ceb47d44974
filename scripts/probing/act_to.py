"""What the probe does in the cases of transfers to the node."""

from . import wire
from .act_begin import close
from .acts import act, halves
from .bundles import with_wrong_check
from .talk import Skipped

# What ends the wait for the answers to a transfer, if nothing special is due
ANY = "acks", "refuse", "reject", "term"

# A critical item that no node knows
CRITICAL = wire.item(wire.CRITICAL, wire.UNKNOWN_ITEM, b"item")

# The greatest segment of a transfer above a limit
PIECE = 1 << 16


def ones(data):
    """Returns pieces of 1 byte."""
    return [data[at : at + 1] for at in range(len(data))]


def with_empty(at):
    """Returns what cuts data into pieces, one of them empty."""

    def cut(data):
        pieces = halves(data)
        pieces.insert(at, b"")
        return pieces

    return cut


@act("segments", halves, is_fair=True)
@act("segments-of-1", ones, is_fair=True)
@act("empty-first", with_empty(0), is_fair=True)
@act("empty-middle", with_empty(1), is_fair=True)
@act("empty-last", with_empty(2), is_fair=True)
async def segments(talk, cut):
    """Sends a transfer in pieces."""
    await talk.open()
    talk.transfer(cut(talk.bundle()))
    await talk.until(*ANY)


@act("segment-bytes", {"is_slow": True}, is_fair=True)
@act("segment-flags", {"reserved": wire.RESERVED_OF_SEGMENT}, is_fair=True)
@act("id-max", {"ident": wire.MOST}, is_fair=True)
async def two_segments(talk, fields):
    """Sends a transfer of two segments in another way."""
    await talk.open()
    talk.transfer(halves(talk.bundle()), **fields)
    await talk.until(*ANY)


@act("pipelined", is_fair=True)
async def pipelined(talk):
    """Sends four transfers in one write."""
    await talk.open()
    data = b""
    for _ in range(4):
        ident = talk.ident()
        talk.transfers[ident] += 2
        data += b"".join(wire.transfer(ident, halves(talk.bundle())))
    talk.put(data)
    await talk.until("acks", "refuse+refuse+refuse+refuse", "term")


@act("id-again")
async def id_again(talk):
    """Sends two transfers with one ID."""
    await talk.open()
    for _ in range(2):
        talk.transfer([talk.bundle()], ident=7)
        await talk.until(*ANY)


@act("empty-transfer", lambda talk: b"")
@act("no-bundle", lambda talk: b"these bytes are no bundle")
@act("two-bundles", lambda talk: talk.bundle() + talk.bundle())
@act("wrong-check", lambda talk: with_wrong_check(talk.bundle()))
async def other_data(talk, data):
    """Sends a transfer of other data."""
    await talk.open()
    talk.transfer([data(talk)])
    await talk.until(*ANY)


@act("segment-above-mru")
async def segment_above_mru(talk):
    """Sends a segment above the node's segment MRU."""
    await talk.open()
    talk.transfer([talk.bundle(bytes(talk.init.numbers[1]))])
    await talk.until(*ANY)


@act("transfer-above-mru", False)
@act("transfer-above-mru-announced", True)
async def transfer_above_mru(talk, is_announced):
    """Sends a transfer above the node's transfer MRU, until the node refuses it."""
    await talk.open()
    _, segment_mru, transfer_mru = talk.init.numbers
    data, ident = talk.bundle(bytes(transfer_mru)), talk.ident()
    step, at = min(PIECE, segment_mru), 0
    items = wire.total_length(len(data)) if is_announced else b""
    while at < len(data) and not (talk.connection.end or talk.holds("refuse", "reject", "term")):
        flags = wire.START * (at == 0) | wire.END * (at + step >= len(data))
        talk.segment(flags, ident, data[at : at + step], items=items)
        await talk.connection.flush(talk.timeout)
        at += step
    await talk.until(*ANY)


# ---- announced lengths


@act("length-right", 2, is_fair=True)
@act("length-of-one", 1)
async def right_length(talk, count):
    """Sends a transfer with its length announced."""
    await talk.open()
    data = talk.bundle()
    talk.transfer(halves(data) if count == 2 else [data], items=wire.total_length(len(data)))
    await talk.until(*ANY)


@act("length-small", 2, -1)
@act("length-large", 2, 1)
@act("length-max", 2, wire.MOST)
@act("length-of-one-wrong", 1, 1)
async def wrong_length(talk, count, more):
    """Sends a transfer of another length than it announces."""
    await talk.open()
    data = talk.bundle()
    items = wire.total_length(min(len(data) + more, wire.MOST))
    talk.transfer(halves(data) if count == 2 else [data], items=items)
    await talk.until("refuse", "reject", "term")


@act("length-twice")
async def length_twice(talk):
    """Announces the length of a transfer twice."""
    await talk.open()
    data = talk.bundle()
    talk.transfer(halves(data), items=2 * wire.total_length(len(data)))
    await talk.until(*ANY)


# ---- items


@act("xfer-item-unknown", wire.item(0, wire.UNKNOWN_ITEM, b"item"), is_fair=True)
@act("xfer-item-flags", wire.item(wire.RESERVED, wire.UNKNOWN_ITEM, b"item"), is_fair=True)
async def unknown_item(talk, items):
    """Sends a good transfer with an item that the node has to pass over."""
    await talk.open()
    await talk.serve(items)


@act("xfer-item-critical", CRITICAL, is_fair=True)
@act("xfer-item-overrun", wire.item(0, wire.UNKNOWN_ITEM, b"item", length=40))
async def refused_item(talk, items):
    """Sends a transfer with an item that the node cannot take."""
    await talk.open()
    talk.transfer([talk.bundle()], items=items)
    await talk.until("refuse", "reject", "term")


@act("xfer-list-huge", {"listed": wire.LONGEST_LIST})
@act("segment-huge", {"length": 1 << 63})
async def never_whole(talk, claims):
    """Announces more than comes, and closes the connection."""
    await talk.open()
    talk.segment(wire.START | wire.END, talk.ident(), b"" if "listed" in claims else talk.bundle(), **claims)
    await close(talk)


@act("refused-goes-on")
async def refused_goes_on(talk):
    """Continues a transfer that the node has refused."""
    await talk.open()
    first, second = halves(talk.bundle())
    ident = talk.ident()
    talk.segment(wire.START, ident, first, items=CRITICAL)
    if not await talk.until("refuse"):
        raise Skipped("the node did not refuse the transfer")
    talk.segment(wire.END, ident, second)
    await talk.until("refuse+refuse", "reject", "term")


@act("refuse-order", is_fair=True)
async def refuse_order(talk):
    """Sends a good transfer, and one that is to be refused."""
    await talk.open()
    ident = talk.ident()
    talk.transfers[ident] += 1
    good = wire.segment(wire.START | wire.END, ident, talk.bundle())
    talk.put(good + wire.segment(wire.START | wire.END, talk.ident(), talk.bundle(), items=CRITICAL))
    await talk.until("acks+refuse-05", "refuse+refuse+refuse-05", "term")


# ---- out of order


@act("stray-segment")
async def stray_segment(talk):
    """Sends a segment of no open transfer."""
    await talk.open()
    talk.segment(0, 7, b"stray")
    await talk.until("reject", "refuse", "term")


@act("start-twice")
async def start_twice(talk):
    """Sends the START of a transfer twice."""
    await talk.open()
    first, second = halves(talk.bundle())
    ident = talk.ident()
    for _ in range(2):
        talk.segment(wire.START, ident, first)
    await talk.until("reject", "refuse", "term")
    if not talk.connection.end:
        talk.segment(wire.END, ident, second)


@act("start-open", False)
@act("interleaved", True)
async def start_open(talk, goes_on):
    """Begins a transfer while another one is open, and may end both."""
    await talk.open()
    pieces, idents = [halves(talk.bundle()) for _ in range(2)], [talk.ident(), talk.ident()]
    for ident, (first, _) in zip(idents, pieces):
        talk.segment(wire.START, ident, first)
    for ident, (_, second) in zip(idents if goes_on else idents[1:], pieces if goes_on else pieces[1:]):
        talk.segment(wire.END, ident, second)
    await talk.until(*ANY)


# ---- transfers without an end


async def begun(talk):
    """Begins a transfer, and waits for the answer to its first segment. Returns the rest, and the ID."""
    await talk.open()
    first, second = halves(talk.bundle())
    ident = talk.ident()
    talk.segment(wire.START, ident, first)
    await talk.until(*ANY)
    return second, ident


@act("cut-fin")
async def cut_fin(talk):
    """Closes the connection inside a transfer."""
    await begun(talk)
    await close(talk)


@act("cut-reset")
async def cut_reset(talk):
    """Resets the connection inside a transfer."""
    await begun(talk)
    talk.connection.reset()


@act("cut-term")
async def cut_term(talk):
    """Ends the session inside a transfer, and closes the connection."""
    await begun(talk)
    talk.put(wire.sess_term())
    await talk.until("reply")
    await close(talk)
