"""What the probe does in the cases of the groups `answers`, `end`, `slow` and `crowd`."""

import asyncio

from . import wire
from .act_begin import CUT, close
from .acts import act, halves
from .talk import NoSession, Skipped

# An ID that no node has used
OTHER = 1 << 62

# How much later than it should a KEEPALIVE may come, in seconds: a packet that was lost is sent again.
SLACK = 5

# How long a node should wait for a contact header at most, in seconds (section 4.1)
CONTACT_TIMEOUT = 60


# ---- answers out of place


@act("ack-nothing", wire.ack(wire.START | wire.END, OTHER, 5))
@act("refuse-nothing", wire.refuse(2, OTHER))
async def answer_to_nothing(talk, message):
    """Sends an answer to a transfer that is not there."""
    await talk.open()
    talk.put(message)
    await talk.until("reject-03")


@act("reject-nothing")
async def reject_nothing(talk):
    """Rejects a type that the node has not sent, and tries whether the node serves."""
    await talk.open()
    talk.put(wire.msg_reject(3, wire.XFER_REFUSE))
    await talk.serve()


async def unknown_type(talk, kind):
    """Sends a message of another type."""
    await talk.open()
    talk.spoil()
    talk.put(bytes([kind]))
    await talk.until("reject+close", "close")


for number in (0x00, *range(0x08, 0x10), 0xF0, 0xFF):
    act(f"type-{number:02x}", number)(unknown_type)


# ---- ends


async def ends(talk, message, is_slow=False):
    """Ends the session."""
    await talk.open()
    talk.put(message, is_slow)
    await talk.until("reply")


for number in (0, 1, 2, 3, 4, 5, 6, 0xFF):
    act(f"term-{number:02x}", wire.sess_term(number), is_fair=True)(ends)
act("term-flags", wire.sess_term(0, wire.RESERVED), is_fair=True)(ends)
act("term-bytes", wire.sess_term(), True, is_fair=True)(ends)
act("term-twice", wire.sess_term() * 2)(ends)
act("keepalive-after-term", wire.sess_term() + wire.keepalive())(ends)


@act("init-after-term")
async def init_after_term(talk):
    """Sends a SESS_INIT after the SESS_TERM."""
    await talk.open()
    talk.put(wire.sess_term() + talk.sess_init())
    await talk.until("reply", "reject")


@act("term-inside", is_fair=True)
async def term_inside(talk):
    """Ends the session inside a transfer, and then ends the transfer."""
    await talk.open()
    first, second = halves(talk.bundle())
    ident = talk.ident()
    talk.segment(wire.START, ident, first)
    talk.put(wire.sess_term())
    talk.segment(wire.END, ident, second)
    await talk.until("reply+acks", "reply+refuse")


@act("term-reply")
async def term_reply(talk):
    """Sends a SESS_TERM with REPLY that answers nothing."""
    await talk.open()
    talk.put(wire.sess_term(0, wire.REPLY))
    await talk.until("term", "reply", "reject")


@act("term-both")
async def term_both(talk):
    """Answers the node's SESS_TERM by one without REPLY."""
    await talk.contact()
    talk.take_term = lambda message: note_term(talk, message)
    if not await talk.exchange():
        raise NoSession(talk.why("no SESS_INIT"))
    talk.mark()
    talk.release()
    await talk.connection.wait(lambda: talk.term_of_node or talk.connection.end, talk.timeout)
    if talk.term_of_node is None:
        raise Skipped("the node did not end the session")
    await talk.until("close")


def note_term(talk, message):
    """Takes the SESS_TERM of the node as one that crosses the probe's."""
    if talk.term_of_node is None:
        talk.term_of_node = message, False
        talk.put(wire.sess_term(5))


@act("transfer-after-term")
async def transfer_after_term(talk):
    """Begins a transfer after both SESS_TERM."""
    await talk.open()
    talk.put(wire.sess_term())
    if await talk.until("reply") and not talk.connection.end:
        talk.transfer([talk.bundle()])
        await talk.until("refuse", "reject", "acks+ack")


@act("sends-after-term")
async def sends_after_term(talk):
    """Keeps the session ending by an open transfer, and lets the node send."""
    await talk.open()
    first, second = halves(talk.bundle())
    ident = talk.ident()
    talk.segment(wire.START, ident, first)
    await talk.until("acks", "refuse", "reject", "term")
    talk.put(wire.sess_term())
    await talk.until("reply")
    await talk.run_command()
    await talk.connection.wait(lambda: talk.segments() or talk.connection.end, talk.timeout)
    if not talk.connection.end:
        talk.segment(wire.END, ident, second)
        await talk.until("acks", "refuse")


@act("close-without-term")
async def close_without_term(talk):
    """Closes the connection of a session."""
    await talk.open()
    await close(talk)


@act("reset-without-term")
async def reset_without_term(talk):
    """Resets the connection of a session."""
    await talk.open()
    talk.connection.reset()


# ---- silence


@act("keepalive-due")
async def keepalive_due(talk):
    """Waits for two KEEPALIVE of an interval of 1 s."""
    if talk.probe.base.interval == 0:
        raise Skipped("the node asks for no KEEPALIVE")
    await talk.contact()
    if not await talk.exchange(talk.sess_init(keepalive=1)) or talk.connection.end:
        return
    talk.mark()
    for count in (1, 2):
        if not await talk.connection.wait(lambda: len(list(talk.answers())) >= count or talk.connection.end, 1 + SLACK):
            talk.notes["late"] += 1
            return


@act("keepalive-none")
async def keepalive_none(talk):
    """Asks for no KEEPALIVE, and waits for one."""
    interval = talk.probe.base.interval
    if interval == 0:
        raise Skipped("the node asks for no KEEPALIVE")
    if interval + SLACK > talk.probe.patience:
        raise Skipped(f"--patience is no longer than the node's interval of {interval} s")
    await talk.contact()
    if await talk.exchange(talk.sess_init(keepalive=0)):
        talk.mark()
        await talk.connection.wait(lambda: talk.holds("keepalive") or talk.connection.end, interval + SLACK)
        talk.notes["silence"] += not talk.holds("keepalive")


@act("silence-session")
async def silence_session(talk):
    """Sends nothing in a session."""
    if talk.probe.base.interval == 0:
        raise Skipped("the node asks for no KEEPALIVE")
    await talk.contact()
    talk.is_silent, talk.timeout = True, talk.probe.patience
    await talk.exchange(talk.sess_init(keepalive=1))
    talk.mark()
    await talk.until("term")


@act("silence-connected", b"")
@act("silence-header", wire.contact()[:CUT])
async def silence(talk, data):
    """Sends no contact header, or not all of it."""
    if talk.probe.patience <= CONTACT_TIMEOUT:
        raise Skipped("--patience is no longer than the minute that a node may wait")
    if data:
        talk.put(data)
    talk.spoil()
    talk.timeout = talk.probe.patience
    if not await talk.until("close"):
        talk.notes["open"] += 1


@act("crowd")
async def crowd(talk):
    """Holds eight sessions that are silent or half open, and then one that is to be served."""
    others = [await talk.probe.connect() for _ in range(7)]
    crowded = [talk.connection, *others]
    try:
        for number, connection in enumerate(crowded):
            connection.put(wire.contact()[: (0, CUT, 6, 6)[number % 4]])
        await asyncio.gather(*(connection.flush(talk.timeout) for connection in crowded))
        talk.notes["served"] += await talk.probe.serves()
    finally:
        for other in others:
            other.reset()
