"""What the probe does in the cases of transfers from the node."""

from . import wire
from .act_begin import close
from .acts import act
from .talk import Skipped

# A limit for segments that makes several of almost any bundle, and an ID that no node has used
SMALL, OTHER = 16, 1 << 62


async def begin(talk, on_segment, **limits):
    """Begins a session, and lets the node send a bundle. `on_segment` takes its segments."""
    await talk.contact()
    talk.is_holding, talk.on_segment = False, on_segment
    if await talk.exchange(talk.sess_init(**limits)):
        talk.mark()
        await talk.run_command()
    await talk.connection.wait(lambda: talk.segments() or talk.connection.end, talk.timeout)
    if not talk.segments():
        raise Skipped(f"the node sent no bundle within {talk.timeout:g} s")


async def received(talk):
    """Waits until a transfer of the node has come, as long as more of it comes."""
    before = -1
    while before < len(talk.segments()) and not talk.ended_transfer() and not talk.connection.end:
        before = len(talk.segments())
        await talk.connection.wait(
            lambda: len(talk.segments()) > before or talk.ended_transfer() or talk.connection.end, talk.timeout
        )


@act("sent-good", is_fair=True)
async def sent_good(talk):
    """Takes a transfer."""
    await begin(talk, talk.acknowledge)
    await received(talk)
    if talk.ended_transfer():
        talk.notes["sent"] += 1


@act("sent-segment-1", {"segment_mru": 1}, is_fair=True)
@act("sent-segment-100", {"segment_mru": 100}, is_fair=True)
@act("sent-transfer-1", {"transfer_mru": 1}, is_fair=True)
@act("sent-transfer-100", {"transfer_mru": 100}, is_fair=True)
async def limited(talk, limits):
    """Has a small limit. A node may then send nothing."""
    try:
        await begin(talk, talk.acknowledge, **limits)
    except Skipped:
        return
    await talk.connection.wait(lambda: talk.ended_transfer() or talk.connection.end, talk.timeout)


# ---- refusals


@act("refuse-first-00", 0x00, 1)
@act("refuse-first-01", 0x01, 1)
@act("refuse-first-02", 0x02, 1)
@act("refuse-first-03", 0x03, 1)
@act("refuse-first-04", 0x04, 1)
@act("refuse-first-05", 0x05, 1)
@act("refuse-first-06", 0x06, 1)
@act("refuse-first-07", 0x07, 1)
@act("refuse-first-ff", 0xFF, 1)
@act("refuse-middle", 0x02, 3)
async def refused(talk, reason, number):
    """Refuses the transfer of a segment, and then tries whether the node serves."""
    refused_id, taken = [], []

    def take(message):
        taken.append(message)
        if not refused_id and (len(taken) >= number or message.flags & wire.END):
            refused_id.append(message.ident)
        if message.ident in refused_id:
            talk.put(wire.refuse(reason, message.ident))
        else:
            talk.acknowledge(message)

    await begin(talk, take, segment_mru=SMALL)
    await talk.connection.wait(lambda: refused_id or talk.connection.end, talk.timeout)
    has_answer = await talk.serve()
    count = sum(it.ident in refused_id for it in talk.segments())
    if has_answer and talk.term_of_node is None:
        talk.put(wire.sess_term())
        await talk.connection.wait(lambda: talk.term_of_node or talk.connection.end, talk.timeout)
    goes_on = has_answer and count < sum(it.ident in refused_id for it in talk.segments())
    talk.notes["goes-on" if goes_on else "stops"] += 1


@act("refuse-last")
async def refuse_last(talk):
    """Refuses a transfer once its END has come."""

    def take(message):
        if message.flags & wire.END:
            talk.put(wire.refuse(3, message.ident))
        else:
            talk.acknowledge(message)

    await begin(talk, take)
    await received(talk)
    await talk.serve()


# ---- acknowledgements


@act("no-ack")
async def no_ack(talk):
    """Acknowledges nothing, and waits."""
    await begin(talk, lambda message: None, segment_mru=SMALL)
    await talk.until("term", "close")


@act("ack-short", lambda talk, it: [wire.ack(it.flags, it.ident, max(talk.came[it.ident] - 1, 0))])
@act("ack-long", lambda talk, it: [wire.ack(it.flags, it.ident, talk.came[it.ident] + 1)])
@act("ack-flags", lambda talk, it: [wire.ack(it.flags ^ 3, it.ident, talk.came[it.ident])])
@act("ack-reserved-flags", lambda talk, it: [
    wire.ack(it.flags | wire.RESERVED_OF_SEGMENT, it.ident, talk.came[it.ident])
])
@act("ack-other-id", lambda talk, it: [
    wire.ack(it.flags, OTHER, it.length), wire.ack(it.flags, it.ident, talk.came[it.ident])
])
@act("ack-before", lambda talk, it: [
    wire.ack(it.flags, it.ident, talk.came[it.ident]), wire.ack(0, it.ident, talk.came[it.ident] + 1)
])
@act("reject-segment", lambda talk, it: [wire.msg_reject(3, wire.XFER_SEGMENT)])
async def other_answer(talk, answers):
    """Gives other answers to the segments of the node, and then tries whether it serves."""

    def take(message):
        for answer in answers(talk, message):
            talk.put(answer)

    await begin(talk, take, segment_mru=64)
    if not talk.holds("reject", "term"):
        await talk.serve()
    await talk.until("reject-03", "served", "term", "close")


# ---- ends in the middle


@act("sent-term")
async def sent_term(talk):
    """Ends the session in the middle of a transfer."""
    await begin(talk, talk.acknowledge, segment_mru=SMALL)
    talk.put(wire.sess_term())
    await talk.until("reply")
    await received(talk)


@act("sent-fin")
async def sent_fin(talk):
    """Closes the connection in the middle of a transfer."""
    await begin(talk, lambda message: None, segment_mru=SMALL)
    await close(talk)


@act("sent-reset")
async def sent_reset(talk):
    """Resets the connection in the middle of a transfer."""
    await begin(talk, lambda message: None, segment_mru=SMALL)
    talk.connection.reset()
