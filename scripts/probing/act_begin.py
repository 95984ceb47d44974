"""What the probe does in the cases of the groups `contact` and `session`."""

from . import wire
from .acts import act
from .table import ACCEPTS
from .talk import NoSession

# How many bytes of a contact header are sent where it is cut
CUT = 3


@act("contact-wait", is_fair=True)
async def contact_wait(talk):
    """Waits whether the node, which accepted the connection, begins."""
    connection = talk.connection
    if not await connection.wait(lambda: connection.got.size or connection.end, talk.timeout) or connection.end:
        talk.notes["silence"] += 1
    if not connection.end:
        await begun(talk)


@act("contact-bytes", b"dtn!\4\0", True, is_fair=True)
@act("contact-flags", b"dtn!\4\xfe", False, is_fair=True)
@act("can-tls", b"dtn!\4\1", False)
async def other_contact(talk, header, is_slow):
    """Sends another contact header, or sends it in another way."""
    if await begun(talk, header, is_slow):
        await talk.serve()


async def begun(talk, header=None, is_slow=False):
    """Begins a session. Returns whether it has begun: a node that leaves is judged by its answers."""
    try:
        await talk.contact(header, is_slow)
    except NoSession:
        return False
    return await talk.exchange()


@act("one-write", is_fair=True)
async def one_write(talk):
    """Sends all up to a transfer in one write."""
    ident, data = talk.ident(), talk.bundle()
    talk.transfers[ident] += 1
    messages = wire.contact() + talk.sess_init() + wire.segment(wire.START | wire.END, ident, data)
    if talk.role != ACCEPTS:
        await talk.connection.wait(lambda: talk.contact_came() or talk.connection.end, talk.timeout)
    talk.put(messages)
    await talk.until("acks", "refuse", "term")


@act("magic", wire.contact(magic=b"dtn?"))
@act("magic-text", b"GET / HTTP/1.1\r\nHost: node\r\n\r\n")
@act("reply-version-0", wire.contact(version=0))
@act("reply-version-3", wire.contact(version=3))
async def no_contact(talk, data):
    """Sends something that the node has to leave at once."""
    await after_contact(talk)
    talk.put(data)
    talk.spoil()
    await talk.until("close")


async def after_contact(talk):
    """Waits for the contact header of a node that begins."""
    if talk.role != ACCEPTS:
        await talk.connection.wait(lambda: talk.contact_came() or talk.connection.end, talk.timeout)


@act("version-0", 0)
@act("version-3", 3)
@act("version-5", 5)
@act("version-255", 255)
@act("reply-version-5", 5)
async def version(talk, number):
    """Sends a contact header of another version."""
    await after_contact(talk)
    talk.put(wire.contact(version=number))
    talk.spoil()
    await talk.until("term", "close", "init")


@act("contact-cut")
async def contact_cut(talk):
    """Closes the connection inside the contact header."""
    talk.put(wire.contact()[:CUT])
    await close(talk)


async def close(talk):
    """Closes the connection once all is sent, and waits for the node."""
    talk.spoil()
    talk.closes = True
    await talk.connection.flush(talk.timeout)
    talk.connection.finish()
    await talk.until("close")


@act("contact-reset")
async def contact_reset(talk):
    """Resets the connection inside the contact header."""
    talk.put(wire.contact()[:CUT])
    await talk.connection.flush(talk.timeout)
    talk.connection.reset()


@act("connect-close")
async def connect_close(talk):
    """Closes the connection at once."""
    await close(talk)


# ---- SESS_INIT


@act("keepalive-0", {"keepalive": 0}, is_fair=True)
@act("keepalive-1", {"keepalive": 1}, is_fair=True)
@act("keepalive-65535", {"keepalive": 65535}, is_fair=True)
@act("segment-mru-0", {"segment_mru": 0}, is_fair=True)
@act("segment-mru-1", {"segment_mru": 1}, is_fair=True)
@act("segment-mru-max", {"segment_mru": wire.MOST}, is_fair=True)
@act("transfer-mru-0", {"transfer_mru": 0}, is_fair=True)
@act("transfer-mru-1", {"transfer_mru": 1}, is_fair=True)
@act("transfer-mru-max", {"transfer_mru": wire.MOST}, is_fair=True)
@act("node-empty", {"node": b""}, is_fair=True)
@act("node-long", {"node": b"dtn://".ljust(65534, b"n") + b"/"})
@act("node-no-uri", {"node": b"a node"})
@act("node-not-utf8", {"node": b"dtn://\xff\xfe/"})
@act("item-unknown", {"items": wire.item(0, wire.UNKNOWN_ITEM, b"item")}, is_fair=True)
@act("item-flags", {"items": wire.item(wire.RESERVED, wire.UNKNOWN_ITEM, b"item")}, is_fair=True)
@act("item-critical", {"items": wire.item(wire.CRITICAL, wire.UNKNOWN_ITEM, b"item")}, is_fair=True)
async def other_init(talk, fields):
    """Sends another SESS_INIT, and tries whether the node serves."""
    await talk.contact()
    talk.mark()
    if await talk.exchange(talk.sess_init(**fields)):
        await talk.serve()


@act("init-bytes", is_fair=True)
async def init_bytes(talk):
    """Sends the SESS_INIT byte by byte."""
    await talk.contact()
    talk.mark()
    if await talk.exchange(is_slow=True):
        await talk.serve()


@act("item-overrun", wire.item(0, wire.UNKNOWN_ITEM, b"item", length=40))
@act("item-underrun", wire.item(0, wire.UNKNOWN_ITEM, b"item") + b"\0\0")
async def wrong_list(talk, items):
    """Sends a list of items that disagrees with its length."""
    await talk.contact()
    talk.mark()
    talk.spoil()
    await talk.exchange(talk.sess_init(items))
    await talk.until("term", "close")


@act("item-list-huge")
async def item_list_huge(talk):
    """Announces a list of items that never comes."""
    await talk.contact()
    talk.put(talk.sess_init(listed=wire.LONGEST_LIST))
    await close(talk)


@act("second-init")
async def second_init(talk):
    """Sends the SESS_INIT twice."""
    await talk.open()
    talk.put(talk.sess_init())
    await talk.until("reject-03")


@act("early-segment", None)
@act("early-ack", wire.ack(wire.START | wire.END, 0, 5))
@act("early-refuse", wire.refuse(0, 0))
@act("early-keepalive", wire.keepalive())
@act("early-reject", wire.msg_reject(3, wire.XFER_SEGMENT))
async def early(talk, message):
    """Sends a message before the SESS_INIT, and then that."""
    await talk.contact()
    if talk.role != ACCEPTS:
        await talk.connection.wait(talk.is_decided, talk.timeout)
    talk.mark()
    if message is None:
        talk.transfer([talk.bundle()])
    else:
        talk.put(message)
    seen = await talk.until("reject", "term", "close") if message != wire.keepalive() else False
    if not (seen or talk.connection.end) and await talk.exchange():
        await talk.serve()


@act("early-term")
async def early_term(talk):
    """Sends a SESS_TERM in place of the SESS_INIT."""
    await talk.contact()
    talk.mark()
    talk.put(wire.sess_term())
    await talk.until("reply")
