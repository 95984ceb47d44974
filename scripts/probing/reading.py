"""Reads what a node sends, message by message, as its bytes come."""

from both_sides.facts import Item, Message
from tcpclkit_scripts.messages import CONTACT_LENGTH, U8, U16, U32, U64, Cut, Fault, Messages

from . import wire


class Incoming:
    """The stream of the node.

    contact   the version and the flags of its contact header, once that has come
    messages  the messages that are whole
    fault     whether no message begins at `offset`: nothing is read after that
    missing   how much data of the open segment `head` has not come
    """

    def __init__(self):
        self.contact, self.messages, self.fault, self.offset = None, [], False, 0
        self.rest, self.head, self.missing = b"", None, 0

    def feed(self, data):
        """Takes the next bytes. Returns the messages that they complete."""
        before = len(self.messages)
        if self.head is not None and not self.fault:
            count = min(self.missing, len(data))
            self.missing, data = self.missing - count, data[count:]
            if self.missing == 0:
                self.take(self.head)
                self.head = None
        if data and not self.fault:
            self.read(self.rest + data)
        return self.messages[before:]

    def take(self, message):
        """Takes a whole message."""
        self.messages.append(message)
        self.offset = message.end

    def read(self, data):
        """Reads the messages in some bytes, which begin at `offset`."""
        messages, base = Messages(data, wire.MOST), self.offset
        try:
            if self.contact is None:
                self.read_contact(data)
            while self.offset - base < len(data) and self.head is None:
                self.read_message(messages, self.offset - base, base)
        except Cut:
            pass
        except Fault:
            self.fault = True
        self.rest = b"" if self.head is not None else data[self.offset - base :]

    def read_contact(self, data):
        """Reads the contact header."""
        if len(data) < CONTACT_LENGTH:
            raise Cut
        if data[:4] != wire.contact()[:4]:
            raise Fault
        self.contact, self.offset = (data[4], data[5]), CONTACT_LENGTH

    def read_message(self, messages, at, base):
        """Reads the message at an offset."""
        if messages.data[at] == wire.XFER_SEGMENT:
            begin, end = messages.data_of_segment(at)
            flags, ident = messages.data[at + 1], messages.number(U64, at + 2)
            items = tuple(items_of(messages, at + 10)) if flags & wire.START else ()
            message = Message(base + at, base + end, wire.XFER_SEGMENT, flags, ident, end - begin, items=items)
            if end > messages.size:
                self.head, self.missing = message, end - messages.size
                return
        else:
            message = fields_of(messages, at, base, base + messages.end(at))
        self.take(message)

    def is_cut(self):
        """Returns whether the bytes so far end inside a message."""
        return not self.fault and (self.rest != b"" or self.head is not None)


def fields_of(messages, at, base, end):
    """Returns the message at an offset, which is whole and no XFER_SEGMENT."""
    data, offset = messages.data, base + at
    kind = data[at]
    if kind == wire.XFER_ACK:
        numbers = messages.number(U64, at + 2), messages.number(U64, at + 10)
        return Message(offset, end, kind, data[at + 1], *numbers)
    if kind == wire.XFER_REFUSE:
        return Message(offset, end, kind, ident=messages.number(U64, at + 2), reason=data[at + 1])
    if kind == wire.SESS_TERM:
        return Message(offset, end, kind, data[at + 1], reason=data[at + 2])
    if kind == wire.MSG_REJECT:
        return Message(offset, end, kind, reason=data[at + 1], header=data[at + 2])
    if kind == wire.SESS_INIT:
        numbers = tuple(messages.number(form, at + it) for form, it in ((U16, 1), (U64, 3), (U64, 11)))
        length = messages.number(U16, at + 19)
        node, items = data[at + 21 : at + 21 + length], tuple(items_of(messages, at + 21 + length))
        return Message(offset, end, kind, items=items, numbers=numbers, node=node.decode("utf-8", "replace"))
    return Message(offset, end, kind)


def items_of(messages, at):
    """Yields the items of an extension list, which is whole."""
    end = at + 4 + messages.number(U32, at)
    at += 4
    while at < end:
        yield Item(messages.number(U8, at), messages.number(U16, at + 1))
        at += 5 + messages.number(U16, at + 3)
