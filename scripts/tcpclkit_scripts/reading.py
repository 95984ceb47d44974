"""Reads the messages of a recording, as its bytes come."""

from .messages import (
    ACK_FIELDS,
    CONTACT_LENGTH,
    MAGIC,
    REFUSE_FIELDS,
    SESS_INIT,
    SESS_TERM,
    TERM_FIELDS,
    U16,
    U64,
    VERSION,
    XFER_ACK,
    XFER_REFUSE,
    XFER_SEGMENT,
    Cut,
    Fault,
    Messages,
)


class Reader:
    """Reads a recording, and hands what matters to `taker`: its calls are named as the messages.

    `offset` is where `rest` begins, the bytes of a message that is not whole. If this is a segment
    whose head is whole, `segment` has its fields, and `rest` is its head: `came` is how much of its
    data has come, and `missing` is how much has not. After a `fault`, nothing is read. Without the
    contact header, the first bytes are at another offset than 0.
    """

    def __init__(self, taker, offset=0):
        self.taker, self.offset, self.rest, self.fault = taker, offset, b"", False
        self.segment, self.missing, self.came = None, 0, 0

    def feed(self, data, time):
        """Takes the next bytes, which had come at a time."""
        if self.fault:
            return
        if self.segment is not None:
            count = min(self.missing, len(data))
            self.missing, self.came = self.missing - count, self.came + count
            if self.missing > 0:
                return
            self.taker.segment(*self.segment, time)
            self.offset, self.segment, self.rest = self.segment[-1], None, b""
            data = data[count:]
        self.read(self.rest + data, time)

    def read(self, data, time):
        """Reads the messages in some bytes, which begin at `offset`."""
        messages, at = Messages(data), 0
        try:
            if self.offset == 0:
                at = self.contact_header(data)
            while at < len(data) and self.segment is None:
                at = self.message(messages, at, time)
        except Cut:
            pass
        except Fault:
            self.fault = True
        self.offset, self.rest = self.offset + at, data[at:]
        if self.segment is not None:
            self.rest = self.rest[: len(self.rest) - self.came]

    @staticmethod
    def contact_header(data):
        """Returns the offset after the contact header."""
        if len(data) < CONTACT_LENGTH:
            raise Cut
        if data[: len(MAGIC)] != MAGIC or data[len(MAGIC)] != VERSION:
            raise Fault
        return CONTACT_LENGTH

    def message(self, messages, at, time):
        """Reads the message at an offset. Returns the offset after it, or its own if it is cut."""
        data, kind, offset = messages.data, messages.data[at], self.offset + at
        if kind == XFER_SEGMENT:
            return self.xfer_segment(messages, at, time)
        end = messages.end(at)
        if kind == XFER_ACK:
            self.taker.ack(offset, *ACK_FIELDS.unpack_from(data, at), time)
        elif kind == XFER_REFUSE:
            self.taker.refuse(offset, *REFUSE_FIELDS.unpack_from(data, at), time)
        elif kind == SESS_TERM:
            self.taker.sess_term(*TERM_FIELDS.unpack_from(data, at))
        elif kind == SESS_INIT:
            begin = at + 21
            node = data[begin : begin + messages.number(U16, at + 19)]
            self.taker.sess_init(self.offset + end, node)
        return end

    def xfer_segment(self, messages, at, time):
        """Reads an XFER_SEGMENT. Returns the offset after it, or its own if its data is cut."""
        begin, end = messages.data_of_segment(at)
        flags, ident = messages.data[at + 1], messages.number(U64, at + 2)
        offset, after = self.offset + at, self.offset + end
        fields = offset, flags, ident, end - begin, after
        if end > messages.size:
            self.segment, self.came = fields, messages.size - begin
            self.missing = end - messages.size
            return at
        self.taker.segment(*fields, time)
        return end

    def is_cut(self):
        """Returns whether the bytes so far end inside a message, or inside the contact header."""
        return not self.fault and (self.rest != b"" or self.segment is not None)
