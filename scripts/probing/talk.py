"""The probe's side of a session: a peer that keeps RFC 9174 unless a case says otherwise."""

import asyncio
import time
from collections import Counter

from . import wire
from .connection import FIN, RST
from .table import ACCEPTS

# The least time between two looks whether a KEEPALIVE is due
TICK = 0.25


# The words of messages that have no reason
WORDS = {wire.XFER_ACK: "ack", wire.KEEPALIVE: "keepalive", wire.SESS_INIT: "init", wire.XFER_SEGMENT: "segment"}


class NoSession(Exception):
    """The node has not come to a session. The text says why."""


class Skipped(Exception):
    """A case cannot be tried. The text says why."""


class Talk:
    """A session with the node.

    probe      what all sessions share (probe.py)
    connection the TCP connection
    role       whether the node accepted the connection, or made it
    init       the SESS_INIT of the node, or None; `own` has the numbers of the probe's
    transfers  by ID, how many segments of it the case has sent whose answers it waits for
    trials     the IDs of good transfers that only try whether the node serves
    came       by ID, how many bytes of a transfer of the node have come
    held       the acknowledgements that wait until the case has its answers
    notes      what the case itself has seen of the node, as words of answers
    since      how many messages had come when the case began to wait for answers
    is_fair    whether the probe does nothing wrong, so that nothing of it is left unread
    is_spoiled whether the node cannot read what follows, so the duties of a peer have ended
    closes     whether the case ends the connection
    is_ending  whether the probe ends the session after the case
    """

    def __init__(self, probe, connection, role, is_fair=False):
        self.probe, self.connection, self.role, self.is_fair = probe, connection, role, is_fair
        self.init, self.own, self.notes, self.since = None, None, Counter(), 0
        self.transfers, self.trials, self.came, self.held, self.next_id = Counter(), set(), Counter(), [], 0
        self.is_holding, self.is_spoiled, self.closes, self.is_silent = True, False, False, False
        self.is_ending = False
        self.has_term, self.term_of_node, self.on_segment = False, None, self.acknowledge
        self.wrote, self.upkeep_task, self.command = time.monotonic(), None, None
        connection.on_read = self.read
        self.timeout = probe.timeout

    # ---- the duties of a peer

    def read(self, message):
        """Takes a message of the node, and does what a peer has to do."""
        if message.kind == wire.SESS_INIT and self.init is None:
            self.init = message
        elif message.kind == wire.XFER_SEGMENT:
            self.came[message.ident] += message.length
            if not self.is_spoiled:
                self.on_segment(message)
        elif message.kind == wire.SESS_TERM:
            self.take_term(message)

    def acknowledge(self, message):
        """Acknowledges a segment, or lets that wait."""
        answer = wire.ack(message.flags, message.ident, self.came[message.ident])
        if self.is_holding:
            self.held.append(answer)
        else:
            self.put(answer)

    def release(self):
        """Sends the acknowledgements that wait."""
        self.is_holding = False
        for answer in self.held:
            self.put(answer)
        self.held = []

    def take_term(self, message):
        """Answers a SESS_TERM, unless the probe has sent one."""
        if self.term_of_node is None:
            self.term_of_node = message, self.has_term
        if not (self.has_term or self.is_spoiled):
            self.release()
            self.put(wire.sess_term(message.reason, message.flags | wire.REPLY))

    async def upkeep(self):
        """Sends each KEEPALIVE that is due."""
        interval = min(self.own[0], self.init.numbers[0])
        while interval > 0 and not (self.is_silent or self.is_spoiled or self.has_term):
            await asyncio.sleep(min(TICK, interval / 4))
            if time.monotonic() - self.wrote > interval / 2 and self.connection.is_idle and not self.has_term:
                self.put(wire.keepalive())

    def put(self, data, is_slow=False):
        """Sends bytes."""
        self.wrote = time.monotonic()
        if data[:1] == bytes([wire.SESS_TERM]):
            self.has_term = True
        self.connection.put(data, is_slow)

    # ---- the beginning

    async def contact(self, header=None, is_slow=False):
        """Exchanges contact headers. `header` is that of the probe."""
        header = wire.contact() if header is None else header
        if self.role == ACCEPTS:
            self.put(header, is_slow)
            await self.connection.sent_slowly()
        incoming = self.connection.incoming
        await self.connection.wait(lambda: incoming.contact or incoming.fault or self.connection.end, self.timeout)
        if not self.contact_came():
            raise NoSession(self.why("no contact header"))
        if incoming.contact[0] != 4:
            raise NoSession(f"the node speaks version {incoming.contact[0]}")
        if self.role != ACCEPTS:
            self.put(header, is_slow)

    def contact_came(self):
        """Returns whether the contact header of the node has come."""
        return self.connection.incoming.contact is not None

    async def exchange(self, message=None, is_slow=False):
        """Exchanges SESS_INITs. Returns whether that of the node has come."""
        message = self.sess_init() if message is None else message
        if self.role != ACCEPTS:
            await self.connection.wait(self.is_decided, self.timeout)
        self.put(message, is_slow)
        await self.connection.sent_slowly()
        await self.connection.wait(self.is_decided, self.timeout)
        if self.init is not None and not self.is_spoiled:
            self.upkeep_task = asyncio.get_running_loop().create_task(self.upkeep())
        return self.init is not None

    def is_decided(self):
        """Returns whether a SESS_INIT or a SESS_TERM of the node has come, or its end."""
        return self.init or self.term_of_node or self.connection.end

    async def open(self):
        """Begins a session."""
        await self.contact()
        if not await self.exchange() or self.connection.end:
            raise NoSession(self.why("no SESS_INIT"))
        self.mark()

    def why(self, missing):
        """Returns why there is no session."""
        if self.term_of_node is not None:
            return f"the node sent a SESS_TERM with reason {self.term_of_node[0].reason:02x}"
        if self.connection.end == RST:
            return f"{missing}: the node reset the connection"
        if self.connection.end:
            return f"{missing}: the node closed the connection"
        if self.connection.incoming.fault:
            return f"{missing}: the node sent other bytes"
        return f"{missing} within {self.timeout:g} s"

    def sess_init(self, items=b"", listed=None, node=None, **limits):
        """Returns a SESS_INIT of the probe. `limits` are those that differ from the options."""
        numbers = {**self.probe.limits, **limits}
        self.own = numbers["keepalive"], numbers["segment_mru"], numbers["transfer_mru"]
        return wire.sess_init(*self.own, self.probe.node.encode() if node is None else node, items, listed)

    def mark(self):
        """Counts what comes from now on as answers."""
        self.since = len(self.connection.incoming.messages)

    def spoil(self):
        """Notes that the node cannot read what follows."""
        self.is_spoiled = True

    # ---- transfers to the node

    def bundle(self, payload=b"tcpclkit-probe"):
        """Returns a bundle that no other session has."""
        return self.probe.bundle(payload)

    def ident(self):
        """Returns the ID of the next transfer."""
        self.next_id += 1
        return self.next_id - 1

    def segment(self, flags, ident, data, **fields):
        """Sends a segment whose answer the case waits for."""
        self.transfers[ident] += 1
        self.put(wire.segment(flags, ident, data, **fields))

    def transfer(self, pieces, ident=None, items=b"", reserved=0, is_slow=False):
        """Sends a transfer in one write. Returns its ID."""
        ident = self.ident() if ident is None else ident
        parts = wire.transfer(ident, pieces, items)
        self.transfers[ident] += len(parts)
        data = b"".join(part[:1] + bytes([part[1] | reserved]) + part[2:] for part in parts)
        self.put(data, is_slow)
        return ident

    async def serve(self, items=b""):
        """Tries a good transfer. Returns whether the node gives it the answers that it gave in `good`."""
        if self.probe.route is None or self.probe.base.is_deaf:
            return False
        ident = self.ident()
        self.trials.add(ident)
        self.put(wire.segment(wire.START | wire.END, ident, self.bundle(), items=items))
        await self.connection.wait(lambda: self.answer(ident) or self.connection.end, self.timeout)
        answer = self.answer(ident)
        if answer and (answer == self.probe.base.answer or self.term_of_node and answer == "refuse"):
            self.notes["served"] += 1
        return answer is not None

    def answer(self, ident):
        """Returns `ack` or `refuse`, if a transfer of one segment has that answer."""
        for message in self.connection.incoming.messages:
            if message.ident == ident and message.kind in (wire.XFER_ACK, wire.XFER_REFUSE):
                return "ack" if message.kind == wire.XFER_ACK else "refuse"
        return None

    # ---- transfers from the node

    async def run_command(self):
        """Runs the command that makes the node send a bundle, if there is one."""
        if self.probe.command:
            quiet = asyncio.subprocess.DEVNULL
            self.command = await asyncio.create_subprocess_exec(
                *self.probe.command, stdin=quiet, stdout=quiet, stderr=quiet
            )

    def segments(self):
        """Returns the whole segments of the node."""
        return [it for it in self.connection.incoming.messages if it.kind == wire.XFER_SEGMENT]

    def ended_transfer(self):
        """Returns whether a transfer of the node has come up to its END."""
        return any(it.flags & wire.END for it in self.segments())

    # ---- what the node does

    def answers(self):
        """Yields the messages of the node that count as answers."""
        yield from self.connection.incoming.messages[self.since :]

    def word(self, message):
        """Returns the word of a message of the node."""
        if message.kind == wire.SESS_TERM:
            is_reply = message.flags & wire.REPLY and self.has_term
            return "reply" if is_reply else f"term-{message.reason:02x}"
        if message.kind == wire.XFER_REFUSE:
            return f"refuse-{message.reason:02x}"
        if message.kind == wire.MSG_REJECT:
            return f"reject-{message.reason:02x}"
        return WORDS[message.kind]

    def facts(self):
        """Returns what the node has done, as words of answers, each with how often."""
        found = Counter(self.notes)
        for message in self.answers():
            word = self.word(message)
            found[word] += 1
            if "-" in word:
                found[word.partition("-")[0]] += 1
        found["contact"] += self.contact_came()
        found["close"] += self.connection.end in (FIN, RST) and (self.is_left() or self.closes)
        found["acks"] += all(self.acks(ident) >= count for ident, count in self.transfers.items())
        found["served"] += self.probe.route is None and found["reply"] > 0
        return found

    def is_left(self):
        """Returns whether the node has ended the connection, and not since the probe has ended the session
        after the case."""
        return self.connection.is_first and not self.is_ending

    def acks(self, ident):
        """Returns how many XFER_ACK of a transfer have come."""
        return sum(it.kind == wire.XFER_ACK and it.ident == ident for it in self.connection.incoming.messages)

    def holds(self, *alternatives):
        """Returns whether the node has given one of these answers."""
        found = self.facts()
        return any(not Counter(it.split("+")) - found for it in alternatives)

    async def until(self, *alternatives):
        """Waits for one of these answers, or for the end of the connection."""
        await self.connection.sent_slowly()
        await self.connection.wait(lambda: self.connection.end or self.holds(*alternatives), self.timeout)
        return self.holds(*alternatives)

    def got(self):
        """Returns what the node has done, in order."""
        words, counts = [], []
        for word in map(self.word, self.answers()):
            if words and words[-1] == word:
                counts[-1] += 1
            else:
                words.append(word)
                counts.append(1)
        if self.since == 0 and self.contact_came():
            words, counts = ["contact", *words], [1, *counts]
        parts = [word if count == 1 else f"{word}*{count}" for word, count in zip(words, counts)]
        if self.connection.end and (self.connection.is_first or self.closes):
            parts.append({FIN: "close", RST: "reset"}.get(self.connection.end, "flood"))
        return "+".join(parts) or "silence"

    # ---- the end

    async def end(self):
        """Ends the session cleanly where that is still possible, and then the connection: FIN, then RST."""
        connection = self.connection
        self.release()
        if self.init is not None and self.own and not (connection.end or self.is_spoiled or connection.is_over):
            if not self.has_term:
                self.is_ending = True
                self.put(wire.sess_term())
            await connection.wait(lambda: self.term_of_node or connection.end, self.timeout)
            if self.term_of_node and self.probe.base.closes:
                await connection.wait(lambda: connection.end, self.timeout)
        if not connection.is_gone():
            await connection.flush(self.timeout)
            connection.finish()
            await connection.wait(lambda: connection.end, self.timeout)
        self.close()

    def close(self):
        """Leaves the connection."""
        if self.upkeep_task is not None:
            self.upkeep_task.cancel()
        if self.command is not None and self.command.returncode is None:
            self.command.kill()
        if self.connection.end:
            self.connection.close()
        elif not self.connection.is_gone():
            self.connection.reset()
