"""A node that keeps RFC 9174: what it sends depends only on what it has received, and on chance.

`receiver` has its half that receives transfers, and `sender` the half that sends them. `bugs` makes it
break a rule:

  continues     goes on with a transfer that was refused (section 5.2.4)
  retries       sends the bundle of a transfer again that was refused for resources (section 5.2.4)
  silent        sends no KEEPALIVE (section 5.1.1)
  patient       does not end a session whose other side is silent (section 5.1.1)
  exceeds       sends segments and transfers that are longer than the other side takes (section 4.6)
  misannounces  announces a length that a transfer does not have (section 5.2.5.1)
"""

from model import wire

from .messages import CRITICAL, REPLY, TYPES, Contact, Raw, Sent, spelled
from .receiver import UNSUPPORTED, Receiver
from .sender import Sender

# Reasons of SESS_TERM (section 6.1), and one for private use (section 8.7)
IDLE, BUSY, CONTACT_FAILURE, EXHAUSTED, PRIVATE = 0x01, 0x03, 0x04, 0x05, 0xF7

FIN, RESET = object(), object()

# A node reads what has arrived within so many seconds, unless it stalls
READING = 1

# How long a node that has sent its SESS_TERM waits for what is missing, in seconds
PATIENCE = 120


class Carrier:
    """Carries messages to the other node in order, each with a delay of its own."""

    def __init__(self, node):
        self.node, self.last = node, 0.0

    def send(self, _, now):
        """Returns when a message arrives that is sent now."""
        self.last = max(self.last, now + self.node.traits.delay())
        return self.last

    def put(self, it, now):
        """Sends a message, or FIN. Returns how long it is under way."""
        arrival = self.send(it, now)
        self.node.peer.inbox.append((arrival, it))
        return arrival - now

    def drain(self, _):
        """The node reads: what has arrived is in its inbox already."""


class Node:
    """A node. `traits` are of `talks.Traits`, and `rng` is all of its chance."""

    def __init__(self, rng, traits, bugs=(), carrier=Carrier):
        self.rng, self.traits, self.bugs = rng, traits, set(bugs)
        self.sent, self.inbox, self.seen, self.now, self.wake = [], [], 0, 0.0, 0.0
        self.rest, self.stall, self.last_in, self.ended = 0.0, 0.0, 0.0, 0.0
        self.peer, self.peer_init, self.has_contact, self.is_closed, self.was_reset = None, None, False, False, False
        self.term, self.peer_term, self.peer_fin, self.wants_term, self.owed = None, None, False, None, []
        self.receiver, self.sender, self.carrier = Receiver(self), Sender(self), carrier(self)

    # ---- sending

    def send(self, it):
        """Sends a message."""
        self.sent.append(Sent(it, self.now, self.carrier.put(it, self.now), self.seen))

    def has_sent(self, kind):
        """Returns whether it has sent a message of that kind."""
        return any(isinstance(it.it, kind) for it in self.sent)

    def interval(self):
        """The negotiated interval (section 4.7), or 0 where none is known."""
        if self.peer_init is None or not self.has_sent(wire.SessInit):
            return 0
        return min(self.peer_init.keepalive, self.traits.init.keepalive)

    def close(self):
        """Closes the connection."""
        self.is_closed = True
        self.carrier.put(FIN, self.now)

    def end(self, reason):
        """Begins to end the session, or replies to the other side that did."""
        if self.term is None:
            it = wire.SessTerm(0, reason)
            if self.peer_term is not None:
                it = self.peer_term._replace(flags=self.peer_term.flags | REPLY)
            self.term, self.ended = it, self.now
            self.send(it)

    # ---- receiving

    def receive(self, it):
        """Processes what has arrived."""
        if it is FIN or it is RESET:
            self.peer_fin = True
            self.was_reset = self.was_reset or it is RESET
            return
        self.seen, self.last_in = self.seen + 1, self.now
        if isinstance(it, Contact):
            self.has_contact = True
        elif isinstance(it, wire.SessInit):
            self.receive_init(it)
        elif isinstance(it, wire.Segment):
            self.receiver.take(it)
        elif isinstance(it, wire.Ack):
            self.sender.acknowledged(it)
        elif isinstance(it, wire.Refuse):
            self.sender.refused(it)
        elif isinstance(it, wire.Reject):
            self.sender.rejected += it.header == TYPES[wire.Segment]
        elif isinstance(it, wire.SessTerm):
            self.peer_term = self.peer_term or it
        elif isinstance(it, wire.Keepalive) and self.rng.random() < self.traits.rejects:
            self.owed.append(wire.Reject(UNSUPPORTED, TYPES[wire.Keepalive]))

    def receive_init(self, it):
        """The session is established, or has to end with Contact Failure (sections 4.7 and 4.8)."""
        self.peer_init = it
        known = {each.kind for each in self.traits.init.items}
        if any(each.flags & CRITICAL and each.kind not in known for each in it.items):
            self.wants_term = CONTACT_FAILURE
        elif (it.segment_mru == 0 or it.transfer_mru == 0) and self.traits.is_strict:
            self.wants_term = CONTACT_FAILURE

    def peek(self, it, now):
        """May refuse a transfer before its first segment has come whole (section 5.2.4). Returns whether it did."""
        is_ready = not (self.inbox or self.is_closed) and self.is_established() and self.receiver.is_settled()
        if not is_ready or self.rng.random() >= self.traits.peeks:
            return False
        self.now = max(self.now, now)
        self.receive(it)
        self.receiver.refuse(self.receiver.transfers[it.id])
        return True

    def take_until(self, time):
        """Processes what has arrived by then."""
        while self.inbox and self.inbox[0][0] <= time:
            self.receive(self.inbox.pop(0)[1])

    # ---- what it may do

    def is_established(self):
        """Whether both SESS_INIT have come."""
        return self.peer_init is not None and self.has_sent(wire.SessInit)

    def may_begin(self):
        """Whether a new transfer may begin: it may until the own SESS_TERM is sent (sections 3.3 and 6.1)."""
        is_ending = self.term is not None or self.peer_term is not None and not self.traits.begins_late
        has_turn = self.sender.open is None and bool(self.sender.bundles)
        return self.is_established() and has_turn and not is_ending and self.wants_term is None

    def owes_reply(self):
        """Whether a SESS_TERM has come that needs a reply (section 6.1)."""
        return self.peer_term is not None and self.term is None

    def has_finished(self):
        """Whether the session has ended: both SESS_TERM have come, and nothing is in progress."""
        if self.term is None or self.peer_term is None or self.owed:
            return False
        return self.sender.is_done() and self.receiver.is_done()

    def negotiate(self):
        """Sends the next message of the negotiation, if it is due. Returns whether it did."""
        if not self.sent:
            if self.traits.is_active or self.has_contact:
                self.send(Contact(self.traits.flags))
                return True
            return False
        if self.term or self.peer_term or self.has_sent(wire.SessInit):
            return False
        if self.traits.leaves_early and (self.has_contact or self.rng.random() < 0.1):
            self.end(BUSY)
            return True
        is_due = self.has_contact and (self.traits.is_active or self.peer_init is not None)
        is_due = is_due and (self.wants_term is None or self.traits.replies_before_end)
        if is_due:
            self.send(self.traits.init)
        return is_due

    def choices(self):
        """What it may do now: pairs of a weight and a function."""
        found = []
        if self.receiver.pending():
            found.append((self.traits.answers, self.receiver.answer))
        if self.sender.open:
            found.append((3, self.sender.send))
            found += [(self.traits.stops, self.sender.stop)] if self.term else []
        if self.may_begin():
            found.append((2, self.sender.begin))
        if self.owed or self.owes_reply():
            found.append((self.traits.replies, self.pay))
        if self.is_established():
            found.append((0.3, self.rest_for_a_while))
            found.append((self.traits.refusals, self.receiver.refuse_early))
            found.append((self.traits.repeats, self.receiver.refuse_again))
            found += [(0.1, self.keep_alive)] if self.interval() and "silent" not in self.bugs else []
            if self.term is None and self.peer_term is None:
                is_done = not (self.sender.open or self.sender.bundles or self.receiver.pending())
                found.append((0.5 if is_done else self.traits.ends, self.end_now))
        return found

    def pay(self):
        """Sends a MSG_REJECT or the reply to a SESS_TERM."""
        if self.owed:
            self.send(self.owed.pop(0))
        else:
            self.end(None)

    def keep_alive(self):
        """Sends a KEEPALIVE."""
        self.send(wire.Keepalive())

    def end_now(self):
        """Ends the session for a reason of its own."""
        self.end(self.rng.choice([0, IDLE, BUSY, EXHAUSTED, PRIVATE]))

    def rest_for_a_while(self):
        """Does nothing except what the interval asks for. If it stalls, it does not even read."""
        limit = self.interval() or 20
        self.rest = self.now + self.rng.uniform(0, 4) * limit
        if self.rng.random() < self.traits.stalls:
            self.stall = self.rest

    # ---- the end

    def leave(self):
        """Answers what has arrived, and closes the connection (section 6.1)."""
        self.take_until(self.now)
        if self.wants_term is not None:
            self.end(self.wants_term)
        while self.receiver.pending() or self.owed or self.owes_reply():
            if not self.receiver.pending() or (self.owed or self.owes_reply()) and self.rng.random() < 0.5:
                self.pay()
            else:
                self.receiver.answer()
        self.close()

    def leave_at_once(self):
        """Closes the connection after its SESS_TERM. It may lack answers (section 6.1)."""
        if self.rng.random() < self.traits.drops:
            self.close()
        else:
            self.leave()

    def abort(self):
        """Closes the connection inside a message (section 6.1)."""
        content = spelled(self.sender.open.left[0])
        self.send(Raw(content[:self.rng.randrange(1, len(content))]))
        self.close()

    def after_fin(self):
        """The other side closed the connection: this one does so too, with its answers or without, or is cut off."""
        is_behind = self.receiver.pending() or self.owed or self.sender.open or self.owes_reply()
        if self.was_reset or is_behind and self.rng.random() < self.traits.vanishes:
            self.is_closed = self.was_reset = True
        elif is_behind and self.rng.random() < 0.4:
            self.close()
        else:
            self.leave()

    def is_idle(self):
        """Whether nothing has come for more than twice the interval (section 5.1.1)."""
        limit = 2 * self.interval() + 4
        return bool(self.interval()) and self.now - self.last_in > limit and "patient" not in self.bugs

    def is_silent_for_long(self):
        """Whether a KEEPALIVE is due (section 5.1.1)."""
        interval = self.interval()
        return interval > 0 and "silent" not in self.bugs and self.now >= self.sent[-1].time + interval

    # ---- turns

    def turn(self):
        """Reads what has arrived, does one thing, and sets when it wakes again."""
        self.now = self.wakes()
        if self.now >= self.stall:
            self.carrier.drain(self.now)
            self.take_until(self.now - READING + 1e-6)
        if self.now >= self.rest:
            self.work()
            self.wake = self.now + self.rng.expovariate(self.traits.pace)
        elif self.is_silent_for_long():
            self.keep_alive()
        self.wake = max(self.wake, self.rest)
        if self.interval() and "silent" not in self.bugs:
            self.wake = min(self.wake, max(self.now, self.sent[-1].time + self.interval()))

    def wakes(self):
        """When it has its next turn. It reads what has arrived in time."""
        if self.inbox and self.wake > self.stall:
            return min(self.wake, max(self.now, self.stall, self.inbox[0][0] + READING))
        return self.wake

    def work(self):
        """Processes some of what has arrived, and does one thing."""
        if self.rng.random() < 0.7:
            self.take_until(self.now)
        elif self.inbox and self.inbox[0][0] <= self.now:
            self.receive(self.inbox.pop(0)[1])
        if self.peer_fin:
            self.after_fin()
        elif self.is_silent_for_long():
            self.keep_alive()
        elif self.has_finished() or self.term and self.now > self.ended + PATIENCE + 4 * self.interval():
            self.leave()
        elif self.term and self.traits.is_hasty and self.rng.random() < 0.3:
            self.leave_at_once()
        elif self.sender.open and self.traits.aborts and self.rng.random() < 0.05:
            self.abort()
        elif self.wants_term is not None and self.is_ready_to_end():
            self.end(self.wants_term)
        elif self.is_established() and self.term is None and self.is_idle():
            self.end(IDLE)
        elif not self.negotiate():
            choices = self.choices()
            if choices:
                self.rng.choices([it for _, it in choices], [weight for weight, _ in choices])[0]()

    def is_ready_to_end(self):
        """Whether it ends now a session that cannot go on: some nodes send their SESS_INIT first (figure 9)."""
        has_init = not self.traits.replies_before_end or self.has_sent(wire.SessInit)
        return self.term is None and (has_init or self.peer_term is not None)
