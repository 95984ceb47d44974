"""The half of a node that sends transfers. It abandons those that are refused, and may send them again."""

from .messages import END, START, bundle, length_item, segment
from .receiver import NO_RESOURCES, NOT_ACCEPTABLE, TERMINATING


class Outgoing:
    """A transfer of this node: the segments that are to be sent, and how many have no answer."""

    def __init__(self, ident, data, segments):
        self.id, self.data, self.left, self.waiting, self.refused = ident, data, segments, 0, False


class Sender:
    """The transfers that a node sends. `open` is the one that has begun and has not ended."""

    def __init__(self, node):
        self.node, self.rng, self.traits, self.bugs = node, node.rng, node.traits, node.bugs
        self.transfers, self.open, self.rejected = {}, None, 0
        self.bundles, self.sequence = node.traits.bundles, node.rng.randrange(1 << 16) * 1000

    # ---- answers

    def acknowledged(self, it):
        """A segment is acknowledged."""
        self.transfers[it.id].waiting -= 1

    def refused(self, it):
        """A transfer is refused: it is abandoned if it is open, and perhaps begun again."""
        refused, is_first = self.transfers[it.id], not self.transfers[it.id].refused
        refused.refused = True
        if self.open is refused and "continues" not in self.bugs:
            self.open = None
        may_retry = it.reason not in (NO_RESOURCES, NOT_ACCEPTABLE, TERMINATING)
        has_bug = "retries" in self.bugs and it.reason == NO_RESOURCES
        if is_first and (has_bug or may_retry and self.rng.random() < 0.3):
            self.bundles.insert(self.rng.randint(0, len(self.bundles)), refused.data)

    def is_done(self):
        """Whether nothing is open and each segment has its answer. A MSG_REJECT does not say for which one it is."""
        waiting = sum(it.waiting for it in self.transfers.values() if not it.refused)
        return self.open is None and waiting <= self.rejected

    # ---- segments

    def begin(self):
        """Begins a transfer, unless the other side takes no such bundle."""
        data, limits = self.bundles.pop(0), self.node.peer_init
        if isinstance(data, int):
            self.sequence += 1
            data = bundle(self.sequence, self.rng.randbytes(data))
        is_above = len(data) > limits.transfer_mru or limits.segment_mru == 0
        if is_above and "exceeds" not in self.bugs:
            return
        ident = self.traits.ident(len(self.transfers))
        while ident in self.transfers:
            ident = self.rng.getrandbits(64)
        self.open = self.transfers[ident] = Outgoing(ident, data, self.cut(ident, data))
        self.send()

    def pieces(self, data):
        """The data of each segment."""
        limit, found, at = self.node.peer_init.segment_mru, [], 0
        while at < len(data):
            exceeds = "exceeds" in self.bugs and self.rng.random() < 0.3
            size = limit + self.rng.randint(1, 9) if exceeds else self.traits.size(limit) if limit else 0
            found.append(data[at:at + (0 if self.rng.random() < self.traits.empty else size)])
            at += len(found[-1])
        return found + ([b""] if self.rng.random() < self.traits.empty else [])

    def cut(self, ident, data):
        """The segments of a transfer."""
        pieces, items = self.pieces(data), list(self.traits.items())
        if len(pieces) > 1 and self.rng.random() < self.traits.announces:
            wrong = self.rng.randint(1, 9) if "misannounces" in self.bugs else 0
            items.insert(self.rng.randint(0, len(items)), length_item(len(data) + wrong, self.rng.randint(0, 1)))
        last = len(pieces) - 1
        flags = [(START if at == 0 else 0) | (END if at == last else 0) for at in range(len(pieces))]
        return [segment(each, ident, piece, items) for each, piece in zip(flags, pieces)]

    def send(self):
        """Sends the next segment of the open transfer."""
        it = self.open
        self.node.send(it.left.pop(0))
        it.waiting += 1
        if not it.left:
            self.open = None

    def stop(self):
        """Does not finish the open transfer: in the Ending state it may, and need not (section 6.1)."""
        self.open = None
