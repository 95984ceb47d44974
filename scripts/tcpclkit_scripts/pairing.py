"""Transfers of one side of a session, answers of the other, and which answer is to which transfer.

Both may come in any order and as late as they like: an answer is paired once its transfer is over.
"""

from collections import deque

from .messages import END, START

# The reason of an XFER_REFUSE that is no loss (RFC 9174 section 5.2.4)
COMPLETED = "01/completed"

# How many IDs a report shows
MOST_IDENTS = 10

EMPTY = deque()


class Transfer:
    """A transfer: its ID and offset, and the number and the length of its segments so far.

    `part` is the number of its recording: 0, or that of the gap before it. `end` is where its last
    segment ends, and `sent` is when that was captured. It is over at its END. It is abandoned if
    another transfer begins before, and cut if the recording ends before. `judged` is what the line
    says of its data. `answers` counts those that it got, and `answer` is the one that decides.
    """

    __slots__ = (
        "ident", "offset", "part", "segments", "length", "end", "sent", "is_over", "is_abandoned",
        "is_cut", "answers", "answer", "judged",
    )  # fmt: skip

    def __init__(self, ident, offset, part=0):
        self.ident, self.offset, self.part = ident, offset, part
        self.segments, self.length, self.end, self.sent = 0, 0, offset, None
        self.is_over = self.is_abandoned = self.is_cut = False
        self.answers, self.answer, self.judged = 0, None, None

    def add(self, length, end, sent):
        """Adds a segment with this length of data."""
        self.segments += 1
        self.length += length
        self.end, self.sent = end, sent

    def ends_with(self, answer):
        """Returns whether an answer acknowledges all of the transfer."""
        if not answer.flags & END:
            return False
        return answer.length == self.length or (self.is_cut and answer.length > self.length)


class Answer:
    """An XFER_ACK; or an XFER_REFUSE, which has a reason and no flags.

    `time` is when it was captured.
    """

    __slots__ = ("ident", "offset", "flags", "length", "reason", "part", "time")

    def __init__(self, ident, offset, flags=0, length=0, reason=None, part=0, time=None):
        self.ident, self.offset, self.flags, self.length = ident, offset, flags, length
        self.reason, self.part, self.time = reason, part, time

    def said(self):
        """Returns what the line of its transfer says."""
        return "acknowledged" if self.reason is None else f"refused reason={self.reason}"

    def is_loss(self):
        """Returns whether the transfer was refused, and not as completed."""
        return self.reason not in (None, COMPLETED)


class Assembly:
    """Puts the segments of one recording together to transfers.

    `disorder` is the offset and a text of the first segment that is out of order.
    """

    def __init__(self, part=0):
        self.part, self.opened, self.disorder = part, None, None

    def take(self, offset, flags, ident, length, end=None, sent=None):
        """Takes a segment. Returns the transfer that it begins and the ones that are over by it."""
        begun, over = None, []
        is_open = self.opened is not None and self.opened.ident == ident
        if bool(flags & START) == is_open and self.disorder is None:
            text = "start repeats the open transfer" if is_open else "no such open transfer"
            self.disorder = offset, text
        if flags & START:
            over += self.close("is_abandoned")
            begun = self.opened = Transfer(ident, offset, self.part)
        elif not is_open:
            return begun, over
        self.opened.add(length, end, sent)
        if flags & END:
            over += self.close()
        return begun, over

    def close(self, why=None):
        """Ends the open transfer. Returns the list of it, or of none."""
        over, self.opened = [self.opened] if self.opened is not None else [], None
        for transfer in over:
            transfer.is_over = True
            if why is not None:
                setattr(transfer, why, True)
        return over


class Pairing:
    """Pairs the transfers of one side with the answers of the other.

    `open` has by ID what has no answer yet: a transfer, or several in a queue. `read` has the
    answers that came before the transfer that they are to. `late` has, by ID of a refused transfer,
    how many of its segments may still have an answer. `unanswered` has the transfers that got none.
    `wrong` counts the acknowledgements of another length, and `first_wrong` is the first of them
    with its transfer.
    """

    def __init__(self):
        self.open, self.read, self.late, self.unanswered = {}, {}, {}, []
        self.wrong, self.first_wrong = 0, None

    def begin(self, transfer):
        """Takes a transfer that has begun."""
        if transfer.ident in self.open:
            self.queue(transfer.ident).append(transfer)
        else:
            self.open[transfer.ident] = transfer

    def queue(self, ident):
        """Returns the queue of the transfers with an ID."""
        transfers = self.open.get(ident, EMPTY)
        if isinstance(transfers, Transfer):
            transfers = self.open[ident] = deque([transfers])
        return transfers

    def answer(self, answer):
        """Takes an answer. Returns the transfers that are decided by it."""
        ident, transfer = answer.ident, self.open.get(answer.ident)
        if isinstance(transfer, Transfer) and ident not in self.read and ident not in self.late:
            if transfer.is_over and transfer.ends_with(answer):
                del self.open[ident]
                transfer.answer = answer
                return [transfer]
        self.read.setdefault(ident, deque()).append(answer)
        return self.settle(ident)

    def settle(self, ident):
        """Returns the transfers with an ID that can be decided now."""
        decided = []
        if ident not in self.read or ident not in self.open:
            return decided
        transfers, answers = self.queue(ident), self.read[ident]
        while transfers and answers and transfers[0].is_over:
            if self.spend(answers[0]):
                answers.popleft()
                continue
            self.late.pop(ident, None)
            transfer, is_only = transfers[0], len(transfers) == 1
            if not is_only and answers[0].flags & self.flags_of_later(transfer):
                self.unanswered.append(transfers.popleft())
            elif self.decides(transfer, answers.popleft(), is_only):
                decided.append(transfer)
        for them in (self.open, self.read):
            if not them[ident]:
                del them[ident]
        return decided

    def flags_of_later(self, transfer):
        """Returns the flags that only an answer to a later transfer with the same ID has."""
        return (END if transfer.is_abandoned else 0) | (START if transfer.answers > 0 else 0)

    def decides(self, transfer, answer, is_only):
        """Counts an answer to the first transfer of an ID. Returns whether it decides.

        An acknowledgement of another length decides nothing if no other transfer has the ID.
        """
        transfer.answers += 1
        if answer.reason is not None and transfer.segments > transfer.answers:
            self.late[transfer.ident] = transfer.segments - transfer.answers
        if answer.reason is not None or transfer.ends_with(answer):
            self.open[transfer.ident].popleft()
            transfer.answer = answer
            return True
        if not answer.flags & END:
            return False
        self.wrong += 1
        self.first_wrong = self.first_wrong or (answer, transfer)
        if not is_only:
            self.unanswered.append(self.open[transfer.ident].popleft())
        return False

    def spend(self, answer):
        """Returns whether a refused transfer may still have this answer; if so, it had it."""
        if answer.flags & START or answer.ident not in self.late:
            return False
        self.late[answer.ident] -= 1
        if self.late[answer.ident] == 0:
            del self.late[answer.ident]
        return True

    def end(self):
        """Returns the transfers that have no answer, in the order in which they began."""
        rest = self.unanswered + [it for ident in self.open for it in self.queue(ident)]
        self.open, self.unanswered = {}, []
        return sorted(rest, key=lambda it: (it.part, it.offset))

    def strays(self):
        """Returns the answers that are to no transfer, in their order."""
        rest = [it for them in self.read.values() for it in them if not self.spend(it)]
        return sorted(rest, key=lambda it: (it.part, it.offset))

    def notes(self, a, b):
        """Returns what is to be reported of the answers. a and b name recordings by their part."""
        texts, strays = [], self.strays()
        if self.wrong > 0:
            answer, transfer = self.first_wrong
            texts.append(
                f"{b(answer.part)}: acknowledgements of another length: {self.wrong}, the first at "
                f"byte {answer.offset}: {answer.length} bytes of transfer {transfer.ident}, which "
                f"has {transfer.length}"
            )
        if strays:
            text = f"{b(strays[0].part)}: answers to no transfer of {a(0)}: {len(strays)}"
            texts.append(f"{text}, the first at byte {strays[0].offset}; {kinds_of(strays)}")
        return texts


def kinds_of(strays):
    """Returns how many of some answers are refusals, and the least IDs that they have."""
    idents, refusals = sorted({it.ident for it in strays}), [it for it in strays if it.reason]
    shown = ", ".join(map(str, idents[:MOST_IDENTS]))
    rest = ", .." if len(idents) > MOST_IDENTS else ""
    return f"refusals: {len(refusals)}; IDs: {shown}{rest}"


def line(transfer, said):
    """Returns the line of a transfer."""
    return f"transfer {transfer.ident} offset={transfer.offset} length={transfer.length} {said}"
