"""A TCPCL session of a capture: its recordings, and what became of its transfers."""

import subprocess

from .messages import CONTACT_HEADER, CONTACT_LENGTH, FIXED, MAGIC, SESS_TERM, XFER_REFUSE, spelled
from .packets import spelled_end, spelled_time
from .pairing import Pairing, line
from .recording import Recorder
from .running import FAULT, LOST, Failure
from .streams import HEAD

# The other side of a session, by the name of one
OTHER = {"a": "b", "b": "a"}


class Program:
    """The program `tcpclkit`, as far as it reads a few messages at once."""

    def __init__(self, path):
        self.path = path

    def listed(self, recording):
        """Returns what `tcpclkit list` writes about a recording: its lines, and its fault."""
        ended = subprocess.run([self.path, "list"], input=recording, capture_output=True)
        if ended.returncode not in (0, FAULT):
            raise Failure(f"tcpclkit ended with status {ended.returncode}")
        return ended.stdout.decode().splitlines(), ended.stderr.decode()

    def reasons(self, kind):
        """Returns the words for the reasons of a kind of messages, from 0 on: `CODE/NAME`."""
        size = FIXED[kind]
        codes = range(256)
        if kind == XFER_REFUSE:
            messages = [bytes([kind, code]) + bytes(size - 2) for code in codes]
        else:
            messages = [bytes([kind, 0, code]) for code in codes]
        lines, _ = self.listed(CONTACT_HEADER + b"".join(messages))
        return [word[7:] for line in lines for word in line.split() if word.startswith("reason=")]

    def fault(self, reader):
        """Returns what is wrong where a reader ended: with a message, or the contact header."""
        header = b"" if reader.offset == 0 else CONTACT_HEADER
        _, fault = self.listed(header + reader.rest)
        return fault.partition(": byte ")[2].partition(": ")[2].strip()


class Shared:
    """What all sessions share: files, the judge, the names of reasons, and what is reported.

    `ready` has the lines that can be written once their transfers are judged.
    """

    def __init__(self, files, judge, program, notes):
        self.files, self.judge, self.program, self.notes = files, judge, program, notes
        self.refusals, self.terms = program.reasons(XFER_REFUSE), program.reasons(SESS_TERM)
        self.ready = []

    def write_lines(self):
        """Writes the lines that can be written."""
        self.judge.wait()
        for place, transfer, said in self.ready:
            print(place, line(transfer, said), transfer.judged.words, *times_of(transfer))
        self.ready = []


def times_of(transfer):
    """Returns the words that say when a bundle was made and expires, when it was sent, and how much
    later it was answered."""
    times = [("created", transfer.judged.created), ("expires", transfer.judged.expires)]
    times.append(("sent", transfer.sent))
    words = [f"{name}={spelled_time(time)}" for name, time in times if time is not None]
    if transfer.answer is not None:
        later = transfer.answer.time - transfer.sent
        words.append(f"answered={'-' if later < 0 else '+'}{spelled_time(abs(later))}")
    return words


class Talk:
    """A session. `recorders` and `pairings` have, by `a` and `b`, what that side sends."""

    def __init__(self, number, connection, shared):
        self.number, self.connection, self.shared = number, connection, shared
        self.refusals = shared.refusals
        self.sides = {"a": connection.a, "b": connection.b}
        self.pairings, self.recorders = {it: Pairing() for it in "ab"}, {}

    def take(self, name):
        """Takes what has come of a side. It waits for the first bytes, unless they are missing."""
        side = self.sides[name]
        if name not in self.recorders and len(side.head) < HEAD and not side.has_gap():
            return
        self.hand_on(name)

    def hand_on(self, name):
        """Hands what has come of a side to its recorder."""
        side = self.sides[name]
        if name not in self.recorders:
            is_late = self.connection.began_before() and side.head != MAGIC[: len(side.head)]
            path = f"{self.number:04}-{name}"
            self.recorders[name] = Recorder(self.shared.files, path, self, name, is_late)
        for piece in side.pieces:
            self.recorders[name].take(piece)
        side.pieces = []

    # ---- what recorders read

    def opened(self, name, end):
        """Takes where the first SESS_INIT of a side ends."""
        self.sides[name].shown.opened = end

    def begin(self, name, transfer):
        """Takes a transfer that a side began."""
        self.pairings[name].begin(transfer)

    def over(self, name, transfer, messages):
        """Takes a transfer of a side that is over, with its messages."""
        self.shared.judge.ask(transfer, messages)
        self.decide(name, self.pairings[name].settle(transfer.ident))

    def answer(self, name, answer):
        """Takes an answer that a side sent."""
        other = OTHER[name]
        self.decide(other, self.pairings[other].answer(answer))

    def decide(self, name, decided):
        """Takes transfers of a side that have an answer."""
        for transfer in decided:
            self.shared.notes.raise_status(LOST if transfer.answer.is_loss() else 0)
            self.say(name, transfer, transfer.answer.said())

    def say(self, name, transfer, said):
        """Prepares the line of a transfer."""
        part = f".{transfer.part}" if transfer.part else ""
        if transfer.part or (transfer.answer is not None and transfer.answer.part):
            said += " after-gap"
        self.shared.ready.append((f"stream {self.number} {name}{part}", transfer, said))

    # ---- the end

    def end(self):
        """Takes the end of the capture."""
        for side in self.connection.sides:
            side.finish()
        for name, side in self.sides.items():
            self.hand_on(name)
            self.recorders[name].end_part(side.lacks_end())
        for name, pairing in self.pairings.items():
            other = OTHER[name]
            for transfer in pairing.end():
                is_lost = self.is_lost(other)
                self.say(name, transfer, "lost" if is_lost else "unanswered")
                self.shared.notes.raise_status(LOST if is_lost else 0)
        for name in "ab":
            self.report(name)
        for name, pairing in self.pairings.items():
            for text in pairing.notes(self.path_of(name), self.path_of(OTHER[name])):
                self.shared.notes.report(text)

    def is_lost(self, other):
        """Returns whether the other side shows that it sent no more answers than those that came.

        A SESS_TERM shows nothing: an entity may finish a transfer after it (RFC 9174 section 6.1).
        """
        recorder, side = self.recorders[other], self.sides[other]
        is_whole = not (recorder.gaps or recorder.is_late or side.lacks_end())
        if not is_whole or recorder.reader.fault or recorder.reader.is_cut():
            return False
        return not self.is_open(other)

    def is_open(self, name):
        """Returns whether a side may send more after the end of the capture."""
        return self.connection.ending(self.sides[name]) == "open"

    def is_any_open(self):
        """Returns whether a side may send more after the end of the capture."""
        return any(self.is_open(name) for name in "ab")

    def is_unsent(self, name):
        """Returns whether a side has sent nothing so far, as far as both show.

        The number of its first byte is known then, and the other side acknowledged none. Either its
        FIN or RST has that number, or the other one sent no more than a contact header: messages
        come after that of the other side (section 4.3).
        """
        side, other = self.sides[name], self.sides[OTHER[name]]
        has_begun = 0 not in (side.fin, side.rst) and other.count > CONTACT_LENGTH
        return side.first is not None and side.sent == 0 and not has_begun

    def is_left_early(self):
        """Returns whether the connection ended before a side had sent any byte."""
        is_empty = any(side.count == 0 and not side.lacks_end() for side in self.sides.values())
        return is_empty and not self.is_any_open()

    def path_of(self, name):
        """Returns what names a recording of a side by its number."""
        recorder, files = self.recorders[name], self.shared.files
        return lambda part: files.path(f"{recorder.path(part)}.tcpcl")

    def report(self, name):
        """Reports what the recordings of a side lack, and what is wrong with them."""
        recorder, side, notes = self.recorders[name], self.sides[name], self.shared.notes
        for text in gap_texts(recorder, side, self.is_unsent(name)):
            notes.report(f"stream {self.number} {name}: {text}", FAULT)
        path, reader = self.path_of(name)(recorder.part), recorder.reader
        if reader.fault:
            text = self.shared.program.fault(reader)
            notes.report(f"{path}: byte {reader.offset}: {text}", FAULT)
        elif reader.is_cut() and not side.lacks_end():
            notes.report(f"{path}: byte {reader.offset}: truncated", FAULT)
        if recorder.disorder is not None:
            offset, text = recorder.disorder
            notes.report(f"{self.path_of(name)(0)}: byte {offset}: {text}", FAULT)

    def lines(self):
        """Returns the lines of the session in the file `streams`."""
        words = [f"stream {self.number}"]
        words += [f"{name}={spelled_end(side.end)}" for name, side in self.sides.items()]
        recorders = [(name, self.recorders[name]) for name in "ab"]
        for name, recorder in recorders:
            words += [] if recorder.node is None else [f"{name}-node={spelled(recorder.node)}"]
        words.append(f"first={spelled_time(self.connection.begun)}")
        words.append(f"last={spelled_time(self.connection.over)}")
        for name, recorder in recorders:
            words.append(f"{name}-end={self.connection.ending(self.sides[name])}")
            if recorder.term is not None:
                words.append(f"{name}-term={self.shared.terms[recorder.term]}")
        lines = [" ".join(words)]
        for name, recorder in recorders:
            lines += [f"recording {self.number} {name}.{it.line()}" for it in recorder.found]
        return "".join(f"{line}\n" for line in lines)


def gap_texts(recorder, side, is_unsent):
    """Returns what is to be reported of the gaps in what a side sent, and of its beginning."""
    gaps = [begin for begin, _ in recorder.gaps] + ([side.count] if side.lacks_end() else [])
    texts = ["began before the capture"] if recorder.is_late else []
    if len(gaps) == 1:
        texts.append(f"gap at {gaps[0]}")
    elif gaps:
        texts.append(f"{len(gaps)} gaps, the first at {gaps[0]}")
    elif side.count == 0:
        return [] if is_unsent else ["nothing was captured"]
    found = [f"{recorder.path(it.part)}.tcpcl" for it in recorder.found]
    if len(found) == 1:
        texts.append(f"{found[0]} goes on at {recorder.found[0].begins}")
    elif found:
        texts.append(f"{found[0]} to {found[-1]} go on after them")
    if recorder.missed > 0:
        texts.append(f"no message is found in {recorder.missed} bytes")
    return ["; ".join(texts)] if texts else []
