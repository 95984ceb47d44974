"""What the program says of a recording: its messages, and the rules that its side breaks alone."""

import os
import subprocess
from collections import deque
from itertools import chain
from typing import NamedTuple, Optional, Sequence

from tcpclkit_scripts.running import FAULT, Failure

# The type bytes of messages (RFC 9174 section 4.5)
SEGMENT, ACK, REFUSE, KEEPALIVE, TERM, REJECT, INIT = range(1, 8)

# The flags of XFER_SEGMENT and XFER_ACK, of SESS_TERM, and of an extension item (sections 5.2.2, 6.1, 4.8)
END, START, REPLY, CRITICAL = 0x01, 0x02, 0x01, 0x01

# Among so many messages the first SESS_INIT is looked for.
EARLY = 4096


class Item(NamedTuple):
    """An extension item: its flags and its type."""

    flags: int
    kind: int


class Message(NamedTuple):
    """A message: where it begins and ends, its type byte, and the fields that it has.

    `header` is the type byte of a rejected message. `numbers` are those of a SESS_INIT: interval,
    segment MRU and transfer MRU.
    """

    offset: int
    end: int
    kind: int
    flags: int = 0
    ident: int = 0
    length: int = 0
    reason: int = 0
    header: int = 0
    items: Sequence = ()
    numbers: tuple = ()
    node: str = ""


def items_of(words):
    """Returns the extension items of a line, from their number on."""
    parts = [word[5:].split(":") for word in words if word.startswith("item=")]
    return [Item(int(flags, 16), int(kind, 16)) for flags, kind, _ in parts]


def segment_of(offset, end, words):
    """Returns an XFER_SEGMENT."""
    items = items_of(words[5:-1]) if len(words) > 6 else ()
    flags, ident, length = int(words[2][6:], 16), int(words[3][3:]), int(words[-1][7:])
    return Message(offset, end, SEGMENT, flags, ident, length, items=items)


def ack_of(offset, end, words):
    """Returns an XFER_ACK."""
    flags, ident, length = int(words[2][6:], 16), int(words[3][3:]), int(words[4][7:])
    return Message(offset, end, ACK, flags, ident, length)


def refuse_of(offset, end, words):
    """Returns an XFER_REFUSE."""
    return Message(offset, end, REFUSE, ident=int(words[3][3:]), reason=int(words[2][7:9], 16))


def term_of(offset, end, words):
    """Returns a SESS_TERM."""
    return Message(offset, end, TERM, int(words[2][6:], 16), reason=int(words[3][7:9], 16))


def reject_of(offset, end, words):
    """Returns a MSG_REJECT."""
    reason, header = int(words[2][7:9], 16), int(words[3][7:], 16)
    return Message(offset, end, REJECT, reason=reason, header=header)


def init_of(offset, end, words):
    """Returns a SESS_INIT."""
    numbers = tuple(int(word.partition("=")[2]) for word in words[2:5])
    node, items = words[5].partition("=")[2], items_of(words[6:])
    return Message(offset, end, INIT, items=items, numbers=numbers, node=node)


KINDS = {
    "xfer-segment": segment_of,
    "xfer-ack": ack_of,
    "xfer-refuse": refuse_of,
    "keepalive": lambda offset, end, words: Message(offset, end, KEEPALIVE),
    "sess-term": term_of,
    "msg-reject": reject_of,
    "sess-init": init_of,
}


class Fault(NamedTuple):
    """A fault of the wire, which ends a recording: the offset, and the text of its line."""

    offset: int
    text: str

    def type_byte(self):
        """Returns the unknown type byte that is the fault, or None."""
        words = self.text.split()
        return int(words[-1], 16) if words[:3] == ["unknown", "message", "type"] else None

    def version(self):
        """Returns the version that is the fault, or None."""
        words = self.text.split()
        return int(words[-1]) if words[:2] == ["unsupported", "version"] else None


class Listing:
    """The messages of a recording, read one by one, and its contact flags, first SESS_INIT and fault.

    The flags are None if there is no contact header. `end` is where the last whole message ends;
    it and the fault are known once all messages were read.
    """

    def __init__(self, tcpclkit, path):
        self.path, self.contact, self.fault, self.end = path, None, None, 0
        words = [tcpclkit, "list", "--", path]
        pipes = {"stdout": subprocess.PIPE, "stderr": subprocess.PIPE}
        self.process = subprocess.Popen(words, encoding="utf-8", errors="replace", **pipes)
        messages, early, self.init = self.read(), deque(), None
        for message in messages:
            early.append(message)
            if message.kind == INIT:
                self.init = message
            if self.init or len(early) == EARLY:
                break
        self.messages = chain(early, messages)

    def read(self):
        """Yields each message. A message ends where the next one begins, or the recording ends."""
        before = None
        for line in self.process.stdout:
            words = line.split()
            if words[1] == "contact":
                self.contact = int(words[3][6:], 16)
                continue
            if before is not None:
                yield KINDS[before[1]](int(before[0]), int(words[0]), before)
            before = words
        self.close()
        if before is not None:
            yield KINDS[before[1]](int(before[0]), self.end, before)

    def close(self):
        """Takes how the run ended."""
        text, status = ended(self.process)
        if status == FAULT:
            _, _, offset, text = text.split(None, 3)
            self.fault = Fault(int(offset.rstrip(":")), text)
        elif status != 0:
            raise failure(self.path, status, text)
        self.end = self.fault.offset if self.fault else os.path.getsize(self.path)

    def stop(self):
        """Ends the run, even if some messages were not read."""
        if not self.process.stderr.closed:
            self.process.kill()
            ended(self.process)


def ended(process):
    """Waits for a run. Returns what it wrote on standard error, and its status."""
    with process:
        text = process.stderr.read().strip()
    return text, process.returncode


def failure(path, status, text):
    """Returns why a recording could not be read."""
    return Failure(f"{path}: {text.replace('tcpclkit: ', '', 1) or f'tcpclkit ended with status {status}'}")


class Broken(NamedTuple):
    """A line of `check`: where, its level and its rule, and the words after them."""

    offset: int
    level: str
    rule: str
    words: str


class Check:
    """A run of `check` with the limits of the peer and the node whose bundles are judged. Each may be
    None."""

    def __init__(self, tcpclkit, path, peer_segment, peer_transfer, node):
        self.path, self.fault = path, ""
        limits = [("--peer-segment", peer_segment), ("--peer-transfer", peer_transfer), ("--own", node)]
        options = [word for name, it in limits if it is not None for word in (name, str(it))]
        pipes = {"stdout": subprocess.PIPE, "stderr": subprocess.PIPE}
        words = [tcpclkit, "check", *options, "--", path]
        self.process = subprocess.Popen(words, encoding="utf-8", errors="replace", **pipes)

    def lines(self):
        """Yields each line. Then takes the fault line, without the name of the program."""
        for line in self.process.stdout:
            offset, level, rule, *words = line.rstrip("\n").split(" ", 3)
            yield Broken(int(offset), level, rule, " ".join(words))
        text, status = ended(self.process)
        if status not in (0, 1, FAULT):
            raise failure(self.path, status, text)
        self.fault = text.replace("tcpclkit: ", "", 1)


def nanoseconds(seconds):
    """Returns a time that is written in seconds."""
    whole, _, fraction = seconds.partition(".")
    return int(whole) * 10**9 + int(fraction.ljust(9, "0")[:9])


class Times:
    """When the bytes of a recording were captured. Offsets have to be asked for in rising order."""

    def __init__(self, path):
        self.file = open(path, encoding="ascii", errors="replace")
        self.offset, self.time = 0, None

    def close(self):
        """Closes the file."""
        self.file.close()

    def at(self, offset) -> Optional[int]:
        """Returns when the bytes before an offset had come, in nanoseconds, or None."""
        while self.offset < offset:
            words = self.file.readline().split()
            if not words:
                return None
            try:
                self.offset, self.time = int(words[0]), nanoseconds(words[1])
            except (ValueError, IndexError):
                raise Failure(f"{self.file.name}: not a file of times") from None
        return self.time
