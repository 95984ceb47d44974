"""What the data of a transfer is: a good bundle or not, and which one.

One run of `tcpclkit blocks` judges the transfers of all sessions, one after another. It reads them
as one recording: of each transfer the bytes from its first segment to its last one.
"""

import re
import subprocess
from collections import deque
from threading import Thread
from typing import NamedTuple, Optional

from .messages import CONTACT_HEADER, EMPTY_SESS_INIT, END, START, segment_head
from .running import Failure

# A line of a primary block, or of the end of a transfer (docs/FORMATS.md, "Lines of blocks")
LINE = re.compile(
    rb"^[0-9]+ (?:primary .* destination=(?P<destination>\S+) source=(?P<source>\S+) report-to=\S+"
    rb" time=(?P<time>[0-9]+) sequence=(?P<sequence>[0-9]+) lifetime=(?P<lifetime>[0-9]+)"
    rb"(?P<fragment> fragment=\S+)?|end length=[0-9]+ (?P<judgement>.*))$",
    re.MULTILINE,
)

# A transfer without data. It ends the one before it, if that has no END.
EMPTY_TRANSFER = segment_head(START | END, 0, 0)

# How many bytes are read at once, and the year 2000 in seconds from the start of 1970
PIECE, YEAR_2000 = 1 << 16, 946684800


class Judged(NamedTuple):
    """What the line of a transfer says of its data, and when its bundle was made and expires.

    The times count nanoseconds. They are None if the bundle was made without a clock.
    """

    words: str
    created: Optional[int] = None
    expires: Optional[int] = None


def judged(judgement, primary):
    """Returns what is said, by the judgement and the match of the primary block, or None for that."""
    if primary is None:
        return Judged(judgement)
    fields = {name: (value or b"").decode() for name, value in primary.groupdict().items()}
    words = f"{judgement} source={fields['source']} time={fields['time']}"
    words += f" sequence={fields['sequence']} destination={fields['destination']}"
    words += fields["fragment"]
    if fields["time"] == "0":
        return Judged(words)
    created = YEAR_2000 * 10**9 + int(fields["time"]) * 10**6
    return Judged(words, created, created + int(fields["lifetime"]) * 10**6)


class Judge:
    """A run of `tcpclkit blocks`. `waiting` has the transfers that it was given, in order.

    After a transfer without END, it has None for the empty transfer that ends it.
    """

    def __init__(self, tcpclkit):
        pipes = {"stdin": subprocess.PIPE, "stdout": subprocess.PIPE, "stderr": subprocess.DEVNULL}
        words = [tcpclkit, "blocks", "--keep-going"]
        self.process = subprocess.Popen(words, start_new_session=True, **pipes)
        self.given, self.waiting = [[CONTACT_HEADER, EMPTY_SESS_INIT]], deque()
        self.rest, self.primary, self.error = b"", None, None

    def ask(self, transfer, pieces):
        """Has a transfer judged, of which these are the messages. They are read by `wait`."""
        self.given.append(pieces)
        self.waiting.append(transfer)
        if transfer.is_abandoned or transfer.is_cut:
            self.given.append([EMPTY_TRANSFER])
            self.waiting.append(None)

    def wait(self):
        """Waits until all transfers that were given are judged."""
        if not self.waiting:
            return
        writer = Thread(target=self.write)
        writer.start()
        try:
            while self.waiting:
                self.read()
        finally:
            writer.join()

    def write(self):
        """Hands all messages to the program."""
        try:
            for pieces in self.given:
                for piece in pieces:
                    self.process.stdin.write(piece)
            self.process.stdin.flush()
        except OSError as error:
            self.error = error
            self.process.kill()
        self.given = []

    def read(self):
        """Reads lines of the program."""
        piece = self.process.stdout.read1(PIECE)
        if not piece:
            if self.error is not None and not isinstance(self.error, BrokenPipeError):
                raise self.error
            raise Failure(f"tcpclkit ended with status {self.process.wait()}")
        lines, newline, self.rest = (self.rest + piece).rpartition(b"\n")
        for found in LINE.finditer(lines + newline):
            if found["judgement"] is None:
                self.primary = found
            else:
                self.judge(found["judgement"].decode())

    def judge(self, judgement):
        """Takes the judgement of the next transfer."""
        transfer, primary, self.primary = self.waiting.popleft(), self.primary, None
        if transfer is not None:
            transfer.judged = judged("cut" if transfer.is_cut else judgement, primary)

    def end(self):
        """Ends the program."""
        self.process.stdin.close()
        self.process.stdout.close()
        self.process.wait()
