"""What `tcpclkit list` writes about a recording."""

import subprocess

from .running import FAULT, Failure

# How many bytes are read at once.
PIECE = 1 << 16


class Listing:
    """A run of `tcpclkit list`. After `rows`, `is_whole` says whether it found no fault."""

    def __init__(self, tcpclkit, recording):
        self.recording, self.is_whole = recording, False
        words = [tcpclkit, "list"] + ([] if recording == "-" else ["--", recording])
        self.process = subprocess.Popen(words, stdout=subprocess.PIPE, stderr=subprocess.PIPE)

    def rows(self, pattern, notes):
        """Yields the groups of each line that a pattern finds. Then reports the fault.

        The pattern is looked for in many lines at once: line by line would take twice as long.
        """
        rest = b""
        for piece in iter(lambda: self.process.stdout.read1(PIECE), b""):
            lines, newline, rest = (rest + piece).rpartition(b"\n")
            yield from pattern.findall(lines + newline)
        text = self.process.stderr.read().decode().strip().replace("tcpclkit: ", "", 1)
        status = self.process.wait()
        self.is_whole = status == 0
        if status == FAULT:
            notes.report(f"{self.recording}: {text}", FAULT)
        elif status != 0:
            text = text or f"tcpclkit ended with status {status}"
            raise Failure(f"{self.recording}: {text}")

    def end(self):
        """Ends the program, if it still runs."""
        self.process.kill()
        self.process.wait()
