"""Tests of scripts/capture on a pipe that is still written."""

import os
import select
import signal
import subprocess

from .capture import LINES, OPEN, SESSION, STREAMS, frames_of, noted, pcap, strays
from .common import PROGRAM, SECONDS, TOP, empty_room, example, read

# The packets of the example after which a transfer is over and answered, by number from 1 on, and
# how many bytes of a and b have come then. Transfer 2 has no END: it is over when 3 begins.
OVER = {12: (125, 74), 15: (184, 92), 18: (305, 102), 19: (305, 112), 21: (374, 122)}
OVER[24] = (393, 193)


class Live:
    """A run of the script, in a folder, on a pipe that gets packets one by one."""

    def __init__(self, at):
        self.frames, self.given = frames_of(read(SESSION)), 0
        pipes = {it: subprocess.PIPE for it in ("stdin", "stdout", "stderr")}
        words = [f"{TOP}/scripts/capture", "--tcpclkit", PROGRAM, "made", "-"]
        self.process = subprocess.Popen(words, cwd=at, **pipes)
        self.write(pcap([]))

    def write(self, content):
        """Writes to the pipe."""
        self.process.stdin.write(content)
        self.process.stdin.flush()

    def give(self, count):
        """Writes packets, up to this number."""
        whole = pcap(self.frames[:count])
        self.write(whole[len(pcap(self.frames[: self.given])) :])
        self.given = count

    def line(self):
        """Returns the next line of the output, or None if none comes."""
        came = select.select([self.process.stdout], [], [], SECONDS)[0]
        return self.process.stdout.readline().decode() if came else None

    def end(self, signal_number=None):
        """Ends the pipe, or interrupts the script. Returns its status and what it wrote since."""
        if signal_number is None:
            self.process.stdin.close()
        else:
            self.process.send_signal(signal_number)
        shown, errors = self.process.stdout.read(), self.process.stderr.read()
        status = self.process.wait(SECONDS)
        self.process.stdin.close()
        self.process.stdout.close()
        self.process.stderr.close()
        return status, shown.decode(), errors.decode()


def as_it_comes():
    """The line of a transfer is written once it is over and answered, and the recordings before."""
    with empty_room() as at:
        live, lines = Live(at), LINES.splitlines(True)
        for (number, counts), wanted in zip(OVER.items(), lines):
            live.give(number)
            yield f"capture of a pipe: after packet {number}", wanted, live.line()
            for side, count in zip("ab", counts):
                name = f"capture of a pipe: after packet {number}: {side}"
                recording = read(f"{at}/made/0000-{side}.tcpcl")
                yield name, example(f"session-{side}")[:count], recording
                times = read(f"{at}/made/0000-{side}.times").decode()
                last = times.splitlines()[-1].split()[0]
                yield f"{name}: times", str(count), last
        live.give(len(live.frames))
        yield "capture of a pipe: the end", (1, "", strays("made")), live.end()
        yield "capture of a pipe: streams", STREAMS, read(f"{at}/made/streams").decode()


def interrupts():
    """After an interrupt, the rest is written, whether the pipe ends or not."""
    first, second = LINES.splitlines(True)[:2]
    rest = second.replace("acknowledged", "unanswered").partition(" answered=")[0] + "\n"
    with empty_room() as at:
        live = Live(at)
        live.give(14)
        yield "capture: before an interrupt", first, live.line()
        wanted = 130, rest, noted(OPEN)
        yield "capture: an interrupt", wanted, live.end(signal.SIGINT)
        recording = read(f"{at}/made/0000-a.tcpcl")
        yield "capture: an interrupt: a", example("session-a")[:184], recording
        files = ["0000-a.tcpcl", "0000-a.times", "0000-b.tcpcl", "0000-b.times", "streams"]
        yield "capture: an interrupt: files", files, sorted(os.listdir(f"{at}/made"))


PARTS = [as_it_comes, interrupts]

# The tools that a part needs.
TOOLS = {part: ["tshark"] for part in PARTS}
