"""The TCP segments of a capture, which `tshark` reads."""

import binascii
import os
import signal
import subprocess
import tempfile
import threading
from typing import NamedTuple

from .running import FAULT, Failure

# How many bytes of rows are read at once.
PIECE = 1 << 16

# After an interrupt, how many seconds tshark has to come to the end of the capture by itself.
PATIENCE = 1

# What tshark is asked for. Nothing that reads the data of TCP has to run: it could hold data back.
# A segment that an ICMP error quotes is left out, and so is one whose header is cut. The user's
# settings do not matter.
FIELDS = ["tcp.stream", "tcp.srcport", "tcp.dstport", "ip.src", "ip.dst", "ipv6.src", "ipv6.dst"]
FIELDS += ["tcp.flags", "tcp.seq", "tcp.ack", "tcp.window_size_value", "tcp.len"]
FIELDS += ["frame.time_epoch", "tcp.payload"]
SETTINGS = ["tcp.desegment_tcp_streams", "tcp.relative_sequence_numbers", "tcp.check_checksum"]
SETTINGS += ["tcp.analyze_sequence_numbers"]
WORDS = ["-n", "-l", "-Y", "tcp.len && !icmp && !icmpv6", "-d", "tcp.port==0-65535,data"]
WORDS += ["-T", "fields", "-E", "occurrence=l"]
WORDS += [word for field in FIELDS for word in ("-e", field)]
WORDS += [word for setting in SETTINGS for word in ("-o", f"{setting}:FALSE")]
NO_SETTINGS = {"WIRESHARK_CONFIG_DIR": "/nonexistent"}


class Packet(NamedTuple):
    """A TCP segment. An end is an address and a port. The window is not scaled. The time counts
    nanoseconds."""

    source: tuple
    target: tuple
    flags: int
    sequence: int
    acknowledged: int
    window: int
    length: int
    time: int
    data: bytes


def nanoseconds(seconds):
    """Returns a time that is written in seconds."""
    whole, _, fraction = seconds.partition(b".")
    return int(whole) * 10**9 + int(fraction.ljust(9, b"0")[:9])


def spelled_time(time):
    """Returns a time in seconds, with 6 decimal places, or 9 if the capture has nanoseconds."""
    text = f"{time // 10**9}.{time % 10**9:09}"
    return text[:-3] if text.endswith("000") else text


def spelled_end(end):
    """Returns an end as it is written: address and port."""
    address, port = end
    return f"[{address}]:{port}" if ":" in address else f"{address}:{port}"


def packet_of(row):
    """Returns the packet of a row of fields."""
    _, port, other_port, *addresses, flags, sequence, acknowledged, window, length, time, data = row
    address, other_address, address_6, other_address_6 = addresses
    return Packet(
        ((address or address_6).decode(), int(port)),
        ((other_address or other_address_6).decode(), int(other_port)),
        int(flags, 16),
        int(sequence),
        int(acknowledged or 0),
        int(window or 0),
        int(length),
        nanoseconds(time),
        binascii.unhexlify(data.replace(b":", b"")),
    )


class Rows:
    """Runs tshark on a capture. An interrupt ends it early: `is_interrupted` says so.

    tshark is in a session of its own, so an interrupt from a terminal does not end it at once.
    """

    def __init__(self, tshark, capture, notes):
        self.words, self.notes, self.is_interrupted = [tshark, "-r", capture, *WORDS], notes, False
        self.process = None

    def batches(self):
        """Yields lists of rows, as they come. Then reports what is wrong with the capture."""
        with tempfile.TemporaryFile() as errors:
            pipes = {"stdout": subprocess.PIPE, "stderr": errors, "bufsize": 0}
            environment = {**os.environ, **NO_SETTINGS}
            with subprocess.Popen(
                self.words, env=environment, start_new_session=True, **pipes
            ) as self.process:
                count = yield from self.read()
            errors.seek(0)
            self.judge(errors.read().decode("utf-8", "replace").splitlines(), count)

    def read(self):
        """Yields lists of rows, and returns how many rows there were."""
        rest, count, output = b"", 0, self.process.stdout.fileno()
        previous = signal.signal(signal.SIGINT, self.interrupt)
        for piece in iter(lambda: os.read(output, PIECE), b""):
            *lines, rest = (rest + piece).split(b"\n")
            count += len(lines)
            yield [line.split(b"\t") for line in lines]
        signal.signal(signal.SIGINT, previous)
        return count

    def interrupt(self, *_):
        """Ends tshark soon. Who writes the capture may have got the interrupt too, and end it."""
        self.is_interrupted = True
        timer = threading.Timer(PATIENCE, self.process.kill)
        timer.daemon = True
        timer.start()

    def judge(self, texts, count):
        """Reports how tshark ended, if the capture was not read to its end."""
        status = self.process.returncode
        if status == 0 or self.is_interrupted:
            return
        texts = [text.replace("tshark: ", "", 1) for text in texts if "Running as user" not in text]
        text = texts[-1] if texts else f"tshark ended with status {status}"
        if status < 0 or count == 0:
            raise Failure(text)
        self.notes.report(text, FAULT)
