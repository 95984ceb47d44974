"""Tests of how scripts/capture reads messages: as `tcpclkit list` does, in pieces of any length."""

import glob
import random
import sys

import make

from .common import END, PROGRAM, SEED, START, TOP, empty_room, read, run, write

sys.path.insert(0, f"{TOP}/scripts")

from tcpclkit_scripts.messages import spelled
from tcpclkit_scripts.reading import Reader
from tcpclkit_scripts.session import Program

PATHS = sorted(glob.glob(f"{TOP}/examples/*.tcpcl") + glob.glob(f"{TOP}/examples/faults/*.tcpcl"))

# Messages that a session seldom has
OTHERS = [
    make.sess_init(node=b"dtn://a b/\x00\\"),
    make.sess_init(make.length_item(7), make.length_item(8), node=b""),
    make.xfer_segment(START, 2**64 - 1, b"x" * 300, make.length_item(9)),
    make.xfer_segment(0xFF, 7, b""),
    make.xfer_segment(END | 0x80, 7, b"data"),
    make.xfer_ack(0xFF, 2**64 - 1, 2**64 - 1),
    make.xfer_refuse(0xFF, 2**64 - 1),
    make.sess_term(0xFF, 0xFF),
    make.msg_reject(0x7F, 0x01),
    make.KEEPALIVE,
]


class Lines:
    """Takes messages, and writes them as `tcpclkit list` does, as far as the script needs them."""

    def __init__(self):
        self.lines = []

    def segment(self, offset, flags, ident, length, _, __):
        """Takes an XFER_SEGMENT."""
        self.lines.append(f"{offset} xfer-segment flags={flags:02x} id={ident} length={length}")

    def ack(self, offset, flags, ident, length, _):
        """Takes an XFER_ACK."""
        self.lines.append(f"{offset} xfer-ack flags={flags:02x} id={ident} length={length}")

    def refuse(self, offset, reason, ident, _):
        """Takes an XFER_REFUSE."""
        self.lines.append(f"{offset} xfer-refuse reason={reason:02x} id={ident}")

    def sess_init(self, _, node):
        """Takes a SESS_INIT."""
        self.lines.append(f"sess-init node={spelled(node)}")

    def sess_term(self, flags, reason):
        """Takes a SESS_TERM."""
        self.lines.append(f"sess-term flags={flags:02x} reason={reason:02x}")


def lines_of_list(shown):
    """Returns the lines of `tcpclkit list` in the same form."""
    lines = []
    for line in shown.splitlines():
        offset, name, *words = line.split(" ")
        words = [word.partition("/")[0] if word.startswith("reason=") else word for word in words]
        words = [word for word in words if not word.startswith("item")]
        if name == "sess-init":
            lines += [f"sess-init {word}" for word in words if word.startswith("node=")]
        elif name == "sess-term":
            lines.append(" ".join([name, *words]))
        elif name.startswith("xfer-"):
            lines.append(" ".join([offset, name, *words]))
    return lines


def read_in_pieces(content, draw):
    """Reads a recording in pieces of any length. Returns the lines, and what ended the reading."""
    taker, at = Lines(), 0
    reader = Reader(taker)
    while at < len(content):
        end = at + draw.choice([1, 2, 5, 40, 1000])
        reader.feed(content[at:end], 0)
        at = end
    if reader.fault:
        return taker.lines, f"byte {reader.offset}: {Program(PROGRAM).fault(reader)}"
    is_cut = reader.is_cut() or not content
    return taker.lines, f"byte {reader.offset}: truncated" if is_cut else ""


def damaged(draw, content):
    """Returns a recording with some bytes changed, left out, put in, or cut off."""
    content = bytearray(content)
    for _ in range(draw.randrange(1, 4)):
        at = draw.randrange(len(content) + 1)
        kind = draw.randrange(4)
        if kind == 0:
            content[at : at + 1] = bytes([draw.choice([0, 1, 2, 5, 7, 8, 0x16, 255])])
        elif kind == 1:
            del content[at : at + draw.randrange(1, 20)]
        elif kind == 2:
            content[at:at] = draw.choice(OTHERS)
        else:
            del content[at:]
    return bytes(content)


def recordings():
    """Returns the examples, a recording of seldom messages, and recordings that are damaged."""
    draw = random.Random(SEED)
    whole = [read(path) for path in PATHS]
    whole.append(make.CONTACT + b"".join(OTHERS))
    whole.append(b"")
    return whole + [damaged(draw, draw.choice(whole)) for _ in range(1000)]


def as_listed():
    """The messages and the fault of a recording are those of `tcpclkit list`."""
    draw, differing, faults = random.Random(SEED), [], set()
    with empty_room() as at:
        for content in recordings():
            write(f"{at}/recording", content)
            _, shown, errors = run(at, PROGRAM, "list", "recording")
            wanted = lines_of_list(shown), errors.strip().replace("tcpclkit: ", "")
            got = read_in_pieces(content, draw)
            differing += [(wanted, got)] if wanted != got else []
            faults.add(" ".join(got[1].split(": ")[-1].split()[:3]))
    yield "capture: messages as of `tcpclkit list`", [], differing[:3]
    yield "capture: messages: each kind of fault", True, len(faults) >= 9


def reasons():
    """The names of reasons are those of `tcpclkit list`."""
    program = Program(PROGRAM)
    refusals, terms = program.reasons(0x03), program.reasons(0x05)
    wanted = ["02/no-resources", "ff/?"]
    yield "capture: reasons of XFER_REFUSE", wanted, [refusals[2], refusals[255]]
    wanted = ["01/idle-timeout", "ff/?"]
    yield "capture: reasons of SESS_TERM", wanted, [terms[1], terms[255]]


PARTS = [as_listed, reasons]
