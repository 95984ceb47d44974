"""The bytes of the probe are those that others make: `pack`, the streams of faults, the library's writers."""

import glob
import importlib.util
import os
import struct
import subprocess

from probing import bundles, wire
from probing.reading import Incoming

from . import TOP
from .nodes import PROGRAM, PROGRAMS, needs, room

TWO = f"{TOP}/examples/two.bundles"


def tcpclkit(*words, data=b""):
    """Runs the program. Returns its status and its output."""
    ended = subprocess.run([PROGRAM, *words], input=data, capture_output=True, timeout=60)
    return ended.returncode, ended.stdout


@needs(PROGRAMS)
def packed():
    """`pack` makes the same contact header, SESS_INIT and segments."""
    with open(TWO, "rb") as file:
        data = file.read()
    for size in (1, 7, 20, 1000):
        status, got = tcpclkit("pack", "--node", "ipn:1.0", "--peer-segment", f"{size}", "--end", data=data)
        lines = tcpclkit("list", data=got)[1].splitlines()
        lengths = [int(line.rsplit(b"=", 1)[1]) for line in lines if b" length=" in line]
        wanted, at, ident = wire.contact() + wire.sess_init(60, 65536, 1048576, b"ipn:1.0"), 0, 0
        while lengths:
            pieces = []
            while lengths and (not pieces or is_open(got, len(wanted) + sum(map(len, wire.transfer(ident, pieces))))):
                pieces.append(data[at : at + lengths[0]])
                at += lengths.pop(0)
            wanted += b"".join(wire.transfer(ident, pieces, items_of(got, len(wanted))))
            ident += 1
        yield f"pack: segments of {size}", (0, (wanted + wire.sess_term()).hex()), (status, got.hex())


def is_open(stream, at):
    """Returns whether no transfer begins at an offset: the one before goes on."""
    return at < len(stream) and not (stream[at] == wire.XFER_SEGMENT and stream[at + 1] & wire.START)


def items_of(stream, at):
    """Returns the items of the START at an offset."""
    length = int.from_bytes(stream[at + 10 : at + 14], "big")
    items = stream[at + 14 : at + 14 + length]
    return wire.total_length(int.from_bytes(items[-8:], "big")) if length == 13 else items


def rebuilt(stream):
    """Returns a stream whose messages are made again from the fields that were read."""
    incoming = Incoming()
    incoming.feed(stream)
    made = wire.contact(incoming.contact[1], incoming.contact[0])
    for it in incoming.messages:
        made += message_of(it, stream[it.offset : it.end])
    return incoming, made


def message_of(it, data):
    """Returns the bytes of a message from its fields. The values of items and data are in `data`."""
    if it.kind == wire.XFER_SEGMENT:
        items = data[14 : len(data) - 8 - it.length] if it.flags & wire.START else b""
        return wire.segment(it.flags, it.ident, data[len(data) - it.length :], again(it.items, items))
    if it.kind == wire.SESS_INIT:
        length = struct.unpack_from(">H", data, 19)[0]
        return wire.sess_init(*it.numbers, data[21 : 21 + length], again(it.items, data[25 + length :]))
    return {
        wire.XFER_ACK: lambda: wire.ack(it.flags, it.ident, it.length),
        wire.XFER_REFUSE: lambda: wire.refuse(it.reason, it.ident),
        wire.KEEPALIVE: wire.keepalive,
        wire.SESS_TERM: lambda: wire.sess_term(it.reason, it.flags),
        wire.MSG_REJECT: lambda: wire.msg_reject(it.reason, it.header),
    }[it.kind]()


def again(items, data):
    """Returns a list of items that is made again."""
    made, at = b"", 0
    for it in items:
        length = struct.unpack_from(">H", data, at + 3)[0]
        made += wire.item(it.flags, it.kind, data[at + 5 : at + 5 + length])
        at += 5 + length
    return made


def faults():
    """The streams of scripts/faults, message by message, and what is read of them."""
    paths = sorted(glob.glob(f"{TOP}/examples/faults/*.tcpcl") + glob.glob(f"{TOP}/examples/faults/sessions/*.tcpcl"))
    read, wrong, pieces = 0, [], []
    for path in paths:
        with open(path, "rb") as file:
            stream = file.read()
        whole = Incoming()
        whole.feed(stream)
        if whole.contact is None:
            continue
        read += len(whole.messages)
        if rebuilt(stream)[1] != stream[: whole.offset]:
            wrong.append(os.path.basename(path))
        slowly = Incoming()
        for at in range(len(stream)):
            slowly.feed(stream[at : at + 1])
        state = [(it.contact, it.messages, it.fault, it.offset, it.is_cut()) for it in (whole, slowly)]
        pieces += [os.path.basename(path)] if state[0] != state[1] else []
    yield "faults: messages", True, read > 500
    yield "faults: bytes", [], wrong
    yield "faults: byte by byte", [], pieces


@needs(PROGRAMS)
def listed():
    """What is read of the streams of scripts/faults is what `list` shows."""
    for path in sorted(glob.glob(f"{TOP}/examples/faults/*.tcpcl")):
        with open(path, "rb") as file:
            stream = file.read()
        incoming = Incoming()
        incoming.feed(stream)
        lines = tcpclkit("list", data=stream)[1].decode().splitlines()
        wanted = [int(line.split()[0]) for line in lines if " contact " not in line]
        got = [it.offset for it in incoming.messages]
        if wanted[: len(got)] != got or len(wanted) - len(got) > 1:
            yield f"{os.path.basename(path)}: offsets", wanted, got
    yield "offsets", True, True


def library():
    """Returns the module for Python of the C library, or None."""
    found = sorted(glob.glob(f"{TOP}/package/out/libtcpclkit.so.*"))
    if not found:
        return None
    os.environ["TCPCLKIT_LIBRARY"] = found[0]
    spec = importlib.util.spec_from_file_location("tcpclkit", f"{TOP}/bindings/python/tcpclkit.py")
    module = importlib.util.module_from_spec(spec)
    spec.loader.exec_module(module)
    return module


def written():
    """The library's writers make the same bytes."""
    it = library()
    if it is None:
        print(f"skipped: messages: {written.__doc__} (package/out/libtcpclkit.so is not there)")
        return
    kinds, items = it.Kind, [it.Item(1, 0x7A5C, b"item"), it.total_item(2**63)]
    ours = wire.item(1, 0x7A5C, b"item") + wire.total_length(2**63)
    yield "contact header", it.write_contact(0xFE), wire.contact(0xFE)
    for name, wanted, got in [
        ("SESS_INIT", it.Message(0, kinds.SESS_INIT, keepalive=7, segment_mru=2**64 - 1, transfer_mru=9, node=b"ipn:1.0",
                                 items=items), wire.sess_init(7, wire.MOST, 9, b"ipn:1.0", ours)),
        ("START", it.Message(0, kinds.XFER_SEGMENT, flags=2, id=2**64 - 1, data=b"data", items=items),
         wire.segment(2, wire.MOST, b"data", ours)),
        ("END", it.Message(0, kinds.XFER_SEGMENT, flags=0xFD, id=5, data=b""), wire.segment(0xFD, 5, b"")),
        ("XFER_ACK", it.Message(0, kinds.XFER_ACK, flags=3, id=7, length=2**40), wire.ack(3, 7, 2**40)),
        ("XFER_REFUSE", it.Message(0, kinds.XFER_REFUSE, reason=5, id=7), wire.refuse(5, 7)),
        ("KEEPALIVE", it.Message(0, kinds.KEEPALIVE), wire.keepalive()),
        ("SESS_TERM", it.Message(0, kinds.SESS_TERM, flags=1, reason=4), wire.sess_term(4, 1)),
        ("MSG_REJECT", it.Message(0, kinds.MSG_REJECT, reason=3, header=0xF0), wire.msg_reject(3, 0xF0)),
    ]:
        yield f"writers: {name}", it.write_message(wanted).hex(), got.hex()


@needs(PROGRAMS)
def bundle():
    """The bundles break no rule, and are addressed as planned."""
    routes = [("dtn://probe/", "ipn:2.0"), ("ipn:9.0", "dtn://a.node/"), ("ipn:1.2.0", "ipn:4294967297.0")]
    for source, destination in routes:
        route = bundles.Route(bundles.endpoint(source), bundles.endpoint(destination))
        with room() as at:
            data = bundles.bundle(route, 24, b"x" * 300)
            with open(f"{at}/bundle", "wb") as file:
                file.write(data)
            yield f"{destination}: rules", (0, b""), tcpclkit("check", "--bundles", f"{at}/bundle")
            shown = tcpclkit("blocks", "--bundles", f"{at}/bundle")[1].decode().split("\n")[0].split()
        words = ["flags=04", f"destination={destination}", f"source={source}", "report-to=dtn:none", "lifetime=10000"]
        yield f"{destination}: primary block", [], [it for it in words if it not in shown]
    wrong = bundles.with_wrong_check(data)
    status, _ = tcpclkit("check", "--bundles", data=wrong)
    yield "a wrong check value", 3, status
    for text in ("dtn:none", "ipn:0.0"):
        yield f"{text} is written", True, bundles.endpoint(text) is not None
    for text in ("", "ipn:1", "http://a", "dtn:a", "ipn:18446744073709551616.0", "dtn://a b"):
        yield f"{text!r} is not written", None, bundles.endpoint(text)


PARTS = [packed, faults, listed, written, bundle]
