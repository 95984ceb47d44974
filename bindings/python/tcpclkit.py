"""Bundles of the Bundle Protocol 7 (RFC 9171) and sessions of TCPCLv4 (RFC 9174).

    import tcpclkit
    try:
        bundle = tcpclkit.bundle(content)
        print(bundle.source, bundle.destination, len(bundle.payload))
    except tcpclkit.Fault as fault:
        print("more bytes are needed" if fault.is_truncated else f"byte {fault.offset}: {fault}")

Each function calls functions of the C library `libtcpclkit`, which are proved to do what their
definitions say; `tcpclkit.h` says what is proved of each of them. This module itself is tested and
not proved. It needs CPython 3.8 or later and nothing but its standard library.

The shared object `libtcpclkit.so.N`, where N is ABI, is the one that the environment variable
TCPCLKIT_LIBRARY names if it is set, or else the one of the folder in which this module was
installed, or else the one that the system's loader finds. Bytes that are read may be any object
with a contiguous buffer, such as bytes, a bytearray, or a memoryview of a mapped file. What is not
of type bytes is copied first, so that nobody can change it while the library reads; so pass bytes
where the copy would cost too much.
"""

import ctypes
import os
import threading
from ctypes import POINTER, byref, c_char_p, c_size_t, c_uint32, c_uint64, c_void_p, py_object
from dataclasses import dataclass
from enum import IntEnum
from typing import NamedTuple, Optional, Tuple, Union

ABI = 4
OK, END, TRUNCATED, DATA_TRUNCATED, FAULT, TOO_SMALL, RANGE, NULL, MEMORY, SCAN_ENDED = range(10)
STRAY = 3  # the turn of a segment of no open transfer

CONTACT_LENGTH = 6
SEGMENT_END, SEGMENT_START = 1, 2
EID_LIMIT = 1024
SCAN_WORDS = 1024
HEAD_LIMIT = 66585
NODE_ID_LIMIT = 1024
ITEM_LIMIT, LIST_LIMIT = 64, 65536  # of the items of a message
BUNDLE_FIRST, BUNDLE_LAST = b"\x9f", b"\xff"  # before the primary block, after the payload block
FAULT_ROOM, EID_ROOM, WORDS_ROOM, NAME_ROOM = 64, 4100, 4500, 64
FIRST_ROOM = 4096  # for each text of a tool, as long as its length is not known
WRITER_ROOM = 64  # the same for a message or a block

# Flags, and a type of items (RFC 9174 sections 4.2, 6.1, 4.8 and 5.2.5)
CONTACT_CAN_TLS = 1  # a flag of contact headers
SESS_TERM_REPLY = 1  # a flag of SESS_TERM
ITEM_CRITICAL = 1  # a flag of items
ITEM_TYPE_TRANSFER_LENGTH = 1  # a type of items

# The reasons of an XFER_REFUSE (RFC 9174 section 5.2.4)
REFUSE_UNKNOWN = 0
REFUSE_COMPLETED = 1
REFUSE_NO_RESOURCES = 2
REFUSE_RETRANSMIT = 3
REFUSE_NOT_ACCEPTABLE = 4
REFUSE_EXTENSION_FAILURE = 5
REFUSE_SESSION_TERMINATING = 6

# The reasons of a SESS_TERM (RFC 9174 section 6.1)
TERM_UNKNOWN = 0
TERM_IDLE_TIMEOUT = 1
TERM_VERSION_MISMATCH = 2
TERM_BUSY = 3
TERM_CONTACT_FAILURE = 4
TERM_RESOURCE_EXHAUSTION = 5

# The reasons of a MSG_REJECT (RFC 9174 section 5.1.2)
REJECT_TYPE_UNKNOWN = 1
REJECT_UNSUPPORTED = 2
REJECT_UNEXPECTED = 3

# The types of canonical blocks (RFC 9171 sections 4.4 and 9.1, RFC 9172 section 11.1)
BLOCK_TYPE_PAYLOAD = 1
BLOCK_TYPE_PREVIOUS_NODE = 6
BLOCK_TYPE_BUNDLE_AGE = 7
BLOCK_TYPE_HOP_COUNT = 10
BLOCK_TYPE_INTEGRITY = 11
BLOCK_TYPE_CONFIDENTIALITY = 12


class Code(IntEnum):
    """What is wrong. docs/FORMATS.md has the rule that each one breaks."""
    WIRE_TRUNCATED = 1
    WIRE_BAD_MAGIC = 2
    WIRE_BAD_VERSION = 3
    WIRE_UNKNOWN_TYPE = 4
    WIRE_NODE_ID_TOO_LONG = 5
    WIRE_LIST_TOO_LONG = 6
    WIRE_TOO_MANY_ITEMS = 7
    WIRE_ITEMS_OVERRUN = 8
    ORDER_SECOND_SESS_INIT = 51
    ORDER_SEGMENT_BEFORE_SESS_INIT = 52
    ORDER_NO_SUCH_OPEN_TRANSFER = 53
    ORDER_START_REPEATS_OPEN_ID = 54
    ORDER_START_AFTER_SESS_TERM = 55
    ANSWER_OTHER_TRANSFER = 71
    ANSWER_LENGTH_FALLS = 72
    ANSWER_LENGTH_NOT_SENT = 73
    ANSWER_END_TOO_EARLY = 74
    BUNDLE_CUT = 101
    BUNDLE_TRAILING = 102
    BUNDLE_NOT_A_BUNDLE = 103
    BUNDLE_BAD_HEAD = 104
    BUNDLE_WRONG_KIND = 105
    BUNDLE_BAD_COUNT = 106
    BUNDLE_BAD_VERSION = 107
    BUNDLE_BAD_CHECK_TYPE = 108
    BUNDLE_BAD_SCHEME = 109
    BUNDLE_BAD_SPECIFIC_PART = 110
    BUNDLE_EID_TOO_LONG = 111
    BUNDLE_BAD_CHECK_LENGTH = 112
    BUNDLE_CHECK_DIFFERS = 113
    BUNDLE_BAD_BLOCK_NUMBER = 114
    BUNDLE_REPEATED_BLOCK_NUMBER = 115
    BUNDLE_TOO_MANY_BLOCKS = 116
    BUNDLE_NO_PAYLOAD_LAST = 117


class Kind(IntEnum):
    """The kind of a message, which is its type byte."""
    XFER_SEGMENT = 1
    XFER_ACK = 2
    XFER_REFUSE = 3
    KEEPALIVE = 4
    SESS_TERM = 5
    MSG_REJECT = 6
    SESS_INIT = 7


# ---- the structs of tcpclkit.h


def _struct(name, fields):
    """Returns a struct of the header. A field is a number, or a struct after a colon."""
    pairs = [field.split(":") for field in fields.split()]
    kinds = [(it[0], globals()[it[1]] if it[1:] else c_uint64) for it in pairs]
    return type(name, (ctypes.Structure,), {"_fields_": kinds})


_Fault = _struct("_Fault", "code number offset")
_Verdict = _struct("_Verdict", "fault:_Fault has_payload payload_offset payload_seen")
_Eid = _struct("_Eid", "kind allocator node service name_length")
_Bundle = _struct(
    "_Bundle",
    "verdict:_Verdict primary_fields primary_whole flags destination:_Eid source:_Eid "
    "report_to:_Eid time sequence lifetime is_fragment fragment_offset fragment_total blocks "
    "payload_length",
)
_Block = _struct(
    "_Block",
    "kind offset length block_type number flags check data_offset data_length data_seen",
)
_Contact = _struct("_Contact", "fault:_Fault flags")
_Message = _struct(
    "_Message",
    "fault:_Fault kind flags reason header id acknowledged keepalive segment_mru transfer_mru "
    "node_offset node_length items_offset items_length data_offset data_length data_seen next",
)
_Item = _struct(
    "_Item", "fault:_Fault flags item_type value_offset value_length has_total total next"
)
_Announced = _struct("_Announced", "kind total")
_Order = _struct("_Order", "initiated terminated is_open transfer")
_Turn = _struct("_Turn", "fault turn last abandons abandoned")
_Sent = _struct("_Sent", "id length whole acknowledged fault")
_Written = _struct("_Written", "count needed")
_Crc = _struct("_Crc", "kind state")
_Run = _struct("_Run", "exit_status output_length report_length")

_SLICE = [c_void_p, c_size_t]
_NAMES = [*_SLICE, *_SLICE, *_SLICE]  # for the names of destination, source and report-to endpoint
_TEXT = [c_uint64, *_SLICE]  # whether it is wanted, and the slice for it
_WRITTEN = [*_SLICE, POINTER(_Written)]
_SCAN = c_uint64 * SCAN_WORDS
_PARAMETERS = {
    "judge_bundle": [*_SLICE, POINTER(_Verdict)],
    "describe_bundle": [*_SLICE, *_NAMES, POINTER(_Bundle)],
    "start_scan": [_SCAN],
    "feed_scan": [_SCAN, *_SLICE, POINTER(c_uint64)],
    "next_block": [_SCAN, *_SLICE, POINTER(c_uint64), POINTER(_Block)],
    "judge_scan": [_SCAN, POINTER(_Verdict)],
    "judge_block": [_SCAN, POINTER(_Block)],
    "end_scan": [_SCAN, c_uint64, POINTER(_Verdict)],
    "describe_scan": [_SCAN, *_NAMES, POINTER(_Bundle)],
    "read_contact": [*_SLICE, POINTER(_Contact)],
    "read_message": [*_SLICE, c_uint64, POINTER(_Message)],
    "read_item": [*_SLICE, POINTER(_Message), c_uint64, POINTER(_Item)],
    "read_announced": [*_SLICE, POINTER(_Message), POINTER(_Announced)],
    "start_order": [POINTER(_Order)],
    "judge_message": [POINTER(_Order), POINTER(_Message), POINTER(_Turn)],
    "take_message": [POINTER(_Order), POINTER(_Message), POINTER(_Turn)],
    "judge_answer": [POINTER(_Sent), POINTER(_Message)],
    "write_contact": [c_uint64, *_WRITTEN],
    "write_item": [c_uint64, c_uint64, *_SLICE, *_WRITTEN],
    "write_message": [POINTER(_Message), *_SLICE, *_SLICE, *_WRITTEN],
    "write_primary": [POINTER(_Bundle), c_uint64, *_NAMES, *_WRITTEN],
    "write_block_head": [POINTER(_Block), *_WRITTEN],
    "start_check": [POINTER(_Crc), c_uint64],
    "feed_check": [POINTER(_Crc), *_SLICE],
    "end_check": [POINTER(_Crc), POINTER(c_uint64)],
    "write_check": [POINTER(_Crc), *_WRITTEN],
    "write_eid": [POINTER(_Eid), *_SLICE, *_WRITTEN],
    "write_age": [c_uint64, *_WRITTEN],
    "write_hop_count": [c_uint64, c_uint64, *_WRITTEN],
    "write_fault_text": [c_uint64, c_uint64, *_SLICE, POINTER(c_uint64)],
    "write_eid_text": [POINTER(_Eid), *_SLICE, *_SLICE, POINTER(c_uint64)],
    "read_eid_text": [*_SLICE, POINTER(_Eid), *_SLICE],
    "write_reason_text": [c_uint64, c_uint64, *_SLICE, POINTER(c_uint64)],
    "write_report_reason_text": [c_uint64, *_SLICE, POINTER(c_uint64)],
    "write_block_type_text": [c_uint64, *_SLICE, POINTER(c_uint64)],
    "read_block_data": [
        POINTER(_Block), POINTER(_Block), *_SLICE, *_SLICE, POINTER(c_uint64),
    ],
    "list": [*_SLICE, *_TEXT, *_TEXT, POINTER(_Run)],
    "unpack": [*_SLICE, *_SLICE, *_TEXT, *_TEXT, POINTER(_Run)],
    "blocks": [*_SLICE, *_SLICE, *_TEXT, *_TEXT, POINTER(_Run)],
    "check": [*_SLICE, *_SLICE, *_TEXT, *_TEXT, POINTER(_Run)],
    "pack": [*_SLICE, *_SLICE, *_SLICE, *_TEXT, *_TEXT, POINTER(_Run)],
    "pack_more": [*_SLICE, *_SLICE, *_TEXT, *_TEXT, POINTER(_Run)],
}


# ---- the library


def _path():
    """Returns the path of the shared object, or its name for the system's loader."""
    name = f"libtcpclkit.so.{ABI}"
    here = os.path.dirname(os.path.realpath(__file__))
    installed = os.path.join(here, "..", "..", name)  # below lib/python3/dist-packages
    return os.environ.get("TCPCLKIT_LIBRARY") or (installed if os.path.exists(installed) else name)


def _load():
    """Loads the library, and declares what its functions take and return."""
    library = ctypes.CDLL(_path())
    library.tcpclkit_abi.restype = c_uint32
    found = library.tcpclkit_abi()
    if found != ABI:
        raise ImportError(f"libtcpclkit has version {found} of the interface, and not {ABI}")
    calls = {}
    for name, parameters in _PARAMETERS.items():
        call = calls[name] = library[f"tcpclkit_raw_{name}"]
        call.argtypes, call.restype = parameters, c_uint32
    return calls


_CALLS = _load()


def _call(name, *arguments):
    """Calls a function of the library, and returns its status."""
    return _CALLS[name](*arguments)


class _Lent:
    """Bytes that are lent to the library: a pointer that is never null, and a length.

    An object of type bytes is lent as it is. Any other is copied, since another thread may change it
    while the library reads. So what is returned is of the bytes that were judged.
    """

    def __init__(self, content):
        self.kept = content if isinstance(content, bytes) else bytes(memoryview(content).cast("B"))
        self.slice = self.kept, len(self.kept)

    def __getitem__(self, place):
        return self.kept[place]

    def rest(self, offset):
        """Returns a pointer to the bytes from an offset on, and how many they are."""
        return ctypes.cast(self.kept, c_void_p).value + offset, len(self.kept) - offset


def _number(name, value, least=0, most=2**64 - 1):
    """Returns an argument that the library is handed, or raises a ValueError with its name."""
    if not least <= value <= most:
        raise ValueError(f"{name} is {value}, and has to be from {least} to {most}")
    return value


def _room(length):
    """Returns a buffer that the library writes into, of at least one byte."""
    return ctypes.create_string_buffer(length or 1)


def _text(room, name, *arguments):
    """Returns the text that the library writes into a buffer of this room, or None."""
    text, written = _room(room), c_uint64()
    status = _call(name, *arguments, text, room, byref(written))
    return text.raw[:written.value].decode() if status == OK else None


def _written(name, *arguments, call=_call):
    """Returns the bytes that a writer writes."""
    it, room, status = _Written(), WRITER_ROOM, TOO_SMALL
    while status == TOO_SMALL:
        content = _room(room)
        status = call(name, *arguments, content, room, byref(it))
        room = it.needed
    if status != OK:
        raise ValueError("the readers would refuse what is to be written")
    return content.raw[:it.count]


class _State:
    """What the library keeps in memory of its caller. A copy, by the module copy, has its own."""

    def __init__(self, memory):
        self._memory = memory
        self._lock = threading.Lock()  # Two calls of the library may not share the memory.

    def _call(self, name, *arguments):
        with self._lock:
            return _call(name, self._memory, *arguments)

    def __copy__(self):
        copied = type(self)()
        with self._lock:
            copied._memory = type(self._memory).from_buffer_copy(self._memory)
        return copied

    def __deepcopy__(self, _memo):
        return self.__copy__()


# ---- faults


class Fault(Exception):
    """The first fault of bytes or of a message: a code, the number that it is about, and an offset.

    The offset is that of the fault in a bundle, or that of the message with the fault in a
    recording. The text is that of the program.
    """

    def __init__(self, code, number=0, offset=0):
        super().__init__(code, number, offset)
        self.code, self.number, self.offset = Code(code), number, offset

    @property
    def is_truncated(self):
        """Whether the bytes are cut, so that more bytes may complete them."""
        return self.code in (Code.WIRE_TRUNCATED, Code.BUNDLE_CUT)

    def __eq__(self, other):
        return isinstance(other, Fault) and self.args == other.args

    def __hash__(self):
        return hash(self.args)

    def __str__(self):
        number = _number("number", self.number)
        return _text(FAULT_ROOM, "write_fault_text", self.code, number) or repr(self)


def _fault(it):
    """Returns the fault that the library wrote."""
    return Fault(it.code, it.number, it.offset)


# ---- bundles


class Dtn(NamedTuple):
    """An endpoint ID of the scheme dtn: its name, or None for dtn:none."""
    name: Optional[bytes]

    def __str__(self):
        return _eid_text(self)


class Ipn(NamedTuple):
    """An endpoint ID of the scheme ipn. One of two numbers has no allocator."""
    allocator: Optional[int]
    node: int
    service: int

    def __str__(self):
        return _eid_text(self)


EndpointId = Union[Dtn, Ipn]


def _lent_eid(eid):
    """Returns an endpoint ID as the library takes it, and the slice of its name."""
    if isinstance(eid, Ipn):
        kind = 3 if eid.allocator is None else 4
        values = eid._replace(allocator=eid.allocator or 0)
        return _Eid(kind, *map(_number, eid._fields, values), 0), _Lent(b"").slice
    lent = _Lent(eid.name or b"")
    length = _number("the length of name", len(lent.kept), most=EID_LIMIT)
    return _Eid(kind=1 if eid.name is None else 2, name_length=length), lent.slice


def _eid_text(eid):
    """Returns an endpoint ID as the program shows it."""
    it, name = _lent_eid(eid)
    return _text(EID_ROOM, "write_eid_text", byref(it), *name)


def read_eid_text(text):
    """Returns the endpoint ID of which `str` returns this text. Raises ValueError if there is none.

    `dtn:none` is Dtn(None), and not Dtn(b"none"), whose text it is too.
    """
    lent, it, name = _Lent(text.encode("utf-8", "surrogatepass")), _Eid(), _room(EID_LIMIT)
    if _call("read_eid_text", *lent.slice, byref(it), name, EID_LIMIT) != OK:
        raise ValueError("no endpoint ID has this text")
    return _eid(it, name)


def write_eid(eid):
    """Returns an endpoint ID in CBOR, which is also the data of a previous node block.

    RFC 9171 sections 4.2.5.1 and 4.4.1 define it.
    """
    it, name = _lent_eid(eid)
    return _written("write_eid", byref(it), *name)


def _eid(it, name):
    """Returns the endpoint ID that the library wrote. Its name is at the beginning of `name`."""
    if it.kind < 3:
        return Dtn(name.raw[:it.name_length] if it.kind == 2 else None)
    return Ipn(it.allocator if it.kind == 4 else None, it.node, it.service)


class Verdict(NamedTuple):
    """The verdict on bytes as one bundle: the first fault, or None of a good bundle.

    `payload` is the place of the payload's bytes that are there, or None if the head of the payload
    was not accepted. A bad bundle may have it too.
    """
    fault: Optional[Fault]
    payload: Optional[slice]


class Bundle(NamedTuple):
    """A good bundle. Times are in milliseconds, and `time` counts from 2000-01-01 UTC.

    `report_to` is where status reports go. `fragment` is the offset of a fragment and the total
    length, or None. `payload` has the bytes, or, of a Scan, their place in the bundle.
    """
    flags: int
    destination: EndpointId
    source: EndpointId
    report_to: EndpointId
    time: int
    sequence: int
    lifetime: int
    fragment: Optional[Tuple[int, int]] = None
    blocks: int = 0
    payload: Union[bytes, slice] = b""


class Primary(NamedTuple):
    """The fields of a bundle's primary block that come before its first fault; the others are None.

    They are numbered in their order (RFC 9171 section 4.3.1), and `accepted` is the number of the
    last one, or 0. Field 1 is the version, and 3 the type of the check value. `is_whole` is whether
    the whole block was accepted, its check value too.
    """
    accepted: int
    is_whole: bool
    flags: Optional[int]
    destination: Optional[EndpointId]
    source: Optional[EndpointId]
    report_to: Optional[EndpointId]
    creation: Optional[Tuple[int, int]]  # the time, in milliseconds, and the sequence number
    lifetime: Optional[int]
    fragment: Optional[Tuple[int, int]]  # the offset and the total length


def _verdict(status, it):
    """Returns the verdict that the library wrote."""
    end = it.payload_offset + it.payload_seen
    place = slice(it.payload_offset, end) if it.has_payload else None
    return Verdict(None if status == OK else _fault(it.fault), place)


def verdict(content):
    """Judges the bytes as one bundle."""
    lent, it = _Lent(content), _Verdict()
    return _verdict(_call("judge_bundle", *lent.slice, byref(it)), it)


def bundle(content):
    """Judges the bytes as one bundle, and returns a good one. Raises the Fault of any other."""
    lent = _Lent(content)
    place = _bundle(*_described(_call, "describe_bundle", *lent.slice))
    return place._replace(payload=lent[place.payload])


def primary(content):
    """Returns the fields of the primary block before the first fault, also of a bad bundle."""
    return _primary(*_described(_call, "describe_bundle", *_Lent(content).slice))


def _described(call, name, *arguments):
    """Returns the status of a call, and what it wrote of a bundle: the fields and the names."""
    it, names = _Bundle(), [_room(EID_LIMIT) for _ in range(3)]
    slices = [value for room in names for value in (room, EID_LIMIT)]
    return call(name, *arguments, *slices, byref(it)), it, *names


def _bundle(status, it, destination, source, report_to):
    """Returns the bundle that the library wrote, with the payload's place, or raises its fault."""
    judged = _verdict(status, it.verdict)
    if judged.fault is not None:
        raise judged.fault
    return Bundle(
        it.flags, _eid(it.destination, destination), _eid(it.source, source),
        _eid(it.report_to, report_to), it.time, it.sequence, it.lifetime,
        (it.fragment_offset, it.fragment_total) if it.is_fragment else None,
        it.blocks, judged.payload,
    )


def _primary(_status, it, destination, source, report_to):
    """Returns the fields of the primary block that the library wrote."""
    count = it.primary_fields
    return Primary(
        count, it.primary_whole == 1,
        it.flags if count >= 2 else None,
        _eid(it.destination, destination) if count >= 4 else None,
        _eid(it.source, source) if count >= 5 else None,
        _eid(it.report_to, report_to) if count >= 6 else None,
        (it.time, it.sequence) if count >= 7 else None,
        it.lifetime if count >= 8 else None,
        (it.fragment_offset, it.fragment_total) if count >= 10 else None,
    )


class Scan(_State):
    """A scan of one bundle that comes in pieces of any size.

        scan = tcpclkit.Scan()
        while scan.is_going and (piece := receive()):
            taken = scan.feed(piece)
        bundle = scan.bundle()

    The loop also ends where no more bytes come. It keeps what the heads of the bundle say, and the
    first 3,257 bytes. A copy has seen the same bytes.
    """

    def __init__(self):
        super().__init__(_SCAN())
        self.restart()

    def restart(self):
        """Makes the scan new, whatever it has seen."""
        self._call("start_scan")

    def feed(self, piece):
        """Takes the bytes of the next piece that belong to the bundle, and returns their number.

        After the end of the bundle and after its first fault, that is 0: `restart` comes before the
        next bundle.
        """
        lent, taken = _Lent(piece), c_uint64()
        if self._call("feed_scan", *lent.slice, byref(taken)) == RANGE:
            raise ValueError("a bundle has 2^63 bytes")
        return taken.value

    def next_block(self, piece):
        """Takes the bytes of the next piece up to the end of a block.

        Returns their number, and the Block or None. Its data is a place in the bundle.
        """
        lent = _Lent(piece)
        return self._next_block(*lent.slice)

    def _next_block(self, start, length):
        taken, it = c_uint64(), _Block()
        if self._call("next_block", start, length, byref(taken), byref(it)) == RANGE:
            raise ValueError("a bundle has 2^63 bytes")
        return taken.value, _block(it)

    @property
    def is_going(self):
        """Whether the bundle goes on after the bytes that were taken."""
        return self._call("judge_scan", byref(_Verdict())) == TRUNCATED

    def block_head(self):
        """Returns the BlockHead of the canonical block that the bytes taken end in, or None.

        They end in its data, at the beginning of its data, or in its check value. So a block whose
        data is too long can be refused before the data comes.

            taken = scan.feed(piece)
            head = scan.block_head()
            if head is not None and head.data_length > limit:
                raise ValueError("the bundle is too large")
        """
        it = _Block()
        return _head(it) if self._call("judge_block", byref(it)) == OK else None

    def verdict(self):
        """Returns the verdict on the bytes that were taken.

        A byte that follows the bundle is no fault, since it is not taken: `end` counts it.
        """
        it = _Verdict()
        return _verdict(self._call("judge_scan", byref(it)), it)

    def end(self, length):
        """Returns the verdict on a whole transfer of `length` bytes, after its last byte.

        These are the bytes that were taken, and bytes after them that were not needed:

            came = 0
            for piece in pieces:
                scan.feed(piece)
                came += len(piece)
            verdict = scan.end(came)

        Raises ValueError if more than `length` bytes were taken, or fewer, while the bundle needed
        more: those that are missing were not fed.
        """
        it = _Verdict()
        status = self._call("end_scan", _number("length", length), byref(it))
        if status == RANGE:
            raise ValueError(f"length is {length}, and these bytes were not all fed")
        return _verdict(status, it)

    def bundle(self):
        """Returns the good bundle that was taken, or raises the Fault of any other bytes."""
        return _bundle(*_described(self._call, "describe_scan"))

    def primary(self):
        """Returns the fields of the primary block, as far as they were taken and accepted."""
        return _primary(*_described(self._call, "describe_scan"))


# ---- the blocks of a bundle


class Block(NamedTuple):
    """A whole block of a bundle: the primary block, if `block_type` is None, or a canonical block.

    `flags` are those of the block, or of the bundle if it is the primary block. `check` is the type
    of the check value: 0 for none, 1 for CRC-16/X-25, and 2 for CRC-32C. The payload block has the
    type 1 and is the last one. `data` has the bytes, or, of a Scan, their place in the bundle, and
    `data_at` is the offset in the bundle where they begin.
    """
    offset: int
    length: int
    flags: int
    check: int
    block_type: Optional[int] = None
    number: Optional[int] = None
    data: Optional[Union[bytes, slice]] = None
    data_at: Optional[int] = None

    def with_data(self, data):
        """Returns a block of a Scan with the bytes of its data, which the caller has kept.

        Raises ValueError if they are not as many as their place.
        """
        if not isinstance(self.data, slice) or len(data) != self.data.stop - self.data.start:
            raise ValueError("the data of a block has another length")
        return self._replace(data=data)

    def words(self, primary):
        """Returns what the data says, as the line of `tcpclkit blocks` for the block has it.

            primary, *others = tcpclkit.blocks_of(content)
            for it in others:
                print(it.block_type, it.words(primary))

        `primary` is the primary block of the same bundle. The words are empty for data of a type
        that is not read, and for a primary block. Of a Scan, `with_data` comes before.
        """
        if self.block_type is None:
            return ""
        if primary.block_type is not None:
            raise ValueError("the block that is to be the primary block is another one")
        lent = self._data()
        numbers = byref(_numbers(primary)), byref(_numbers(self, len(lent.kept)))
        text = _text(WORDS_ROOM, "read_block_data", *numbers, *lent.slice)
        if text is None:
            raise ValueError("a block has a number that no block has")
        return text

    def _data(self):
        """Returns the data of a canonical block as it is lent to the library."""
        if isinstance(self.data, slice):
            raise ValueError("the data of a block of a Scan is not there: with_data adds it")
        return _Lent(self.data)


class BlockHead(NamedTuple):
    """The head of a canonical block that is not whole yet.

    `data_length` is the length of its data by the head, and `data` the place in the bundle of the
    bytes of it that are there. The other fields are those of a Block.
    """
    offset: int
    flags: int
    check: int
    block_type: int
    number: int
    data_length: int
    data: slice = slice(0, 0)


def _block(it):
    """Returns the block that the library wrote, or None."""
    block = Block(it.offset, it.length, it.flags, it.check)
    if it.kind == 2:
        start, end = it.data_offset, it.data_offset + it.data_length
        return block._replace(
            block_type=it.block_type, number=it.number, data=slice(start, end), data_at=start,
        )
    return block if it.kind == 1 else None


def _head(it):
    """Returns the head that the library wrote."""
    place = slice(it.data_offset, it.data_offset + it.data_seen)
    return BlockHead(
        it.offset, it.flags, it.check, it.block_type, it.number, it.data_length, place
    )


def _numbers(block, data_length=0):
    """Returns a block as the library takes it."""
    is_primary = block.block_type is None
    values = {name: getattr(block, name) for name in ("offset", "length", "flags", "check")}
    if not is_primary:
        values.update(
            block_type=block.block_type, number=block.number, data_offset=block.data_at,
            data_length=data_length, data_seen=data_length,
        )
    numbers = {name: _number(name, value) for name, value in values.items()}
    return _Block(kind=1 if is_primary else 2, **numbers)


def blocks_of(content):
    """Yields the blocks of the bundle that the bytes begin with.

    A fault is raised after the blocks before it.
    """
    lent, scan, at = _Lent(content), Scan(), 0
    while True:
        taken, it = scan._next_block(*lent.rest(at))
        at += taken
        if it is None:
            break
        yield it if it.data is None else it._replace(data=lent[it.data])
    fault = scan.verdict().fault
    if fault is not None:
        raise fault


# ---- bundles that are written


def write_primary(bundle, check=2):
    """Returns a primary block with its check field (RFC 9171 section 4.3.1).

        content = tcpclkit.BUNDLE_FIRST + tcpclkit.write_primary(bundle, check=2)
        for it in blocks:
            content += tcpclkit.write_block(it)
        content += tcpclkit.BUNDLE_LAST

    The last of the blocks is the payload block, which alone has type 1 and number 1. Each other
    block has a number of its own, at least 2. There are at most 64 blocks. `check` is a type of
    check values, as in a Block. The RFC asks for one here, unless an integrity block protects the
    primary block. The `blocks` and the `payload` of the Bundle are not read.
    """
    it, names = _Bundle(is_fragment=bundle.fragment is not None), []
    for name in ("flags", "time", "sequence", "lifetime"):
        setattr(it, name, _number(name, getattr(bundle, name)))
    for name in ("destination", "source", "report_to"):
        eid, lent = _lent_eid(getattr(bundle, name))
        setattr(it, name, eid)
        names += lent
    if it.is_fragment != it.flags & 1:
        raise ValueError("flag 0x01 and fragment do not both say whether the bundle is a fragment")
    if it.is_fragment:
        ends = map(_number, ("the offset of fragment", "the total of fragment"), bundle.fragment)
        it.fragment_offset, it.fragment_total = ends
    return _written("write_primary", byref(it), _number("check", check, most=2), *names)


def write_block(block):
    """Returns a canonical block with its check field (RFC 9171 section 4.3.2).

    The `offset`, `length` and `data_at` of the Block are not read. Its number is 1 if its type is.
    """
    if block.block_type is None:
        raise ValueError("a primary block is written by write_primary")
    data, check = block._data().kept, Check(block.check)
    head = write_block_head(
        BlockHead(0, block.flags, block.check, block.block_type, block.number, len(data))
    )
    check.feed(head)
    check.feed(data)
    return b"".join([head, data, check.field()])


def write_block_head(head):
    """Returns a canonical block up to its data, whose `data_length` bytes follow, and its check.

        check, head = tcpclkit.Check(block.check), tcpclkit.write_block_head(block)
        for piece in [head, *pieces]:
            check.feed(piece)
            send(piece)
        send(check.field())

    The `offset` and the `data` of the BlockHead are not read.
    """
    numbers = {
        name: _number(name, getattr(head, name))
        for name in ("block_type", "flags", "data_length")
    }
    numbers["number"] = _number("number", head.number, least=1)
    numbers["check"] = _number("check", head.check, most=2)
    if (head.block_type == 1) != (head.number == 1):
        raise ValueError("a block has type 1 or number 1, and not both")
    return _written("write_block_head", byref(_Block(kind=2, **numbers)))


class Check(_State):
    """The check value of bytes that come in pieces (RFC 9171 section 4.2.1).

    `kind` is a type of check values, as in a Block. With 0 there is no value. A copy was fed the
    same bytes.
    """

    def __init__(self, kind=0):
        super().__init__(_Crc())
        self._call("start_check", _number("check", kind, most=2))

    def feed(self, piece):
        """Feeds a piece. Of a block, the head is the first piece, and then comes the data."""
        self._call("feed_check", *_Lent(piece).slice)

    def value(self):
        """Returns the check value of the bytes that were fed, or None.

        A block has another, over zeros in place of the field too: that of `field`.
        """
        value = c_uint64()
        return value.value if self._call("end_check", byref(value)) == OK else None

    def field(self):
        """Returns the check field of a block whose head and data were fed (section 4.2.2)."""
        return b"" if self.value() is None else _written("write_check", call=self._call)


def write_age(age):
    """Returns the data of a bundle age block, in milliseconds (RFC 9171 section 4.4.2)."""
    return _written("write_age", _number("age", age))


def write_hop_count(limit, count):
    """Returns the data of a hop count block (RFC 9171 section 4.4.3).

    The RFC asks for a limit from 1 to 255, and this call for none.
    """
    return _written("write_hop_count", _number("limit", limit), _number("count", count))


def block_type_name(block_type):
    """Returns the name of a block type, as the lines of `tcpclkit blocks` have it, or `?`."""
    return _text(NAME_ROOM, "write_block_type_text", _number("block_type", block_type))


def report_reason_name(reason):
    """Returns the name of the reason of a status report, as `tcpclkit blocks` has it, or `?`."""
    return _text(NAME_ROOM, "write_report_reason_text", _number("reason", reason))


# ---- recordings


class Item(NamedTuple):
    """An extension item. `total` is the length that an item of a segment announces, or None."""
    flags: int
    item_type: int
    value: bytes
    total: Optional[int] = None


class Announced(NamedTuple):
    """What the items of a transfer's first segment announce.

    `total` is the length of the whole transfer, or None. `is_bad` is whether there is more than one
    length, or an item of type 1 whose value has not 8 bytes; then `total` is None.
    """
    total: Optional[int]
    is_bad: bool = False


class Message(NamedTuple):
    """A message. A field that its kind has not is None.

    `length` is the length of a segment's data by its head, or the number of bytes that an XFER_ACK
    acknowledges. `data` is shorter if the recording ends inside it. `items` and `announced` are
    None of a segment without START. `header` is the type byte of a rejected message. `head_end` is
    the offset where the head ends, and the data of a segment begins.
    """
    offset: int
    kind: Kind
    flags: Optional[int] = None
    reason: Optional[int] = None
    header: Optional[int] = None
    id: Optional[int] = None
    length: Optional[int] = None
    keepalive: Optional[int] = None
    segment_mru: Optional[int] = None
    transfer_mru: Optional[int] = None
    node: Optional[bytes] = None
    items: Optional[Tuple[Item, ...]] = None
    data: Optional[bytes] = None
    announced: Optional[Announced] = None
    head_end: Optional[int] = None

    @property
    def is_cut(self):
        """Whether the recording ends inside the data of this segment."""
        return self.data is not None and len(self.data) < self.length

    @property
    def reason_name(self):
        """The name of the reason, as the lines of `tcpclkit list` have it, or `?`.

        It is None if the message has no reason.
        """
        if self.reason is None:
            return None
        reason = _number("reason", self.reason, most=255)
        return _text(NAME_ROOM, "write_reason_text", Kind(self.kind), reason)


# The fields of each kind that have the name of the library for them
_FIELDS = {
    Kind.XFER_SEGMENT: ["flags", "id"],
    Kind.XFER_ACK: ["flags", "id"],
    Kind.XFER_REFUSE: ["reason", "id"],
    Kind.KEEPALIVE: [],
    Kind.SESS_TERM: ["flags", "reason"],
    Kind.MSG_REJECT: ["reason", "header"],
    Kind.SESS_INIT: ["keepalive", "segment_mru", "transfer_mru"],
}

# Further fields of each kind
_MORE_FIELDS = {
    Kind.XFER_SEGMENT: ["length", "items", "data", "announced"],
    Kind.XFER_ACK: ["length"],
    Kind.SESS_INIT: ["node", "items"],
}

# The greatest numbers of fields that have less than 8 bytes
_MOST = {"flags": 255, "reason": 255, "header": 255, "keepalive": 65535}


def contact(content):
    """Returns the flags of the contact header that a recording begins with, or raises a Fault."""
    lent, it = _Lent(content), _Contact()
    if _call("read_contact", *lent.slice, byref(it)) != OK:
        raise _fault(it.fault)
    return it.flags


def messages(content, offset=CONTACT_LENGTH):
    """Yields the messages of a recording, from the one that begins at an offset.

    A fault is raised after the messages before it. If the recording ends inside the data of a
    segment, the segment comes with the data that is there, and then the fault is raised. No message
    is at an offset past the end.
    """
    lent, it = _Lent(content), _Message()
    while True:
        status = _call("read_message", *lent.slice, _number("offset", offset), byref(it))
        if status in (END, RANGE):
            return
        if status in (OK, DATA_TRUNCATED):
            yield _message(lent, offset, it)
        if status != OK:
            raise _fault(it.fault)
        offset = it.next


def _message(lent, offset, it):
    """Returns the message that the library wrote."""
    kind = Kind(it.kind)
    fields = {name: getattr(it, name) for name in _FIELDS[kind]}
    fields["head_end"] = it.data_offset
    if kind == Kind.XFER_ACK:
        fields["length"] = it.acknowledged
    if kind == Kind.XFER_SEGMENT:
        fields["length"] = it.data_length
        fields["data"] = lent[it.data_offset:it.data_offset + it.data_seen]
    if kind == Kind.SESS_INIT:
        fields["node"] = lent[it.node_offset:it.node_offset + it.node_length]
    if kind == Kind.SESS_INIT or kind == Kind.XFER_SEGMENT and it.flags & SEGMENT_START:
        fields["items"] = tuple(_items(lent, it))
    if kind == Kind.XFER_SEGMENT and it.flags & SEGMENT_START:
        fields["announced"] = _announced(lent, it)
    return Message(offset, kind, **fields)


def _announced(lent, message):
    """Returns what a segment announces. Its list was judged with it, so the status is OK."""
    it = _Announced()
    _call("read_announced", *lent.slice, byref(message), byref(it))
    return Announced(it.total if it.kind == 1 else None, it.kind == 2)


def _items(lent, message):
    """Yields the items of a list that was judged with its message."""
    offset, it = message.items_offset, _Item()
    while _call("read_item", *lent.slice, byref(message), offset, byref(it)) == OK:
        value = lent[it.value_offset:it.value_offset + it.value_length]
        yield Item(it.flags, it.item_type, value, it.total if it.has_total else None)
        offset = it.next


# ---- messages that are written


def write_contact(flags=0):
    """Returns a contact header of version 4 (RFC 9174 section 4.2)."""
    return _written("write_contact", _number("flags", flags, most=255))


def write_item(item):
    """Returns an extension item (RFC 9174 sections 4.8 and 5.2.5). Its `total` is not read.

        item = tcpclkit.Item(tcpclkit.ITEM_CRITICAL, item_type=0x8000, value=b"hello")
        content = tcpclkit.write_item(item)

    ITEM_CRITICAL says that the receiver has to know the type.
    """
    lent = _Lent(item.value)
    flags = _number("flags", item.flags, most=255)
    item_type = _number("item_type", item.item_type, most=65535)
    _number("the length of value", len(lent.kept), most=LIST_LIMIT - 5)
    return _written("write_item", flags, item_type, *lent.slice)


def total_item(total, flags=0):
    """Returns the Transfer Length item that announces a length (RFC 9174 section 5.2.5.1).

        items = [tcpclkit.total_item(length)]

    It belongs to the first segment of a transfer of several segments.
    """
    value = _number("total", total).to_bytes(8, "big")
    return Item(flags, ITEM_TYPE_TRANSFER_LENGTH, value, total)


def write_message(message):
    """Returns the bytes of a message, and of a segment those with its `data`.

    RFC 9174 sections 4.6, 5.1, 5.2 and 6.1 define them.

        ack = tcpclkit.Message(0, tcpclkit.Kind.XFER_ACK, flags=3, id=7, length=5)
        content = tcpclkit.write_message(ack)

    A segment may have less data than its `length` says, or none. Then the other bytes follow as the
    caller sends them. Where `length` is None, it is that of `data`. The other numbers of the kind
    are set. `offset`, `head_end` and `announced` are not read.
    """
    node, data = _Lent(message.node or b""), _Lent(message.data or b"")
    if message.kind == Kind.XFER_SEGMENT and message.length is None:
        message = message._replace(length=len(data.kept))
    it = _message_numbers(message)
    listed = message.items or ()
    if listed and it.kind == Kind.XFER_SEGMENT and not it.flags & SEGMENT_START:
        raise ValueError("a segment without SEGMENT_START has no items")
    items = _Lent(b"".join(map(write_item, listed)))
    for name, value, most in [
        ("the length of node", len(node.kept), NODE_ID_LIMIT),
        ("the number of items", len(listed), ITEM_LIMIT),
        ("the length of items", len(items.kept), LIST_LIMIT),
        ("the length of data", len(data.kept), it.data_length),
    ]:
        _number(name, value, most=most)
    return _written("write_message", byref(it), *node.slice, *items.slice) + data.kept


def _message_numbers(message):
    """Returns a message as the library takes it."""
    kind = Kind(message.kind)
    known = {"offset", "kind", "head_end", *_FIELDS[kind], *_MORE_FIELDS.get(kind, ())}
    values = {name: it for name, it in message._asdict().items() if it is not None}
    for name in values:
        if name not in known:
            raise ValueError(f"a message of the kind {kind.name} has no {name}")
    it, names = _Message(kind=kind), {name: name for name in _FIELDS[kind]}
    if "length" in known:
        names["length"] = "acknowledged" if kind == Kind.XFER_ACK else "data_length"
    for name, own in names.items():
        if name not in values:
            raise ValueError(f"a message of the kind {kind.name} has the field {name}")
        setattr(it, own, _number(name, values[name], most=_MOST.get(name, 2**64 - 1)))
    return it


# ---- the order of messages


class Turn(NamedTuple):
    """What an accepted message does to the transfers of its session.

    `begins` is True for the first segment of a transfer, False for a further one, and None for any
    other message. `is_last` says whether it is the last segment of its transfer. `abandoned` is the
    transfer that was open until then and stays without an end, or None.
    """
    begins: Optional[bool]
    is_last: bool
    abandoned: Optional[int]


class Order(_State):
    """Which messages of one side of a session have come so far. It judges the next one of it."""

    def __init__(self):
        super().__init__(_Order())
        self._call("start_order")

    def judge(self, message):
        """Counts a message among those that came, and returns its Turn.

        Raises a Fault if the message may not come now. The order is then as it was.
        """
        turn, fault = self._answer("judge_message", message)
        if fault is not None:
            raise fault
        return turn

    def take(self, message):
        """Takes a message whether or not it may come now, as `unpack --keep-going` does.

        Returns its Turn, and the Fault or None. The Turn is None for a stray segment, whose data
        belongs nowhere.
        """
        return self._answer("take_message", message)

    def _answer(self, name, message):
        it, flags = _Turn(), _number("flags", message.flags or 0, most=255)
        read = _Message(kind=Kind(message.kind), flags=flags, id=_number("id", message.id or 0))
        status = self._call(name, byref(read), byref(it))
        fault = None if status == OK else Fault(it.fault, 0, message.offset)
        return None if it.turn == STRAY else _turn(it), fault


def _turn(it):
    """Returns the turn that the library wrote."""
    begins = {0: None, 1: True, 2: False}[it.turn]
    return Turn(begins, it.last == 1, it.abandoned if it.abandons else None)


@dataclass
class Sent:
    """What was sent of one transfer, and how much of it was acknowledged.

        sent = tcpclkit.Sent(id=7)
        sent.length += len(data)  # after each segment
        sent.whole = True         # after the last one, which has END
        sent.judge(answer)

    `acknowledged` is the length in the last XFER_ACK that was accepted, or 0.
    """
    id: int
    length: int = 0
    whole: bool = False
    acknowledged: int = 0

    def judge(self, message):
        """Judges an XFER_ACK or an XFER_REFUSE of the peer (RFC 9174 sections 5.2.3 and 5.2.4).

        It has the ID of the transfer. An XFER_ACK acknowledges no less than the one before it, and
        no more than was sent; with END it acknowledges the whole transfer. `acknowledged` is then
        its length. Raises a Fault if one of these does not hold, and ValueError for another kind.
        """
        it, acknowledged = _message_numbers(message), _number("acknowledged", self.acknowledged)
        numbers = _number("id", self.id), _number("length", self.length), bool(self.whole)
        sent = _Sent(*numbers, acknowledged, 0)
        status = _call("judge_answer", byref(sent), byref(it))
        if status == RANGE:
            raise ValueError("the message is neither an XFER_ACK nor an XFER_REFUSE")
        if status != OK:
            raise Fault(sent.fault, 0, message.offset)
        self.acknowledged = sent.acknowledged


# ---- whole tools


class Run(NamedTuple):
    """What a tool wrote on standard output and on standard error, and its exit status.

    If one of the texts has more than 4,096 bytes, the tool ran twice: once to learn how long both
    are, and once with room for exactly these bytes.
    """
    output: bytes
    report: bytes
    exit_status: int


# Returns bytes of a length that are yet to be written. CPython lets its caller write them, as long
# as nobody else has them. So a text of a second run takes no memory beside what is returned. In a
# first run, a text has FIRST_ROOM bytes, and what is returned is a copy if the text is shorter.
_NEW_BYTES = ctypes.PYFUNCTYPE(py_object, c_char_p, c_size_t)(
    ("PyBytes_FromStringAndSize", ctypes.pythonapi)
)


def _run(name, content, *arguments):
    """Calls a tool, and if a text does not fit once more with the room that it needs."""
    lent, it, rooms, status = _Lent(content), _Run(), [FIRST_ROOM] * 2, TOO_SMALL
    while status == TOO_SMALL:
        texts = [_NEW_BYTES(None, room) for room in rooms]
        slices = [value for text, room in zip(texts, rooms) for value in (1, text, room)]
        status = _call(name, *lent.slice, *arguments, *slices, byref(it))
        rooms = [it.output_length, it.report_length]
    if status == RANGE:
        raise ValueError("libtcpclkit does not know an option, so it is older than this module")
    if status == MEMORY:
        raise MemoryError
    output, report = (text[:room] for text, room in zip(texts, rooms))
    return Run(output, report, it.exit_status)


def _options(*numbers):
    """Returns the options of a tool as the library takes them: numbers, and how many they are."""
    return (c_uint64 * len(numbers))(*numbers), len(numbers)


def _optional(name, value):
    """Returns whether an option has a number, and the number or 0."""
    return value is not None, _number(name, value or 0)


def _only(bundles, **others):
    """Raises a ValueError with the name of an option for recordings that is set beside bundles."""
    wrong = [name for name, is_set in others.items() if is_set]
    if bundles and wrong:
        raise ValueError(f"{wrong[0]} is an option for recordings, and bundles is set")


def list_messages(content):
    """`tcpclkit list`: a line for the contact header and for each message of a recording."""
    return _run("list", content)


def blocks(content, transfer=None, keep_going=False, bundles=False):
    """`tcpclkit blocks`: a line for each block of the bundles of a recording.

    With `transfer`, only the transfers with this ID are shown. With `keep_going`, a fault of the
    order does not end the run. With `bundles`, the bytes are bundles, one after another, and no
    recording; the other options are then a ValueError.
    """
    _only(bundles, transfer=transfer is not None, keep_going=keep_going)
    options = _options(*_optional("transfer", transfer), bool(keep_going), bool(bundles))
    return _run("blocks", content, *options)


def check(content, must=False, peer_segment=None, peer_transfer=None, bundles=False):
    """`tcpclkit check`: a line for each judged rule of the RFCs that the sender of a recording breaks.

    With `must`, only the rules of level `must` have a line, and count. `peer_segment` and
    `peer_transfer` are the longest data of a segment and the longest transfer that the peer
    receives. A limit that is None is not judged. With `bundles`, the bytes are bundles, one after
    another, and no recording; a limit of the peer is then a ValueError.
    """
    segment = _optional("peer_segment", peer_segment)
    transfer = _optional("peer_transfer", peer_transfer)
    _only(bundles, peer_segment=segment[0], peer_transfer=transfer[0])
    return _run("check", content, *_options(bool(must), *segment, *transfer, bool(bundles)))


def unpack(content, transfer=None, payload=False, keep_going=False):
    """`tcpclkit unpack`: the data of a recording's transfers, and a line for each as the report.

    With `transfer`, only the transfers with this ID are written. With `payload`, only the payloads
    of their bundles are. With `keep_going`, a fault of the order does not end the run.
    """
    options = _options(*_optional("transfer", transfer), bool(payload), bool(keep_going))
    return _run("unpack", content, *options)


def pack(content, node, keepalive=60, segment_mru=65536, transfer_mru=1048576, peer_segment=65536,
         peer_transfer=2**64 - 1, announce=0, end=False):
    """`tcpclkit pack`: bundles, one after another, as the stream of a sender with this node ID.

    A line for each bundle is the report. Raises ValueError if an option or the length of the node
    ID is out of its range.
    """
    lent = _Lent(node)
    _number("the length of node", len(lent.kept), most=NODE_ID_LIMIT)
    options = _options(
        _number("keepalive", keepalive, most=65535), _number("segment_mru", segment_mru),
        _number("transfer_mru", transfer_mru), _number("peer_segment", peer_segment, least=1),
        _number("peer_transfer", peer_transfer), _number("announce", announce, most=2**20),
        bool(end),
    )
    return _run("pack", content, *options, *lent.slice)


def pack_more(content, first=0, peer_segment=65536, peer_transfer=2**64 - 1, announce=0):
    """What `pack` writes, without the contact header, SESS_INIT and SESS_TERM.

    So the bundles are segments for a session that is open. Their transfers are `first`, `first + 1`
    and so on. The next call begins with the sum of `first` and the number of lines in the report.
    After a fault of the bytes, the output may end with segments of a transfer that gets no END,
    which the line of the fault counts. Raises ValueError if an option is out of its range; `first`
    and the length of the bytes are together at most 2^64 - 1.
    """
    lent = _Lent(content)
    options = _options(
        _number("first", first, most=2**64 - 1 - len(lent.kept)),
        _number("peer_segment", peer_segment, least=1), _number("peer_transfer", peer_transfer),
        _number("announce", announce, most=2**20),
    )
    return _run("pack_more", lent.kept, *options)
