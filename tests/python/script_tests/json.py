"""Tests of scripts/json.

json.lines has a line of each form, and the JSON that was worked out for it from docs/FORMATS.md.
The lines of the examples are compared with the messages that the model of tests/python/model reads.
"""

import glob
import json
import random
import re
import select
import subprocess
import sys

from model import checking, texts, wire

from .common import EXAMPLES, PROGRAM, SECONDS, SEED, TOP, empty_room, example, read, run, write
from .split import PEAK

SCRIPT = f"{TOP}/scripts/json"

# Lines, and the JSON of each
PAIRS = [
    tuple(pair.splitlines())
    for pair in read(f"{TOP}/tests/python/script_tests/json.lines").decode().split("\n\n")
]

# The beginning of a line of `unpack`, and a line of `list` before the escaped text of its node ID
OVER = "transfer 7 start=1 written=2 length=3"
INIT = "6 sess-init keepalive=0 segment-mru=0 transfer-mru=0 node="

# Escaped text, and what it becomes. The last ones are not UTF-8, and stay as they are.
ESCAPES = [
    (r"dtn://a/b", "dtn://a/b"),
    (r'"quoted"', '"quoted"'),
    (r"a\x20b", "a b"),
    (r"a\x5cb", "a\\b"),
    (r"a\x5cx20b", "a\\x20b"),
    (r"\x00\x0a\x7f", "\0\n\x7f"),
    (r"\xc3\xa4\xe2\x82\xac", "ä€"),
    (r"\xf0\x9f\x9b\xb0", "\U0001f6f0"),
    (r"\xff", None),
    (r"a\x20\xc3", None),
    (r"\xed\xa0\x80", None),
    (r"\xc0\x80", None),
]

# Rules of which a type or a reason is decimal in the line
DECIMAL = ("block-type", "record-type", "report-reason")

# Lines that are of no form
BAD = [
    *["", " ", "x", "38", "38 ", "38 keepalive ", " 38 keepalive", "38  keepalive"],
    *["038 keepalive", "-1 keepalive", "38 keep-alive", "38 keepalive x"],
    "38 xfer-ack flags=01 id=0",
    "38 xfer-ack flags=01 id=0 length=",
    "38 xfer-ack flags=01 id=0 length=34 more=1",
    "38 xfer-ack id=0 flags=01 length=34",
    "38 xfer-ack flags=1 id=0 length=34",
    "38 xfer-ack flags=0A id=0 length=34",
    "38 xfer-ack flags=01 id=00 length=34",
    "38 xfer-ack flags=01 id=0x1 length=34",
    "38 xfer-ack flags=01 id=٣ length=34",
    "8 xfer-refuse reason=02 id=5",
    rf"{INIT}\x2 items=0",
    rf"{INIT}a\b items=0",
    f"{INIT}ä items=0",
    f"{OVER} fine",
    f"{OVER} bad=C1 byte=3",
    *["tcpclkit: byte x: truncated", "tcpclkit:", "tcpclkit-pair: x"],
]


def converted(content, *words):
    """Hands bytes to the script. Returns its status, its output and its errors."""
    ended = subprocess.run([SCRIPT, *words], input=content, capture_output=True, timeout=SECONDS)
    return ended.returncode, ended.stdout.decode("ascii"), ended.stderr.decode()


def objects(content):
    """Hands bytes to the script. Returns its status, its objects and its errors."""
    status, shown, errors = converted(content)
    return status, [json.loads(line) for line in shown.splitlines()], errors


def joined(lines):
    """Returns lines as bytes, each ended by a newline."""
    return "".join(f"{line}\n" for line in lines).encode()


def each_line():
    """Each line of json.lines has its JSON."""
    for line, wanted in PAIRS:
        yield f"json: {line}", (0, f"{wanted}\n", ""), converted(joined([line]))
        fields = json.loads(wanted, object_pairs_hook=list)
        yield "json: no field twice", len(fields), len(dict(fields))
    lines, wanted = zip(*PAIRS)
    yield "json: all lines at once", (0, joined(wanted).decode(), ""), converted(joined(lines))


# ---- the forms of docs/FORMATS.md

# What is in the place of these words of a form
PLACES = {
    **dict.fromkeys(["OFF", "ID", "N", "NUMBER"], r"\d+"),
    "SIDE": "[ab]",
    "H": "(?:[0-9a-f]{2})+",
    "LEVEL": "(?:must|should)",
    "K": "(?:none|crc16|crc32c)",
    "EID": r"\S+",
    "WORDS": ".*",
    "HH": "[0-9a-f]{2}",
    **dict.fromkeys(["NAME", "RULE"], "[a-z?-]+"),
    "CODE": r"B\d+",
    "ESCAPED": r"\S*",
    "ITEMS": r"items=\d+(?: item=\S+)*",
    "IDENTITY": "source=.+",
    **dict.fromkeys(["JUDGEMENT", "TEXT"], ".+"),
}


def rows_of(document, head):
    """Returns the cells of each row of the tables with this head in a document."""
    text = read(f"{TOP}/docs/{document}").decode()
    tables = re.findall(rf"^{re.escape(head)}\n\|[-|]+\n((?:\|.*\n)+)", text, re.MULTILINE)
    rows = [row for table in tables for row in table.splitlines()]
    return [[cell.strip() for cell in row.strip("|").split(" | ")] for row in rows]


def each_form():
    """json.lines has a line of each form of docs/FORMATS.md, in its tables, lists and sentences."""
    text = read(f"{TOP}/docs/FORMATS.md").decode()
    judged = text.partition("JUDGEMENT is the first that holds:\n\n")[2].partition("\n\n")[0]
    forms = [cells[1] for cells in rows_of("FORMATS.md", "| For | Line |")]
    forms += [f"{OVER} {judgement}" for judgement in re.findall(r"^- `(.*?)`: ", judged, re.MULTILINE)]
    forms += re.findall(r"^- .*: (`(?:OFF|bundle|tcpclkit:) .*?`(?: and WORDS)?)$", text, re.MULTILINE)
    forms += re.findall(r"`transfer ID .*?`", text)
    forms += ["tcpclkit: byte OFF: TEXT"]
    yield "json: forms of docs/FORMATS.md", 24, len(forms)
    for form in forms:
        form = " ".join(form.replace("`", "").replace(" and ", " ").split())
        pattern = re.sub(r"\b[A-Z]+\b", lambda it: PLACES[it[0]], form)
        found = any(re.fullmatch(pattern, line) for line, _ in PAIRS)
        yield f"json: a line of the form {form}", True, found


def each_rule():
    """json.lines has a line of each rule of docs/FORMATS.md, with each of its words."""
    heads = ["RFC 9174", "RFC", "RFC 9171 | Binds", "RFC 9172 | Binds"]
    rules = [it for head in heads for it in rows_of("FORMATS.md", f"| Rule | Level | {head} | Broken if | WORDS |")]
    yield "json: rules of docs/FORMATS.md", {it.name for it in checking.RULES}, {name.strip("`") for name, *_ in rules}
    lines = [line.split(" ") for line, _ in PAIRS if re.match(r"\d+ (must|should) ", line)]
    for name, *_, words in rules:
        shown = {word.partition("=")[0] for it in lines if it[2] == name.strip("`") for word in it[3:]}
        wanted = set(re.findall(r"([a-z]+)=", words))
        found = any(it[2] == name.strip("`") for it in lines), shown - {"transfer", "bundle"}
        yield f"json: a line of the rule {name}", (True, wanted), found


def each_word_of_two_sides():
    """json.lines has each word of the rules of two sides of docs/SESSIONS.md."""
    rows = rows_of("SESSIONS.md", "| Rule | RFC 9174 | Level | S breaks it if | WORDS |")
    wanted = {word for *_, words in rows for word in re.findall(r"([a-z-]+)=", words)}
    lines = [line for line, _ in PAIRS if re.match(r"[ab] \d+ (must|should) ", line)]
    shown = {word.partition("=")[0] for line in lines for word in line.split(" ")[4:]}
    yield "json: words of two sides", (True, []), (len(wanted) > 20, sorted(wanted - shown))


def faults():
    """Each text of a fault is in the object of its line."""
    shown = [cells[1] for cells in rows_of("FORMATS.md", "| Fault of the wire | TEXT |")]
    shown += [cells[2] for cells in rows_of("FORMATS.md", "| | Refused | TEXT |")]
    found = [re.sub(r"\bHH\b", "1f", re.sub(r"\bN\b", "17", it.strip("`"))) for it in shown]
    yield "json: 13 faults of a recording", 13, len(found)
    wanted = [{"byte": 7, "fault": it} for it in found]
    got = objects(joined(f"tcpclkit: byte 7: {it}" for it in found))
    yield "json: faults of a recording", (0, wanted, ""), got
    pairs = texts.FAULTS.items()
    wanted = [{"bundle": 1, "byte": 7, "code": code, "fault": it} for code, it in pairs]
    got = objects(joined(f"tcpclkit: bundle 1 byte 7: {code} {it}" for code, it in pairs))
    yield "json: faults of a bundle", (0, wanted, ""), got


def messages_of_failures():
    """A message of the program about a device or a word has its text in the object."""
    shown = [cells[0].strip("`") for cells in rows_of("MANUAL.md", "| Message | When |")]
    yield "json: 10 messages", 10, len(shown)
    wanted = [{"error": it.partition(": ")[2]} for it in shown]
    yield "json: messages", (0, wanted, ""), objects(joined(shown))


# ---- escapes


def escapes():
    """Escapes are undone if the bytes are UTF-8. Otherwise they stay, and `escaped` says so."""
    for given, text in ESCAPES:
        is_kept = text is None
        wanted = given if is_kept else text
        status, [got], _ = objects(joined([f"{INIT}{given} items=0"]))
        found = status, got["node"], got.get("escaped")
        yield f"json: the node {given}", (0, wanted, ["node"] if is_kept else None), found
        bundle = rf"source=dtn:{given} time=1 sequence=2 destination=dtn:\xff payload=5"
        status, [got], _ = objects(joined([f"{OVER} good {bundle}"]))
        escaped = ["source"] * is_kept + ["destination"]
        found = status, got["source"], got["escaped"]
        yield f"json: the source dtn:{given}", (0, f"dtn:{wanted}", escaped), found


def any_texts():
    """The bytes of a node ID come back from the JSON, whatever they are."""
    draw = random.Random(SEED)
    nodes = [bytes(draw.randrange(256) for _ in range(draw.randrange(12))) for _ in range(2000)]
    nodes += ["".join(chr(draw.randrange(0xD800)) for _ in range(9)).encode() for _ in range(2000)]
    lines = [f"{INIT}{texts.escaped(it)} items=0" for it in nodes]
    status, got, errors = objects(joined(lines))
    back = [texts_bytes(it["node"], "escaped" in it) for it in got]
    yield "json: 4,000 node IDs", (0, True, ""), (status, back == nodes, errors)
    both = {"escaped" in it for it in got}
    yield "json: 4,000 node IDs: some are UTF-8, and some are not", {True, False}, both


def texts_bytes(text, is_escaped):
    """Returns the bytes of a text of the JSON."""
    if not is_escaped:
        return text.encode()
    return re.sub(r"\\x(..)", lambda it: chr(int(it[1], 16)), text).encode("latin-1")


# ---- the examples


def object_of(offset, it):
    """Returns the object of a message that the model has read."""
    name = texts.message(it).split()[0]
    reasons = {"xfer-refuse": texts.REFUSE, "sess-term": texts.TERM, "msg-reject": texts.REJECT}
    made = {"offset": offset, "message": name}
    for field, value in it._asdict().items():
        if field == "items" and value is not None:
            made["items"] = len(value)
            made["item"] = [
                {"flags": i.flags, "type": i.kind, "length": len(i.value)} for i in value
            ]
        elif field == "reason":
            names = reasons[name]
            made["reason"] = value
            made["reason-name"] = names[value] if value < len(names) else "?"
        elif field == "node":
            made["node"] = value.decode()
        elif isinstance(value, int):
            made[field.replace("_", "-")] = value
    return made


def examples_listed():
    """The lines of `list` of each example become the messages that the model reads in it."""
    for name in EXAMPLES:
        reading = wire.reading(example(name))
        wanted = [{"offset": 0, "message": "contact", "version": 4, "flags": reading.contact}]
        wanted += [object_of(offset, it) for offset, it in reading.messages]
        lines = run(TOP, PROGRAM, "list", f"examples/{name}.tcpcl")[1]
        yield f"json: list {name}", (0, wanted, ""), objects(lines.encode())


def line_of(it):
    """Returns the line of an object of `unpack`, `pack` or pair."""
    fields = dict(it)
    if "fault" in fields:
        return f"tcpclkit: byte {fields['byte']}: {fields['fault']}"
    first = next(iter(fields))
    words = [first, str(fields.pop(first))]
    for name, value in fields.items():
        if name in ("judgement", "answer"):
            words += [] if value == "bad" else [value]
        elif name == "reason":
            words.append(f"reason={value:02x}/{fields['reason-name']}")
        elif name == "fragment-offset":
            words.append(f"fragment={value}/{fields['fragment-total']}")
        elif name not in ("reason-name", "fragment-total"):
            words.append(f"{name}={value}")
    return " ".join(words)


def examples_reported():
    """The lines of `unpack`, `pack` and pair come back from their objects."""
    names = [f"examples/{name}.tcpcl" for name in EXAMPLES]
    runs = [[PROGRAM, "unpack", "--keep-going", name] for name in names]
    runs.append([PROGRAM, "pack", "--node", "", "examples/two.bundles"])
    sessions = ["examples/session-a.tcpcl", "examples/session-b.tcpcl"]
    runs.append(["scripts/pair", "--tcpclkit", PROGRAM, *sessions])
    for words in runs:
        ended = subprocess.run(words, cwd=TOP, capture_output=True, timeout=SECONDS)
        lines = ended.stdout if words[0] == "scripts/pair" else ended.stderr
        status, got, errors = objects(lines)
        back = joined(line_of(it) for it in got)
        name = f"json: {' '.join(words[1:])}"
        yield name, (0, lines, "", True), (status, back, errors, bool(got))


def rule_line_of(it):
    """Returns the line of an object of `check`."""
    fields = dict(it)
    words = [str(fields.pop(name)) for name in ("offset", "level", "rule")]
    for name, value in fields.items():
        if name in ("flags", "type", "reason", "header") and it["rule"] not in DECIMAL:
            value = f"{value:04x}" if it["rule"] == "item-type" and name == "type" else texts.hexadecimal(value)
        words.append(f"{name.replace('fragment-', '')}={value}")
    return " ".join(words)


def examples_checked():
    """The lines of `check` come back from their objects."""
    runs = [[path] for path in sorted(glob.glob(f"{TOP}/examples/**/*.tcpcl", recursive=True))]
    runs += [["--bundles", f"{TOP}/examples/two.bundles"]]
    runs += [["--peer-segment", "9", "--peer-transfer", "9", f"{TOP}/examples/transfers.tcpcl"]]
    lines = "".join(run(TOP, PROGRAM, "check", *words)[1] for words in runs)
    status, got, errors = objects(lines.encode())
    back = joined(rule_line_of(it) for it in got).decode()
    yield "json: the lines of check", (0, lines, ""), (status, back, errors)
    yield "json: the rules in them", {it.name for it in checking.RULES}, {it["rule"] for it in got}


# ---- what is wrong with a line


def bad_lines():
    """The first line that is of no form ends the run. The lines before it are written."""
    lines, wanted = zip(*PAIRS[:3])
    good, wanted = joined(lines), joined(wanted).decode()
    for line in BAD:
        status, got, errors = converted(good + joined([line]) + good)
        begin = "tcpclkit-json: line 4: of no known form: "
        found = status, got, errors[: len(begin)], errors.count("\n")
        yield f"json: the bad line {line!r}", (3, wanted, begin, 1), found
    for name, end, text in [
        ("cut", b"8 keepal", "no newline at its end: 8 keepal"),
        ("not ASCII", b"8 \xff\n", "of no known form: 8 \\xff"),
        ("long", b"x" * 70000, "more than 65536 bytes"),
        ("long to show", b"x" * 101 + b"\n", f"of no known form: {'x' * 100} .."),
    ]:
        text = f"tcpclkit-json: line 4: {text}\n"
        yield f"json: a line that is {name}", (3, wanted, text), converted(good + end)


def long_numbers():
    """A number of any length stays as it is."""
    for digits in [20, 5000, 60000]:
        number = "9" * digits
        status, shown, errors = converted(joined([f"8 xfer-ack flags=01 id={number} length=1"]))
        found = status, f'"id": {number},' in shown, errors
        yield f"json: a number of {digits} digits", (0, True, ""), found


# ---- runs


def line_by_line():
    """The JSON of a line is written before the next line comes."""
    with subprocess.Popen([SCRIPT], stdin=subprocess.PIPE, stdout=subprocess.PIPE) as process:
        for line, wanted in PAIRS[:3]:
            for part in (line[:9], f"{line[9:]}\n"):
                process.stdin.write(part.encode())
                process.stdin.flush()
            came = bool(select.select([process.stdout], [], [], SECONDS)[0])
            got = process.stdout.readline().decode() if came else None
            yield f"json: {line} as it comes", f"{wanted}\n", got
        process.stdin.close()
        yield "json: the end of what came", (b"", 0), (process.stdout.read(), process.wait())


def many_lines():
    """300,000 lines, with less than 32 MiB of memory."""
    lines = (f"{it} xfer-ack flags=01 id={it} length={it}" for it in range(300000))
    with empty_room() as at:
        write(f"{at}/lines", joined(lines))
        status, shown, peak = run(at, sys.executable, "-c", PEAK, SCRIPT, "lines")
    numbers = [it["id"] for it in map(json.loads, shown.splitlines())]
    yield "json: 300,000 lines", (0, True), (status, numbers == list(range(300000)))
    yield "json: 300,000 lines: less than 32 MiB of memory", True, int(peak) < 32 * 1024


def files():
    """The input is a file or standard input. What cannot be read or written is reported."""
    line, wanted = PAIRS[0]
    with empty_room() as at:
        write(f"{at}/lines", joined([line]))
        write(f"{at}/empty", b"")
        yield "json: a file", (0, f"{wanted}\n", ""), run(at, "json", "lines")
        with open(f"{at}/lines", "rb") as stdin:
            yield "json: -", (0, f"{wanted}\n", ""), run(at, "json", "-", stdin=stdin)
        yield "json: an empty file", (0, "", ""), run(at, "json", "empty")
        text = "tcpclkit-json: nothing: No such file or directory\n"
        yield "json: the file is not there", (4, "", text), run(at, "json", "nothing")
        text = "tcpclkit-json: Is a directory\n"
        yield "json: the file is a folder", (4, "", text), run(at, "json", at)
        with open("/dev/full", "wb") as full:
            got = run(at, "json", "lines", stdout=full)
        text = "tcpclkit-json: No space left on device\n"
        yield "json: a full device", (4, None, text), got


PARTS = [
    each_line,
    each_form,
    each_rule,
    each_word_of_two_sides,
    faults,
    messages_of_failures,
    escapes,
    any_texts,
    examples_listed,
    examples_reported,
    examples_checked,
    bad_lines,
    long_numbers,
    line_by_line,
    many_lines,
    files,
]
