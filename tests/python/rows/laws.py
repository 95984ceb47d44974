"""What holds of `blocks` and `check` for any input, beside `unpack` and `pack`.

A law takes an input, and returns whether it holds there, or None if it says nothing of this input.
Each is tried on the inputs of tests/python/inputs and on random ones.
"""

import itertools
import random

import make
from inputs import block_data, limits, randoms
from model import blocks, bundle, checking, tools, transfer_rules
from model.block_data import Malformed, content_of

from .broken import CLEAN, CONTACT, INIT, KEEPALIVE, sent
from .lines import END, START

SEEDS = range(60)
# The most bytes of a bundle that is packed in small segments
MOST = 300

NAMES = {rule.name for rule in checking.BUNDLES}
EXCUSED = {"B9", "B11", "B16", "B5", "B10", "B3"}


def lines_of(content):
    """The lines of an output or of a report."""
    return content.decode().splitlines()


def rest_of(lines, words):
    """Lines without their first words."""
    return [line.split(" ", words)[words] for line in lines]


def ends_are_judgements(stream):
    """The end lines, the fault lines and the status of `blocks` are those of `unpack`."""
    for keep_going in (False, True):
        shown, report, status = blocks.block_listing(stream, keep_going=keep_going)
        ends = [line.split(" ") for line in lines_of(shown) if line.split(" ")[1] == "end"]
        _, unpacked, wanted = tools.unpacking(stream, keep_going=keep_going)
        faults = [line for line in lines_of(unpacked) if line.startswith("tcpclkit")]
        said = [line.split(" ") for line in lines_of(unpacked) if line.startswith("transfer")]
        judgements = [[words[1], "end", words[4], *words[5:6 if words[5] == "good" else 9]] for words in said]
        if (judgements, faults, wanted) != (ends, lines_of(report), status):
            return False
    return True


def selection_is_part(stream):
    """`--transfer` selects lines of `blocks` by their ID. The report and the status stay."""
    shown, *others = blocks.block_listing(stream, keep_going=True)
    for ident in range(3):
        selected, *same = blocks.block_listing(stream, transfer=ident, keep_going=True)
        wanted = [line for line in lines_of(shown) if line.startswith(f"{ident} ")]
        if lines_of(selected) != wanted or same != others:
            return False
    return True


def fields_of(line):
    """The words of a line that have a value, by their names."""
    return dict(word.split("=", 1) for word in line.split(" ") if "=" in word)


def blocks_tile(content):
    """The blocks of a good bundle tile it up to its break, and have its identity."""
    shown, _, status = blocks.block_listing(content, bundles=True)
    judged, found = bundle.whole(content), [fields_of(line) for line in lines_of(shown)]
    if judged.fault:
        return None if status == 3 or judged.fault[0] == "B2" else False
    *begins, (end, length) = [[int(it.get("at", len(content) - 1)), int(it["length"])] for it in found]
    follow = [at + length for at, length in begins]
    it, shown = judged.identity, (found[0]["time"], found[0]["sequence"], found[-2]["data-length"])
    is_same = tuple(map(int, shown)) == (it.time, it.sequence, it.payload)
    is_tiled = [1, *follow] == [*[at for at, _ in begins], end] and length == len(content)
    return is_same and is_tiled and len(begins) == 1 + len(judged.blocks)


def data_is_read_in_order(content):
    """Data that is cut fails at its end, and what it shows stays, whatever bytes follow."""
    judged = bundle.first(content)
    return all(is_read_in_order(block, judged.primary.flags) for block in judged.blocks)


def is_read_in_order(block, flags):
    """Whether this holds of the data of a block, for each of its beginnings."""
    shown = None
    for length in range(len(block.data) + 1):
        found, end = content_of(block._replace(data=block.data[:length]), flags), block.data_at + length
        is_item = shown is not None and not isinstance(shown, Malformed)
        if shown is not None and found != shown and not (is_item and found == Malformed(end - 1)):
            return False
        shown = None if found == Malformed(end) else found
    return True


def of_bundle_alone(line, is_plain=True):
    """The level, the rule and the words of a line, as the bundle alone decides them.

    The recording decides the level of `primary-check`, and each level if an item is of an unknown type.
    """
    _, level, rule, _, *words = line.split(" ")
    return level if is_plain and rule != "primary-check" else None, rule, words


def recording_is_bundles(stream):
    """What good transfers have is what their bundles have in the output of `unpack`, as far as these decide it."""
    output, report, status = tools.unpacking(stream)
    walked = tools.walk(*tools.heads_of(tools.wire.reading(stream), False))
    if status or len(lines_of(report)) != len(walked):
        return None
    shown, listed = blocks.block_listing(stream), blocks.block_listing(output, bundles=True)
    is_same = rest_of(lines_of(shown[0]), 1) == rest_of(lines_of(listed[0]), 1) and shown[1:] == listed[1:]
    found = [line for line in lines_of(checking.checking(stream)[0]) if line.split(" ")[2] in NAMES]
    alone = lines_of(checking.checking(output, bundles=True)[0])
    is_plain = all(transfer_rules.is_plain(it) for it in walked)
    one, two = [[of_bundle_alone(line, is_plain) for line in them] for them in (found, alone)]
    return is_same and one == two


def is_excused(line):
    """Whether a line of `unpack` is of a fault that has the level should, or of none."""
    words = line.split(" ")
    judgement = words[5] if words[0] == "transfer" else line.split(": ")[-1]
    return judgement in ("good", "abandoned", "second session initiation") or judgement[4:] in EXCUSED


def must_says_good(stream):
    """If `check --must` has no line and the status 0, `unpack` has only faults that are excused."""
    shown, _, status = checking.checking(stream, must=True)
    if shown or status:
        return None
    reports = [tools.unpacking(stream, keep_going=it)[1] for it in (False, True)]
    return all(is_excused(line) for report in reports for line in lines_of(report))


def must_is_part(stream):
    """The lines of `check --must` are those of level must, and decide the status beside a fault."""
    for options in ({}, {"bundles": True}, {"peer_segment": 5, "peer_transfer": 9}):
        if "bundles" in options and stream.startswith(b"dtn!"):
            continue
        shown, report, status = checking.checking(stream, **options)
        must = [line for line in lines_of(shown) if line.split(" ")[1] == "must"]
        wanted = [3, 3] if report else [int(bool(shown)), int(bool(must))]
        got = checking.checking(stream, must=True, **options)
        if (must, wanted, report) != (lines_of(got[0]), [status, got[2]], got[1]) or len(lines_of(report)) > 1:
            return False
    return True


def packed_is_clean(content):
    """`pack` breaks no rule of messages and transfers, and those of bundles that they break."""
    results = []
    for size, announce in [(7, 0), (50, 60), (65536, 1048576)]:
        sent_bytes = content if size > 7 else content[:MOST]
        options = {"node": "dtn://node/", "peer_segment": size, "announce": announce, "end": True}
        stream, _, status = tools.packing(sent_bytes, **options)
        shown = checking.checking(stream, peer_segment=size, peer_transfer=len(content))[0]
        alone = checking.checking(sent_bytes, bundles=True)[0]
        one, two = [[of_bundle_alone(line)[:2] for line in lines_of(it)] for it in (shown, alone)]
        results += [one == two] if status == 0 else []
    return all(results) if results else None


def streams():
    """Recordings: those in which the order is judged, and random ones."""
    for made in (limits.order, limits.length_items, limits.worked_rows):
        yield from (content for number, (content, _) in enumerate(made()) if number % 9 == 0)
    for made in (randoms.stream, randoms.disordered):
        yield from (made(random.Random(f"laws {seed}")) for seed in SEEDS)


def mostly_good():
    """Recordings of good bundles in any order, which break few rules or none."""
    messages = [
        INIT, make.sess_term(0, 0), KEEPALIVE, sent(CLEAN), sent(CLEAN, 1), sent(CLEAN, 2, make.length_item(33)),
        make.xfer_segment(START, 3, CLEAN[:9], make.length_item(33)), make.xfer_segment(END, 3, CLEAN[9:]),
        sent(b"\x9f\x9f", 4), sent(b"\xd9\xd9\xf7" + CLEAN, 5), make.sess_init(keepalive=0), make.xfer_ack(START, 0, 9),
    ]
    for them in itertools.product(messages, repeat=3):
        yield CONTACT + INIT + b"".join(them)


def bundles():
    """Bundles: those whose data is changed, and random ones, alone and one after another."""
    for _, made in block_data.groups():
        yield from (content for number, (content, _) in enumerate(made()) if number % 9 == 0)
    yield from (randoms.bundle(random.Random(f"laws {seed}")) for seed in SEEDS)
    yield from (randoms.bundles(random.Random(f"laws {seed}")) for seed in SEEDS)


def single_bundles():
    """Those that are one bundle or none."""
    return (content for content in bundles() if bundle.first(content).length in (0, len(content)))


# Each law with inputs, and with the least number of them of which it has to say something
LAWS = [
    (ends_are_judgements, streams, 215), (selection_is_part, streams, 215), (recording_is_bundles, streams, 18),
    (recording_is_bundles, mostly_good, 178), (must_says_good, mostly_good, 820), (must_is_part, streams, 215),
    (must_is_part, bundles, 1900), (packed_is_clean, bundles, 945), (blocks_tile, single_bundles, 945),
    (data_is_read_in_order, bundles, 1900),
]


def checks():
    """Tries each law. Yields what it says, of how many inputs, and what is wrong."""
    for law, inputs, least in LAWS:
        results = [(content, law(content)) for content in inputs()]
        said = [(content, holds) for content, holds in results if holds is not None]
        wrong = [f"  not for {content.hex()}" for content, holds in said if not holds][:1]
        wrong += [] if len(said) >= least else [f"  of {len(said)} inputs, and it has to be {least}"]
        yield law.__doc__, len(said), wrong
