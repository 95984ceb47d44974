"""Every prefix of each recording and bundle under examples/, through the tools."""

import ast
import os

from .spelling import carried

EXAMPLES = f"{os.path.dirname(os.path.realpath(__file__))}/../../../examples"

RECORDING = ".tcpcl"

# The bytes of an example whose prefixes go through all tools, at most.
LONG = 1000

LISTS = [("list", {})]
UNPACKS = [("unpack", it) for it in [{}, {"transfer": 0}, {"payload": True}, {"transfer": 0, "payload": True}]]
# `unpack` that goes on after a fault of the order.
GOES_ON = [("unpack", {"keep_going": True, **it}) for it in [{}, {"transfer": 0}, {"payload": True}]]
BLOCKS = [("blocks", it) for it in [{}, {"transfer": 0}, {"keep_going": True}]]
BUNDLE_BLOCKS = [("blocks", {"bundles": True})]
CHECKS = [("check", it) for it in [{}, {"must": True}, {"own": "ipn:2.0", "peer_segment": 20, "peer_transfer": 36}]]
BUNDLE_CHECKS = [("check", {"bundles": True, **it}) for it in [{}, {"own": "ipn:1.0", "must": True}]]
PACKS = [("pack", it) for it in [
    {"node": "ipn:1.0"},
    {"node": "", "peer_segment": 1, "peer_transfer": 36, "end": True},
    {"node": "ipn:1.0", "peer_segment": 20, "announce": 34, "end": True, "keepalive": 0, "transfer_mru": 0},
    {"node": "dtn://a b\\é/", "peer_segment": 17, "announce": 40, "peer_transfer": 37, "segment_mru": 2**64 - 1},
]]


def prefixes(content):
    """Every prefix of some bytes, also all of them."""
    return [content[:length] for length in range(len(content) + 1)]


def of_file(name):
    """The prefixes of an example, through all tools, with all options of those that are for it.

    Those of a long recording go through `unpack` and `blocks`, with and without going on, and
    through `check`.
    """
    of_recording = LISTS + UNPACKS + GOES_ON + BLOCKS + CHECKS + PACKS[:1] + BUNDLE_BLOCKS + BUNDLE_CHECKS[:1]
    of_bundles = LISTS + UNPACKS[:1] + BLOCKS[:1] + CHECKS[:1] + PACKS + BUNDLE_BLOCKS + BUNDLE_CHECKS
    runs = of_recording if name.endswith(RECORDING) else of_bundles
    with open(f"{EXAMPLES}/{name}", "rb") as it:
        content = it.read()
    for prefix in prefixes(content):
        yield prefix, runs if len(content) <= LONG else UNPACKS[:1] + GOES_ON[:1] + BLOCKS[::2] + CHECKS[:1]


def bundles():
    """The bundles of another encoder, with their names.

    The long bundle is left out, because its spelling has a repetition.
    """
    with open(f"{EXAMPLES}/bundles/bundles.txt", encoding="utf-8") as it:
        lines = it.read().splitlines()
    for said, spelling in zip(lines[0::3], lines[1::3]):
        if "times" not in spelling:
            yield ast.literal_eval(said)["name"], bytes.fromhex(spelling)


def of_bundle(bundle):
    """The prefixes of a bundle, alone and as the data of a transfer."""
    for prefix in prefixes(bundle):
        yield prefix, PACKS + BUNDLE_BLOCKS
        yield carried(prefix), UNPACKS[::2] + BLOCKS[:1] + CHECKS[:1]


def groups():
    """The groups of this file."""
    files = sorted(it for it in os.listdir(EXAMPLES) if it.endswith((RECORDING, ".bundles")))
    whole = [(f"prefixes: {name}", lambda name=name: of_file(name)) for name in files]
    return whole + [(f"prefixes: bundle, {name}", lambda it=it: of_bundle(it)) for name, it in bundles()]
