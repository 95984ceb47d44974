"""Random streams and bundles.

Some are well formed. Others have heads and fields changed, or bytes changed, dropped and repeated.
"""

import random
import struct

from .lengths import KINDS
from . import spelling
from .spelling import CONTACT, END, START, canonical, encoded, head, item, laid, primary, segment, sess_init, spelled, total

NUMBERS = [0, 1, 2, 3, 5, 23, 24, 255, 256, 1024, 65535, 65536, 2**32 - 1, 2**32, 2**63, 2**64 - 1]


def any_bytes(rng, length):
    """`length` random bytes."""
    return bytes(rng.choices(range(256), k=length))


def some_bytes(rng, most):
    """At most `most` random bytes."""
    return any_bytes(rng, rng.randint(0, most))


def endpoint(rng):
    """A random endpoint ID of any form."""
    numbers = [rng.choice(NUMBERS) for _ in range(rng.choice((2, 2, 3)))]
    return rng.choice([None, some_bytes(rng, 20), rng.choice((b"//n/", b"//N/a")), numbers, numbers, rng.choice(((1, 1), (2, 0, 1)))])


def width_of(rng):
    """A choice of widths of heads: always the shortest one, or any that holds the value."""
    if rng.random() < 0.5:
        return lambda value: None
    return lambda value: rng.choice([it for it in (0, 1, 2, 4, 8) if value < (1 << 8 * it if it else 24)])


def status_report(rng):
    """The heads of a random status report."""
    times = [rng.choice((False, True, rng.choice(NUMBERS))) for _ in range(rng.choice((4, 4, 4, 3, 5, 9)))]
    fragment = [rng.choice(NUMBERS), rng.choice(NUMBERS)] if rng.random() < 0.3 else []
    return spelling.status_report(times, rng.choice((*range(18), *NUMBERS)), endpoint(rng), (rng.choice(NUMBERS), 0), fragment)


def data_of(rng, kind):
    """The heads of the data of a block of a type whose data is read."""
    if kind in (11, 12):
        targets = [rng.choice((0, 1, 2, 3)) for _ in range(rng.choice((0, 1, 1, 2, 5, 64, 65)))]
        return spelling.security(targets, rng.choice((1, 2, -1, -2**64)), endpoint(rng), rng.choice((0, 1)))
    one, two = rng.choice(NUMBERS), rng.choice(NUMBERS)
    return {1: status_report(rng), 6: spelling.endpoint(endpoint(rng)), 7: [spelling.unsigned(one)],
            10: spelling.hop_count(one, two)}[kind]


def read_data(rng, kind):
    """The data of such a block, in some cases with another head, more bytes, or damage."""
    heads = data_of(rng, kind)
    changed = rng.randrange(len(heads)) if rng.random() < 0.3 else None
    content = encoded(heads, changed, rng.choice(KINDS))
    after = some_bytes(rng, 9) if rng.random() < 0.2 else b""
    return damage(rng, content) if rng.random() < 0.1 else content + after


def extension(rng, number):
    """A random extension block, whose data is read in most cases."""
    number = rng.randint(0, 4) if rng.random() < 0.1 else number
    flags = rng.choice((0, 0, 1, 2, 4, 0x10, 0x17, rng.choice(NUMBERS)))
    kind = rng.choice((0, 2, 192, 2**64 - 1, *[6, 7, 10, 11, 12] * 3))
    content = read_data(rng, kind) if kind in (6, 7, 10, 11, 12) else some_bytes(rng, 30)
    return canonical(kind, number, content, rng.randint(0, 2), flags)


def blocks_of(rng):
    """The blocks of a bundle, with numbers that are mostly distinct."""
    flags = rng.choice((0, 0, 2, 2, 4, 1, 1, 0x4000, rng.choice(NUMBERS)))
    fragment = [rng.choice(NUMBERS), rng.choice(NUMBERS)] if flags & 1 else []
    stamp = rng.choice(NUMBERS), rng.choice(NUMBERS)
    names = [endpoint(rng) for _ in range(3)]
    blocks = [primary(*names, rng.randint(0, 2), flags, stamp, rng.choice(NUMBERS), fragment)]
    for number in range(2, 2 + rng.choice((0, 0, 1, 2, 5))):
        blocks.append(extension(rng, number))
    longest = rng.choice((0, 10, 100, 100, 1000, 9000))
    payload = read_data(rng, 1) if flags & 2 and rng.random() < 0.9 else some_bytes(rng, longest)
    return blocks + [canonical(1, 1, payload, rng.randint(0, 2))]


def changed(rng, blocks, widths):
    """The bundle of these blocks with another head in place of one."""
    number = rng.randrange(sum(map(len, blocks)))
    it = [each for block in blocks for each in block][number]
    other = rng.choice(KINDS + 3 * [head(it.major, rng.choice(NUMBERS + 5 * [it.value]))])
    return spelled(blocks, number, other, widths=widths)[0]


def bundle(rng):
    """A bundle, in some cases with another head in place of one."""
    blocks, widths = blocks_of(rng), width_of(rng)
    return spelled(blocks, widths=widths)[0] if rng.random() < 0.7 else changed(rng, blocks, widths)


def damage(rng, content):
    """The bytes with a few of them changed, dropped, repeated or added, or with the end cut off."""
    for _ in range(rng.choice((1, 1, 2, 4))):
        at, end = sorted((rng.randint(0, len(content)), rng.randint(0, len(content))))
        end = min(end, at + rng.choice((1, 2, 9, 400)))
        content = rng.choice((
            lambda: content[:at] + any_bytes(rng, end - at) + content[end:],
            lambda: content[:at] + bytes([rng.choice((0, 1, 7, 0xFF))]) + content[at + 1:],
            lambda: content[:at] + content[end:],
            lambda: content[:end] + content[at:],
            lambda: content[:at] + some_bytes(rng, 9) + content[at:],
            lambda: content[:at],
        ))()
    return content


def bundles(rng):
    """Bundles, one after another, and damaged in some cases."""
    content = b"".join(bundle(rng) for _ in range(rng.choice((1, 1, 2, 3))))
    return damage(rng, content) if rng.random() < 0.4 else content


def items(rng, length):
    """Extension items, in some cases with one or more Transfer Length items."""
    listed = [total(it) for it in rng.choice(5 * [[], [length]] + [[length + 1], [length, length], [2**64 - 1]])]
    for _ in range(rng.choice((0, 0, 0, 1, 3))):
        listed.append(item("any", rng.choice((0, 1, 255)), rng.choice((0, 2, 3, 4, 5, 0xFFFF, 1)), some_bytes(rng, 12)))
    rng.shuffle(listed)
    return listed


def other_message(rng):
    """A message that is no segment."""
    any_byte, number = any_bytes(rng, 1), struct.pack(">Q", rng.choice(NUMBERS))
    few = bytes([rng.randint(0, 8)])
    return rng.choice([
        [b"\x02" + any_byte + number + number], [b"\x03" + few + number], [b"\x04"], [b"\x04"], [b"\x06" + few + any_byte],
    ])


def transfer(rng, number):
    """The messages of a transfer, in segments of random lengths with other messages between."""
    data = bundle(rng) if rng.random() < 0.8 else damage(rng, rng.choice((b"", b"\xd9\xd9\xf7")) + bundle(rng))
    cuts = sorted(rng.randint(0, len(data)) for _ in range(rng.choice((0, 0, 1, 2, 5))))
    chunks = [data[begin:end] for begin, end in zip([0] + cuts, cuts + [len(data)])]
    for index, chunk in enumerate(chunks):
        flags = (START if index == 0 else 0) | (END if index + 1 == len(chunks) else 0) | (rng.choice((0, 0, 0x80, 0x7C)))
        yield segment(flags, number, chunk, items(rng, len(data)) if index == 0 else ())
        if rng.random() < 0.2:
            yield other_message(rng)


def later_sess_init(rng):
    """A SESS_INIT with the parameters of the first one in most cases, or with another."""
    return sess_init(**rng.choice(({}, {}, {}, {"keepalive": 0}, {"segment_mru": 5}, {"transfer_mru": 2**64 - 1})))


def stream(rng):
    """A stream of a few transfers.

    In some cases a transfer lacks its end, messages are out of order, or bytes are damaged.
    """
    node = rng.choice([b"ipn:1.0", some_bytes(rng, 40)])
    messages = [sess_init(node, items(rng, 9))] if rng.random() < 0.95 else []
    for number in range(rng.choice((0, 1, 2, 3, 6))):
        sent = list(transfer(rng, number if rng.random() < 0.9 else rng.randint(0, 3)))
        messages += sent[:-1] if rng.random() < 0.1 else sent
    for late in ([b"\x05\x01\x03"], later_sess_init(rng), segment(0, 0, b"x"), segment(START, 1, b"")):
        if rng.random() < 0.08:
            messages.insert(rng.randint(0, len(messages)), late)
    content = laid([CONTACT, *[piece for message in messages for piece in message]])[0]
    return damage(rng, content) if rng.random() < 0.3 else content


def disordered(rng):
    """A stream of a few transfers with messages that are moved, repeated and left out."""
    messages = [sess_init()]
    for _ in range(rng.randint(1, 4)):
        messages += transfer(rng, rng.randint(0, 2))
    messages.insert(rng.randint(0, len(messages)), [b"\x05\x00\x03"])
    messages.insert(rng.randint(1, len(messages)), later_sess_init(rng))
    for _ in range(rng.choice((1, 2, 3, 8))):
        it = messages[rng.randrange(len(messages))]
        if rng.random() < 0.6:
            messages.remove(it)
        if rng.random() < 0.8 or not messages:
            messages.insert(rng.randint(0, len(messages)), it)
    content = laid([CONTACT, *[piece for message in messages for piece in message]])[0]
    return content[:rng.randint(0, len(content))] if rng.random() < 0.3 else content


def pack_options(rng, length):
    """Options of `pack` around the length of an input."""
    options = {"node": rng.choice(("", "ipn:1.0", "dtn://größe/\\"))}
    sizes = (1, 7, 64, max(1, length // 2), max(1, length), length + 1, 65536, 2**64 - 1)
    for name, values in [
        ("keepalive", (0, 65535)), ("segment_mru", NUMBERS), ("transfer_mru", NUMBERS), ("peer_segment", sizes),
        ("peer_segment", sizes), ("peer_transfer", (0, *sizes)), ("announce", (0, *[it for it in sizes if it <= 1048576])),
        ("announce", (length,)), ("end", (True,)),
    ]:
        if rng.random() < 0.4:
            options[name] = rng.choice(values)
    return options


def own(rng):
    """The node ID of a node that is the source of some random bundles."""
    return rng.choice(("ipn:1.0", "ipn:0.1.7", "ipn:2.0.0", "dtn://n/", f"ipn:{rng.choice(NUMBERS)}.0"))


def check_options(rng):
    """Options of `check` around the lengths of small segments and transfers."""
    sizes = (1, 30, 70, 200, 1000, 2**64 - 1)
    values = {"must": True, "own": own(rng), "peer_segment": rng.choice(sizes), "peer_transfer": rng.choice((0, *sizes))}
    return {name: value for name, value in values.items() if rng.random() < 0.3}


def run_of_stream(rng):
    """A random stream, through a tool that reads streams."""
    options = rng.choice([{"payload": True}, {"transfer": rng.randint(0, 3)}, {"transfer": rng.randint(0, 3), "payload": True}])
    return stream(rng), [("list", {}), ("unpack", {}), ("unpack", options), ("blocks", {}), ("check", check_options(rng))]


def run_of_order(rng):
    """A random stream out of order, through `unpack` that stops and that goes on, and others."""
    options = rng.choice([{"payload": True}, {"transfer": rng.randint(0, 2)}, {"transfer": rng.randint(0, 2), "payload": True}])
    return disordered(rng), [("unpack", {}), ("unpack", {"keep_going": True}), ("unpack", {"keep_going": True, **options}),
                            ("blocks", {"keep_going": True, "transfer": rng.randint(0, 2)}), ("check", check_options(rng))]


def run_of_bundles(rng):
    """Random bundles, packed with random options, their blocks, and the rules that they break."""
    content = bundles(rng)
    packs = [("pack", pack_options(rng, len(content))) for _ in range(3)]
    checks = [("check", {"bundles": True}), ("check", {"bundles": True, "own": own(rng)})]
    return content, [*packs, ("blocks", {"bundles": True}), *checks]


def group(seed, runs, make):
    """Inputs of a seed. Each is made from random numbers of its own."""
    for number in range(runs // 4):
        yield make(random.Random(f"{seed} {number}"))


def groups(seed, runs):
    """The groups of this file, with about `runs` runs in all."""
    for name, make in [("streams", run_of_stream), ("order", run_of_order), ("bundles", run_of_bundles)]:
        yield f"random {seed}: {name}", lambda make=make: group(seed, runs // 3, make)
