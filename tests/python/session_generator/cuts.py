"""Recordings of which a part is missing."""

from model import wire

from .messages import Contact, spelled

# The rules of `check` that need no other side (docs/FORMATS.md, "Broken rules")
OF_ONE_SIDE = {
    "contact-flags", "node-id", "item-flags", "order", "before-session", "segment-flags", "transfer-id", "ack-length",
    "keepalive", "term-flags", "length-item", "length-differs", "length-of-one-segment", "bundle", "not-read",
}


def spelling(messages):
    """The bytes of messages."""
    return b"".join(spelled(it.it) for it in messages)


def at_boundary(rng, side):
    """A recording that ends after some message."""
    return spelling(side.sent[:rng.randint(0, len(side.sent))])


def inside(rng, side):
    """A recording that ends inside a message."""
    content = side.content()
    ends = {0, *side.ends()}
    inner = [n for n in range(len(content)) if n not in ends]
    return content[:rng.choice(inner)] if inner else content


def late(rng, side):
    """A recording that begins late, at any byte of its first messages, or of all."""
    beginning = len(spelling(side.sent[:rng.choice([1, 2, 5, len(side.sent)])]))
    return side.content()[rng.randint(1, max(1, beginning)):]


def late_and_cut(rng, side):
    """A recording that begins late, and ends before the connection does."""
    content = late(rng, side)
    return content[:rng.randint(0, len(content))]


def headless(rng, side):
    """A recording without its beginning, as it was captured."""
    return spelling(side.sent[rng.randint(1, len(side.sent)):])


def resumed(rng, side):
    """The same as tcpclkit-resync writes it: after a contact header and a SESS_INIT with zeros."""
    made = spelled(Contact()) + spelled(wire.SessInit(0, 0, 0, b"", []))
    first = 2 if len(side.sent) > 2 else len(side.sent)
    return made + spelling(side.sent[rng.randint(first, len(side.sent)):])


CUTS = {"cut at a message": at_boundary, "cut inside a message": inside, "begun late and cut": late_and_cut}
BEGINNINGS = {"without its beginning": headless, "begun late": late, "resumed by resync": resumed}


def cut(rng, talk, how):
    """The recordings of a session of which one or both are cut, and the names of the sides that closed."""
    cut_sides = rng.choice(["a", "b", "ab"])
    found = []
    for name, side in zip("ab", talk[:2]):
        found.append(how(rng, side) if name in cut_sides and side.sent else side.content())
    return found, cut_sides
