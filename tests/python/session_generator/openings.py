"""Sessions that keep all rules and end before they are established, or by a message of an unknown type."""

from model import wire

from .messages import CAN_TLS, REPLY, Contact, Raw, Sent
from .talks import Side, Talk, init, Line

# The beginning of a ClientHello (RFC 8446), and the first type byte for private use (RFC 9174 section 8.5)
HELLO, PRIVATE = b"\x16\x03\x01\x00\x05\x01\x00\x00\x01\x03", 0xF0


def side(is_closed, *messages):
    """A side that sends a message each second."""
    return Side([Sent(it, float(n), 0.1, n) for n, it in enumerate(messages)], is_closed)


def an_init(rng):
    """SESS_INIT."""
    return init(rng, Line(0.1, [], 30))


def nothing(rng):
    """The other side sends nothing, or no contact header, and the connection is closed (section 4.1)."""
    answer = rng.choice([[], [Raw(rng.choice([b"HTTP/1.1 400 Bad Request\r\n", b"dtn", b"\x00", b"220 mail\r\n"]))]])
    return side(True, Contact(rng.randint(0, 1))), side(True, *answer)


def another_version(rng):
    """The active entity has another version, and gets "Version mismatch" (section 4.3)."""
    return side(True, Contact(0, rng.choice([3, 5, 200]))), side(True, Contact(), wire.SessTerm(0, 2))


def another_answer(rng):
    """The passive entity has another version. The active one closes at once, or refuses a higher one (section 4.2)."""
    version = rng.choice([3, 5, 200])
    term = [wire.SessTerm(0, rng.choice([2, 4]))] if version > 4 and rng.random() < 0.8 else []
    return side(True, Contact(), *term), side(True, Contact(0, version))


def handshake(rng):
    """Both enable TLS, and its handshake begins (section 4.4.3)."""
    messages = Contact(CAN_TLS), Raw(HELLO)
    return side(rng.random() < 0.5, *messages), side(rng.random() < 0.5, *messages)


def no_tls(rng):
    """The state of TLS is not acceptable (section 4.3)."""
    term, flags = wire.SessTerm(0, 4), rng.choice([(1, 1), (0, 1), (1, 0), (0, 0)])
    reply = [term._replace(flags=REPLY)] if rng.random() < 0.7 else [term]
    return side(True, Contact(flags[0]), term), side(True, Contact(flags[1]), *reply)


def refused(rng):
    """A side ends right after the contact header, or once it has the SESS_INIT (section 6.1)."""
    term = wire.SessTerm(0, rng.choice([0, 3, 4, 5]))
    began = rng.choice([[], [an_init(rng)]])
    return side(True, Contact(), *began, term._replace(flags=REPLY)), side(True, Contact(), term)


def unknown_type(rng):
    """A message has a type that the other side does not know, and is rejected (section 5.1.2)."""
    kind = rng.choice([PRIVATE, 0xFF, 0x08, 0x20])
    unknown = Raw(bytes([kind]) + rng.randbytes(rng.randint(0, 9)))
    one = side(rng.random() < 0.5, Contact(), an_init(rng), unknown)
    return one, side(True, Contact(), an_init(rng), wire.Reject(1, kind))


KINDS = [nothing, another_version, another_answer, handshake, no_tls, refused, unknown_type]


def opening(rng):
    """Such a session, with its sides in any order."""
    sides = list(rng.choice(KINDS)(rng))
    rng.shuffle(sides)
    return Talk(*sides, 0.5)
