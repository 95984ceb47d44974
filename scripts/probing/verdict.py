"""Judges a session: by the case's own answers, and by the rules of both sides."""

import subprocess
from typing import NamedTuple

from both_sides import judging
from both_sides.captured import Captured
from both_sides.facts import Times
from tcpclkit_scripts.shown import Arrived

from .connection import FIN, RST
from .sentences import SENTENCES
from .table import ACCEPTS, LIVES, MUST, PROOFS, RULES, SHOULD

# The rule of a node whose bytes are no message, and the faults that the RFC permits: the end of a
# connection inside a message, and what tcpclkit does not read (docs/FORMATS.md, "Limits")
WIRE, PERMITTED = "wire", ("truncated", "too long", "too many")


# Rules that a case does not judge, since the RFC permits here what breaks them:
# - a node may answer in another version
# - answers to two transfers with one ID cannot be told apart
# - how long a node waits before it ends an idle session, it chooses itself
# - a SESS_TERM with REPLY may be answered too
# - a SESS_INIT after the end need not be answered
# - reserved flags of a SESS_TERM are to be repeated, and to be 0
# - a node that connects may have sent its SESS_INIT before it read the contact header of the probe
LEFT_OUT = {
    **{f"version-{it}": (WIRE, "version") for it in (0, 3)}, "version-5": (WIRE,), "version-255": (WIRE,),
    **{f"reply-version-{it}": (WIRE, "version") for it in (0, 3, 5)},
    "id-again": ("ack-missing", "ack-beyond", "ack-sum", "ack-flags", "answer-order", "refused-acknowledged"),
    "silence-session": ("idle",), "term-reply": ("reply-alone", "reply-differs"), "init-after-term": ("not-rejected",),
    "term-flags": ("reply-differs", "term-flags"),
}


class Broken(NamedTuple):
    """What a node breaks: the level, the rule, what was expected, and what came."""

    level: str
    rule: str
    expected: str
    got: str


class Shown:
    """What is known of a side beside its bytes, as `shown` of Captured: how many bytes of the other
    side it can have read at each of its own."""

    had = None

    def __init__(self, arrived):
        self.arrived = arrived

    @staticmethod
    def idle(_):
        """Returns nothing: it is not known when a side had nothing to send."""
        return None


def own(case, talk):
    """Returns what the node breaks by the answers of a case, as a list."""
    if case.level == LIVES or talk.holds(*case.passes.split()):
        return []
    found, base = talk.facts(), talk.probe.base
    if found["term"] and base.ends or found["refuse"] and base.answer == "refuse":
        return []
    is_proved = is_left(case, talk, found) or any(found[word] for word in PROOFS.get(case.name, "").split())
    expected = "|".join(case.passes.split())
    return [Broken(case.level if is_proved else SHOULD, RULES[case.line], expected, talk.got())]


def is_left(case, talk, found):
    """Returns whether the node closed the connection without any of the answers.

    After a SESS_TERM of its own it may do so. A refusal for another reason, or a message that it rejects
    for another reason, may be one that has nothing to do with the case.
    """
    others = ["refuse"] if "refuse-" in case.passes else ["reject"] if "reject-03" in case.passes else []
    is_closed = talk.connection.end == FIN and talk.connection.is_first
    return is_closed and not any(found[word] for word in ["term", *others])


def of_rules(tcpclkit, folder, case, talk):
    """Returns what the node breaks by the rules of both sides, as a list."""
    paths = [f"{folder}/{name}.tcpcl" for name in "ab"]
    times = [f"{folder}/{name}.times" for name in "ab"]
    found = judging.judged(tcpclkit, paths, times, closed(talk), captured(talk), own=True)
    broken = []
    for line in dict(found.lines)["b"]:
        if is_judged(line.rule, case, talk):
            got = ",".join([f"{line.offset}", *line.words.split()])
            broken.append(Broken(line.level, line.rule, "kept", got))
    for note in found.notes:
        path, _, text = note.partition(": ")
        is_fault = path == paths[1] and text.startswith("byte ")
        if is_fault and is_judged(WIRE, case, talk) and not any(it in text for it in PERMITTED):
            broken.append(Broken(MUST, WIRE, "message", text.replace(" ", ",")))
    return broken


def is_judged(rule, case, talk):
    """Returns whether a rule is judged in a case. What the probe left unread may reset the connection,
    and a node cannot finish a transfer in a connection that the probe has closed."""
    if rule == "reset":
        return talk.is_fair
    if rule == "unfinished":
        return talk.connection.is_first
    return rule not in LEFT_OUT.get(case.name, ())


def closed(talk):
    """Returns which sides closed the connection after the last byte that they sent."""
    connection = talk.connection
    is_first = connection.end == FIN and connection.is_first
    return ("" if is_first else "a") + ("b" if connection.end == FIN else "")


def captured(talk):
    """Returns what is known of the connection, as that of a capture."""
    connection = talk.connection
    seen = connection.arrived.at(0) if talk.role == ACCEPTS else None
    is_reset = connection.end == RST and connection.is_first and connection.got.size > 0
    return Captured(Shown(Arrived())), Captured(Shown(connection.arrived), seen, None, is_reset)


def gravest(broken):
    """Returns what is written of all that a node breaks: the gravest, and the names of the others."""
    ordered = sorted(broken, key=lambda it: it.level != MUST)
    others = dict.fromkeys(it.rule for it in ordered if it.rule != ordered[0].rule)
    return ordered[0], list(others)


def section_of(case):
    """Returns the section of the sentence of a case."""
    return SENTENCES[case.line].section


# ---- the messages of both sides


def lines(tcpclkit, folder):
    """Returns the messages of both sides in the order of their times, a line each."""
    found = [it for name in "ab" for it in timed(tcpclkit, folder, name)]
    first = min((time for time, _, _ in found), default=0)
    ordered = sorted(found, key=lambda it: it[0])
    return [f"+{(time - first) / 10**9:.6f} {name} {line}\n" for time, name, line in ordered]


def timed(tcpclkit, folder, name):
    """Yields the lines of a side, with the time when each message had passed."""
    run = subprocess.run(
        [tcpclkit, "list", "--", f"{folder}/{name}.tcpcl"], capture_output=True, encoding="utf-8", errors="replace"
    )
    listed, times = run.stdout.splitlines(), Times(f"{folder}/{name}.times")
    begins = [int(line.split()[0]) for line in listed]
    last = 0
    for line, end in zip(listed, begins[1:] + begins[-1:]):
        last = times.at(max(end, 1)) or last
        yield last, name, line
    if run.stderr:
        yield last, name, run.stderr.strip().replace("tcpclkit: ", "", 1)
    times.close()
