"""docs/PROBE.md: the table of the cases, and the sentences without a case."""

import textwrap

from probing import sentences, table

from . import TOP

PATH = f"{TOP}/docs/PROBE.md"

HEAD = """# Cases of the probe

This page lists the cases of [`tcpclkit-probe`](TESTING.md#a-node-to-a-verdict).
`tests/gate/probe --write` writes it from `scripts/probing`. *Line* is the line of `rfc9174.txt`, as
the RFC editor publishes it, at which the sentence of a case begins. A case is for nodes that accept
the probe's connection (`accepts`), for nodes that connect to it (`connects`), or for `any`.

Each of the *answers* keeps the sentence. If none of them came, the line of the case is at most of
this *level*. A case of level `lives` only looks whether the node serves afterwards.

"""

NEEDS = {
    table.TAKES: "it takes bundles", table.SENDS: "it sends bundles", table.NO_TLS: "it does not set CAN_TLS",
    table.SEGMENT_MRU: "2 MiB exceed its segment MRU", table.TRANSFER_MRU: "2 MiB exceed its transfer MRU",
}


def answers():
    """Yields the lines about the words of answers, from the text of the table."""
    text = table.__doc__.partition("between them:\n\n")[2].strip("\n")
    yield "An answer is a word, or several with `+` between them:\n"
    for line in text.splitlines():
        word, _, meaning = line.strip().partition(" ")
        yield f"- `{word}`: {meaning.strip()}"
    yield ""


def group(name, cases):
    """Yields the lines of a group."""
    yield f"## {name}\n"
    if name in table.APART:
        yield "These cases run only if `--only` names them.\n"
    yield "| Case | Line | For | The probe | Answers | Level | Skipped unless |"
    yield "|---|---|---|---|---|---|---|"
    for case in cases:
        passes = " ".join(f"`{it}`" for it in case.passes.split())
        needs = ", ".join(NEEDS[it] for it in case.needs)
        yield f"| `{case.name}` | {case.line} | {case.role} | {case.does} | {passes} | {case.level} | {needs} |"
    yield ""


def quoted(line, it, words):
    """Yields a sentence, after its line, its section and some words."""
    yield textwrap.fill(f"Line {line}, section {it.section}: {words}", 98, break_on_hyphens=False) + "\n"
    yield from (f"    {part}" for part in textwrap.wrap(it.text, 92, break_on_hyphens=False))
    yield ""


def proofs():
    """Yields the lines about what makes a line a must."""
    yield "## When a line is a must\n"
    yield "A line of a case of level `must` is a `must` in two cases. Otherwise it is a `should`.\n"
    yield "- The node closed the connection by a FIN, without any of the answers, and without a SESS_TERM of"
    yield "  its own before. A refusal or rejection for another reason does not count as none."
    yield "- It gave an answer that proves the breach. `late` and `open` mean that the time of the sentence"
    yield "  is over, and `goes-on` that a segment came after the node had read the refusal.\n"
    for word in dict.fromkeys(table.PROOFS.values()):
        names = ", ".join(f"`{name}`" for name, it in table.PROOFS.items() if it == word)
        words = ", ".join(f"`{it}`" for it in word.split())
        yield textwrap.fill(f"- {words}: {names}", 98, subsequent_indent="  ", break_on_hyphens=False)
    yield ""


def cited():
    """Yields the sentences of the cases, with their names."""
    yield "## Sentences\n"
    for line, it in sentences.SENTENCES.items():
        names = [f"`{case.name}`" for case in table.CASES if case.line == line]
        if names:
            yield from quoted(line, it, ", ".join(names))


def left():
    """Yields the sentences without a case."""
    yield "## Sentences without a case\n"
    for line, it in sentences.SENTENCES.items():
        if it.why:
            yield from quoted(line, it, f"{it.why}.")


def page():
    """Returns the page."""
    groups = dict.fromkeys(case.group for case in table.CASES)
    lines = list(answers())
    for name in groups:
        lines += group(name, [case for case in table.CASES if case.group == name])
    lines += [*proofs(), *cited(), *left()]
    return HEAD + "\n".join(lines).rstrip("\n") + "\n"


def write():
    """Writes the page."""
    with open(PATH, "w", encoding="utf-8") as file:
        file.write(page())
