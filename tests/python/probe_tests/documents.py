"""The table and its page: each sentence has a case or a reason, and each case an act and a rule."""

import re

from probing import run, sentences, table

from . import page

# The folder with rfc9174.txt, if it was given
TEXTS = None

KEY_WORDS = re.compile(r"\b(?:SHALL|MUST|SHOULD|REQUIRED|RECOMMENDED)\b")
# The lines of sections 4 to 6, and what a sentence of a table is about that has a key word and no verb
SECTIONS, TABLE_ROW = range(1045, 2503), 1642
END = re.compile(r'\.["”)]?\s\s?(?=[A-Z"])')


def same_page():
    """docs/PROBE.md is what `tests/gate/probe --write` writes."""
    with open(page.PATH, encoding="utf-8") as file:
        yield "docs/PROBE.md", page.page(), file.read()


def whole_table():
    """The table has all that a case needs."""
    names = [case.name for case in table.CASES]
    yield "names", [], [name for name in names if names.count(name) > 1]
    yield "acts", set(names), set(run.ACTS)
    yield "sentences of cases", [], [case.name for case in table.CASES if case.line not in sentences.SENTENCES]
    judged = {case.line for case in table.CASES if case.level != table.LIVES}
    yield "rules", judged, set(table.RULES)
    yield "proofs", [], [name for name in table.PROOFS if name not in names]
    cited = {case.line for case in table.CASES}
    without = {line for line, it in sentences.SENTENCES.items() if it.why}
    yield "each sentence has cases or a reason", set(sentences.SENTENCES), cited ^ without
    yield "first case", "good", names[0]


def text_of_sections(lines):
    """Yields the section, the line and the words of each sentence of sections 4 to 6."""
    section, part = "", []
    for number, line in enumerate(lines, 1):
        if number not in SECTIONS:
            continue
        heading = re.match(r"(\d[\d.]*)\.\s+\S", line)
        text = line.strip()
        if heading or not text or text.startswith("+"):
            yield from of_paragraph(section, part)
            part, section = [], heading[1] if heading else section
        else:
            part.append((number, cell_of(text)))


def cell_of(text):
    """Returns a line, or the last cell of a row of a table."""
    return text.strip("|").split("|")[-1].strip() if text.startswith("|") else text


def of_paragraph(section, part):
    """Yields the sentences of a paragraph, whose lines have their numbers."""
    text, begins = "", []
    for number, line in part:
        begins.append((len(text), number))
        text += line + " "
    starts = [0, *(it.end() for it in END.finditer(text)), len(text)]
    for begin, end in zip(starts, starts[1:]):
        number = [number for at, number in begins if at <= begin][-1:]
        if number:
            yield section, number[0], " ".join(text[begin:end].split()).lstrip("* ").replace("IANA- ", "IANA-")


def same_sentences():
    """The sentences are those of RFC 9174, and none with a key word is missing."""
    if TEXTS is None:
        return
    with open(f"{TEXTS}/rfc9174.txt", encoding="utf-8") as file:
        lines = file.read().split("\n")
    found = [it for it in text_of_sections(lines) if not it[0].startswith("4.4")]
    needed = {number for _, number, text in found if KEY_WORDS.search(text)} - {TABLE_ROW}
    yield "sentences with a key word", set(), needed - set(sentences.SENTENCES)
    whole = {number: (section, text) for section, number, text in found}
    for number, it in sentences.SENTENCES.items():
        rows = (cell_of(line.strip()) for line in lines[number - 1 : number + 9])
        after = " ".join(" ".join(rows).split()).replace("- ", "-")
        wanted = it.text.replace("- ", "-")
        yield f"{number}: text", True, wanted in after
        if number in whole:
            yield f"{number}: section", it.section, whole[number][0]


PARTS = [same_page, whole_table, same_sentences]
