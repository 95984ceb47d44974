"""What a reader of a page learns: who broke which rule, about which transfer, and in which order."""

import csv
import re
import struct
from concurrent.futures import ThreadPoolExecutor

import make

from .pages import BROKEN, EXAMPLES, OTHERWISE, PAIRS, WORKERS, drop, judged, page_of, show, write

TITLE = 'document.getElementById("verdict").textContent'
SIDES = 'document.getElementById("sides").innerText'
TIMELINE = 'document.getElementById("timeline").textContent'
# Why the title of dropped recordings leaves out some rules, and what is said of them below
NOTES = '[...document.querySelectorAll("#sides > .note")].map((it) => it.textContent)'
UNDECIDED = '[...document.querySelectorAll("#broken > .undecided ~ .rule h3")].map((it) => it.textContent)'
# How many rules of a side the title names if it breaks more, and how many of its bundles
NAMED = 3

# The messages that lie before the message that they answer: their sides and offsets
EARLY = """(() => {
  const { sides } = tcpclkit.session(), order = tcpclkit.order(), early = [];
  for (const side of order ? sides : []) {
    const other = sides.find((it) => it !== side);
    for (const it of side.messages.filter((it) => it.cause !== null)) {
      if (order.at(side, it.offset + 1) <= order.at(other, other.messages[it.cause].end)) {
        early.push([side.name, it.offset]);
      }
    }
  }
  return early;
})()"""
# Where the bars end, and where the marks of acknowledgements are
BARS = '[...document.querySelectorAll("#timeline .choice .bar")].map((it) => Number(it.getAttribute("x")) + Number(it.getAttribute("width")))'
ACKS = '[...document.querySelectorAll("#timeline .mark.ack path")].flatMap((it) => it.getAttribute("d").match(/M[0-9.]+/g) ?? []).map((it) => Number(it.slice(1)))'
# The cells of the broken rules in the table of transfers
CELLS = """(() => {
  const heads = [...document.querySelectorAll("#transfers thead th")];
  const index = heads.findIndex((it) => it.textContent === "Broken rules");
  return [...document.querySelectorAll("#transfers tbody > tr:not(.inside)")].map((it) => it.children[index].innerText);
})()"""


def rows():
    """Returns the pairs that break a rule of two sides: their names, their options, and their lines."""
    with open(f"{PAIRS}/expected", encoding="ascii", newline="") as it:
        found = list(csv.DictReader(it, delimiter="\t", quoting=csv.QUOTE_NONE))
    return [row for row in found if row["pair"].startswith("rule-")]


def words_of(row):
    """Returns the words of the command line that makes the page of a pair."""
    options = row["options"].split() if row["options"] != "-" else []
    names = [f"{PAIRS}/{it}" if it.endswith(".times") else it for it in options]
    return [*names, *(f"{PAIRS}/{row['pair']}-{side}.tcpcl" for side in "ab")]


def rules_of(row):
    """Returns the rules that each side breaks."""
    broken = [line.split(" ") for line in row["lines"].split(" | ")]
    return {side: {rule for name, _, _, rule, *_ in broken if name == side} for side in "ab"}


def named(title, side):
    """Returns the rules that a title names for a side and its bundles, and how many others it counts."""
    names, more = set(), 0
    for found in re.finditer(rf"side {side} breaks? ([^;]*)", title, re.IGNORECASE):
        for it in found[1].replace(" and ", ", ").split(", "):
            if " more rule" in it:
                more += int(it.split(" ")[0])
            else:
                names.add(it)
    return names, more


def is_named(title, rules):
    """Whether a title names all rules of each side, or the first ones and how many more."""
    for side, wanted in rules.items():
        names, more = named(title, side)
        if not names <= wanted or len(names) + more != len(wanted) or more and len(names) < NAMED:
            return False
    return True


def titles(browser, folder):
    """The title of each pair that breaks a rule names the side and the rule. No message comes too early."""
    found = rows()
    with ThreadPoolExecutor(WORKERS) as workers:
        list(workers.map(lambda row: page_of(f"{folder}/{row['pair']}.html", *words_of(row)), found))
    wrong, early, cells = [], [], {}
    for row in found:
        show(browser, f"{folder}/{row['pair']}.html")
        title = browser.value(TITLE)
        if not is_named(title, rules_of(row)):
            wrong.append((row["pair"], title, row["lines"]))
        early += [(row["pair"], it) for it in browser.value(EARLY)]
        cells[row["shows"]] = browser.value(CELLS)
    yield f"the titles of {len(found)} pairs name sides and rules", [], wrong[:1]
    yield "without times, no answer lies before what it answers", [], early[:1]
    about = ["ack-sum", "ack-flags", "ack-missing", "length-not-refused", "refuse-order", "refused-acknowledged"]
    yield "a transfer shows the rules that its receiver broke", [], [
        (name, cells.get(name)) for name in about if not any(f"b: {name}" in it.replace(",", "\nb:") for it in cells.get(name, []))]
    yield "no error on the console", [], browser.errors


def pages_by_name(browser, folder):
    """Single words of pages: parameters, reasons, a version, explanations, and the order."""
    def see(pair, *options):
        page_of(f"{folder}/{pair}.html", *options, *(f"{PAIRS}/{pair}-{it}.tcpcl" for it in "ab"))
        show(browser, f"{folder}/{pair}.html")
    see("rule-ack-sum")
    sides = browser.value(SIDES)
    wanted = ["ipn:1.0", "keepalive 60 s", "segment MRU 65,536 bytes", "transfer MRU 1,048,576 bytes", "A KEEPALIVE is due after 60 s."]
    yield "the parameters of SESS_INIT are at the top", [], [it for it in wanted if it not in sides]
    yield "they are on the first screen", True, browser.value('document.getElementById("sides").getBoundingClientRect().bottom < innerHeight')
    yield "a reason without a meaning is one", True, "reason unknown (0x00)" in browser.value(TIMELINE)
    bars, acks = browser.value(BARS), browser.value(ACKS)
    yield "the last acknowledgement is drawn after its bar", True, bool(bars) and max(acks) >= max(bars)
    yield "the axis is explained", True, "an answer follows what it answers" in browser.value(TIMELINE)
    see("rule-peer-segment")
    rule = 'document.querySelector("#broken .rule")'
    title = f'[...{rule}.querySelectorAll("[title]")].find((it) => it.textContent.startsWith("limit="))?.title'
    yield "a word has what it means", (True, True), ("the other side accepts" in browser.value(title), "limit is the most" in browser.value(f"{rule}.textContent"))
    see("rule-not-rejected", "--closed", "b")
    rule = '[...document.querySelectorAll("#broken .rule")].find((it) => it.id === "broken-not-rejected")'
    yield "a type has its name", [], [it for it in ("type=07 (SESS_INIT)", "peer-at is", "What the RFCs say", "Message Unexpected") if it not in browser.value(f"{rule}.textContent")]
    browser.value(f"""[...{rule}.querySelectorAll("button.link")].find((it) => it.textContent.startsWith("peer-at=")).click()""")
    yield "an offset of the other side links to its message", "a 38: sess-init", browser.value('document.querySelector("#chosen h2").textContent')
    see("rule-version")
    yield "a version accuses nobody", (0, True), (browser.value('document.querySelectorAll("#sides .fault, #timeline .broken").length'), "offers version 5" in browser.value(SIDES))
    yield "the title says so too", "Side b breaks version; side a offers version 5, which is not read here", browser.value(TITLE)
    yield "no error on the console", [], browser.errors


def ends(browser, folder):
    """Recordings that end early, or are empty: what the title says of them."""
    with open(f"{EXAMPLES}/session-a.tcpcl", "rb") as it:
        content = it.read()
    titles = {
        "cut": (content[:50], "The recording of a ends inside the message at byte 38"),
        "empty": (b"", "The recording of a is empty"),
        "header": (content[:5], "The recording of a ends inside the contact header"),
        "unknown": (content[:38] + b"\x99", "The recording of a cannot be read from byte 38 on: unknown message type 99"),
        "start": (content[:38], "These recordings show nothing wrong"),
    }
    for name, (begin, title) in titles.items():
        write(f"{folder}/{name}.tcpcl", begin)
        page_of(f"{folder}/{name}.html", f"{folder}/{name}.tcpcl")
        show(browser, f"{folder}/{name}.html")
        yield f"the title of a recording: {name}", title, browser.value(TITLE)
        yield f"no error on the console: {name}", [], browser.errors


def rule_links(browser, folder):
    """A rule in the title leads to its part, and a transfer to its row."""
    path = f"{folder}/links.html"
    page_of(path, f"{EXAMPLES}/session-a.tcpcl", f"{EXAMPLES}/session-b.tcpcl")
    show(browser, path)
    marks = browser.value('[...document.querySelectorAll("#timeline title")].map((it) => it.textContent)')
    wanted = ["3 acknowledgements", "2 acknowledgements", "3 refusals", "1 KEEPALIVE", "1 MSG_REJECT", "SESS_TERM, idle-timeout (0x01)", "SESS_TERM as a reply, idle-timeout (0x01)"]
    yield "the timeline has answers, keepalives and ends", [], [it for it in wanted if it not in marks]
    browser.value('document.querySelector("#verdict a").click()')
    name = browser.value('document.querySelector("#verdict a").textContent')
    target = 'document.querySelector("#broken .rule:target")'
    yield "a rule in the title leads to its part", (name, True), (browser.value(f'{target}.querySelector("code").textContent'), browser.value(f"{target}.getBoundingClientRect().top < innerHeight"))
    browser.value('[...document.querySelectorAll("#broken button.link")].find((it) => it.textContent.startsWith("transfer ")).click()')
    yield "a transfer of a rule is unfolded", 1, browser.value('document.querySelectorAll("#transfers tr.inside").length')
    shown = browser.value('document.querySelector("#transfers tr.inside").innerText')
    yield "it shows the rule with its side and its message", True, "broken by this bundle of a" in shown and "xfer-segment" in shown
    counted = len(judged(*(f"{EXAMPLES}/session-{it}.tcpcl" for it in "ab")))
    yield "each line of a rule is shown", counted, browser.value('document.querySelectorAll("#broken li").length')


HEAD, BOTH = make.CONTACT + make.sess_init(), make.START | make.END


def dropped(browser, folder, *contents):
    """Drops recordings with these contents, and returns the title."""
    paths = [f"{folder}/dropped-{side}.tcpcl" for side, _ in zip("ab", contents)]
    for path, content in zip(paths, contents):
        write(path, content)
    drop(browser, *paths)
    return browser.value(TITLE)


def undecided(browser, folder):
    """What both recordings decide is not in the title of both, but in that of one."""
    size = len(make.BUNDLE)
    sides = [
        HEAD + make.xfer_segment(make.START, 0, make.BUNDLE[:10]) + make.xfer_segment(BOTH, 1, make.BUNDLE)
        + make.xfer_segment(make.START, 2, make.BUNDLE[:10]),
        HEAD + make.xfer_ack(make.START, 0, 10) + make.xfer_ack(0, 0, 5) + 2 * make.xfer_ack(BOTH, 1, size),
    ]
    title = dropped(browser, folder, *sides)
    yield "the title of two recordings leaves out what both decide", set(), OTHERWISE & (named(title, "a")[0] | named(title, "b")[0])
    why = "The title leaves out interleaved, unfinished, ack-length and answer-order: one recording alone does not show whether they are broken."
    yield "and says why", f"This page judges each side alone. tcpclkit-page judges both together. {why}", browser.value(NOTES)[-1]
    wanted = ["should interleaved perhaps broken by a 1 time", "should unfinished perhaps broken by a 1 time",
              "should ack-length perhaps broken by b 1 time", "should answer-order perhaps broken by b 1 time"]
    yield "these rules come last", wanted, browser.value(UNDECIDED)
    for content, rules in zip(sides, ({"interleaved", "unfinished"}, {"ack-length", "answer-order"})):
        names = named(dropped(browser, folder, content), "a")[0]
        yield f"the title of one recording names {' and '.join(sorted(rules))}", rules, names & OTHERWISE
        yield "and leaves nothing out", [], [*browser.value(NOTES), *browser.value(UNDECIDED)]
    yield "no error on the console", [], browser.errors


def late(browser, folder):
    """A recording that tcpclkit-resync made sets no limits, and the order of its IDs is undecided."""
    made = make.CONTACT + struct.pack(">BHQQHI", 0x07, 0, 0, 0, 0, 0)
    late_side = made + make.xfer_segment(BOTH, 7, make.BUNDLE)
    whole = HEAD + make.xfer_segment(BOTH, 0, make.BUNDLE) + make.xfer_ack(BOTH, 7, len(make.BUNDLE))
    for sides, name in (((late_side, whole), "a"), ((whole, late_side), "b")):
        dropped(browser, folder, *sides)
        broken = browser.value(BROKEN)
        yield f"without a beginning, {name} sets no limits", [], [it for it in broken if " peer-" in it]
        yield f"and the order of the IDs of {name} is undecided", [f"should transfer-id-order perhaps broken by {name} 1 time"], browser.value(UNDECIDED)
        both = judged(*(f"{folder}/dropped-{it}.tcpcl" for it in "ab"))
        yield f"without the beginning of {name}, the lines are those of check-session", set(both), set(broken)
    yield "no error on the console", [], browser.errors


def of_bundles(browser, folder):
    """A rule of bundles is broken by a bundle. Rules about the length of a transfer are the sender's."""
    longer, alone = make.length_item(len(make.BUNDLE) + 1), "A bundle of side a breaks primary-check and age"
    whole = make.xfer_segment(BOTH, 0, make.BUNDLE)
    yield "the title of a bundle", alone, dropped(browser, folder, HEAD + whole)
    yield "the part of its rule", "must primary-check broken by bundles of a 1 time", browser.value('document.querySelector("#broken-primary-check h3").textContent')
    yield "the title of bundles", "Bundles of side a break primary-check and age", dropped(browser, folder, HEAD + whole + make.xfer_segment(BOTH, 1, make.BUNDLE))
    lengths = make.xfer_segment(BOTH, 0, make.BUNDLE, longer) + make.xfer_segment(make.START, 1, make.BUNDLE[:10])
    wanted = f"Side a breaks length-differs, length-of-one-segment and unfinished; a{alone[1:]}; 2 transfers of a are not good"
    yield "the title of a side and its bundle", wanted, dropped(browser, folder, HEAD + lengths)
    yield "no error on the console", [], browser.errors


PARTS = [titles, pages_by_name, ends, rule_links, undecided, late, of_bundles]
