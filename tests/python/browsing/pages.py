"""Looks at pages in the browser: what they show, and how they are used."""

import glob
import itertools
import json
import os
import shutil
import subprocess
from concurrent.futures import ThreadPoolExecutor

import make

from . import TOP

SCRIPTS = f"{TOP}/scripts"
PROGRAM = f"{TOP}/crates/tcpclkit/out/tcpclkit"
PAGE = f"{TOP}/page/out/tcpclkit.html"
EXAMPLES = f"{TOP}/examples"
PAIRS = f"{EXAMPLES}/faults/sessions"

# The transfers of the large session, and what its page may take: bytes, seconds, and memory
MANY, MOST_BYTES, MOST_SECONDS, MOST_MEMORY = 10000, 10_000_000, 2, 200_000_000
LARGE = 256 << 20
WORKERS = 4

SHOWN = 'document.body.classList.contains("shown")'
NUMBERS = '[...document.querySelectorAll("#numbers > div")].map((it) => it.children[1].textContent)'
ROWS = 'document.querySelectorAll("#transfers tbody > tr:not(.inside)").length'
COUNT = 'document.querySelector("#transfers [role=status]").textContent'
# The lines of the rules that are broken, as the page counts them
BROKEN = 'tcpclkit.session().broken.map((it) => `${it.side} ${it.offset} ${it.level} ${it.rule} ${it.words}`.trim())'
# The rules of `check` that check-session judges otherwise, and those for which it has limits
OTHERWISE = {"interleaved", "unfinished", "ack-length", "answer-order"}
LIMITED = {"peer-segment", "peer-transfer"}


def ran(*words):
    """Runs a script or the program. Returns its output."""
    return subprocess.run(words, capture_output=True, text=True).stdout


def write(path, content):
    """Writes a file of bytes."""
    with open(path, "wb") as it:
        it.write(content)


def page_of(path, *words):
    """Makes the page of a session with the script."""
    subprocess.run([f"{SCRIPTS}/page", "--tcpclkit", PROGRAM, "-o", path, *words], check=True)


def show(browser, path):
    """Opens a page that has lines, and waits until they are drawn."""
    browser.open(path)
    browser.wait(f"{SHOWN} && document.getElementById('progress').hidden")


def drop(browser, *paths):
    """Opens the page with the module, and gives it recordings."""
    browser.open(PAGE)
    browser.choose("#files", list(paths))
    browser.wait(f"{SHOWN} && document.getElementById('progress').hidden")


def recordings():
    """Returns the sessions of the examples: the paths of one recording, or of two."""
    alone = [[it] for it in sorted(glob.glob(f"{EXAMPLES}/*.tcpcl") + glob.glob(f"{EXAMPLES}/faults/*.tcpcl"))]
    firsts = [f"{EXAMPLES}/session-a.tcpcl", *sorted(glob.glob(f"{PAIRS}/*-a.tcpcl"))]
    return alone + [[it, it.replace("-a.tcpcl", "-b.tcpcl")] for it in firsts]


def lines_of(*words):
    """Returns the lines that a script or the program writes."""
    return ran(*words).splitlines()


def judged(*paths):
    """Returns the lines of the rules that a recording breaks, or that both break."""
    return lines_of(f"{SCRIPTS}/check-session", "--tcpclkit", PROGRAM, *paths) if len(paths) > 1 else lines_of(PROGRAM, "check", *paths)


def counts_of(paths):
    """Returns what a page has to count, by the lines: messages, transfers, good ones and others."""
    listed = [line for it in paths for line in lines_of(PROGRAM, "list", it)]
    reported = [subprocess.run([PROGRAM, "unpack", "--keep-going", it], stdout=subprocess.DEVNULL, stderr=subprocess.PIPE, text=True).stderr
                for it in paths]
    good = sum(line.startswith("transfer ") and " good " in line for text in reported for line in text.splitlines())
    begun = sum(" xfer-segment " in line and int(line.split("flags=")[1][:2], 16) & 2 > 0 for line in listed)
    messages = sum(" contact " not in line for line in listed)
    return [f"{it:,}" for it in (messages, begun, good, begun - good)]


def expected(paths):
    """Returns these counts, and how many lines of rules there are."""
    return [*counts_of(paths), f"{len(judged(*paths)):,}"]


def shown(browser):
    """Returns the same of the page that is open."""
    numbers = browser.value(NUMBERS)
    return [*numbers[:4], numbers[7]]


def rules_of_dropped(paths):
    """Returns the lines that the page of dropped recordings must have, and those that it may have.

    Of two recordings, it may have those that check-session writes too.
    """
    alone = {f"{side} {line}" for side, path in zip("ab", paths) for line in judged(path)}
    if len(paths) == 1:
        return alone, alone
    both = set(judged(*paths))
    rule = {line: line.split(" ")[3] for line in alone | both}
    return {it for it in alone if rule[it] not in OTHERWISE} | {it for it in both if rule[it] in LIMITED}, both


def seconds_of(browser, path):
    """Opens a page. Returns how many seconds of a processor that took."""
    before = browser.metric("ThreadTime")
    show(browser, path)
    after = browser.metric("ThreadTime")
    return after - before if after > before else after


# ---- parts


def each_example(browser, folder):
    """Opens the page of each example, and compares its numbers with the lines."""
    wrong, found = [], recordings()
    with ThreadPoolExecutor(WORKERS) as workers:
        made = workers.map(lambda at: page_of(f"{folder}/{at}.html", *found[at]), range(len(found)))
        wanted = workers.map(expected, found)
        for at, (numbers, _) in enumerate(zip(wanted, made)):
            show(browser, f"{folder}/{at}.html")
            rows = f"{browser.value(ROWS):,}"
            if shown(browser) != numbers or rows != numbers[1] or browser.errors:
                wrong.append((found[at], shown(browser), numbers, rows, browser.errors))
    yield f"pages of {len(found)} examples: the numbers are those of the lines", [], wrong[:1]


def each_dropped(browser, _):
    """Drops each example on the page with the module. The answers are those of tcpclkit-pair."""
    wrong, accused = [], []
    for paths in recordings():
        drop(browser, *paths)
        *numbers, count = shown(browser)
        wanted = counts_of(paths)
        rules, (least, most) = browser.value(BROKEN), rules_of_dropped(paths)
        if not least <= set(rules) <= most or count != f"{len(rules):,}":
            accused.append((paths, rules, least, most, count))
        answers = browser.value("tcpclkit.session().sides.map((it) => tcpclkit.pairLines(it))") if len(paths) > 1 else []
        both = [paths, paths[::-1]] if len(paths) > 1 else []
        paired = [ran(f"{SCRIPTS}/pair", "--tcpclkit", PROGRAM, *it) for it in both]
        if numbers != wanted or answers != paired or browser.errors:
            wrong.append((paths, numbers, wanted, answers, paired, browser.errors))
    yield "examples that are dropped: numbers and answers", [], wrong[:1]
    yield "examples that are dropped: each line of two recordings is one of check-session", [], accused[:1]


def session(browser, folder):
    """A filter, sorting, unfolding, a block, a message and a rule of one session."""
    path = f"{folder}/session.html"
    page_of(path, f"{EXAMPLES}/session-a.tcpcl", f"{EXAMPLES}/session-b.tcpcl")
    show(browser, path)
    yield "all transfers have a row", 6, browser.value(ROWS)
    pick = '(name, value) => { const it = document.querySelector(`#transfer-filters [data-filter="${name}"]`); it.value = value; it.dispatchEvent(new Event(it.localName === "select" ? "change" : "input")); }'
    browser.value(f'({pick})("Answer", "refused")')
    yield "a filter by the answer", (3, "3 of 6 transfers"), (browser.value(ROWS), browser.value(COUNT))
    browser.value(f'({pick})("Answer", "")')
    browser.value(f'({pick})("Search", "b13")')
    yield "a search", 1, browser.value(ROWS)
    browser.value(f'({pick})("Search", "")')
    first = 'document.querySelector("#transfers tbody > tr td.number:nth-child(5)").textContent'
    head = '[...document.querySelectorAll("#transfers thead button")].find((it) => it.textContent === "Length")'
    browser.value(f"{head}.click()")
    least = browser.value(first)
    browser.value(f"{head}.click()")
    yield "sorting by length, up and down", ("17", "48"), (least, browser.value(first))
    browser.value('[...document.querySelectorAll("#transfers tbody > tr")].find((it) => it.textContent.includes("good")).click()')
    blocks = 'document.querySelectorAll("#transfers table.blocks tbody tr").length'
    yield "a transfer that is unfolded shows its blocks", 2, browser.value(blocks)
    browser.value('document.querySelector("#transfers table.blocks button").click()')
    fields = '[...document.querySelectorAll("#chosen .fields tbody tr")].map((it) => it.children[1].textContent)'
    names = ["array", "version", "flags", "check type", "destination", "source", "report-to", "creation timestamp", "lifetime"]
    yield "the fields of a primary block", names, browser.value(fields)[:9]
    link = 'document.querySelector("#broken button.link")'
    browser.value(f"{link}.click()")
    yield "a rule links to its message", browser.value(f"{link}.textContent"), browser.value('document.querySelector("#chosen h2").textContent').replace(":", "")
    digits = '[...document.querySelectorAll("#chosen .digits")].map((it) => it.textContent).join(" ").replace(/ +/g, "")'
    with open(f"{EXAMPLES}/session-{browser.value(f'{link}.textContent')[0]}.tcpcl", "rb") as it:
        content = it.read().hex()
    bytes_shown = browser.value(digits)
    yield "the bytes of the message are those of the recording", (True, True), (len(bytes_shown) > 0, bytes_shown in content)
    browser.value('document.dispatchEvent(new KeyboardEvent("keydown", { key: "Escape", bubbles: true }))')
    yield "Escape closes the bytes", True, browser.value('document.getElementById("chosen").hidden')
    rule = '[...document.querySelectorAll("#broken .rule")].find((it) => it.textContent.includes("ack-unknown")).textContent'
    text = browser.value(rule)
    yield "a rule has its sentence and its section", (True, True), ("no segment of Q carries" in text, "5.1.2" in text)
    yield "no error on the console", [], browser.errors


def many(browser, folder):
    """A session of 10,000 transfers."""
    sides = [b"".join([make.CONTACT, make.sess_init(), *it]) for it in (
        (make.xfer_segment(make.START | make.END, it, make.BUNDLE) for it in range(MANY)),
        (make.xfer_ack(make.START | make.END, it, len(make.BUNDLE)) for it in range(MANY)),
    )]
    paths = [f"{folder}/many-{it}.tcpcl" for it in "ab"]
    for path, content in zip(paths, sides):
        write(path, content)
    page = f"{folder}/many.html"
    page_of(page, *paths)
    size = os.path.getsize(page)
    yield f"the page of {MANY} transfers has {size} bytes", True, size <= MOST_BYTES
    seconds = seconds_of(browser, page)
    yield f"it opens in {seconds:.2f} s of a processor", True, seconds <= MOST_SECONDS
    memory = browser.value("performance.memory.usedJSHeapSize")
    yield f"it takes {memory} bytes of memory", True, memory < MOST_MEMORY
    yield "it counts them", [f"{2 * MANY + 2:,}", f"{MANY:,}", f"{MANY:,}", "0"], browser.value(NUMBERS)[:4]
    bars = '[...document.querySelectorAll("#timeline .choice title")].map((it) => it.textContent)'
    groups = [int(it.split(" ")[0]) if it[0].isdigit() else 1 for it in browser.value(bars)]
    yield f"its {len(groups)} bars are groups of all transfers", (True, MANY), (len(groups) < 1280, sum(groups))
    yield "its rows are made as they are seen", True, 0 < browser.value(ROWS) < MANY
    browser.value(f"for (let it; !(it = document.querySelector('#transfers .more')).hidden;) it.click()")
    yield "each transfer can have a row", MANY, browser.value(ROWS)
    yield "no error on the console", [], browser.errors
    drop(browser, *paths)
    yield "the module counts them too", [f"{2 * MANY + 2:,}", f"{MANY:,}", f"{MANY:,}", "0"], browser.value(NUMBERS)[:4]


def large(browser, folder):
    """A recording of 256 MB."""
    path, segment = f"{folder}/large.tcpcl", 1 << 20
    with open(path, "wb") as it:
        it.write(make.CONTACT + make.sess_init())
        for number in range(LARGE // segment):
            it.write(make.xfer_segment(make.START | make.END, number, bytes(segment)))
    drop(browser, path)
    os.unlink(path)
    count = f"{LARGE // segment:,}"
    yield "a recording of 256 MB", [f"{LARGE // segment + 1:,}", count, "0", count], browser.value(NUMBERS)[:4]
    yield "no error on the console", [], browser.errors


def hostile_bundle():
    """A bundle whose source is markup: the example's, with a dtn name in the place of ipn:1.1."""
    name = b"//<img src=x onerror='hostile = 1'>/"
    source = bytes([0x82, 0x01, 0x78, len(name)]) + name
    return make.BUNDLE.replace(bytes.fromhex("82 02 82 01 01"), source)


def hostile(browser, folder):
    """A recording with markup and every byte in its node ID, in a file whose name is markup."""
    node = b"<script>hostile = 1</script><img src=x onerror='hostile = 1'>&lt;" + bytes(range(256))
    name = b"<img src=x onerror='hostile = 1'>&amp;\"-a.tcpcl".decode()
    path, page = f"{folder}/{name}", f"{folder}/hostile.html"
    write(path, make.CONTACT + make.sess_init(node=node) + make.xfer_segment(make.START | make.END, 0, hostile_bundle()))
    text = ran(PROGRAM, "list", path).split("node=")[1].split(" ")[0]
    page_of(page, path)
    for kind, look in (("by the program", lambda: show(browser, page)), ("by the module", lambda: drop(browser, path))):
        look()
        yield f"{kind}: the node ID is text", (True, True), (
            browser.value(f'document.getElementById("sides").textContent.includes({json.dumps(text)})'),
            browser.value(f'document.getElementById("sides").textContent.includes({json.dumps(name)})'))
        browser.value('for (const it of document.querySelectorAll("#transfers button.fold")) it.click()')
        browser.value('document.querySelector("#transfers table.blocks button").click()')
        seen = [browser.value(f'document.querySelector("{it}").textContent.includes("<img\\\\x20src=x")') for it in ("#transfers tr.inside", "#chosen")]
        yield f"{kind}: a source is text, also where it is unfolded and chosen", [True, True], seen
        browser.screen(400, 860, "light")
        yield f"{kind}: at 400 points, nothing is cut at the side", True, browser.value("document.documentElement.scrollWidth <= innerWidth")
        browser.screen(1280, 860, "light")
        made = 'typeof hostile === "undefined" && document.querySelectorAll("img").length === 0'
        yield f"{kind}: nothing of it is markup", (True, 0), (browser.value(made), browser.value('document.querySelectorAll("body script:not([type])").length'))
        yield f"{kind}: no error on the console", [], browser.errors


def without_script(browser, folder):
    """A page in a browser that runs no script."""
    path = f"{folder}/plain.html"
    page_of(path, f"{EXAMPLES}/session-a.tcpcl", f"{EXAMPLES}/session-b.tcpcl")
    browser.call("Emulation.setScriptExecutionDisabled", value=True)
    browser.open(path)
    text = browser.value('document.getElementById("lines").innerText')
    browser.call("Emulation.setScriptExecutionDisabled", value=False)
    paths = [f"{EXAMPLES}/session-{it}.tcpcl" for it in "ab"]
    wanted = [*lines_of(PROGRAM, "list", paths[0]), *judged(*paths)]
    yield "without script, the lines are shown", [], [it for it in wanted if it not in text]


def refused(browser, _):
    """Files that are no recordings, and more than two."""
    browser.open(PAGE)
    browser.choose("#files", [f"{EXAMPLES}/session.pcap"])
    complaint = 'document.getElementById("complaint").textContent'
    browser.wait(complaint)
    yield "a capture is refused, with what to do", True, "tcpclkit-capture --page" in browser.value(complaint)
    browser.choose("#files", sorted(glob.glob(f"{EXAMPLES}/*.tcpcl"))[:3])
    browser.wait(f'{complaint}.includes("two")')
    yield "three recordings are refused", True, "two sides" in browser.value(complaint)


def passed_over(browser, folder):
    """All files of a folder of tcpclkit-capture: those that are no recordings are passed over."""
    shown_files = "tcpclkit.session().sides.map((it) => it.file)"
    notes = '[...document.querySelectorAll("#sides > .note")].map((it) => it.textContent).filter((it) => it.startsWith("Passed over"))'
    at = f"{folder}/captured"
    os.mkdir(at)
    for side, end in itertools.product("ab", ("tcpcl", "times")):
        shutil.copy(f"{PAIRS}/rule-idle-{side}.{end}", f"{at}/0000-{side}.{end}")
    shutil.copy(f"{EXAMPLES}/session.pcap", at)
    for name in ("0000.html", "streams"):
        write(f"{at}/{name}", b"stream 0\n")
    drop(browser, *glob.glob(f"{at}/*"))
    yield "the recordings of a folder are shown", ["0000-a.tcpcl", "0000-b.tcpcl"], browser.value(shown_files)
    yield "with their times", True, browser.value('document.getElementById("timeline").textContent.includes("Seconds after")')
    passed = ["Passed over, as empty or as no recording: 0000.html, session.pcap and streams."]
    yield "what is passed over is named", (passed, ""), (browser.value(notes), browser.value('document.getElementById("complaint").textContent'))
    browser.value('document.getElementById("exchange").click()')
    browser.wait(f'{shown_files}[0] === "0000-b.tcpcl"')
    yield "and still is when the sides are exchanged", passed, browser.value(notes)
    write(f"{at}/0000-b.tcpcl", b"")
    drop(browser, f"{at}/0000-a.tcpcl", f"{at}/0000-b.tcpcl")
    yield "an empty side is passed over", (["0000-a.tcpcl"], 1), (browser.value(shown_files), len(browser.value(notes)))
    for name, side in (("one", "a"), ("two.log", "b")):
        shutil.copy(f"{EXAMPLES}/session-{side}.tcpcl", f"{at}/{name}")
    drop(browser, f"{at}/one", f"{at}/streams", f"{at}/two.log")
    yield "a recording may have any name", ["one", "two.log"], browser.value(shown_files)
    drop(browser, f"{at}/streams")
    title = browser.value('document.getElementById("verdict").textContent')
    yield "a file alone that is no recording is read as one", ("The recording of a cannot be read from byte 0 on: not a contact header", []), (title, browser.value(notes))
    browser.drag(300, 150, at)
    complaint = 'document.getElementById("complaint").textContent'
    browser.wait(complaint)
    yield "a folder itself is refused, with what to do", "This failed: captured cannot be read. If it is a folder, drop the files in it.", browser.value(complaint)
    yield "no error on the console", [], browser.errors


PARTS = [session, each_example, each_dropped, many, large, hostile, without_script, refused, passed_over]
