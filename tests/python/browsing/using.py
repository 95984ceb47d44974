"""How a page is used: by keyboard, on paper, in both schemes, and without what a browser may lack."""

import glob
import itertools

from . import png
from .pages import COUNT, EXAMPLES, PAGE, PAIRS, ROWS, drop, page_of, show

FOCUS = 'document.activeElement.closest("tbody > tr")?.rowIndex'
FOLDS = 'document.querySelectorAll("#transfers tr.inside").length'
SCHEMES = ["light", "dark"]
WIDTHS = [1280, 400]
DEFICIENCIES = ["none", "protanopia", "deuteranopia", "tritanopia"]
# The least distance of two colours, and of a letter from its ground (WCAG 2.1, 1.4.3)
LEAST_DISTANCE, LEAST_CONTRAST = 12, 4.5
# The colours of the judgements in the legend, where each is a field of one colour without its pattern
FIELDS = """(() => {
  document.getElementById("view").hidden = true;
  const kinds = ["good", "bad", "length", "abandoned"];
  document.body.insertAdjacentHTML("afterbegin", "<svg id=fields width=400 height=100>" + kinds.map((it, at) =>
    `<rect class="bar ${it}" x="${100 * at}" width="100" height="100"/>`).join("") + "</svg>");
  scrollTo(0, 0);
  const { x, y } = document.getElementById("fields").getBoundingClientRect();
  return kinds.map((_, at) => ({ x: x + 100 * at + 50, y: y + 50, width: 2, height: 2, scale: 1 }));
})()"""
# The contrast of each text with what is below it
PALE = """(() => {
  const parts = (text) => text.match(/[\\d.]+/g).map((it) => (text.startsWith("color(srgb") ? 255 : 1) * it);
  const light = ([r, g, b]) => [r, g, b].map((it) => it / 255).map((it) => it <= 0.04045 ? it / 12.92 : ((it + 0.055) / 1.055) ** 2.4)
    .reduce((sum, it, at) => sum + it * [0.2126, 0.7152, 0.0722][at], 0);
  const ground = (it) => {
    for (; it; it = it.parentElement) {
      const color = getComputedStyle(it).backgroundColor;
      if (parts(color)[3] !== 0) return parts(color);
    }
    return parts(getComputedStyle(document.body).backgroundColor);
  };
  const pale = new Set();
  for (const it of document.querySelectorAll("header *, #view *, footer *")) {
    if (it.checkVisibility() && !it.disabled && [...it.childNodes].some((child) => child.nodeType === 3 && child.data.trim())) {
      const style = getComputedStyle(it);
      const [one, two] = [light(parts(it.namespaceURI.endsWith("svg") ? style.fill : style.color)), light(ground(it))];
      const contrast = (Math.max(one, two) + 0.05) / (Math.min(one, two) + 0.05);
      if (contrast < LEAST) pale.add(`${it.localName}.${it.getAttribute("class")} ${contrast.toFixed(2)}`);
    }
  }
  return [...pale];
})()"""


def session(browser, folder):
    """Makes and opens the page of the session of the examples."""
    path = f"{folder}/used.html"
    page_of(path, f"{EXAMPLES}/session-a.tcpcl", f"{EXAMPLES}/session-b.tcpcl")
    show(browser, path)


def keyboard(browser, folder):
    """Keys search, go through the rows, unfold one, choose a block, and close it."""
    session(browser, folder)
    browser.key("/")
    yield "/ goes to the search", "search", browser.value("document.activeElement.type")
    for letter in "b13":
        browser.key(letter)
    yield "letters are searched for", "1 of 6 transfers", browser.value(COUNT)
    for _ in "b13":
        browser.key("Backspace")
    browser.value('document.querySelector("#transfers button.fold").focus()')
    first = browser.value(FOCUS)
    browser.key("ArrowDown")
    yield "an arrow goes to the next row", first + 1, browser.value(FOCUS)
    browser.key("Enter")
    yield "Enter unfolds it", 1, browser.value(FOLDS)
    browser.key("Tab")
    yield "Tab goes into it", True, browser.value('document.activeElement.closest("tr.inside") !== null')
    browser.key("Enter")
    yield "Enter chooses what has the focus", False, browser.value('document.getElementById("chosen").hidden')
    browser.key("Escape")
    yield "Escape goes back", (True, True), (browser.value('document.getElementById("chosen").hidden'), browser.value('document.activeElement.closest("tr.inside") !== null'))
    browser.key("ArrowUp")
    browser.value('document.querySelector("#transfers button.fold").focus()')
    browser.value('document.querySelector("#message-part summary").focus()')
    browser.key("Enter")
    browser.wait('document.querySelectorAll("#messages tbody > tr").length > 0')
    yield "Enter opens the messages", True, browser.value('document.getElementById("message-part").open')
    browser.value('document.querySelector("#messages tbody > tr").focus()')
    browser.key("Enter")
    yield "Enter chooses a message", "a 0: contact", browser.value('document.querySelector("#chosen h2").textContent')
    yield "no error on the console", [], browser.errors


def paper(browser, folder):
    """A page that is printed has all parts that are read, and not those that are used."""
    session(browser, folder)
    browser.call("Emulation.setEmulatedMedia", media="print")
    seen = 'it => document.querySelector(it).checkVisibility()'
    read = ["#verdict", "#sides", "#numbers", "#timeline svg", "#legend", "#broken", "#transfers tbody tr"]
    used = ["#drop", ".filters", "#lines", "#rules", "footer"]
    yield "on paper, what is read is seen", read, [it for it in read if browser.value(f"({seen})('{it}')")]
    yield "and what is used is not", [], [it for it in used if browser.value(f"({seen})('{it}')")]
    browser.screen(1280, 860, "dark")
    pages = browser.call("Page.printToPDF", printBackground=True)["data"]
    yield "it prints", True, len(pages) > 10000
    browser.screen(1280, 860, "light")


def distance(one, two):
    """The distance of two colours as they are seen (CIE 1976)."""
    return sum((a - b) ** 2 for a, b in zip(*map(lab, (one, two)))) ** 0.5


def lab(colour):
    """A colour of sRGB in the space CIE L*a*b*."""
    linear = [it / 255 / 12.92 if it <= 10 else ((it / 255 + 0.055) / 1.055) ** 2.4 for it in colour]
    rows = ((0.4124, 0.3576, 0.1805), (0.2126, 0.7152, 0.0722), (0.0193, 0.1192, 0.9505))
    x, y, z = (sum(a * b for a, b in zip(row, linear)) / white for row, white in zip(rows, (0.9505, 1, 1.089)))
    x, y, z = (it ** (1 / 3) if it > 0.008856 else 7.787 * it + 16 / 116 for it in (x, y, z))
    return 116 * y - 16, 500 * (x - y), 200 * (y - z)


def colours(browser, folder):
    """The colours of judgements are told apart by all, and each text is dark or light enough."""
    session(browser, folder)
    near, pale = [], []
    for scheme, width in itertools.product(SCHEMES, WIDTHS):
        browser.screen(width, 860, scheme)
        browser.wait('document.querySelector("#timeline svg").clientWidth <= innerWidth')
        pale += browser.value(PALE.replace("LEAST", str(LEAST_CONTRAST)))
        wide = browser.value("document.documentElement.scrollWidth - innerWidth")
        yield f"{scheme}, {width} points wide: nothing is cut at the side", True, wide <= 0
    yield "each text has enough contrast", [], pale
    browser.screen(1280, 860, "light")
    places = browser.value(FIELDS)
    for scheme, kind in itertools.product(SCHEMES, DEFICIENCIES):
        browser.screen(1280, 860, scheme)
        browser.call("Emulation.setEmulatedVisionDeficiency", type=kind)
        found = [png.read(browser.picture(clip=place))[1][0][0] for place in places]
        least = min(distance(*it) for it in itertools.combinations(found, 2))
        near += [(scheme, kind, least)] if least < LEAST_DISTANCE else []
    browser.call("Emulation.setEmulatedVisionDeficiency", type="none")
    browser.screen(1280, 860, "light")
    yield "the colours of judgements are told apart", [], near
    patterns = browser.value('[...document.querySelectorAll("#timeline pattern path")].map((it) => it.getAttribute("d"))')
    yield "each judgement has its own pattern", len(patterns), len(set(patterns))


def policy(browser, folder):
    """No other script runs, nothing is fetched, and no form is sent."""
    session(browser, folder)
    browser.value("""(() => {
      const script = document.createElement("script");
      script.textContent = "globalThis.foreign = 1";
      document.body.append(script);
      document.body.insertAdjacentHTML("beforeend", "<p id=clicked onclick='globalThis.foreign = 1'></p>");
      document.getElementById("clicked").click();
    })()""")
    yield "a foreign script does not run", "undefined", browser.value("typeof foreign")
    yield "nothing is fetched", "refused", browser.value('fetch("https://localhost/").then(() => "fetched", () => "refused")')
    yield "the browser says why", True, any("Content Security Policy" in it for it in browser.errors)


def progress(browser, _):
    """A run on the page shows its progress. A second session takes the place of the first."""
    browser.open(PAGE)
    browser.value("""(() => {
      globalThis.told = [];
      const text = document.getElementById("progress-text");
      new MutationObserver(() => told.push(text.textContent)).observe(text, { childList: true });
    })()""")
    browser.choose("#files", [f"{EXAMPLES}/session-{it}.tcpcl" for it in "ab"])
    browser.wait('document.body.classList.contains("shown") && document.getElementById("progress").hidden')
    told = browser.value("told")
    wanted = [f"Side {side}: {it}" for side in "ab" for it in ("messages", "transfers", "rules")]
    yield "the page shows its progress", [], [it for it in wanted if it not in told]
    browser.choose("#files", [f"{EXAMPLES}/transfers.tcpcl"])
    browser.wait(f"{ROWS} === 4")
    browser.screen(900, 860, "light")
    browser.wait('document.querySelector("#timeline svg").getAttribute("width") < 900')
    yield "after a resize, the second session is drawn", 1, browser.value('document.querySelectorAll("#timeline .name").length')
    browser.screen(1280, 860, "light")
    yield "no error on the console", [], browser.errors


def without_memory(browser, _):
    """A browser without 64-bit memory says so, and what to do."""
    browser.open(PAGE)
    browser.value('WebAssembly.compile = () => Promise.reject(new WebAssembly.CompileError("memory64"))')
    browser.choose("#files", [f"{EXAMPLES}/transfers.tcpcl"])
    complaint = 'document.getElementById("complaint").textContent'
    browser.wait(complaint)
    text = browser.value(complaint)
    yield "without 64-bit memory, the page says what to do", (True, True), ("64-bit memory" in text, "tcpclkit-page A B" in text)


def times(browser, folder):
    """Dropped recordings with their times have seconds on the axis."""
    found = sorted(glob.glob(f"{PAIRS}/rule-idle-*"))
    drop(browser, *found)
    yield "times that are dropped make the axis", True, browser.value('document.getElementById("timeline").textContent.includes("Seconds after")')


PARTS = [keyboard, paper, colours, policy, progress, without_memory, times]
