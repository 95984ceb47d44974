"""Compares what the module writes in the browser with what the program writes."""

import base64
import glob
import itertools
import json
import random
import subprocess
from concurrent.futures import ThreadPoolExecutor

from inputs import randoms

from . import TOP

PROGRAM = f"{TOP}/crates/tcpclkit/out/tcpclkit"
SEED, STREAMS, BATCH, WORKERS = 1, 2000, 50, 4

# Runs of the tools: their options for the module, and for the program
RECORDING = [
    ("list", {}, []),
    ("unpack", {}, []),
    ("unpack", {"keep_going": "1"}, ["--keep-going"]),
    ("unpack", {"only_one": "1", "transfer": "1", "payload": "1"}, ["--transfer", "1", "--payload"]),
    ("blocks", {"keep_going": "1"}, ["--keep-going"]),
    ("blocks", {"only_one": "1", "transfer": "0"}, ["--transfer", "0"]),
    ("check", {}, []),
    ("check", {"must": "1", "has_peer_segment": "1", "peer_segment": "20", "has_peer_transfer": "1",
               "peer_transfer": "18446744073709551615"},
     ["--must", "--peer-segment", "20", "--peer-transfer", "18446744073709551615"]),
]
BUNDLES = [
    ("blocks", {"bundles": "1"}, ["--bundles"]),
    ("check", {"bundles": "1"}, ["--bundles"]),
    ("check", {"bundles": "1", "must": "1"}, ["--bundles", "--must"]),
]

RUN = """(async (batch) => {
  const tools = (globalThis.tried ??= await tcpclkit.tools());
  const spelled = (bytes) => {
    let text = "";
    for (let at = 0; at < bytes.length; at += 8192) {
      text += String.fromCharCode(...bytes.subarray(at, at + 8192));
    }
    return btoa(text);
  };
  return batch.map(([content, runs]) => {
    tools.take(Uint8Array.from(atob(content), (it) => it.charCodeAt(0)));
    return runs.map(([tool, options]) => {
      const ended = tools.run(tool, options);
      return [ended.status, spelled(ended.output), spelled(ended.report)];
    });
  });
})"""


def files(pattern):
    """Returns the content of each file that a pattern names."""
    found = []
    for path in sorted(glob.glob(f"{TOP}/examples/{pattern}", recursive=True)):
        with open(path, "rb") as it:
            found.append(it.read())
    return found


def groups():
    """Yields a name, inputs, and the runs that each of them has."""
    rng = random.Random(SEED)
    kinds = [randoms.stream, randoms.stream, randoms.disordered]
    yield "the examples", files("*.tcpcl") + files("recipes/*.tcpcl"), RECORDING
    yield "the faults", files("faults/**/*.tcpcl"), RECORDING
    yield "bundles of the examples", files("*.bundles") + [b"", b"\x9f"], BUNDLES
    yield f"{STREAMS} random streams", [kinds[it % 3](rng) for it in range(STREAMS)], RECORDING
    yield "random bundles", [randoms.bundles(rng) for _ in range(STREAMS // 10)], BUNDLES


def by_program(content, runs):
    """Returns the status and the texts of each run of the program."""
    found = []
    for tool, _, words in runs:
        ended = subprocess.run([PROGRAM, tool, *words], input=content, capture_output=True)
        found.append([ended.returncode, ended.stdout, ended.stderr])
    return found


def by_module(browser, inputs, runs):
    """Yields the same of the module."""
    wanted = [[tool, options] for tool, options, _ in runs]
    for at in range(0, len(inputs), BATCH):
        batch = [[base64.b64encode(it).decode(), wanted] for it in inputs[at:at + BATCH]]
        for ended in browser.value(f"{RUN}({json.dumps(batch)})"):
            yield [[status, *map(base64.b64decode, texts)] for status, *texts in ended]


def as_in_libraries(browser):
    """Runs the code of docs/LIBRARIES.md on each example. Returns the texts that it writes."""
    with open(f"{TOP}/bindings/javascript/example.js", encoding="utf-8") as it:
        code = it.read()
    inputs = json.dumps([base64.b64encode(it).decode() for it in files("*.tcpcl")])
    return browser.value(f"""(async () => {{
      {code}
      const bytes = (text) => Uint8Array.from(atob(text), (it) => it.charCodeAt(0));
      const module = bytes(document.getElementById("module").textContent);
      const ended = await Promise.all({inputs}.map((it) => listed(module, bytes(it))));
      return ended.map((it) => [it.exit, it.text]);
    }})()""")


def checks(browser):
    """Yields a name, what is wanted and what came, for each group of inputs."""
    browser.open(f"{TOP}/page/out/tcpclkit.html")
    compiled = 'WebAssembly.compile(Uint8Array.from(atob(document.getElementById("module").textContent), (it) => it.charCodeAt(0)))'
    yield "module: it imports nothing", [], browser.value(f"{compiled}.then((it) => WebAssembly.Module.imports(it))")
    exported = browser.value(f"{compiled}.then((it) => WebAssembly.Module.exports(it).map((it) => it.name))")
    yield "module: it exports the tools", [], [it for it in ("list", "unpack", "blocks", "check", "memory") if it not in exported]
    wanted = [by_program(it, [("list", {}, [])])[0] for it in files("*.tcpcl")]
    listed = [[status, output.decode()] for status, output, _ in wanted]
    yield "module: the code of LIBRARIES", listed, as_in_libraries(browser)
    with ThreadPoolExecutor(WORKERS) as workers:
        for name, inputs, runs in groups():
            wanted = workers.map(lambda content: by_program(content, runs), inputs)
            made = by_module(browser, inputs, runs)
            runs_of_each = itertools.zip_longest(inputs, wanted, made, fillvalue=b"")
            wrong = [content.hex() for content, one, two in runs_of_each if one != two]
            yield f"module: {name}: {len(inputs)} inputs, {len(runs)} runs each", ([], True), (wrong[:1], bool(inputs))
