// Where a session comes from: the lines that the page has, or the files that are dropped on it.

let view = null;
// The recordings that were dropped, with their times, if the session is theirs, and the names of the
// other files that came with them
let dropped = [];
let passed = [];

/** Says how far the work is, and lets that be seen. */
async function progress(text, share) {
  element("progress").hidden = text === "";
  element("progress-text").textContent = text;
  element("progress-share").value = share;
  await drawn();
}

/** Says what is wrong. */
function complain(text) {
  element("complaint").textContent = text;
  element("complaint").hidden = text === "";
}

// ---- lines of the page

/** Returns the text of a part of the lines, which is empty if it is not there. */
function partOf(section, name) {
  return section?.querySelector(`[data-of="${name}"]`)?.textContent ?? "";
}

/** Returns the side whose lines a section has. */
function sideOf(section) {
  const { side: name, file, length, end } = section.dataset;
  const side = new Side(name, file, Number(length));
  side.end = end ?? null;
  side.takeList(partOf(section, "list"), partOf(section, "fault"));
  side.encoded = section.querySelector('[data-of="bytes"]');
  const times = partOf(section, "times");
  side.clock = times ? new Clock(times) : null;
  return side;
}

/** Shows the session whose lines the page has. */
async function showLines() {
  const sections = [...document.querySelectorAll("#lines [data-side]")];
  const both = document.querySelector("#lines [data-both]");
  await progress("Reading the lines", 0);
  const session = new Session(sections.map(sideOf));
  session.pair(both?.dataset.closed ?? "");
  for (const [index, side] of session.sides.entries()) {
    side.takeReport(partOf(sections[index], "unpack"));
    takePairs(side, partOf(both, `pair-${side.name}`));
    session.takeRules(partOf(sections[index], "check"), side);
  }
  session.isJoint = both !== null;
  session.takeRules(partOf(both, "rules"));
  // A report of the fault of a recording says what its side shows.
  const faults = session.sides.map(({ file, fault }) =>
    fault && `${file}: byte ${fault.offset}: ${fault.text}`);
  const notes = [...linesOf(partOf(both, "notes"))].filter((it) => !faults.includes(it));
  session.notes.push(...notes);
  view?.end();
  view = new View(session, (transfer) => {
    const { side } = transfer;
    side.blocks ??= [...blocksOf(partOf(sections[session.sides.indexOf(side)], "blocks"))];
    return side.blocks[side.transfers.indexOf(transfer)] ?? [];
  });
  await progress("", 1);
}

/** Takes the lines of `tcpclkit-pair` of the transfers of a side. */
function takePairs(side, text) {
  let index = 0;
  for (const line of linesOf(text)) {
    const [, , outcome, reason] = ANSWERED.exec(line);
    side.transfers[index].outcome = reason ? `${outcome} reason=${reason}` : outcome;
    index += 1;
  }
}

// ---- recordings that are dropped

/** Returns the compiled module, or null if this browser cannot take it. */
async function moduleOf(text) {
  try {
    return await WebAssembly.compile(decoded(text));
  } catch {
    return null;
  }
}

/** Returns the limits of the other side as options of `check`, if no recording lacks its beginning. */
function limitsOf(side, session) {
  const init = session.sides.every((it) => it.isBegun) ? session.other(side)?.init : null;
  return init
    ? {
        has_peer_segment: 1, peer_segment: init["segment-mru"],
        has_peer_transfer: 1, peer_transfer: init["transfer-mru"],
      }
    : {};
}

/** Reads recordings with the module, and shows their session. */
async function showRecordings(recordings, module) {
  const runs = recordings.length * 3;
  let done = 0;
  const step = (side, what) => progress(`Side ${side.name}: ${what}`, done++ / runs);
  const session = new Session([]);
  for (const [index, { file, bytes, times }] of recordings.entries()) {
    const side = new Side("ab"[index], file, bytes.length);
    await step(side, "messages");
    Object.assign(side, { bytes, tools: await Tools.of(module) });
    side.clock = times ? new Clock(times) : null;
    side.tools.take(bytes);
    const { output, report } = side.tools.run("list");
    side.takeList(output, report);
    session.sides.push(side);
  }
  session.pair("");
  for (const side of session.sides) {
    await step(side, "transfers");
    const wants = { output: false, report: true };
    side.takeReport(side.tools.run("unpack", { keep_going: 1 }, wants).report);
    await step(side, "rules");
    const limits = limitsOf(side, session);
    session.takeRules(side.tools.run("check", limits).output, side);
  }
  if (passed.length > 0) {
    session.notes.push(`Passed over, as empty or as no recording: ${listed(passed).join("")}.`);
  }
  view?.end();
  view = new View(session, blocksByModule);
  await progress("", 1);
}

/** Returns the lines of the blocks of a transfer, which the module writes. */
function blocksByModule(transfer) {
  const { side, ident } = transfer;
  const { output } = side.tools.run("blocks", { only_one: 1, transfer: ident, keep_going: 1 });
  const same = side.transfers.filter((it) => it.ident === ident);
  return [...blocksOf(output)][same.indexOf(transfer)] ?? [];
}

// How a capture begins: pcap, of both orders and of both resolutions, and pcapng. And a recording
const CAPTURES = ["d4c3b2a1", "a1b2c3d4", "4d3cb2a1", "a1b23c4d", "0a0d0d0a"];
const RECORDING = "64746e21";

/** Returns the first four bytes of a file, in hexadecimal. */
const startOf = ({ bytes }) => Array.from(bytes.subarray(0, 4), pairOf).join("");

/** Whether a file is a recording, by its first bytes or by its name. An empty one is none. */
const isRecording = (it) =>
  startOf(it) === RECORDING || (it.file.endsWith(".tcpcl") && it.bytes.length > 0);

/** Returns what is wrong with a file as a recording, or an empty text. */
function refusalOf(it) {
  const { file, bytes } = it;
  if (CAPTURES.includes(startOf(it))) {
    return `${file} is a capture, and no recording. Run: tcpclkit-capture --page FOLDER ${file}`;
  }
  return bytes.length === 0 ? `${file} is empty.` : "";
}

/** Returns the bytes of a file. A folder has none, and a page that is a file cannot look into it. */
async function bytesOf(file) {
  try {
    return new Uint8Array(await file.arrayBuffer());
  } catch {
    throw new Error(`${file.name} cannot be read. If it is a folder, drop the files in it.`);
  }
}

/**
 * Returns the recordings among some files, in the order of their names, each with its times. And the
 * names of the files that are passed over. If no file is a recording, all of them are taken as such.
 */
async function recordingsIn(files) {
  const read = [];
  for (const file of [...files].sort((one, two) => compared(one.name, two.name))) {
    await progress(`Reading ${file.name}`, 0);
    read.push({ file: file.name, bytes: await bytesOf(file), times: null });
  }
  const isTimes = (it) => it.file.endsWith(".times");
  const others = read.filter((it) => !isTimes(it));
  const recordings = others.some(isRecording) ? others.filter(isRecording) : others;
  const stem = (name) => name.replace(/\.[^.]*$/, "");
  for (const it of read.filter(isTimes)) {
    const of = recordings.find((recording) => stem(recording.file) === stem(it.file));
    if (of) {
      of.times = it.bytes;
    }
  }
  const names = others.filter((it) => !recordings.includes(it)).map((it) => it.file);
  return [recordings, names];
}

/** Gives dropped bytes to the side whose recording they are. Returns whether there is one. */
function giveBytes(recordings) {
  const lacking = (view?.session.sides ?? []).filter((it) => it.bytes === null);
  for (const { bytes } of recordings) {
    const side = lacking.find((it) => it.length === bytes.length && it.bytes === null);
    if (side) {
      side.bytes = bytes;
    }
  }
  return lacking.some((it) => it.bytes !== null);
}

/** Shows the session of the files that were dropped. */
async function open(files) {
  complain("");
  const [recordings, names] = await recordingsIn(files);
  const wrong = recordings.map(refusalOf).find((it) => it !== "");
  const text = element("module")?.textContent;
  await progress("", 0);
  if (wrong !== undefined) {
    complain(wrong);
  } else if (!text) {
    if (!giveBytes(recordings)) {
      complain("This page was made for its own recordings. Make one for these: tcpclkit-page A B");
    }
  } else {
    const isOther = recordings.length === 1 && dropped.length === 1;
    dropped = isOther ? [...dropped, ...recordings] : recordings;
    passed = names;
    await openDropped(text);
  }
}

async function openDropped(text) {
  const module = await moduleOf(text);
  if (module === null) {
    complain("This browser has no 64-bit memory for WebAssembly. Chromium 133, Firefox 134 and "
      + "later have it. Or let the program make the page, for any browser: tcpclkit-page A B");
  } else if (dropped.length > 2) {
    complain("A session has two sides: drop one recording or two, with their .times.");
    dropped = [];
  } else if (dropped.length > 0) {
    element("exchange").hidden = dropped.length < 2;
    await showRecordings(dropped, module);
  }
}

// ---- the page

function listen() {
  const drop = element("drop");
  const files = element("files");
  const over = (isOver) => (event) => {
    event.preventDefault();
    drop.classList.toggle("over", isOver);
  };
  const tried = (work) => work.catch(async (error) => {
    await progress("", 0);
    complain(`This failed: ${error.message}`);
  });
  addEventListener("dragover", over(true));
  addEventListener("dragleave", over(false));
  addEventListener("drop", (event) => {
    over(false)(event);
    tried(open(event.dataTransfer.files));
  });
  files.addEventListener("change", () => tried(open(files.files)));
  element("exchange").addEventListener("click", () => {
    dropped.reverse();
    tried(openDropped(element("module").textContent));
  });
  addEventListener("beforeprint", () => view?.print());
  addEventListener("keydown", (event) => {
    if (event.key === "/" && !event.target.closest("input, select")) {
      element("transfer-filters").querySelector("input")?.focus();
      event.preventDefault();
    }
  });
}

/** Shows the lines that the page has, or waits for files. */
function begin() {
  const hasLines = document.querySelector("#lines [data-side]") !== null;
  document.body.classList.add(hasLines ? "of-lines" : "of-files");
  element("lines").open = false;
  document.documentElement.classList.remove("loading");
  listen();
  if (hasLines) {
    showLines();
  }
}

// While the page is loaded, its lines are not laid out: they are long.
document.documentElement.classList.add("loading");
addEventListener("DOMContentLoaded", begin);

// What a console or a test calls
globalThis.tcpclkit = {
  tools: async () => Tools.of(await moduleOf(element("module").textContent)),
  open,
  session: () => view?.session,
  order: () => view?.timeline.order,
  pairLines,
};
