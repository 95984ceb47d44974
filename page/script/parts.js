// The parts of the page: sides, numbers, transfers and messages of a session.

/** Makes a link to a message. */
function linkTo(message, chosen, text) {
  const choose = () => chosen.message(message);
  return make("button", { class: "link", title: `${message.kind} ${message.words}`, onclick: choose },
    text ?? `${message.side.name} ${message.offset} ${message.kind}`);
}

// ---- numbers

/** Makes the ten numbers. */
function numbersView(session) {
  return numbersOf(session).map(([name, value, detail, isBad]) =>
    make("div", { class: isBad ? "bad" : null },
      make("dt", {}, name), make("dd", {}, value), make("dd", { class: "quiet" }, detail)));
}

/** Makes the lines of a side: its node, its file and its length, its parameters, and its fault. */
function sideView(side) {
  const fault = faultOf(side);
  const most = counted(MOST_MESSAGES);
  return make("div", { class: "side" },
    make("p", {}, make("b", {}, side.name), ` ${side.node ?? "no node ID"} `,
      make("span", { class: "quiet" }, `${side.file}, ${bytesText(side.length)}`)),
    make("p", { class: "parameters" }, ...parametersOf(side)),
    fault && make("p", { class: fault.isWrong ? "fault" : "note" }, fault.sentence),
    side.lacks && make("p", { class: "note" }, `Only its first ${most} messages are shown.`));
}

/** Makes the parameters that a side offers: a name, a value, and what it means. */
function parametersOf(side) {
  const { init } = side;
  const tls = side.canUseTls ? [["contact header", "CAN_TLS", "this side can use TLS"]] : [];
  const parameters = init === null ? [["", "no SESS_INIT", "so it offers no parameters"]] : [
    ["keepalive", `${init.keepalive} s`, "after this time without a message, a KEEPALIVE is due"],
    ["segment MRU", mruText(init["segment-mru"]), "the most data that this side takes in a segment"],
    ["transfer MRU", mruText(init["transfer-mru"]), "the most data that this side takes in a transfer"],
    ["extension items", init.items, "which are listed in the SESS_INIT"],
  ].filter(([name, value]) => name !== "extension items" || value !== "0");
  return [...parameters, ...tls].flatMap(([name, value, title]) =>
    [make("span", { title }, name && `${name} `, make("b", {}, value)), " "]);
}

/** Returns a limit of a side as a text. The greatest one is no limit. */
function mruText(digits) {
  const value = BigInt(digits);
  return value === 2n ** 64n - 1n ? "unlimited" : `${FORMAT.format(value)} bytes`;
}

/** Returns the interval of KEEPALIVEs on which both sides agree, as a text, or null. */
function agreedText({ sides }) {
  const intervals = sides.map((it) => it.init && Number(it.init.keepalive));
  if (sides.length < 2 || intervals.includes(null)) {
    return null;
  }
  const least = Math.min(...intervals);
  const why = new Set(intervals).size > 1 ? ", the smaller interval of both sides" : "";
  return least === 0
    ? "No KEEPALIVE is due, since a side offers 0 s."
    : `A KEEPALIVE is due after ${least} s${why}.`;
}

// ---- transfers

const identityOf = (transfer, name) => transfer.values[name] ?? null;
const OUTCOMES = {
  acknowledged: "acknowledged", refused: "refused", lost: "lost", unanswered: "no answer",
};

/** Returns the kind of a transfer's outcome. */
const outcomeKind = (transfer) => transfer.outcome?.split(" ")[0] ?? null;

/** Makes a badge with the kind of a judgement. */
function badge(kind, text) {
  return make("span", { class: `badge ${kind}` }, text);
}

function judgementView(transfer) {
  const text = transfer.text;
  const shown = text === null ? "cut" : transfer.kind === "good" ? "good" : text;
  return badge(transfer.kind, shown);
}

function outcomeView(transfer) {
  if (transfer.outcome === null) {
    return "";
  }
  const reason = transfer.outcome.split("reason=")[1];
  return badge(outcomeKind(transfer),
    reason ? `refused: ${reasonText(reason)}` : OUTCOMES[transfer.outcome]);
}

/** Returns when the last byte of a transfer was captured, and how much later its answer. */
function timesOf(transfer, session) {
  const sent = transfer.side.clock?.at(transfer.end) ?? null;
  const other = session.other(transfer.side);
  const answered = transfer.answer ? other.clock?.at(transfer.answer.end) ?? null : null;
  return { sent, late: sent !== null && answered !== null ? answered - sent : null };
}

function transferColumns(session) {
  const first = session.period?.[0];
  const columns = [
    new Column("Side", (it) => it.side.name, undefined, "narrow"),
    new Column("ID", (it) => Number(it.ident), (it) => it.ident, "number"),
    new Column("Offset", (it) => it.offset, (it) => counted(it.offset), "number optional"),
    new Column("Length", (it) => it.length, (it) => counted(it.length), "number optional"),
    new Column("Data", (it) => it.text ?? "cut", judgementView),
    new Column("Answer", (it) => it.outcome, outcomeView),
    new Column("Source", (it) => identityOf(it, "source"), undefined, "optional"),
    new Column("Destination", (it) => identityOf(it, "destination"), undefined, "optional"),
    new Column("Broken rules", (it) => it.broken.length, (it) => brokenNames(it, session)),
  ];
  if (first !== undefined) {
    columns.push(
      new Column("Sent, s", (it) => timesOf(it, session).sent,
        (it) => (timesOf(it, session).sent - first).toFixed(3), "number optional"),
      new Column("Answered, s", (it) => timesOf(it, session).late,
        (it) => signedText(timesOf(it, session).late), "number optional"));
  }
  const ofTwo = ["Side", "Answer"];
  return session.sides.length > 1 ? columns : columns.filter((it) => !ofTwo.includes(it.title));
}

const signedText = (value) =>
  value === null ? "" : `${value < 0 ? "−" : "+"}${Math.abs(value).toFixed(3)}`;

/** Makes what a transfer shows when it is unfolded. `blocks` are the lines of its blocks. */
function transferView(transfer, blocks, session, chosen) {
  const said = [transfer.outcome, transfer.text ?? "cut by the fault of the recording"];
  const parts = [make("p", { class: "line" }, said.filter(Boolean).join(" "))];
  const rules = transfer.broken.map((it) => make("li", {}, brokenView(it, session, chosen)));
  if (rules.length > 0) {
    parts.push(make("h4", {}, "Broken rules"), make("ul", {}, rules));
  }
  const rows = blocks.filter((it) => !/^\d+ end /.test(it)).map(blockOf);
  parts.push(make("h4", {}, rows.length > 0 ? "Blocks" : "No block is whole"));
  if (rows.length > 0) {
    parts.push(make("div", { class: "scroll" }, blocksView(rows, transfer, chosen)));
  }
  parts.push(make("h4", {}, "Messages"),
    make("p", { class: "links" }, messagesOf(transfer, session, chosen)));
  return parts;
}

/** Makes the table of some blocks. */
function blocksView(rows, transfer, chosen) {
  const known = ["at", "length", "type", "flags", "check"];
  const cells = (block) => {
    const { number, values } = block;
    const words = block.line.split(" ").slice(number === null ? 2 : 3);
    const shown = words.filter((it) => !known.includes(it.split("=")[0])).join(" ");
    const choose = () => chosen.block(block, transfer);
    const name = number === null ? "primary" : `block ${number}`;
    return [
      make("button", { class: "link", onclick: choose }, name),
      values.type ?? "", values.at, values.length, values.flags, values.check,
      make("span", { class: "line" }, shown),
    ];
  };
  const heads = ["Block", "Type", "At", "Length", "Flags", "Check", "Content"];
  const rowOfCells = (block) => make("tr", {}, ...cells(block).map((it) => make("td", {}, it)));
  return make("table", { class: "blocks" },
    make("thead", {}, make("tr", {}, ...heads.map((it) => make("th", { scope: "col" }, it)))),
    make("tbody", {}, ...rows.map(rowOfCells)));
}

// How many links to messages a transfer has
const LINKS = 50;

/** Makes links to the segments of a transfer, and to the answer that decides it. */
function messagesOf(transfer, session, chosen) {
  const { side } = transfer;
  const links = [];
  for (const message of side.messages.slice(transfer.index)) {
    if (message.offset >= transfer.end || links.length > LINKS) {
      break;
    }
    const event = eventOf(message);
    if (event?.type === "segment" && event.ident === transfer.ident) {
      links.push(linkTo(message, chosen));
    }
  }
  if (links.length > LINKS) {
    links[LINKS] = `and ${counted(transfer.segments - LINKS)} more`;
  }
  const answer = transfer.answer && session.other(side).messageAt(transfer.answer.offset);
  if (answer) {
    links.push(linkTo(answer, chosen));
  }
  return links.flatMap((it) => [it, " "]);
}

// ---- messages

function messageColumns(session) {
  const first = session.period?.[0];
  const columns = [
    new Column("Side", (it) => it.side.name, undefined, "narrow"),
    new Column("Offset", (it) => it.offset, (it) => counted(it.offset), "number"),
    new Column("Message", (it) => it.kind),
    new Column("Fields", (it) => it.words, (it) => make("span", { class: "line" }, it.words)),
  ];
  if (first !== undefined) {
    const time = (it) => it.side.clock.at(it.end);
    const shown = (it) => (time(it) === null ? "" : (time(it) - first).toFixed(3));
    columns.splice(2, 0, new Column("Time, s", time, shown, "number"));
  }
  return session.sides.length > 1 ? columns : columns.slice(1);
}
