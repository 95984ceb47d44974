// A session as the lines say it: its sides, their messages and transfers, and the rules they break.

// Of how many messages of a side the page keeps the lines
const MOST_MESSAGES = 500000;

/** When the bytes of a side were captured. */
class Clock {
  constructor(text) {
    this.offsets = [];
    this.seconds = [];
    for (const line of linesOf(text)) {
      const [offset, seconds] = line.split(" ").map(Number);
      this.offsets.push(offset);
      this.seconds.push(seconds);
    }
  }

  /** Returns the time by which all bytes before an offset had come, or null. */
  at(offset) {
    return this.seconds[firstAtLeast(this.offsets, offset)] ?? null;
  }

  get first() {
    return this.seconds[0];
  }

  get last() {
    return this.seconds[this.seconds.length - 1];
  }
}

/** Returns the index of the first of some rising numbers that is not below another one. */
function firstAtLeast(numbers, least) {
  let from = 0;
  let to = numbers.length;
  while (from < to) {
    const middle = (from + to) >> 1;
    if (numbers[middle] < least) {
      from = middle + 1;
    } else {
      to = middle;
    }
  }
  return from;
}

/** What one side sent. */
class Side {
  constructor(name, file, length) {
    this.name = name;
    this.file = file;
    this.length = length;
    this.kept = null;
    this.encoded = null;
    this.clock = null;
    this.fault = null;
    this.end = null;
    this.messages = [];
    this.transfers = [];
    this.lacks = false;
    this.blocks = null;
  }

  /** The bytes, or null if the page lacks them. They are decoded when they are needed. */
  get bytes() {
    if (this.kept === null && this.encoded !== null) {
      this.kept = decoded(this.encoded.textContent);
    }
    return this.kept;
  }

  set bytes(bytes) {
    this.kept = bytes;
  }

  /** Takes the lines of `list`, and the fault of the wire that it reports, if any. */
  takeList(text, report) {
    for (const line of linesOf(text)) {
      if (this.messages.length === MOST_MESSAGES) {
        this.lacks = true;
        break;
      }
      this.messages.push(messageOf(line, this));
    }
    for (const line of linesOf(report)) {
      const found = FAULT.exec(line);
      this.fault = found ? { offset: Number(found[1]), text: found[2] } : null;
    }
    const ends = this.messages.slice(1).map((it) => it.offset);
    ends.push(this.fault?.offset ?? this.length);
    this.messages.forEach((message, index) => (message.end = ends[index]));
    this.offsets = this.messages.map((it) => it.offset);
  }

  /** Takes the report of `unpack --keep-going`, which has a line for each transfer that is over. */
  takeReport(text) {
    let index = 0;
    for (const line of linesOf(text)) {
      if (line.startsWith("transfer ") && index < this.transfers.length) {
        Object.assign(this.transfers[index], dataOf(line));
        index += 1;
      }
    }
    for (const transfer of this.transfers) {
      transfer.kind = judgementOf(transfer.text);
    }
  }

  /** Returns the message at an offset, or null. */
  messageAt(offset) {
    const index = firstAtLeast(this.offsets, offset);
    return this.offsets[index] === offset ? this.messages[index] : null;
  }

  /** The words `NAME=VALUE` of the first SESS_INIT, or null. */
  get init() {
    const init = this.messages.find((it) => it.kind === "sess-init");
    return init ? valuesOf(init.words) : null;
  }

  /**
   * Whether the recording has the beginning of its session. If that is missing, `tcpclkit-resync`
   * writes a SESS_INIT with zeros and no node ID.
   */
  get isBegun() {
    const { init } = this;
    const numbers = ["keepalive", "segment-mru", "transfer-mru", "items"];
    const isMade = init !== null && !init.node && numbers.every((it) => Number(init[it]) === 0);
    return this.messages[0]?.kind === "contact" && !isMade;
  }

  /** The node ID of the first SESS_INIT, or null. */
  get node() {
    return this.init?.node || null;
  }

  /** Whether the contact header has the flag CAN_TLS. */
  get canUseTls() {
    const [contact] = this.messages;
    return contact?.kind === "contact" && (codeOf(contact, "flags") & 1) !== 0;
  }

  /** The last SESS_TERM, or undefined. */
  get term() {
    return this.messages.findLast((it) => it.kind === "sess-term");
  }
}

// The rules of `check` that `tcpclkit-check-session` leaves out or judges otherwise: if it has both
// recordings, and for a recording without its beginning. docs/SESSIONS.md says when
const OF_BOTH = ["interleaved", "unfinished", "ack-length", "answer-order"];
const OF_BEGINNING = ["transfer-id-order", "answer-order", "keepalive", "order"];

/**
 * A session: one side or both. It is joint if its lines are of `tcpclkit-check-session`. If they are of
 * `check` for each of two recordings, some rules are undecided.
 */
class Session {
  constructor(sides) {
    this.sides = sides;
    this.broken = [];
    this.undecided = [];
    this.isJoint = false;
    this.notes = [];
  }

  other(side) {
    return this.sides.find((it) => it !== side) ?? null;
  }

  /** Finds the transfers of each side, and their answers. `closed` names the sides that closed. */
  pair(closed) {
    for (const side of this.sides) {
      side.transfers = transfersOf(side, closed.includes(side.name));
    }
    for (const side of this.sides) {
      const other = this.other(side);
      if (other !== null) {
        pairSides(side, other);
      }
      const isEnded = other !== null && closed.includes(other.name) && other.fault === null;
      for (const transfer of side.transfers) {
        transfer.outcome = other === null ? null : outcomeOf(transfer, isEnded);
      }
    }
  }

  /** Takes the lines of the rules that a side breaks, or both. */
  takeRules(text, side) {
    for (const line of linesOf(text)) {
      const broken = brokenOf(line, side?.name);
      broken.of = this.sides.find((it) => it.name === broken.side);
      broken.message = broken.of.messageAt(broken.offset);
      broken.transfer = this.transferOf(broken);
      if (this.isUndecided(broken)) {
        this.undecided.push(broken);
      } else {
        this.broken.push(broken);
        broken.transfer?.broken.push(broken);
      }
    }
  }

  /** Whether `tcpclkit-check-session` may leave out a line of `check`, or judge it otherwise. */
  isUndecided({ of, rule }) {
    const isOfTwo = this.sides.length > 1 && !this.isJoint;
    return isOfTwo && (OF_BOTH.includes(rule) || (!of.isBegun && OF_BEGINNING.includes(rule)));
  }

  /** Returns the transfer that a broken rule is about, which may be the other side's, or null. */
  transferOf({ of, message, words }) {
    const other = this.other(of);
    const { id, "peer-at": at } = valuesOf(words);
    if (message?.kind === "xfer-segment") {
      return transferAt(of, message.offset);
    }
    const isAnswer = ["xfer-ack", "xfer-refuse"].includes(message?.kind);
    if (other === null || (message && !isAnswer)) {
      return null;
    }
    const peer = at === undefined ? null : other.messageAt(Number(at));
    return message?.transfer
      ?? (peer?.kind === "xfer-segment" ? transferAt(other, peer.offset) : null)
      ?? other.transfers.findLast((it) => it.ident === id) ?? null;
  }

  get transfers() {
    return this.sides.flatMap((it) => it.transfers);
  }

  /** The first and the last time, or null if a side has no times. */
  get period() {
    if (this.sides.some((it) => it.clock === null || it.clock.seconds.length === 0)) {
      return null;
    }
    const clocks = this.sides.map((it) => it.clock);
    return [Math.min(...clocks.map((it) => it.first)), Math.max(...clocks.map((it) => it.last))];
  }
}

/** Returns the transfer of a side that has the segment at an offset, or null for a stray one. */
function transferAt(side, offset) {
  side.starts ??= side.transfers.map((it) => it.offset);
  const transfer = side.transfers[firstAtLeast(side.starts, offset + 1) - 1];
  return transfer && offset < transfer.end ? transfer : null;
}

const isRefused = (transfer) =>
  transfer.outcome?.startsWith("refused") && transfer.answer?.reason !== "01/completed";

/** Returns the ten numbers: a name, a value, what it is made of, and whether it is bad. */
function numbersOf(session) {
  const { sides, transfers, broken, period } = session;
  const some = (test) => transfers.filter(test).length;
  const total = (of) => sides.reduce((sum, it) => sum + of(it), 0);
  const isPaired = sides.length > 1;
  const each = (of) => (isPaired ? sides.map((it) => `${it.name} ${of(it)}`).join(", ") : "");
  const messages = (side) => side.messages.filter((it) => it.kind !== "contact").length;
  const good = some((it) => it.kind === "good");
  const bad = transfers.length - good;
  const gone = some((it) => it.outcome === "lost");
  const waiting = some((it) => it.outcome === "unanswered");
  const must = broken.filter((it) => it.level === "must").length;
  const seconds = period === null ? null : period[1] - period[0];
  const kinds = Object.keys(JUDGEMENTS).filter((it) => it !== "good");
  const made = kinds.map((kind) => [some((it) => it.kind === kind), JUDGEMENTS[kind]])
    .filter(([count]) => count > 0).map(([count, name]) => `${counted(count)} ${name}`);
  const bytes = total((it) => it.length);
  const share = transfers.length > 0 ? Math.floor(100 * good / transfers.length) : null;
  const answered = (name, count, detail) =>
    isPaired ? [name, counted(count), detail, count > 0] : [name, "–", "needs side b"];
  return [
    ["Messages", counted(total(messages)), each((it) => counted(messages(it)))],
    ["Transfers", counted(transfers.length), each((it) => counted(it.transfers.length))],
    ["Good", counted(good), share === null ? "" : `${share} %`],
    ["Not good", counted(bad), made.join(", "), bad > 0],
    ["Bytes", bytesText(bytes), each((it) => bytesText(it.length))],
    answered("Refused", some(isRefused), ""),
    answered("Lost or unanswered", gone + waiting, gone > 0 ? `${counted(gone)} lost` : ""),
    ["Rules broken", counted(broken.length), must > 0 ? `${counted(must)} must` : "", broken.length > 0],
    seconds === null ? ["Duration", "–", "no times"] : ["Duration", durationText(seconds), ""],
    seconds > 0 ? ["Rate", `${bytesText(bytes / seconds)}/s`, ""] : ["Rate", "–", "no times"],
  ];
}
