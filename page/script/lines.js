// The lines of the tools. docs/FORMATS.md and docs/SESSIONS.md say what they mean.

const SEGMENT = /^flags=(..) id=(\d+)(?: items=.*)? length=(\d+)$/;
const ACK = /^flags=(..) id=(\d+) length=(\d+)$/;
const REFUSE = /^reason=(\S+) id=(\d+)$/;
const RULE = /^(?:([ab]) )?(\d+) (must|should) (\S+) ?(.*)$/;
const FAULT = /^tcpclkit: byte (\d+): (.*)$/;
const ANSWERED = /^transfer \d+ offset=(\d+) length=\d+ (\S+)(?: reason=(\S+))?$/;

// Flags of a segment and of an acknowledgement (RFC 9174 sections 5.2.2 and 5.2.3)
const END = 1;
const START = 2;

// The text of a tool is decoded in pieces of this length.
const PIECE = 1 << 20;

/** Yields the lines of a text, which are bytes or a string. */
function* linesOf(text) {
  if (typeof text === "string") {
    yield* wholeLines(text);
    return;
  }
  const decoder = new TextDecoder("latin1");
  let rest = "";
  for (let at = 0; at < text.length; at += PIECE) {
    rest += decoder.decode(text.subarray(at, at + PIECE));
    const end = rest.lastIndexOf("\n") + 1;
    yield* wholeLines(rest.slice(0, end));
    rest = rest.slice(end);
  }
}

/** Yields the lines of a string, each of which ends with a newline. */
function* wholeLines(text) {
  for (let from = 0, to; (to = text.indexOf("\n", from)) >= 0; from = to + 1) {
    yield text.slice(from, to);
  }
}

/** Returns the values of the words `NAME=VALUE` of a line by their names. */
function valuesOf(words) {
  const values = {};
  for (const word of words.split(" ")) {
    const at = word.indexOf("=");
    if (at > 0) {
      values[word.slice(0, at)] = word.slice(at + 1);
    }
  }
  return values;
}

/** Returns the message of a line of `list`. */
function messageOf(line, side) {
  const first = line.indexOf(" ");
  const second = line.indexOf(" ", first + 1);
  const kind = second < 0 ? line.slice(first + 1) : line.slice(first + 1, second);
  return {
    side,
    offset: Number(line.slice(0, first)),
    kind,
    words: second < 0 ? "" : line.slice(second + 1),
    end: 0,
    // Of an answer: its transfer, and the index of the other side's message that it answers
    transfer: null,
    cause: null,
  };
}

/** Returns the fields of a segment or an answer that pairing needs, or null for another message. */
function eventOf(message) {
  const [pattern, type] =
    message.kind === "xfer-segment" ? [SEGMENT, "segment"]
    : message.kind === "xfer-ack" ? [ACK, "answer"]
    : message.kind === "xfer-refuse" ? [REFUSE, "answer"]
    : [null, null];
  const found = pattern?.exec(message.words);
  if (!found) {
    return null;
  }
  const { offset, end } = message;
  return pattern === REFUSE
    ? { type, message, offset, end, flags: 0, length: 0, reason: found[1], ident: found[2] }
    : {
        type, message, offset, end, flags: parseInt(found[1], 16), ident: found[2],
        length: Number(found[3]), reason: null,
      };
}

/** The judgements of transfers, in the order in which they are drawn, with their names. */
const JUDGEMENTS = {
  good: "good bundle",
  abandoned: "abandoned",
  open: "cut by a fault",
  length: "length differs",
  bad: "bad bundle",
};

/** Returns the kind of a judgement of `unpack`. */
function judgementOf(text) {
  if (text === null) {
    return "open";
  }
  const word = text.split(/[ =]/, 1)[0];
  return { "good": "good", "bad": "bad", "abandoned": "abandoned" }[word] ?? "length";
}

/** Returns what a line of `unpack` says of a transfer: the length of its data, and a judgement. */
function dataOf(line) {
  const [, length, text] = /^transfer \d+ start=\d+ written=\d+ length=(\d+) (.*)$/.exec(line);
  return { length: Number(length), text };
}

/** Returns the rule that a line of `check` or `check-session` says is broken. */
function brokenOf(line, side) {
  const [, name, offset, level, rule, words] = RULE.exec(line);
  return { side: name ?? side, offset: Number(offset), level, rule, words };
}

/** Yields the lines of the blocks of each transfer. All but the last have a line of their end. */
function* blocksOf(text) {
  let lines = [];
  for (const line of linesOf(text)) {
    lines.push(line);
    if (/^\d+ end /.test(line)) {
      yield lines;
      lines = [];
    }
  }
  if (lines.length > 0) {
    yield lines;
  }
}
