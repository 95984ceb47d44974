// What words of the lines mean, for people.

/** What the words of a broken rule mean. A name after a rule's is for this rule alone. */
const MEANINGS = {
  "age": "the age of the bundle, in milliseconds",
  "announced": "the length that the transfer announces, in bytes",
  "ack-length before": "the length that was acknowledged before",
  "before": "the ID of the refused transfer with the same data",
  "block": "the number of the block in its bundle",
  "blocks": "how many blocks of this type the bundle has",
  "bundle": "the number of the bundle, from 0",
  "byte": "the offset of the fault in the bundle",
  "code": "which fault the bundle has",
  "context": "the number of the security context",
  "count": "how many hops were counted",
  "early": "how many seconds before the last byte of its segment",
  "fault": "how the message is out of order",
  "flags": "the flags, in hexadecimal",
  "header": "the type byte of the message that was rejected",
  "id": "the ID of the transfer",
  "interval": "the keepalive interval, in seconds",
  "item": "the number of the extension item, from 0",
  "ack-sum length": "the length that was acknowledged, in bytes",
  "ack-length length": "the length that was acknowledged, in bytes",
  "ack-beyond length": "the length that was acknowledged, in bytes",
  "node-id length": "the length of the node ID, in bytes",
  "node-name length": "the length of the node ID, in bytes",
  "length": "the length of the data, in bytes",
  "lifetime": "the lifetime of the bundle, in milliseconds",
  "hop-count limit": "the limit of hops in the block",
  "hops limit": "the limit of hops in the block",
  "limit": "the most that the other side accepts: the MRU in its SESS_INIT, in bytes",
  "of": "whose name it is",
  "offset": "the offset of the fragment",
  "open": "the ID of the transfer that was open",
  "peer-at": "the offset of the other side's message that this is about, in its recording",
  "peer-flags": "the flags of the SESS_TERM that was answered",
  "peer-interval": "the keepalive interval in the other side's SESS_INIT, in seconds",
  "peer-reason": "the reason code of the SESS_TERM that was answered",
  "reason": "the reason code, in hexadecimal",
  "seconds": "how many seconds passed",
  "seen": "how many bytes of the other side had arrived",
  "segment": "the flags of the segment that is acknowledged",
  "segments": "how many segments the transfer has",
  "sent": "how many bytes the transfer has",
  "sum": "how many bytes the segments have up to this one",
  "target": "the number of the block that is the target",
  "total": "the length of the bundle's whole payload",
  "item-type type": "the type of the extension item",
  "block-type type": "the type of the block",
  "record-type type": "the type of the administrative record",
  "type": "the type byte of the message",
  "unanswered": "the ID of the earlier transfer that has no answer",
  "version": "the version in the other side's contact header",
};

/** Returns what a word of a broken rule means, or undefined. */
const meaningIn = (rule, name) => MEANINGS[`${rule} ${name}`] ?? MEANINGS[name];

// The type byte with which TLS begins
const HANDSHAKE = 0x16;

/** Whether a word of a broken rule is the type byte of a message, in hexadecimal. */
const isType = (rule, name) =>
  name === "header" || (name === "type" && MEANINGS[`${rule} type`] === undefined);

/** Returns the name of the type of a message, by the two digits of its type byte. */
function typeName(digits) {
  const code = parseInt(digits, 16);
  const kind = Object.keys(TYPES).find((it) => TYPES[it] === code);
  return code === HANDSHAKE ? "TLS" : kind ? kind.toUpperCase().replace("-", "_") : "no type";
}

/** Returns a reason of a line, `HH/NAME`, as `NAME (0xHH)`. */
function reasonText(reason) {
  const [code, name] = reason.split("/");
  const isVague = name === "unknown" || name === "?";
  return isVague ? `reason ${name === "?" ? "without a name" : name} (0x${code})` : `${name} (0x${code})`;
}

/**
 * Returns where the reading of a side ended early: a sentence, a few words, and whether the side is
 * wrong. Null if it was read to its end.
 */
function faultOf({ name, length, fault }) {
  if (fault === null) {
    return null;
  }
  const version = /^unsupported version (\d+)$/.exec(fault.text)?.[1];
  if (version !== undefined) {
    const words = `offers version ${version}`;
    return {
      sentence: `Side ${name} ${words} of TCPCL. Only version 4 is read here.`,
      title: ["side ", name, ` ${words}, which is not read here`], words, isWrong: false,
    };
  }
  const at = counted(fault.offset);
  const inside = fault.offset > 0 ? `the message at byte ${at}` : "the contact header";
  const [words, text] = fault.text === "truncated"
    ? length > 0 ? ["cut", `ends inside ${inside}`] : ["empty", "is empty"]
    : [`unreadable: ${fault.text}`, `cannot be read from byte ${at} on: ${fault.text}`];
  return {
    sentence: `The recording of side ${name} ${text}.`,
    title: [`the recording of ${name} ${text}`], words, isWrong: fault.text !== "truncated",
  };
}

/** Returns how a side ended. */
function endName(side) {
  const { term, end } = side;
  const values = term && valuesOf(term.words);
  const kind = values && (parseInt(values.flags, 16) & REPLY ? "SESS_TERM as a reply" : "SESS_TERM");
  const parts = [faultOf(side)?.words, term && `${kind}, ${reasonText(values.reason)}`, end];
  return parts.filter(Boolean).join(", ") || "no SESS_TERM";
}

/** Returns some things as a list in a sentence: `a, b and c`. */
function listed(things) {
  const between = (index) => (index === things.length - 1 ? " and " : ", ");
  return things.flatMap((it, index) => (index === 0 ? [it] : [between(index), it]));
}
