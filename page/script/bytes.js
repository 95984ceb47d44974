// The bytes of a message or a block in hexadecimal, with its fields marked.

// How many bytes are shown at once, and how many in a row
const SHOWN = 4096;
const ROW = 16;

/** Marks fields, one after another. A field that is cut ends where the bytes end. */
class Marker {
  constructor(bytes) {
    this.bytes = bytes;
    this.at = 0;
    this.fields = [];
  }

  /** Marks a field, and returns its value as a number. */
  take(name, length, show = String) {
    const from = this.at;
    const to = Math.min(from + length, this.bytes.length);
    this.at = to;
    if (to > from) {
      const value = numberIn(this.bytes, from, to);
      this.fields.push({ name, from, to, text: to - from === length ? show(value) : "cut" });
      return value;
    }
    return 0n;
  }

  /** Marks bytes that are no number. */
  pass(name, length) {
    return this.take(name, length, () => several(length, "byte"));
  }
}

/** Returns the number that bytes spell, the first one most significant; 0 for more than eight. */
function numberIn(bytes, from, to) {
  let value = 0n;
  for (let at = from; at < to && to - from <= 8; at += 1) {
    value = (value << 8n) | BigInt(bytes[at]);
  }
  return value;
}

const hex = (digits) => (value) => value.toString(16).padStart(digits, "0");
const flags = (...names) => (value) => {
  const set = names.filter(([bit]) => value & bit).map(([, name]) => name);
  return [hex(2)(value), ...set].join(" ");
};

// ---- messages (RFC 9174)

const OF_TRANSFER = [[1n, "END"], [2n, "START"]];

/** Marks an extension list (sections 4.8 and 5.2.5). */
function markList(marker) {
  const end = Number(marker.take("list length", 4));
  for (const last = marker.at + end; marker.at < Math.min(last, marker.bytes.length);) {
    marker.take("item flags", 1, flags([1n, "CRITICAL"]));
    marker.take("item type", 2, hex(4));
    marker.take("item value", Number(marker.take("item length", 2)));
  }
}

const MARKED = {
  1: (marker) => {
    const set = marker.take("flags", 1, flags(...OF_TRANSFER));
    marker.take("transfer ID", 8);
    if (set & 2n) {
      markList(marker);
    }
    marker.pass("data", Number(marker.take("data length", 8)));
  },
  2: (marker) => {
    marker.take("flags", 1, flags(...OF_TRANSFER));
    marker.take("transfer ID", 8);
    marker.take("acknowledged length", 8);
  },
  3: (marker) => {
    marker.take("reason", 1, hex(2));
    marker.take("transfer ID", 8);
  },
  4: () => {},
  5: (marker) => {
    marker.take("flags", 1, flags([1n, "REPLY"]));
    marker.take("reason", 1, hex(2));
  },
  6: (marker) => {
    marker.take("reason", 1, hex(2));
    marker.take("rejected type", 1, hex(2));
  },
  7: (marker) => {
    marker.take("keepalive interval", 2, (it) => `${it} s`);
    marker.take("segment MRU", 8);
    marker.take("transfer MRU", 8);
    marker.pass("node ID", Number(marker.take("node ID length", 2)));
    markList(marker);
  },
};

/** Returns the fields of a message or of the contact header. */
function fieldsOfMessage(message, bytes) {
  const marker = new Marker(bytes);
  if (message.kind === "contact") {
    marker.pass("magic", 4);
    marker.take("version", 1);
    marker.take("flags", 1, flags([1n, "CAN_TLS"]));
  } else {
    const type = marker.take("type", 1, (it) => `${hex(2)(it)} ${message.kind}`);
    MARKED[type]?.(marker);
  }
  return marker.fields;
}

// ---- blocks (RFC 9171)

/** Returns the length of the head of an item, its major type and its value (RFC 8949 section 3). */
function headAt(bytes, at) {
  const first = bytes[at] ?? 0;
  const size = [1, 2, 4, 8][(first & 31) - 24] ?? 0;
  const value = size > 0 ? numberIn(bytes, at + 1, at + 1 + size) : BigInt(first & 31);
  return { length: 1 + size, major: first >> 5, value };
}

/** Returns the length of a whole item of a block. */
function itemLength(bytes, at) {
  const head = headAt(bytes, at);
  let length = head.length;
  if (head.major === 2 || head.major === 3) {
    length += Number(head.value);
  }
  let items = head.major === 4 ? Number(head.value) : 0;
  for (; items > 0 && at + length < bytes.length; items -= 1) {
    length += itemLength(bytes, at + length);
  }
  return length;
}

const PRIMARY = [
  "version", "flags", "check type", "destination", "source", "report-to", "creation timestamp",
  "lifetime",
];
const FRAGMENT = ["fragment offset", "total length"];
const CANONICAL = ["block type", "block number", "flags", "check type"];

/** Marks whole items by their names. `values` are those of the block's line. */
function markItems(marker, names, values) {
  for (const name of names) {
    const { major, value } = headAt(marker.bytes, marker.at);
    const length = itemLength(marker.bytes, marker.at);
    const stamp = name === "creation timestamp" ? `${values.time} ${values.sequence}` : undefined;
    const other = major === 0 ? String(value) : several(length, "byte");
    marker.take(name, length, () => values[name] ?? stamp ?? other);
  }
}

/** Returns the fields of a block by the words of its line. */
function fieldsOfBlock(block, bytes) {
  const marker = new Marker(bytes);
  marker.pass("array", headAt(bytes, 0).length);
  if (block.number === null) {
    markItems(marker, [...PRIMARY, ...("fragment" in block.values ? FRAGMENT : [])], block.values);
  } else {
    markItems(marker, CANONICAL, block.values);
    marker.pass("data length", headAt(bytes, marker.at).length);
    marker.pass("data", Number(block.values["data-length"]));
  }
  if (block.values.check !== "none") {
    markItems(marker, ["check value"], block.values);
  }
  return marker.fields;
}

/** Returns the block of a line of `blocks`. `number` is null for the primary block. */
function blockOf(line) {
  const [, what, number] = line.split(" ");
  const values = valuesOf(line);
  return { number: what === "primary" ? null : number, values, line };
}

/** Returns bytes of the data of a transfer: its segments joined, between two offsets. */
function dataOfTransfer(transfer, from, to) {
  const { messages, bytes } = transfer.side;
  const data = new Uint8Array(Math.max(0, to - from));
  let begin = 0;
  for (let index = transfer.index; index < messages.length && begin < to; index += 1) {
    const segment = messages[index].kind === "xfer-segment" ? eventOf(messages[index]) : null;
    if (segment === null || segment.ident !== transfer.ident || segment.end > transfer.end) {
      continue;
    }
    const first = Math.max(from, begin);
    const last = Math.min(to, begin + segment.length);
    if (first < last) {
      const at = segment.end - segment.length - begin;
      data.set(bytes.subarray(at + first, at + last), first - from);
    }
    begin += segment.length;
  }
  return data;
}

// ---- the view

/** Returns the parts of fields in a row: the number of the field, and where the part begins and ends. */
function partsOf(fields, from, to) {
  const parts = [];
  let at = from;
  for (const [index, field] of fields.entries()) {
    if (field.to > at && field.from < to) {
      parts.push({ index, from: at, to: Math.min(field.to, to) });
      at = Math.min(field.to, to);
    }
  }
  return at < to ? [...parts, { index: null, from: at, to }] : parts;
}

const pairOf = (byte) => byte.toString(16).padStart(2, "0");
const letterOf = (byte) => (byte > 0x20 && byte < 0x7f ? String.fromCharCode(byte) : "·");

/** Returns the attributes of a part of a field, by the number of the field. */
const markOf = (index) =>
  index === null ? {} : { class: `field tint${index % 4}`, "data-field": index };

/** Makes a row of bytes: its offset, the bytes in hexadecimal, and their letters. */
function byteRow(bytes, fields, base, from) {
  const to = Math.min(from + ROW, bytes.length);
  const part = (show, between) => partsOf(fields, from, to).map((it) =>
    make("span", markOf(it.index), Array.from(bytes.subarray(it.from, it.to), show).join(between)));
  const digits = part(pairOf, " ").flatMap((it) => [it, " "]);
  const blanks = "   ".repeat(ROW - (to - from));
  return make("div", { class: "bytes-row" },
    make("span", { class: "at" }, String(base + from).padStart(6)),
    make("span", { class: "digits" }, ...digits, blanks),
    make("span", { class: "letters" }, ...part(letterOf, "")));
}

/** Makes the rows of some bytes. Those after the first ones are made when they are asked for. */
function bytesView(bytes, fields, base) {
  const view = make("div", { class: "bytes", tabindex: "0", role: "group", "aria-label": "bytes" });
  const more = (from) => {
    const to = Math.min(from + SHOWN, bytes.length);
    for (let at = from; at < to; at += ROW) {
      view.append(byteRow(bytes, fields, base, at));
    }
    if (to < bytes.length) {
      const left = make("button", { onclick: () => { left.remove(); more(to); } },
        `Show more of ${several(bytes.length - to, "byte")}`);
      view.append(left);
    }
  };
  more(0);
  return view;
}

/** Makes the list of some fields. */
function fieldsView(fields, base) {
  const rows = fields.map((field, index) => make("tr", { "data-field": index },
    make("td", { class: "number" }, String(base + field.from)),
    make("td", {}, make("span", { class: `field tint${index % 4}` }, field.name)),
    make("td", { class: "value" }, field.text)));
  return make("table", { class: "fields" },
    make("thead", {}, make("tr", {}, ...["At", "Field", "Value"].map((it) => make("th", {}, it)))),
    make("tbody", {}, ...rows));
}
