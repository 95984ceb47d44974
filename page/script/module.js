// The proved tools, as a module of WebAssembly with 64-bit memory. docs/LIBRARIES.md says how it is
// called.

// Statuses of a call (include/tcpclkit.h)
const OK = 0;
const TOO_SMALL = 5;

// The options of each tool, in the order of their numbers
const OPTIONS = {
  list: [],
  unpack: ["only_one", "transfer", "payload", "keep_going"],
  blocks: ["only_one", "transfer", "keep_going", "bundles"],
  check: [
    "must", "has_peer_segment", "peer_segment", "has_peer_transfer", "peer_transfer", "bundles",
  ],
};
const MOST_OPTIONS = 6;

// The bytes of a page of memory, of the numbers that a run writes, and of the first room of a text
const PAGE = 65536n;
const ANSWER = 24n;
const ROOM = 1n << 16n;

/** Returns the bytes that a text in base64 spells. */
function decoded(text) {
  const letters = atob(text.trim());
  const bytes = new Uint8Array(letters.length);
  for (let at = 0; at < bytes.length; at += 1) {
    bytes[at] = letters.charCodeAt(at);
  }
  return bytes;
}

/** The tools over recordings that lie in the memory of the module. */
class Tools {
  constructor(exports) {
    this.exports = exports;
    this.answer = (exports.__heap_base.value + 15n) & ~15n;
    this.words = this.answer + ANSWER;
    this.input = this.words + 8n * BigInt(MOST_OPTIONS);
    this.length = 0n;
  }

  /** Makes the tools of a compiled module. */
  static async of(module) {
    return new Tools((await WebAssembly.instantiate(module, {})).exports);
  }

  /** Makes room for this many bytes of memory. */
  reserve(size) {
    const lacks = size - BigInt(this.exports.memory.buffer.byteLength);
    if (lacks > 0n) {
      this.exports.memory.grow((lacks + PAGE - 1n) / PAGE);
    }
  }

  /** Puts a recording into the memory. The runs after it read this recording. */
  take(bytes) {
    this.reserve(this.input + BigInt(bytes.length));
    new Uint8Array(this.exports.memory.buffer, Number(this.input), bytes.length).set(bytes);
    this.length = BigInt(bytes.length);
  }

  /** Runs a tool. Returns its exit status, and the texts that are wanted as bytes. */
  run(tool, options = {}, wants = { output: true, report: true }) {
    const names = OPTIONS[tool];
    const room = { output: wants.output ? ROOM : 0n, report: wants.report ? ROOM : 0n };
    for (;;) {
      const output = this.input + this.length;
      const report = output + room.output;
      this.reserve(report + room.report);
      const memory = this.exports.memory.buffer;
      const numbers = new BigUint64Array(memory, Number(this.words), MOST_OPTIONS);
      numbers.set(names.map((name) => BigInt(options[name] ?? 0)));
      const words = names.length > 0 ? [this.words, BigInt(names.length)] : [];
      const status = this.exports[tool](
        this.input, this.length, ...words,
        wants.output ? 1n : 0n, output, room.output, wants.report ? 1n : 0n, report, room.report,
        this.answer,
      );
      const [exit, outputLength, reportLength] = new BigUint64Array(memory, Number(this.answer), 3);
      if (status === OK) {
        const text = (at, length) => new Uint8Array(memory, Number(at), Number(length)).slice();
        return {
          status: Number(exit),
          output: text(output, wants.output ? outputLength : 0n),
          report: text(report, wants.report ? reportLength : 0n),
        };
      }
      if (status !== TOO_SMALL) {
        throw new Error(`the module refused the options of ${tool}`);
      }
      room.output = wants.output ? outputLength : 0n;
      room.report = wants.report ? reportLength : 0n;
    }
  }
}
