// Where messages lie if no times are known: by what is known of their order.

// The flag of a SESS_TERM that is an answer (RFC 9174 section 6.1)
const REPLY = 1;

/** The types of messages (RFC 9174 section 4.5), by their names in a line of `list`. */
const TYPES = {
  "xfer-segment": 1, "xfer-ack": 2, "xfer-refuse": 3, "keepalive": 4, "sess-term": 5,
  "msg-reject": 6, "sess-init": 7,
};

/** Returns the value of a word that two hexadecimal digits spell, or NaN. */
const codeOf = (message, name) => parseInt(valuesOf(message.words)[name], 16);

/**
 * The order of the messages of both sides, as a scale of bytes: each side sends one byte after
 * another, and an answer begins after the message that it answers. So no message lies before one
 * that is known to come first.
 */
class Order {
  constructor(sides) {
    this.sides = sides;
    // Where each message ends, and which message of the other side it answers
    this.ends = sides.map(() => []);
    this.causes = sides.map((side, index) => causesOf(side, sides[1 - index]));
    this.merge();
    this.length = Math.max(1, ...sides.map((it) => this.at(it, it.length)));
  }

  /** Places the messages. If each side waits for the other, one of them does not wait. */
  merge() {
    const isLeft = (index) => this.ends[index].length < this.sides[index].messages.length;
    const indexes = [...this.sides.keys()];
    for (let left; (left = indexes.filter(isLeft)).length > 0;) {
      if (left.every((it) => this.waitOf(it) === null)) {
        this.place(left[0]);
      }
      for (const index of left) {
        while (isLeft(index) && this.waitOf(index) !== null) {
          this.place(index);
        }
      }
    }
  }

  /** Returns where the message ends for which the next one of a side waits. Null if it is not placed. */
  waitOf(index) {
    const cause = this.causes[index](this.ends[index].length);
    return cause === null ? 0 : this.ends[1 - index][cause] ?? null;
  }

  place(index) {
    const ends = this.ends[index];
    const { offset, end } = this.sides[index].messages[ends.length];
    ends.push(Math.max(ends[ends.length - 1] ?? 0, this.waitOf(index) ?? 0) + end - offset);
  }

  /** Returns where the byte before an offset lies. */
  at(side, offset) {
    const index = firstAtLeast(side.offsets, offset) - 1;
    return index < 0
      ? offset
      : this.ends[this.sides.indexOf(side)][index] + offset - side.messages[index].end;
  }
}

/** Returns which message of the other side each message of a side answers: by index, or null. */
function causesOf(side, other) {
  const isTerm = (it) => it.kind === "sess-term";
  const first = (test) => {
    const index = other?.messages.findIndex(test) ?? -1;
    return index < 0 ? null : index;
  };
  const term = first((it) => isTerm(it) && !(codeOf(it, "flags") & REPLY));
  const rejected = new Map();
  return (index) => {
    const message = side.messages[index];
    if (isTerm(message) && codeOf(message, "flags") & REPLY) {
      return term;
    }
    if (message.kind === "msg-reject") {
      const header = codeOf(message, "header");
      if (!rejected.has(header)) {
        rejected.set(header, first((it) => TYPES[it.kind] === header));
      }
      return rejected.get(header);
    }
    return message.cause;
  };
}
