// Which answer of one side is to which transfer of the other. `tcpclkit-pair --help` says how.

/** A transfer: what its segments say, and which answer it got. */
class Transfer {
  constructor(side, segment, index) {
    this.side = side;
    this.ident = segment.ident;
    this.offset = segment.offset;
    this.index = index;
    this.segments = 0;
    this.length = 0;
    this.end = segment.end;
    this.isOver = false;
    this.isAbandoned = false;
    this.isCut = false;
    this.answers = 0;
    this.answer = null;
    // Of each segment, the index of its message, and the sum of the lengths up to it
    this.indexes = [];
    this.sums = [];
    this.text = null;
    this.broken = [];
  }

  /** The words `NAME=VALUE` of its line. */
  get values() {
    this.words ??= valuesOf(this.text ?? "");
    return this.words;
  }

  add(segment, index) {
    this.segments += 1;
    this.length += segment.length;
    this.end = segment.end;
    this.indexes.push(index);
    this.sums.push(this.length);
  }

  /** Counts an answer, whose message then names this transfer and the message that it answers. */
  tie(answer) {
    answer.message.transfer = this;
    answer.message.cause = this.causeOf(answer);
    this.answers += 1;
  }

  /**
   * Returns the index of the message that an answer is to. The next XFER_ACK answers the next
   * segment, or a later one if it has the sum of the lengths up to that.
   */
  causeOf(answer) {
    const next = Math.min(this.answers, this.segments - 1);
    if (answer.reason !== null) {
      return this.indexes[0];
    }
    const reached = firstAtLeast(this.sums, answer.length);
    return this.indexes[this.sums[reached] === answer.length ? Math.max(next, reached) : next];
  }

  /** Returns whether an answer acknowledges all of the transfer. */
  endsWith(answer) {
    return (answer.flags & END) !== 0
      && (answer.length === this.length || (this.isCut && answer.length > this.length));
  }
}

/** Returns the transfers of a side. The last one is abandoned or cut if it is open at the end. */
function transfersOf(side, isClosed) {
  const transfers = [];
  let open = null;
  const close = (why) => {
    if (open !== null) {
      open.isOver = true;
      open.isAbandoned = why === "abandoned";
      open.isCut = why === "cut";
    }
    open = null;
  };
  for (const [index, message] of side.messages.entries()) {
    const segment = message.kind === "xfer-segment" ? eventOf(message) : null;
    if (segment === null) {
      continue;
    }
    const isOpen = open !== null && open.ident === segment.ident;
    if (segment.flags & START) {
      close("abandoned");
      open = new Transfer(side, segment, index);
      transfers.push(open);
    } else if (!isOpen) {
      continue;
    }
    open.add(segment, index);
    if (segment.flags & END) {
      close("over");
    }
  }
  close(isClosed && side.fault === null ? "abandoned" : "cut");
  return transfers;
}

/** Pairs transfers with answers. */
class Pairing {
  constructor(transfers) {
    this.open = new Map();
    this.read = new Map();
    this.late = new Map();
    for (const transfer of transfers) {
      this.listOf(this.open, transfer.ident).push(transfer);
    }
  }

  listOf(map, ident) {
    if (!map.has(ident)) {
      map.set(ident, []);
    }
    return map.get(ident);
  }

  /** Takes an answer. */
  take(answer) {
    this.listOf(this.read, answer.ident).push(answer);
    this.settle(answer.ident);
  }

  /** Decides the transfers with an ID that can be decided now. */
  settle(ident) {
    const transfers = this.open.get(ident) ?? [];
    const answers = this.read.get(ident);
    while (transfers.length > 0 && answers.length > 0) {
      if (this.spends(answers[0])) {
        answers.shift();
        continue;
      }
      this.late.delete(ident);
      const isOnly = transfers.length === 1;
      if (!isOnly && answers[0].flags & flagsOfLater(transfers[0])) {
        transfers.shift();
      } else {
        this.count(transfers, answers.shift(), isOnly);
      }
    }
  }

  /** Counts an answer to the first of the transfers, and decides it if the answer does. */
  count(transfers, answer, isOnly) {
    const [transfer] = transfers;
    transfer.tie(answer);
    if (answer.reason !== null && transfer.answers < transfer.segments) {
      this.late.set(transfer.ident, transfer);
    }
    if (answer.reason !== null || transfer.endsWith(answer)) {
      transfer.answer = answer;
      transfers.shift();
    } else if (answer.flags & END && !isOnly) {
      transfers.shift();
    }
  }

  /** Returns whether a refused transfer may still have this answer. If so, it had it. */
  spends(answer) {
    const refused = this.late.get(answer.ident);
    if (answer.flags & START || refused === undefined) {
      return false;
    }
    refused.tie(answer);
    if (refused.answers === refused.segments) {
      this.late.delete(answer.ident);
    }
    return true;
  }
}

/** Returns the flags that only an answer to a later transfer with the same ID has. */
function flagsOfLater(transfer) {
  return (transfer.isAbandoned ? END : 0) | (transfer.answers > 0 ? START : 0);
}

/** Gives each transfer of a side the answer of the other side that decides it. */
function pairSides(side, other) {
  const pairing = new Pairing(side.transfers);
  for (const message of other.messages) {
    const answer = eventOf(message);
    if (answer?.type === "answer") {
      pairing.take(answer);
    }
  }
}

/** Returns what became of a transfer, in the words of `tcpclkit-pair`. */
function outcomeOf(transfer, isEnded) {
  if (transfer.answer === null) {
    return isEnded ? "lost" : "unanswered";
  }
  const { reason } = transfer.answer;
  return reason === null ? "acknowledged" : `refused reason=${reason}`;
}

/** Returns the lines of `tcpclkit-pair`. */
function pairLines(side) {
  return side.transfers
    .map((it) => `transfer ${it.ident} offset=${it.offset} length=${it.length} ${it.outcome}\n`)
    .join("");
}
