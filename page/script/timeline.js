// The timeline: a lane for the transfers of each side, and one for the answers of the other side.

const BAR = 26;
const TICKS = 16;
const HEADER = 18;
const GAP = 12;
const AXIS = 26;
const EDGE = 10;

// Below this width, how a side ended is on a line of its own.
const WIDE = 760;
// How wide a letter of a lane's texts is
const LETTER = 6.6;

// Narrower bars are put together: as many as begin within this width.
const NARROW = 4;

/** Where each side's bytes are on the timeline: by the time, or else by what is known of the order. */
class Scale {
  constructor(session, order, width) {
    this.period = session.period;
    this.order = order;
    this.width = width - 2 * EDGE;
    this.sides = session.sides;
  }

  /** Returns the share of the width at which the byte before an offset lies. */
  share(side, offset) {
    if (this.period === null) {
      return this.order.at(side, offset) / this.order.length;
    }
    const [first, last] = this.period;
    const seconds = side.clock.at(offset) ?? side.clock.last;
    return last > first ? (seconds - first) / (last - first) : 0;
  }

  x(side, offset) {
    return EDGE + this.share(side, offset) * this.width;
  }

  /** Returns the ticks of the axis: shares of the width, and texts. */
  ticks() {
    const span = this.period === null ? this.order.length : this.period[1] - this.period[0];
    const step = stepOf(span, Math.max(2, Math.floor(this.width / 110)));
    const ticks = [];
    for (let value = 0; span > 0 && value <= span * 1.0001; value += step) {
      const text = this.period === null ? counted(Math.round(value)) : tickText(value, step);
      ticks.push([value / span, text]);
    }
    return ticks;
  }

  get name() {
    if (this.period !== null) {
      return `Seconds after ${dateText(this.period[0])} UTC.`;
    }
    return this.sides.length === 1
      ? "Bytes of the recording. No times are given."
      : "No times are given. The axis counts bytes in the order that is known: each side sends without "
        + "a pause, and an answer follows what it answers.";
  }
}

/** Returns a round step of which about this many make the span. */
function stepOf(span, count) {
  const power = 10 ** Math.floor(Math.log10(Math.max(span, 1e-9) / count));
  return [1, 2, 5, 10].map((it) => it * power).find((it) => it * count >= span) ?? span;
}

function tickText(value, step) {
  return value.toFixed(Math.max(0, Math.min(6, -Math.floor(Math.log10(step)))));
}

/**
 * Returns bars: transfers that are wide enough each, and the others by where they begin. A bar ends
 * where its last transfer does, so a narrow one begins too early, and none ends too late.
 */
function barsOf(transfers, scale) {
  const bars = [];
  let last = null;
  for (const transfer of transfers) {
    const begin = scale.x(transfer.side, transfer.offset + 1);
    const to = scale.x(transfer.side, transfer.end);
    if (to - begin >= NARROW) {
      bars.push({ from: begin, to, transfers: [transfer] });
      last = null;
    } else if (last !== null && begin - last.begin < NARROW) {
      last.transfers.push(transfer);
      last.to = Math.max(last.to, to);
    } else {
      last = { begin, from: Math.min(begin, to - NARROW), to, transfers: [transfer] };
      bars.push(last);
    }
  }
  return bars;
}

/** Returns how many of some transfers have each judgement. */
function countsOf(transfers) {
  const counts = {};
  for (const { kind } of transfers) {
    counts[kind] = (counts[kind] ?? 0) + 1;
  }
  return counts;
}

/** Draws a bar: a part for each judgement, the worst one on top. */
function barOf(bar, top, choose) {
  const counts = Object.entries(countsOf(bar.transfers))
    .sort(([one], [two]) => kindsInOrder.indexOf(one) - kindsInOrder.indexOf(two));
  const worst = counts[counts.length - 1][0];
  let bottom = top + BAR;
  const parts = counts.map(([kind, count]) => {
    const height = Math.max(4, BAR * count / bar.transfers.length);
    bottom = Math.max(top, bottom - height);
    const rest = kind === worst ? bottom - top : 0;
    bottom -= rest;
    const gap = bar.transfers.length > 1 ? 0 : 1;
    const width = Math.max(1, bar.to - bar.from - gap);
    return shapesOf(kind, { x: bar.from, y: bottom, width, height: height + rest });
  });
  const [first] = bar.transfers;
  const name = bar.transfers.length === 1
    ? `transfer ${first.ident} of ${first.side.name}: ${first.text ?? JUDGEMENTS.open}`
    : counts.map(([kind, count]) => `${several(count, "transfer")}: ${JUDGEMENTS[kind]}`).join(", ");
  const chosen = bar.transfers.find((it) => it.kind === worst);
  return draw("g", { class: "choice", onclick: () => choose(chosen) },
    draw("title", {}, name), ...parts.flat());
}

/** Draws a rectangle in the colour of a judgement, and one with its pattern over it. */
function shapesOf(kind, shape) {
  return [
    draw("rect", { ...shape, class: `bar ${kind}` }),
    draw("rect", { ...shape, fill: `url(#${kind})` }),
  ];
}

const kindsInOrder = Object.keys(JUDGEMENTS);

/** Draws marks of one kind. Those that would lie on one another are drawn once, and none too early. */
function marksOf(name, places, step, shape) {
  const xs = [...new Set(places.map((it) => Math.ceil(it / step) * step))];
  return draw("g", { class: `mark ${name}` },
    draw("title", {}, `${several(places.length, MARKS[name])}`),
    draw("path", { d: xs.map(shape).join("") }));
}

const MARKS = {
  ack: "acknowledgement", refuse: "refusal", keepalive: "KEEPALIVE", reject: "MSG_REJECT",
};

/** Returns the patterns that tell judgements apart without colours. */
function patterns() {
  const of = (kind, d) => draw("pattern",
    { id: kind, width: 6, height: 6, patternUnits: "userSpaceOnUse" },
    draw("path", { class: "hatch", d }));
  return draw("defs", {},
    of("bad", "M-1 5L5 -1M1 7L7 1M-1 -1L7 7"),
    of("length", "M-1 5L5 -1M1 7L7 1"),
    of("abandoned", "M0 3H6"),
    of("open", "M3 0V6"),
    of("good", ""));
}

/** Draws the timeline of a session into an element. `choose` is called with a transfer. */
class Timeline {
  constructor(root, session, choose) {
    Object.assign(this, { root, session, choose, width: 0 });
    this.order = session.period === null ? new Order(session.sides) : null;
    this.resizing = new ResizeObserver(() => this.draw());
    this.resizing.observe(root);
  }

  /** Ends the drawing. */
  end() {
    this.resizing.disconnect();
  }

  draw() {
    const width = Math.floor(this.root.clientWidth);
    if (width === this.width || width === 0) {
      return;
    }
    this.width = width;
    const scale = new Scale(this.session, this.order, width);
    let top = 0;
    const lanes = this.session.sides.flatMap((side) => {
      const [elements, bottom] = this.lane(side, scale, top);
      top = bottom + GAP;
      return elements;
    });
    const axis = this.axis(scale, top);
    const height = top + AXIS;
    const shape = { width, height, viewBox: `0 0 ${width} ${height}` };
    this.root.replaceChildren(
      draw("svg", { ...shape, role: "img", "aria-label": this.summary() }, patterns(), axis, ...lanes),
      make("p", { class: "quiet" }, scale.name));
  }

  summary() {
    return this.session.sides.map(laneName).join("; ");
  }

  axis(scale, bottom) {
    const ticks = scale.ticks().flatMap(([share, text]) => {
      const x = EDGE + share * scale.width;
      const anchor = share < 0.02 ? "start" : share > 0.98 ? "end" : "middle";
      return [
        draw("path", { class: "grid", d: `M${x} 0V${bottom + 4}` }),
        draw("text", { x, y: bottom + 18, "text-anchor": anchor }, text),
      ];
    });
    return draw("g", { class: "axis" }, ...ticks);
  }

  /** Draws what a side sent, and the answers of the other. Returns the elements and the bottom. */
  lane(side, scale, top) {
    const other = this.session.other(side);
    const isWide = scale.width >= WIDE;
    const bars = top + (isWide ? HEADER : 2 * HEADER);
    const ticks = bars + BAR + 4;
    const place = (kind, from = side) => from.messages.filter((it) => it.kind === kind)
      .map((it) => scale.x(from, it.end));
    const bottom = other === null ? ticks + 8 : ticks + TICKS;
    const elements = [
      ...textsOf(side, other, scale, top + 12),
      draw("path", { class: "ground", d: `M${EDGE} ${bars + BAR}H${EDGE + scale.width}` }),
      ...barsOf(side.transfers, scale).map((bar) => barOf(bar, bars, this.choose)),
      marksOf("keepalive", place("keepalive"), 5, (x) => `M${x - 3} ${bars + BAR + 3}h6v4h-6z`),
      marksOf("reject", place("msg-reject"), 5, (x) => `M${x - 4} ${bars}h8l-4 7z`),
      this.ending(side, scale, bars, bottom),
    ];
    if (other !== null) {
      elements.push(
        marksOf("ack", place("xfer-ack", other), 2, (x) => `M${x} ${ticks + 2}v${TICKS - 4}`),
        marksOf("refuse", place("xfer-refuse", other), 4,
          (x) => `M${x - 4} ${ticks + 4}l8 8m0 -8l-8 8`));
    }
    return [elements, bottom];
  }

  /** Draws where a side ends: a line at its last byte, with a foot if it sent a SESS_TERM. */
  ending(side, scale, top, bottom) {
    const x = scale.x(side, side.length);
    const foot = side.term ? `M${x - 5} ${top}h10` : "";
    return draw("g", { class: faultOf(side)?.isWrong ? "ending broken" : "ending" },
      draw("title", {}, endName(side)), draw("path", { d: `M${x} ${top}V${bottom}${foot}` }));
  }
}

/** Draws the texts of a lane: what it has, and how its side ended. */
function textsOf(side, other, scale, y) {
  const isWide = scale.width >= WIDE;
  const name = laneName(side);
  const rest = other && isWide ? `, and below them the answers of ${other.name}` : "";
  const letters = Math.floor(scale.width / LETTER) - (isWide ? name.length + rest.length + 2 : 0);
  const shape = isWide
    ? { x: scale.width + EDGE, y, "text-anchor": "end" }
    : { x: EDGE, y: y + HEADER };
  return [
    draw("text", { x: EDGE, y }, draw("tspan", { class: "name" }, name), rest),
    draw("text", shape, shortened(endName(side), letters)),
  ];
}

function laneName(side) {
  const node = side.node ? ` ${shortened(side.node, 30)}` : "";
  return `${side.name}${node}: ${several(side.transfers.length, "transfer")}`;
}
