// A session on the page: all of its parts, and how they are filtered.

// The marks of the timeline: the message that has one, its class, its name and its path
const LEGEND = [
  ["xfer-ack", "ack", "acknowledgement", "M8 1v10"],
  ["xfer-refuse", "refuse", "refusal", "M4 2l8 8m0 -8l-8 8"],
  ["keepalive", "keepalive", "keepalive", "M5 4h6v4h-6z"],
  ["msg-reject", "reject", "MSG_REJECT", "M4 2h8l-4 7z"],
  ["", "ending", "end of a side", "M8 1V11M3 1h10"],
];

const sideChoice = (sides, change) =>
  choiceOf("Side", sides.map((it) => [it.name, it.name]), change);

/** Returns the text in which a transfer is searched for. */
const textOf = (transfer) =>
  `${transfer.ident} ${transfer.offset} ${transfer.text} ${transfer.outcome}`;

/** Shows a session. `blocksOf` returns the lines of the blocks of a transfer. */
class View {
  constructor(session, blocksOf) {
    Object.assign(this, { session, blocksOf });
    this.chosen = new Chosen(element("chosen"), session);
    session.showTransfer = (it) => this.showTransfer(it);
    document.body.classList.add("shown");
    document.title = `${session.sides.map((it) => it.file).join(", ")} - tcpclkit`;
    element("verdict").replaceChildren(...verdictView(session));
    element("sides").replaceChildren(...session.sides.map(sideView),
      ...[agreedText(session), leftOutView(session), ...session.notes].filter(Boolean)
        .map((it) => make("p", { class: "note" }, it)));
    element("numbers").replaceChildren(...numbersView(session));
    this.legend();
    this.timeline = new Timeline(element("timeline"), session, (it) => this.showTransfer(it));
    element("broken").replaceChildren(...rulesView(session, this.chosen));
    this.transfers();
    this.messages();
    element("view").hidden = false;
    this.timeline.draw();
  }

  /** Ends the view, before another one takes its place. */
  end() {
    this.timeline.end();
    this.chosen.end();
  }

  legend() {
    const counts = countsOf(this.session.transfers);
    const kinds = Object.keys(JUDGEMENTS).filter((it) => counts[it]);
    const sent = new Set(this.session.sides.flatMap((side) => side.messages.map((it) => it.kind)));
    if (this.session.sides.length === 1) {
      ["xfer-ack", "xfer-refuse"].forEach((it) => sent.delete(it));
    }
    const box = { width: 16, height: 12 };
    const swatch = (kind, ...shapes) =>
      draw("svg", { ...box, "aria-hidden": "true", class: `mark ${kind}` }, ...shapes);
    element("legend").replaceChildren(
      ...kinds.map((it) => make("span", {}, swatch("", ...shapesOf(it, box)), ` ${JUDGEMENTS[it]}`)),
      ...LEGEND.filter(([message]) => message === "" || sent.has(message)).map(([, kind, name, d]) =>
        make("span", {}, swatch(kind, draw("path", { d })), ` ${name}`)));
  }

  transfers() {
    const { session } = this;
    const kinds = Object.entries(JUDGEMENTS);
    const filter = () => this.filterTransfers();
    const fields = [
      searchOf("Search", filter),
      choiceOf("Data", kinds, filter),
      ...(session.sides.length > 1
        ? [choiceOf("Answer", Object.entries(OUTCOMES), filter), sideChoice(session.sides, filter)]
        : []),
      choiceOf("Rules", [["broken", "some broken"], ["kept", "none broken"]], filter),
    ];
    element("transfer-filters").replaceChildren(...fields);
    this.table = new Table(element("transfers"), transferColumns(session), session.transfers, {
      unfold: (it) => transferView(it, this.blocksOf(it), session, this.chosen),
      name: ["transfer"],
      empty: "No transfer is like this.",
    });
  }

  filterTransfers() {
    const wanted = valuesIn(element("transfer-filters"));
    const text = wanted.Search.toLowerCase();
    this.table.filter((it) =>
      (!wanted.Data || it.kind === wanted.Data)
      && (!wanted.Answer || outcomeKind(it) === wanted.Answer)
      && (!wanted.Side || it.side.name === wanted.Side)
      && (!wanted.Rules || (it.broken.length > 0) === (wanted.Rules === "broken"))
      && (!text || textOf(it).toLowerCase().includes(text)));
  }

  /** Unfolds a transfer in the table. The filters are undone if they hide it. */
  showTransfer(transfer) {
    if (!this.table.shown.includes(transfer)) {
      for (const field of element("transfer-filters").querySelectorAll("[data-filter]")) {
        field.value = "";
      }
      this.table.filter(() => true);
    }
    this.table.show(transfer);
  }

  messages() {
    const { sides } = this.session;
    const messages = sides.flatMap((it) => it.messages);
    const kinds = [...new Set(messages.map((it) => it.kind))].map((it) => [it, it]);
    const filter = () => {
      const wanted = valuesIn(element("message-filters"));
      this.lines.filter((it) => (!wanted.Kind || it.kind === wanted.Kind)
        && (!wanted.Side || it.side.name === wanted.Side)
        && (!wanted.Search || `${it.offset} ${it.kind} ${it.words}`.includes(wanted.Search)));
    };
    element("message-filters").replaceChildren(
      searchOf("Search", filter), choiceOf("Kind", kinds, filter),
      ...(sides.length > 1 ? [sideChoice(sides, filter)] : []));
    const unfold = () => {
      this.lines ??= new Table(element("messages"), messageColumns(this.session), messages, {
        pick: (it) => this.chosen.message(it), name: ["line"], empty: "No message is like this.",
      });
    };
    const part = element("message-part");
    element("messages").replaceChildren();
    part.open = false;
    part.ontoggle = () => part.open && unfold();
  }

  /** Makes all rows that a printed page has. */
  print() {
    this.table?.extend(MOST_PRINTED);
  }
}

// How many transfers a printed page has
const MOST_PRINTED = 2000;
