// The message or the block that is chosen: its line, its fields, and its bytes.

/** Shows what is chosen, below everything else. */
class Chosen {
  constructor(root, session) {
    Object.assign(this, { root, session, from: null });
    const { signal } = this.ending = new AbortController();
    root.addEventListener("pointerover", (event) => this.mark(event), { signal });
    root.addEventListener("focusin", (event) => this.mark(event), { signal });
    addEventListener("keydown", (event) => event.key === "Escape" && this.close(), { signal });
  }

  /** Ends the view of what is chosen. */
  end() {
    this.root.hidden = true;
    this.ending.abort();
  }

  close() {
    if (!this.root.hidden) {
      this.root.hidden = true;
      this.from?.focus();
    }
  }

  /** Shows a message. */
  message(message) {
    const { side, offset, end } = message;
    const index = firstAtLeast(side.offsets, offset);
    const step = (by, name) => {
      const next = side.messages[index + by];
      return make("button", { disabled: !next, onclick: () => this.message(next) }, name);
    };
    const time = side.clock?.at(end);
    const title = `${side.name} ${offset}: ${message.kind}`;
    const texts = [message.words, time ? `captured ${dateText(time)} UTC` : ""];
    this.show(title, texts, [step(-1, "Previous"), step(1, "Next")], () => {
      const bytes = side.bytes.subarray(offset, end);
      return [fieldsOfMessage(message, bytes), bytes, offset];
    }, side);
  }

  /** Shows a block of the bundle in a transfer. */
  block(block, transfer) {
    const { side } = transfer;
    const at = Number(block.values.at);
    const name = block.number === null ? "primary block" : `block ${block.number}`;
    const title = `${side.name} transfer ${transfer.ident}: ${name}`;
    const texts = [block.line.replace(/^\d+ \w+ /, ""), "Offsets count from the bundle's first byte."];
    this.show(title, texts, [], () => {
      const bytes = dataOfTransfer(transfer, at, at + Number(block.values.length));
      return [fieldsOfBlock(block, bytes), bytes, at];
    }, side);
  }

  /** Shows a title, texts, and bytes with their fields, if the page has the bytes. */
  show(title, texts, buttons, parts, side) {
    if (this.root.hidden) {
      this.from = document.activeElement;
    }
    const close = make("button", { class: "close", onclick: () => this.close() }, "Close");
    let content = [make("p", { class: "quiet" }, missingText(side))];
    if (side.bytes !== null) {
      const [fields, bytes, base] = parts();
      content = [fieldsView(fields, base), bytesView(bytes, fields, base)];
    }
    const lines = texts.filter(Boolean).map((it) => make("p", { class: "line" }, it));
    this.root.replaceChildren(
      make("header", {}, make("h2", {}, title), ...buttons, close), ...lines,
      make("div", { class: "halves" }, ...content));
    this.root.hidden = false;
  }

  /** Marks the field that is pointed at, wherever its parts are. */
  mark(event) {
    const index = event.target.closest("[data-field]")?.dataset.field;
    for (const it of this.root.querySelectorAll("[data-field]")) {
      it.classList.toggle("pointed", it.dataset.field === index);
    }
  }
}

/** Returns why the bytes of a side are not in the page. */
function missingText(side) {
  return `This page has the lines of ${side.file}, and not its bytes: the recording is too large. `
    + "Drop the file on the page to see them.";
}
