// Tables that are sorted and filtered, and whose rows are made as they come into view.

// How many rows are made at once
const ROWS = 200;

/** A column: its title, what a row is sorted by, and what its cell shows. */
class Column {
  constructor(title, key, show, name = "") {
    Object.assign(this, { title, key, show: show ?? ((row) => String(key(row) ?? "")), name });
  }
}

/** Returns the order of two keys, numbers before texts and what is missing last. */
function compared(one, two) {
  if (one === two) {
    return 0;
  }
  if (one === null || one === undefined) {
    return 1;
  }
  if (two === null || two === undefined) {
    return -1;
  }
  if (typeof one === "number" && typeof two === "number") {
    return one - two;
  }
  return String(one) < String(two) ? -1 : 1;
}

/** A table of rows. `unfold` makes what a row shows when it is unfolded, if it can be. */
class Table {
  constructor(root, columns, rows, { unfold, pick, name, empty }) {
    Object.assign(this, { root, columns, rows, unfold, pick, name, empty });
    this.shown = rows;
    this.sorted = null;
    this.elements = new Map();
    this.body = make("tbody");
    this.heads = columns.map((column) => this.head(column));
    this.count = make("p", { class: "quiet", role: "status" });
    this.more = make("button", { class: "more", onclick: () => this.extend() });
    const heads = [unfold ? make("th", { class: "fold" }) : null, ...this.heads];
    const head = make("thead", {}, make("tr", {}, heads));
    const table = make("table", { class: "rows" }, head, this.body);
    table.addEventListener("keydown", (event) => this.move(event));
    root.replaceChildren(this.count, make("div", { class: "scroll" }, table), this.more);
    new IntersectionObserver((seen) => seen.some((it) => it.isIntersecting) && this.extend(),
      { rootMargin: "600px" }).observe(this.more);
    this.draw();
  }

  head(column) {
    const button = make("button", { onclick: () => this.sort(column) }, column.title);
    return make("th", { class: column.name, scope: "col" }, button);
  }

  /** Sorts by a column, or the other way round if it is sorted by it. */
  sort(column) {
    const isDown = this.sorted?.column === column && !this.sorted.isDown;
    this.sorted = { column, isDown };
    this.heads.forEach((head, index) => {
      const isIt = this.columns[index] === column;
      head.setAttribute("aria-sort", !isIt ? "none" : isDown ? "descending" : "ascending");
    });
    this.draw();
  }

  /** Shows the rows that pass a test alone. */
  filter(test) {
    this.shown = this.rows.filter(test);
    this.draw();
  }

  draw() {
    this.drawn = [...this.shown];
    if (this.sorted) {
      const { column, isDown } = this.sorted;
      this.drawn.sort((one, two) => (isDown ? -1 : 1) * compared(column.key(one), column.key(two)));
    }
    this.body.replaceChildren();
    this.elements.clear();
    this.made = 0;
    const [one, many] = this.name;
    this.count.textContent = this.shown.length === this.rows.length
      ? several(this.rows.length, one, many)
      : `${counted(this.shown.length)} of ${several(this.rows.length, one, many)}`;
    this.extend();
  }

  /** Makes the next rows. */
  extend(most = ROWS) {
    const rows = this.drawn.slice(this.made, this.made + most);
    this.made += rows.length;
    this.body.append(...rows.map((row) => this.row(row)));
    const left = this.drawn.length - this.made;
    this.more.hidden = left === 0;
    this.more.textContent = `Show ${counted(Math.min(left, ROWS))} more of ${counted(left)}`;
    if (this.drawn.length === 0) {
      this.body.append(make("tr", { class: "inside" },
        make("td", { colspan: this.columns.length + 1, class: "quiet" }, this.empty)));
    }
  }

  row(row) {
    const cells = this.columns.map((it) => make("td", { class: it.name }, it.show(row)));
    const element = make("tr", { onclick: (event) => this.choose(row, event) }, cells);
    if (this.unfold) {
      const attributes = { class: "fold", "aria-expanded": "false", "aria-label": "unfold" };
      element.prepend(make("td", { class: "fold" }, make("button", attributes)));
    } else {
      element.tabIndex = 0;
    }
    this.elements.set(row, element);
    return element;
  }

  /** Does what a click on a row asks for. */
  choose(row, event) {
    const isSelecting = event.detail > 0 && String(getSelection()) !== "";
    if (isSelecting || event.target.closest("a, button:not(.fold)")) {
      return;
    }
    if (this.unfold) {
      this.toggle(row);
    } else {
      this.pick(row);
    }
  }

  /** Unfolds a row, or folds it. */
  toggle(row) {
    const element = this.elements.get(row);
    const button = element.querySelector("button.fold");
    const isOpen = button.getAttribute("aria-expanded") === "true";
    button.setAttribute("aria-expanded", String(!isOpen));
    element.classList.toggle("unfolded", !isOpen);
    if (isOpen) {
      element.nextElementSibling.remove();
    } else {
      element.after(make("tr", { class: "inside" },
        make("td", { colspan: this.columns.length + 1 }, this.unfold(row))));
    }
  }

  /** Shows a row, unfolded. */
  show(row) {
    const index = this.drawn.indexOf(row);
    if (index < 0) {
      return;
    }
    while (this.made <= index) {
      this.extend(index - this.made + ROWS);
    }
    const element = this.elements.get(row);
    if (!element.classList.contains("unfolded")) {
      this.toggle(row);
    }
    element.scrollIntoView({ block: "center" });
    element.querySelector("button.fold").focus({ preventScroll: true });
  }

  /** Goes to the next row or the one before by the arrow keys, and chooses a row by Enter. */
  move(event) {
    const element = event.target.closest("tbody > tr");
    const step = { ArrowDown: "nextElementSibling", ArrowUp: "previousElementSibling" }[event.key];
    if (element === null || element.parentElement !== this.body) {
      return;
    }
    if (event.key === "Enter" && event.target === element) {
      element.click();
    }
    if (step === undefined) {
      return;
    }
    let next = element[step];
    while (next?.classList.contains("inside")) {
      next = next[step];
    }
    (next?.querySelector("button.fold") ?? next)?.focus();
    event.preventDefault();
  }
}

/** Makes a field to choose one of some values, each with its name, or all. */
function choiceOf(label, values, change) {
  const options = [["", "all"], ...values].map(([value, name]) => make("option", { value }, name));
  return make("label", {}, `${label} `,
    make("select", { onchange: change, "data-filter": label }, options));
}

/** Makes a field to search for a text. */
function searchOf(label, change) {
  return make("label", { class: "search" }, `${label} `,
    make("input", { type: "search", oninput: change, "data-filter": label, spellcheck: "false" }));
}

/** Returns the values of the fields of some filters by their labels. */
function valuesIn(filters) {
  const fields = [...filters.querySelectorAll("[data-filter]")];
  return Object.fromEntries(fields.map((it) => [it.dataset.filter, it.value.trim()]));
}
