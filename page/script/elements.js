// Elements of the page. A text of a recording is a text node or the value of an attribute, and never
// markup.

const SVG = "http://www.w3.org/2000/svg";

/** Fills an element. An attribute whose name begins with `on` is a listener. */
function filled(element, attributes, children) {
  for (const [name, value] of Object.entries(attributes ?? {})) {
    if (name.startsWith("on")) {
      element.addEventListener(name.slice(2), value);
    } else if (value !== null && value !== undefined && value !== false) {
      element.setAttribute(name, value === true ? "" : value);
    }
  }
  const isThere = (it) => it !== null && it !== undefined && it !== false;
  element.append(...children.flat().filter(isThere));
  return element;
}

/** Makes an element of HTML. */
function make(name, attributes, ...children) {
  return filled(document.createElement(name), attributes, children);
}

/** Makes an element of SVG. */
function draw(name, attributes, ...children) {
  return filled(document.createElementNS(SVG, name), attributes, children);
}

const element = (id) => document.getElementById(id);

// ---- numbers as they are read by people

const FORMAT = new Intl.NumberFormat("en");
const counted = (number) => FORMAT.format(number);

/** Returns a number of things: `1 message`, `2 messages`. */
function several(number, one, many = `${one}s`) {
  return `${counted(number)} ${number === 1 ? one : many}`;
}

/** Returns a number with at most three digits that count, and a unit. */
function scaled(value, units, step = 1000) {
  let unit = 0;
  while (value >= step && unit < units.length - 1) {
    value /= step;
    unit += 1;
  }
  const digits = unit === 0 || value >= 100 ? 0 : value >= 10 ? 1 : 2;
  return `${value.toFixed(digits)} ${units[unit]}`;
}

/** Returns a text, or its beginning if it has more letters. */
const shortened = (text, most) => (text.length > most ? `${text.slice(0, most - 1)}…` : text);

const bytesText = (count) => scaled(count, ["B", "kB", "MB", "GB"]);

/** Returns a duration in seconds as a text. */
function durationText(seconds) {
  if (seconds < 60) {
    return `${seconds.toFixed(seconds < 10 ? 2 : 1)} s`;
  }
  const minutes = Math.floor(seconds / 60);
  return minutes < 60
    ? `${minutes} min ${Math.floor(seconds % 60)} s`
    : `${Math.floor(minutes / 60)} h ${minutes % 60} min`;
}

/** Returns seconds from the start of 1970 as a text in UTC, with milliseconds. */
function dateText(seconds) {
  const date = new Date(seconds * 1000);
  return Number.isNaN(date.valueOf())
    ? String(seconds)
    : date.toISOString().replace("T", " ").replace("Z", "");
}

/** Lets the browser draw what was made so far. A page that is not seen is not drawn. */
const drawn = () => new Promise((next) => {
  requestAnimationFrame(() => setTimeout(next));
  setTimeout(next, 100);
});
