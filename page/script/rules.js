// The rules that are broken: in the title, in the table of transfers, and each with its sentence.

/** Returns what the page says of each rule: its cells by their names. */
function rulesOfPage() {
  const rules = new Map();
  for (const row of document.querySelectorAll("#rules tr[data-rule]")) {
    rules.set(`${row.dataset.sides} ${row.dataset.rule}`, row);
  }
  return rules;
}

const isMust = (lines) => lines.some((it) => it.level === "must");

/** Whether a line is of a rule of bundles: the bytes do not show who wrote what breaks it. */
const isOfBundle = ({ rule, words }) =>
  words.startsWith("transfer=") && rule !== "unfinished" && !rule.startsWith("length-");

/** Returns the lines of each rule: the rules of level must first. */
function byRule(lines) {
  const rules = new Map();
  for (const broken of lines) {
    if (!rules.has(broken.rule)) {
      rules.set(broken.rule, []);
    }
    rules.get(broken.rule).push(broken);
  }
  return [...rules].sort(([, one], [, two]) => isMust(two) - isMust(one));
}

// ---- the title

// How many rules of a side the title names, and how many of its bundles
const NAMED = 4;

/** Makes the title: which rules each side breaks, and what became of the transfers. */
function verdictView(session) {
  const parts = [
    ...session.sides.flatMap((it) => breaksView(it, session)),
    ...session.sides.flatMap((it) => (it.fault ? [faultOf(it).title] : [])),
    ...transfersText(session),
  ];
  const text = parts.length > 0 ? parts : [["these recordings show nothing wrong"]];
  const [[first, ...rest], ...others] = text;
  const title = [first[0].toUpperCase() + first.slice(1), ...rest];
  return [title, ...others].flatMap((it, index) => (index > 0 ? ["; ", ...it] : it));
}

/** Returns the name of the part of a rule, to which a link leads. */
const partNameOf = (rule) => `broken-${rule}`;

/** Makes the parts of the title about the rules that a side breaks, and that its bundles break. */
function breaksView(side, session) {
  const lines = session.broken.filter((it) => it.of === side);
  const ofBundles = lines.filter(isOfBundle);
  const isOne = new Set(ofBundles.map((it) => it.offset)).size === 1;
  const who = isOne ? `a bundle of side ${side.name} breaks ` : `bundles of side ${side.name} break `;
  const parts = [
    [`side ${side.name} breaks `, lines.filter((it) => !isOfBundle(it))],
    [who, ofBundles],
  ];
  return parts.filter(([, of]) => of.length > 0).map(([begin, of]) => [begin, ...namesView(of)]);
}

/** Makes the names of the rules of some lines, each a link. Those after the first ones are counted. */
function namesView(lines) {
  const names = byRule(lines).map(([name]) => name);
  const shown = names.slice(0, names.length > NAMED ? NAMED - 1 : NAMED);
  const links = shown.map((name) =>
    make("a", { href: `#${partNameOf(name)}` }, make("code", {}, name)));
  const left = names.length - shown.length;
  return listed([...links, ...(left > 0 ? [several(left, "more rule")] : [])]);
}

/** Returns the parts of the title about the transfers: whose they are, and what is wrong. */
function transfersText({ sides, transfers }) {
  const cases = [
    [(it) => it.kind !== "good", "is not good", "are not good"],
    [isRefused, "was refused", "were refused"],
    [(it) => it.outcome === "lost", "was lost", "were lost"],
    [(it) => it.outcome === "unanswered", "has no answer", "have no answer"],
  ];
  return cases.flatMap(([test, one, many]) => {
    const counts = sides.map((side) => [transfers.filter((it) => it.side === side && test(it)).length, side])
      .filter(([count]) => count > 0);
    const parts = counts.map(([count, side], index) =>
      `${index === 0 ? several(count, "transfer") : counted(count)} of ${side.name}`);
    const total = counts.reduce((sum, [count]) => sum + count, 0);
    return total > 0 ? [[...listed(parts), ` ${total === 1 ? one : many}`]] : [];
  });
}

/** Says which rules the title of two recordings leaves out, and why. Null if both were judged. */
function leftOutView({ sides, isJoint, undecided }) {
  if (isJoint || sides.length === 1) {
    return null;
  }
  const they = byRule(undecided).length === 1 ? "it is" : "they are";
  const leftOut = undecided.length === 0 ? [] : [" The title leaves out ", ...namesView(undecided),
    `: one recording alone does not show whether ${they} broken.`];
  return ["This page judges each side alone. tcpclkit-page judges both together.", ...leftOut];
}

// ---- in the table of transfers

/** Makes the names of the rules that were broken by and about a transfer, by side. */
function brokenNames(transfer, { sides }) {
  return sides.flatMap(({ name }) => {
    const rules = byRule(transfer.broken.filter((it) => it.side === name)).map(([rule]) => rule);
    const by = sides.length > 1 ? `${name}: ` : "";
    return rules.length > 0 ? [make("div", { class: "names" }, by, rules.join(", "))] : [];
  });
}

/** Makes the line of a broken rule in its transfer. */
function brokenView(broken, session, chosen) {
  const who = `${isOfBundle(broken) ? "this bundle of " : ""}${broken.side}`;
  return [badge(broken.level, broken.level), " ", make("code", {}, broken.rule),
    ` broken by ${who} `, atView(broken, chosen), " ", wordsView(broken, session, chosen)];
}

// ---- the lines of a rule

/** Makes a link to the message that breaks a rule. */
function atView(broken, chosen) {
  return broken.message
    ? linkTo(broken.message, chosen)
    : make("span", {}, `${broken.side} ${broken.offset} (the end)`);
}

/** Makes the words of a broken rule, each with what it means. */
function wordsView(broken, session, chosen) {
  const words = wordsOf(broken).split(" ").filter((it) => it !== "");
  return make("span", { class: "line" }, ...words.flatMap((word) => {
    const [name, value] = word.split("=");
    const title = meaningIn(broken.rule, name);
    const peer = name === "peer-at" && session.other(broken.of)?.messageAt(Number(value));
    return [" ", peer ? linkTo(peer, chosen, word) : make("span", { title }, word),
      glossOf(broken.rule, name, value, peer)];
  }));
}

/** Makes what a value means: the name of a type, of a message, or of a bundle's fault. */
function glossOf(rule, name, value, peer) {
  const text = peer ? `${peer.kind} of ${peer.side.name}`
    : isType(rule, name) ? typeName(value)
    : name === "code" ? document.querySelector(`#codes [data-code="${CSS.escape(value)}"]`)?.textContent
    : null;
  return text ? make("span", { class: "quiet" }, ` (${text})`) : null;
}

/** Returns the words of a broken rule without those that a link has. */
const wordsOf = (broken) =>
  broken.transfer ? broken.words.replace(/^transfer=\d+ ?/, "") : broken.words;

/** Makes a link to the transfer that a broken rule is about. */
function transferLink(broken, session) {
  const { transfer } = broken;
  const show = () => session.showTransfer(transfer);
  const of = transfer && transfer.side !== broken.of ? ` of ${transfer.side.name}` : "";
  return transfer
    ? [make("button", { class: "link", onclick: show }, `transfer ${transfer.ident}${of}`), " "]
    : null;
}

/** Makes the explanations of the words that the lines of a rule have, if any. */
function wordsLegend(name, lines) {
  const names = new Set(lines.flatMap((it) => Object.keys(valuesOf(wordsOf(it)))));
  names.delete("id");
  const known = [...names].map((it) => [it, meaningIn(name, it)]).filter(([, it]) => it !== undefined);
  return known.length > 0
    ? make("p", { class: "words quiet" }, ...known.flatMap(([it, meaning], index) =>
      [index > 0 ? "; " : "", make("code", {}, it), ` is ${meaning}`]), ".")
    : null;
}

// ---- the rules

// How many lines of a rule are shown at first
const LINES_OF_A_RULE = 8;

/** Makes the list of the lines of a rule. Those after the first ones are made when they are asked for. */
function linesView(lines, session, chosen) {
  const list = make("ul", { class: "broken" });
  const hasLevels = new Set(lines.map((it) => it.level)).size > 1;
  const more = (from, most) => {
    list.append(...lines.slice(from, from + most).map((it) => make("li", {},
      atView(it, chosen), hasLevels ? ` ${it.level} ` : " ", ...[transferLink(it, session)].flat(),
      wordsView(it, session, chosen))));
    const left = lines.length - from - most;
    if (left > 0) {
      const next = () => {
        button.remove();
        more(from + most, ROWS);
      };
      const button = make("button", { onclick: next },
        `Show ${counted(Math.min(left, ROWS))} more of ${counted(left)}`);
      list.append(button);
    }
  };
  more(0, LINES_OF_A_RULE);
  return list;
}

/** Says whom a rule binds, unless it is the side that sent what breaks it. */
function bindsView(cells) {
  const whom = cells.map((it) => it.textContent).join("");
  return ["", "sender"].includes(whom) ? null : make("p", { class: "quiet" }, "It binds: ", ...cells, ".");
}

/** Returns the sentences on which the faults rest whose codes some lines have. */
function quotesOfCodes(lines) {
  const codes = new Set(lines.map((it) => valuesOf(it.words).code).filter(Boolean));
  return [...codes].flatMap((it) => {
    const cell = document.querySelector(`#codes [data-quotes="${CSS.escape(it)}"]`);
    return cell ? [...cell.cloneNode(true).childNodes] : [];
  });
}

/** Makes the part of a rule: its sentence, and its lines. `how` is `broken`, or `perhaps broken`. */
function ruleView(name, lines, how, row, session, chosen) {
  const cell = (part) =>
    row ? [...row.querySelector(`[data-part="${part}"]`).cloneNode(true).childNodes] : [];
  const levels = [...new Set(lines.map((it) => it.level))].sort();
  const sides = [...new Set(lines.map((it) => it.side))].sort();
  const who = `${isOfBundle(lines[0]) ? "bundles of " : ""}${sides.join(" and ")}`;
  const [quotes, advice] = [[...cell("quotes"), ...quotesOfCodes(lines)], cell("advice")];
  const when = row?.dataset.sides === "two"
    ? `Side S (here ${sides.join(" and ")}) breaks it if, with Q as the other side, ` : "Broken if ";
  return make("article", { class: "rule", id: partNameOf(name) },
    make("h3", {}, levels.flatMap((it) => [badge(it, it), " "]), make("code", {}, name),
      ` ${how} by ${who}`,
      make("span", { class: "quiet" }, ` ${several(lines.length, "time")}`)),
    make("p", { class: "sentence" }, when, ...cell("sentence"), ". ",
      make("span", { class: "section" }, ...cell("section"))),
    bindsView(cell("binds")),
    linesView(lines, session, chosen),
    wordsLegend(name, lines),
    advice.length > 0 ? make("p", {}, "In the node: ", ...advice, ".") : null,
    quotes.length > 0
      ? make("details", {}, make("summary", { class: "quiet" }, "What the RFCs say"), ...quotes)
      : null);
}

/** Returns the row of a rule: that of two sides if both were judged, unless it names the other. */
function rowOf(name, lines, known, session) {
  const [one, two] = [known.get(`one ${name}`), known.get(`two ${name}`)];
  const isSame = two?.querySelector('[data-part="sentence"]').textContent.startsWith("as in");
  const isPeers = name !== "keepalive" || lines.some((it) => it.words);
  return session.isJoint && two && !isSame && isPeers ? two : one ?? two;
}

/** Makes the parts of the rules of some lines: those of level must first. */
function ruleViews(lines, how, session, chosen) {
  const known = rulesOfPage();
  return byRule(lines).map(([name, of]) =>
    ruleView(name, of, how, rowOf(name, of, known, session), session, chosen));
}

/** Makes the parts of all rules that are broken, and then of those that are undecided. */
function rulesView(session, chosen) {
  const { broken, undecided } = session;
  const none = make("p", { class: "quiet" }, "None of the rules that are judged here is broken.");
  const open = make("p", { class: "quiet undecided" },
    "One recording alone does not show whether these rules are broken:");
  return [
    ...(broken.length > 0 ? ruleViews(broken, "broken", session, chosen) : [none]),
    ...(undecided.length > 0 ? [open, ...ruleViews(undecided, "perhaps broken", session, chosen)] : []),
  ];
}
