// Draws the rows of the page from its data, and sorts, filters, opens and prints them. Data becomes text, and never markup. Without
// this script, the page has the first contradictions.
"use strict";
const PLACES = 40, FIRST = 100, MOST_PRINTED = 500, MOST_HINTS = 100, SVG = "http://www.w3.org/2000/svg";
const HEADS = ["Group", "Fact", "Reported by", "Value", "Decimals", "From", "To"], NO_SHARE = "\u2013";
const data = JSON.parse(document.getElementById("data").textContent), rows = data.rows.map(rowOf);
const table = document.querySelector("table.rows"), body = table.tBodies[0], heads = [...table.tHead.rows[0].cells];
const valueHeads = heads.filter(head => head.className === "value");
const hasColumns = valueHeads.length === data.providers.length; // or all values are in one column
const controls = document.querySelector(".controls"), field = make("input", { type: "search" }), result = make("output");
const next = make("button", { className: "next", type: "button" }), opened = new Set(), drawnRows = new WeakMap();
const collator = new Intl.Collator("en", { numeric: true });
let view = rows, limit = FIRST, sorted = null, waiting;

// The members at the end of an array may be absent.
function rowOf([number, concept, period, unit, dimensions, verdict, facts, difference = "", hints = [], pair = [], more = 0]) {
  return { number, concept, period, unit, dimensions, verdict, facts: facts.map(factOf), difference, hints, pair, more };
}

function factOf([name, value, decimals, holders, group = 0, isOdd = 0]) {
  return { name, value, decimals, holders, group, isOdd };
}

function make(tag, properties = {}, ...children) {
  return filled(document.createElement(tag), properties, children);
}

function filled(element, properties, children = []) {
  for (const [key, value] of Object.entries(properties)) {
    if (key in element && !(element instanceof SVGElement)) element[key] = value;
    else element.setAttribute(key, value);
  }
  element.append(...children);
  return element;
}

function joined(parts, sign = "; ") {
  return parts.flatMap((part, index) => index ? [sign, part] : [part]);
}

function bdi(text, title = "", lang = "") {
  return make("bdi", { ...title && { title }, ...lang && { lang } }, text);
}

function words(index) {
  const [text, title, isLabel] = data.words[index];
  return bdi(text, title, isLabel && data.language !== document.documentElement.lang ? data.language : "");
}

// A number is a BigInt with PLACES decimal places, so intervals and gaps are exact.
function scaled(text) {
  const [whole, fraction = ""] = text.split(".");
  return BigInt(whole + fraction.padEnd(PLACES, "0"));
}

function plain(number) {
  const digits = String(number < 0n ? -number : number).padStart(PLACES + 1, "0");
  return (number < 0n ? "-" : "") + `${digits.slice(0, -PLACES)}.${digits.slice(-PLACES)}`.replace(/\.?0*$/, "");
}

function grouped(text) {
  const [whole, ...fraction] = String(text).replace("-", "\u2212").split(".");
  return [whole.replace(/\B(?=(\d{3})+$)/g, "\u202f"), ...fraction].join(".");
}

function isNumber(fact) {
  return fact.decimals !== "" && fact.value !== null;
}

function interval({ value, decimals }) {
  const middle = scaled(value), half = decimals === "exact" ? 0n : 5n * 10n ** BigInt(PLACES - decimals - 1);
  return [middle - half, middle + half];
}

function shownValue({ value, decimals }) {
  if (value === null) return make("i", {}, "nil");
  if (decimals !== "") return grouped(value);
  return Number.isInteger(value) ? words(value) : bdi(value);
}

function withDecimals(fact) {
  const decimals = isNumber(fact) ? [" ", make("small", {}, `(${grouped(fact.decimals)})`)] : [];
  return make("span", { className: fact.isOdd ? "odd" : "" }, shownValue(fact), ...decimals);
}

function holds(fact, provider) {
  return fact.holders.some(([each]) => each === provider);
}

function providersOf(row) {
  return new Set(row.facts.flatMap(fact => fact.holders.map(([provider]) => provider)));
}

function reportedBy(row) {
  return `${providersOf(row).size} of ${data.providers.length}`;
}

function hintsOf(row) {
  return joined(row.hints.map(index => bdi(data.texts[index])));
}

function dimensionsOf(row) {
  return data.dimensions[row.dimensions].flatMap((axis, index, all) => index % 2 ? [] : [[axis, all[index + 1]]]);
}

// The line of a row in the table.
function line(row) {
  const unusual = dimensionsOf(row).filter(([axis, member]) => axis !== data.usual[0] || member !== data.usual[1]);
  const about = unusual.map(([axis, member]) => make("small", {}, words(axis), ": ", words(member)));
  if (data.words[row.unit][0]) about.unshift(make("small", {}, words(row.unit)));
  const name = make("button", { type: "button", "aria-expanded": opened.has(row) }, words(row.concept));
  const values = valueHeads.map((_, index) => joined(row.facts.filter(fact => !hasColumns || holds(fact, index)).map(withDecimals)));
  const cells = [[row.number], [name, ...about], [data.texts[row.period]], ...values, [row.difference + (/\d$/.test(row.difference) ? "%" : "")],
    ...data.providers.length ? [[reportedBy(row)]] : [], [data.verdicts[row.verdict]], hintsOf(row)];
  const made = make("tr", { className: row.verdict ? "row" : "row apart", id: `row${row.number}`, role: "row" },
    ...cells.map((parts, index) => make("td", { className: heads[index].className, role: "cell", "data-name": heads[index].dataset.name }, ...parts)));
  drawnRows.set(made, row);
  return made;
}

function opening(row) {
  return make("tr", { className: "more", role: "row" }, make("td", { colSpan: heads.length, role: "cell" }, section(row)));
}

// What an opened row shows.
function section(row) {
  const ends = row.facts.filter(isNumber).flatMap(interval).sort((one, other) => one < other ? -1 : Number(one > other));
  const gap = row.pair.length ? [interval(row.facts[row.pair[0]])[1], interval(row.facts[row.pair[1]])[0]] : null;
  const numbers = ends.length ? { low: ends[0], high: ends.at(-1), gap } : null;
  const measure = data.words[row.unit].length > 1 ? ` ${data.words[row.unit][0]}` : "";
  const lines = [make("tr", {}, ...HEADS.map(text => make("th", {}, text))), ...row.facts.map(fact => factLine(fact, numbers))];
  if (numbers) lines.push(make("tr", {}, make("td", { colSpan: HEADS.length }), make("td", { className: "line" }, endsOf(numbers, measure))));
  const made = make("section", { className: data.words[row.unit][0] ? "number" : "text" }, terms(row), make("table", { cellSpacing: 0 }, ...lines));
  if (numbers && !row.verdict) made.append(make("p", { className: "gap" }, reason(gap, measure)));
  if (row.more) made.append(make("p", {}, `and ${row.more} more facts in contradictions.csv`));
  return made;
}

function endsOf({ low, high }, measure) {
  return make("div", { className: "ends" }, ...(low < high ? [low, high] : [low]).map(end => make("span", {}, grouped(plain(end)) + measure)));
}

function reason(gap, measure) {
  if (!gap) return "A nil value contradicts every number.";
  const [width, low, high] = [gap[1] - gap[0], ...gap].map(number => grouped(plain(number)));
  return `No number fits both: there is a gap of ${width}${measure} between ${low} and ${high}.`;
}

function terms(row) {
  const [text, title = "", isLabel] = data.words[row.concept], files = new Set(row.facts.flatMap(fact => fact.holders.flatMap(each => each.slice(2))));
  const listed = [["Concept", bdi(isLabel ? title : `${title} ${text}`)], ["Period", data.texts[row.period]]];
  if (data.words[row.unit][0]) listed.push(["Unit", words(row.unit)]);
  listed.push(...dimensionsOf(row).map(pair => pair.map(words)));
  if (data.providers.length) listed.push(["Reported by", reportedBy(row)]);
  if (files.size) listed.push(["Files", ...joined([...files].map(index => bdi(data.files[index])))]);
  if (row.hints.length) listed.push(["Hint", ...hintsOf(row)]);
  return make("dl", {}, ...listed.flatMap(([term, ...texts]) => [make("dt", {}, term), make("dd", {}, ...texts)]));
}

function factLine(fact, numbers) {
  const group = fact.group < 26 ? String.fromCharCode(65 + fact.group) : String(fact.group + 1);
  const holders = fact.holders.map(([provider, identifiers = ""]) => bdi(`${data.providers[provider]} ${identifiers}`.trimEnd()));
  const ends = isNumber(fact) ? interval(fact).map(end => grouped(plain(end))) : ["", ""];
  const cells = [[group], [bdi(fact.name)], joined(holders), [shownValue(fact)], [isNumber(fact) ? grouped(fact.decimals) : ""], ...ends.map(end => [end])];
  const made = make("tr", { className: fact.isOdd ? "odd" : "" }, ...cells.map(parts => make("td", {}, ...parts)));
  if (numbers) made.append(isNumber(fact) ? drawn(fact, numbers) : make("td", { className: "line nil" }, make("i", {}, "not reported as a number")));
  return made;
}

// An interval on the number line of its row, to scale.
function drawn(fact, { low, high, gap }) {
  const at = number => low < high ? `${Number((number - low) * 100_000n / (high - low)) / 1_000}%` : "50%";
  const [start, end] = interval(fact), cell = make("td", { className: "line" });
  const shapes = [["line", { x1: at(start), x2: at(end), y1: 13, y2: 13 }], ["circle", { cx: at((start + end) / 2n), cy: 13, r: 5 }]];
  const made = shapes.map(([name, properties]) => filled(document.createElementNS(SVG, name), properties));
  cell.append(filled(document.createElementNS(SVG, "svg"), { height: 26 }, made));
  gap?.forEach((number, index) => cell.style.setProperty(index ? "--b" : "--a", at(number)));
  return cell;
}

// Numbers are found as they are written elsewhere: with a hyphen as their sign, and without spaces or commas between their digits.
function searched(text) {
  return text.replace(/\u202f/g, "").replace(/\u2212/g, "-").replace(/(?<=\d),(?=\d{3}(\D|$))/g, "").toLowerCase();
}

function textOf(row) {
  const found = [row.concept, row.unit, ...data.dimensions[row.dimensions]].flatMap(index => data.words[index]);
  found.push(data.texts[row.period], data.verdicts[row.verdict], ...row.hints.map(index => data.texts[index]));
  for (const { name, value, holders } of row.facts) {
    found.push(name, ...Number.isInteger(value) ? data.words[value] : [value ?? "nil"]);
    found.push(...holders.flatMap(([provider, identifiers = ""]) => [data.providers[provider], identifiers]));
  }
  return searched(found.join(" "));
}

// A word that begins with # is the number of a row.
function hasWord(row, word) {
  if (word[0] === "#") return word === `#${row.number}`;
  row.text ??= textOf(row);
  return row.text.includes(word);
}

const STANCES = {
  "Reported by": (row, provider) => row.facts.some(fact => holds(fact, provider)),
  "In red": (row, provider) => row.facts.some(fact => fact.isOdd && holds(fact, provider)),
  "Not reported by": (row, provider) => !row.facts.some(fact => holds(fact, provider)),
};
const verdicts = chooser("Verdict", [["", data.verdicts.map((name, index) => [name, row => row.verdict === index])]]);
const providers = chooser("Provider", Object.entries(STANCES).map(([title, holds]) => [title, data.providers.map((name, index) => [name, row => holds(row, index)])]));
const hints = chooser("Hint", [["", hintsByCount().map(index => [data.texts[index], row => row.hints.includes(index)])]]);

function hintsByCount() {
  const counts = new Map();
  for (const index of rows.flatMap(row => row.hints)) counts.set(index, (counts.get(index) ?? 0) + 1);
  return [...counts].sort(([, one], [, other]) => other - one).slice(0, MOST_HINTS).map(([index]) => index);
}

// A list of filters, in groups with titles. Filters that keep no row are left out.
function chooser(title, groups) {
  const select = make("select", {}, make("option", {}, "all")), filters = [() => true];
  for (const [name, choices] of groups) {
    const group = name ? select.appendChild(make("optgroup", { label: name })) : select;
    for (const [text, filter] of choices) {
      const count = rows.reduce((sum, row) => sum + filter(row), 0);
      if (count) group.append(make("option", { value: filters.push(filter) - 1 }, `${name ? `${name} ` : ""}${text} (${count})`));
    }
  }
  select.addEventListener("change", update);
  return { label: make("label", { hidden: filters.length < 2 }, title, select), select, filter: row => filters[select.selectedIndex](row) };
}

const KEYS = {
  number: row => row.number,
  concept: row => data.words[row.concept][0],
  period: row => data.texts[row.period].replace(/^.*(to|of) /, "") + data.texts[row.period],
  difference: row => row.difference === NO_SHARE ? Infinity : row.difference ? Number(row.difference.replace("<", "")) : null,
  reported: row => providersOf(row).size,
  verdict: row => row.verdict,
  hint: row => row.hints.map(index => data.texts[index]).join(" ") || null,
};

function keyOf(head) {
  const provider = valueHeads.indexOf(head);
  return KEYS[head.className] ?? (row => {
    const fact = row.facts.find(each => !hasColumns || holds(each, provider));
    return fact && isNumber(fact) ? Number(fact.value) : null;
  });
}

// Rows without a key come last in either direction.
function arranged(kept) {
  if (!sorted) return kept;
  const key = keyOf(sorted.head), keyed = kept.map(row => [key(row), row]);
  const compare = (one, other) => typeof one === "string" ? collator.compare(one, other) : one < other ? -1 : Number(one > other);
  keyed.sort(([one], [other]) => one === null || other === null ? (one === null) - (other === null) : sorted.sign * compare(one, other));
  return keyed.map(([, row]) => row);
}

function sortBy(head) {
  const isSame = sorted?.head === head, first = head.className === "difference" ? -1 : 1;
  sorted = { head, sign: isSame ? -sorted.sign : first };
  for (const each of heads) each.setAttribute("aria-sort", each !== head ? "none" : sorted.sign > 0 ? "ascending" : "descending");
  update();
}

function update() {
  const given = searched(field.value).split(/\s+/).filter(word => word), filters = [verdicts, providers, hints].filter(each => each.select.selectedIndex);
  view = arranged(rows.filter(row => filters.every(each => each.filter(row)) && given.every(word => hasWord(row, word))));
  limit = FIRST;
  draw();
}

function draw() {
  body.replaceChildren(...view.slice(0, limit).flatMap(row => opened.has(row) ? [line(row), opening(row)] : [line(row)]));
  const counts = [view.length < rows.length ? `${view.length} of ${rows.length} rows` : `${rows.length} rows`];
  if (view.length > limit) counts.push(`the first ${limit} are shown`);
  if (data.leftOut) counts.push(`table.csv has ${data.leftOut} more`);
  result.value = counts.join("; ");
  next.hidden = view.length <= limit;
  next.textContent = `Show ${Math.min(limit, view.length - limit)} more`;
}

function toggle(element, isOpen) {
  const row = drawnRows.get(element);
  if (opened.has(row) === isOpen) return;
  element.querySelector("button").setAttribute("aria-expanded", isOpen);
  if (isOpen) element.after(opening(row));
  else element.nextSibling.remove();
  opened[isOpen ? "add" : "delete"](row);
}

// On paper, all contradictions are open, unless they are too many.
function unfold() {
  const closed = [...body.querySelectorAll("tr.apart")].filter(element => !opened.has(drawnRows.get(element))).slice(0, MOST_PRINTED);
  for (const element of closed) toggle(element, true);
  addEventListener("afterprint", () => { for (const element of closed) toggle(element, false); }, { once: true });
}

function showNext() {
  const last = limit;
  limit *= 2;
  draw();
  body.querySelectorAll("tr.row button")[last].focus();
}

function start() {
  for (const head of heads) {
    head.dataset.name = head.textContent.trim();
    head.replaceChildren(make("button", { type: "button" }, ...head.childNodes));
    head.addEventListener("click", () => sortBy(head));
    filled(head, { "aria-sort": "none", role: "columnheader" });
  }
  for (const element of [table.tHead, body]) element.setAttribute("role", "rowgroup");
  filled(table, { role: "table" }).tHead.rows[0].setAttribute("role", "row");
  field.addEventListener("input", () => { clearTimeout(waiting); waiting = setTimeout(update, 150); });
  controls.append(make("label", {}, "Words, numbers or #row", field), verdicts.label, providers.label, hints.label, result);
  body.addEventListener("click", event => {
    const element = event.target.closest("tr.row");
    if (element && getSelection().isCollapsed) toggle(element, !opened.has(drawnRows.get(element)));
  });
  next.addEventListener("click", showNext);
  table.parentElement.after(next);
  addEventListener("beforeprint", unfold);
  addEventListener("hashchange", follow);
  controls.hidden = false;
  if (rows.length && !rows[0].verdict && !location.hash) opened.add(rows[0]);
  follow();
}

// A link to a row opens this row, or shows only this row if it is not among the first.
function follow() {
  const row = rows.find(each => `#row${each.number}` === location.hash);
  if (row) {
    field.value = rows.indexOf(row) < FIRST ? "" : `#${row.number}`;
    opened.add(row);
  }
  update();
  if (row) document.getElementById(`row${row.number}`)?.scrollIntoView({ block: "nearest" });
}

delete data.rows;
start();
