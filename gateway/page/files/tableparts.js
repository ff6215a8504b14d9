// The parts of a decision table: its head, its rules and its foot, with what was told and counted of each.
import { broken, button, el, show, unseen, whole } from "./dom.js";
import { mark } from "./marks.js";
import { listOf } from "./model.js";
import { inLine } from "./values.js";

/** The attributes of a cell that stays in view at the end of the row. */
function staying(view, kind, at) {
  const place = { output: at, then: at, count: view.outputs.length + at }[kind];
  return place === undefined ? {} : { "data-stay": place };
}

/** A row whose cells know how far from the end they stay. */
function placed(row) {
  for (const it of row.querySelectorAll("[data-stay]")) it.style.right = `var(--stay-${it.dataset.stay}, auto)`;
  return row;
}

/** The row of names, each with the value that the column was asked with. */
export function headRow(view) {
  const heads = [...view.inputs.map((_, at) => inputHead(view, at)), ...view.outputs.map((_, at) => outputHead(view, at))];
  const counts = view.counts ? ["Hit", "Decided"].map((text, at) =>
    el("th", { role: "columnheader", scope: "col", class: "counts", ...staying(view, "count", at) }, text)) : null;
  return placed(el("tr", { role: "row", "aria-rowindex": 1 }, el("th", { role: "columnheader", scope: "col" }, "Rule"), heads, counts));
}

function headCell(view, { name, text, kind, at, more }) {
  const found = view.model.foundAt(`${view.pointer}/${kind}s/${at}`, true);
  return el("th", { role: "columnheader", scope: "col", class: kind, title: name, ...staying(view, kind, at) },
    el("div", { class: "head" }, text, mark(found, (said) => view.say(said)), more));
}

function inputHead(view, at) {
  const { values } = view;
  const [name, text] = [view.column(at), view.model.text(view.inputs[at], `${view.pointer}/inputs/${at}`)];
  const code = el("code", {}, broken(text));
  const value = values && at < values.length ?
    el("span", { class: "value", title: show(values[at]) }, unseen("is "), inLine(values[at])) : null;
  return headCell(view, { name, text: name === text ? code : [broken(name), el("span", { class: "label" }, code)], kind: "input", at,
    more: value });
}

function outputHead(view, at) {
  const output = view.outputs[at];
  const name = view.model.name(output.name);
  const listed = listOf(output.values).length ? el("span", { class: "label" }, unseen("one of "), listOf(output.values).join(", ")) : null;
  return headCell(view, { name, text: el("code", {}, broken(name)), kind: "output", at, more: listed });
}

/** The row of defaults, where there are some. */
export function footRow(view) {
  if (!view.outputs.some((output) => output.default !== undefined)) return null;
  const cell = (text, kind, at) =>
    el("td", { role: "cell", class: kind, ...staying(view, kind === "count" ? kind : "then", at) }, text);
  const text = (output, at) => view.model.text(output.default ?? "null", `${view.pointer}/outputs/${at}/default`);
  return placed(el("tr", { role: "row", class: view.defaults ? "decided" : "" },
    el("th", { role: "rowheader", scope: "row", colspan: view.inputs.length + 1 }, view.defaults ? "▶ no rule hit: " : "", "otherwise"),
    view.outputs.map((output, at) => cell(el("code", {}, text(output, at)), "then", at)),
    view.counts ? [cell("", "count", 0), cell(String(view.counts.defaults), "count", 1)] : null));
}

/** The row of a rule, from 0. */
export function ruleRow(view, at) {
  const { when, then } = view.rules[at];
  const found = view.found.get(at) ?? [];
  const [state, sign, said] = stateOf(view, at + 1);
  const number = button(`${sign}${at + 1}`, () => view.select(at),
    { class: "rule", "data-at": at, tabindex: at === view.current ? 0 : -1, "aria-label": `Rule ${at + 1}${said}` });
  const [hits, decided] = [view.counts?.hits[at] ?? 0, view.counts?.decided ? view.counts.decided[at] ?? 0 : null];
  const classes = [state, view.differing?.has(`${view.pointer}/rules/${at}`) ? "differs" : "",
    view.counts && (decided ?? hits) === 0 ? "never" : ""];
  const count = (text, place) => el("td", { role: "cell", class: "count", ...staying(view, "count", place) }, String(text));
  return placed(el("tr", { role: "row", "aria-rowindex": at + 2, class: classes.filter(Boolean).join(" ") },
    el("th", { role: "rowheader", scope: "row" }, number, marked(view, found, undefined)),
    listOf(when).slice(0, view.inputs.length).map((_, column) => cell(view, found, at, "when", column)),
    listOf(then).map((_, column) => cell(view, found, at, "then", column)),
    view.counts ? [count(hits, 0), count(decided === null ? "" : decided || "never", 1)] : null));
}

/** The mark of what was found at a rule, or at one of its cells. */
const marked = (view, found, kind, column) => mark(
  found.filter((it) => it.kind === kind && (column === undefined || it.column === column)).map((it) => it.finding), (said) => view.say(said));

function cell(view, found, at, kind, column) {
  const missed = kind === "when" && view.hasMissed(at, column, view.misses?.get(at + 1));
  const text = view.cell(at, kind, column);
  return el("td", { role: "cell", class: missed ? `${kind} missed` : kind, title: view.isVirtual ? text : null, ...staying(view, kind, column) },
    el("code", {}, whole(text)), missed ? unseen(" is not met") : null, marked(view, found, kind, column));
}

/** What became of a rule: a class, a sign and words for a screen reader. */
function stateOf(view, number) {
  if (view.decided?.has(number)) return ["decided", "▶ ", ", hit and decided"];
  if (view.hits.has(number)) return ["hit", "● ", view.decided ? ", hit and did not decide" : ", hit"];
  return ["", "", view.values ? ", missed" : ""];
}
