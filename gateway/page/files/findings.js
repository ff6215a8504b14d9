// What the check finds of tables, in words: whether a table is complete, boxes of values for which no rule hits or two do,
// and rules that never decide.
import { button, counted, el, first, show } from "./dom.js";
import { listOf } from "./model.js";

const LEAST = -9223372036854775807n;
const MOST = 9223372036854775807n;
/** More pieces of a column than these are not told, and more findings are not shown at once. */
const MOST_PIECES = 8;
const ALL_OPEN = 20;

/** The lines of `desk check --tables` by the JSON Pointer of their table: its own line, and those of its findings. */
export function byTable(lines) {
  const tables = new Map();
  for (const line of lines) {
    if (line.finding === undefined) tables.set(line.table, { told: line, findings: [] });
    else tables.get(line.table)?.findings.push(line);
  }
  return tables;
}

const COMPLETE = {
  complete: "complete: some rule hits, whatever the values",
  asked: "complete for the kinds of values that its rules ask for",
  words: "complete for the words that its rules ask for",
};

/** Whether some rule hits for the values that a table was looked at for; nothing where none is known to. */
function complete(told) {
  if (told.comes && told.complete) return "complete for what can come";
  return COMPLETE[Object.keys(COMPLETE).find((of) => told[of])];
}

/** Whether a table is complete and its rules overlap, as `text`; `isFine` where there is nothing to look at. */
export function verdict(told, table) {
  const isComplete = complete(told);
  const scope = told.comes ? " for what can come" : "";
  const open = told.asked === null ? "whether it is complete is not decided" : `not complete${scope}`;
  // Under the other policies several rules may well hit.
  const isSingle = table.hit === "U" || table.hit === "A";
  const overlaps = told.unique === null ? "whether rules overlap is not decided" : "rules overlap";
  const unique = told.unique ? "; no two rules overlap" : isSingle ? `; ${overlaps}` : "";
  return { text: (isComplete ?? open) + unique, isFine: isComplete !== undefined && (told.unique || !isSingle) };
}

function numbersOf({ from = LEAST, to = MOST }, unit) {
  const [isOpen, hasNoEnd] = [BigInt(from) <= LEAST, BigInt(to) >= MOST];
  const [low, high] = [show(unit(from)), show(unit(to))];
  if (isOpen) return hasNoEnd ? "any number" : `<= ${high}`;
  if (hasNoEnd) return `>= ${low}`;
  return from === to ? low : `[${low}..${high}]`;
}

function textsOf({ from = "", below }) {
  if (below === undefined) return from === "" ? "any text" : `>= ${show(from)}`;
  // Nothing stands between a text and that with U+0000 behind it.
  if (below.endsWith("\0")) return `[${show(from)}..${show(below.slice(0, -1))}]`;
  return from === "" ? `< ${show(below)}` : `[${show(from)}..${show(below)})`;
}

/** Values in a row, the first of many. */
const shown = (values) => first(values.map((value) => show(value)));

function piece(it, unit) {
  if (Object.hasOwn(it, "value")) return show(unit(it.value));
  if (Object.hasOwn(it, "text")) return show(it.text);
  if (it.texts_but) return it.texts_but.length > 0 ? `any text but ${shown(it.texts_but)}` : "any text";
  if (it.else) return listOf(it.else.kinds).map((kind) => `a ${kind}`).join(" or ");
  return typeof it.from === "string" || it.below !== undefined ? textsOf(it) : numbersOf(it, unit);
}

const EVERY = ["any number", "any text", "true", "false", "null", "a list or a context"];

/** The values of a column in words, as `<= -1 or null`. */
function cell(pieces, unit) {
  if (unit === null) return "some quotient";
  const words = pieces.map((it) => piece(it, unit));
  if (EVERY.every((word) => words.includes(word))) return "any";
  const more = words.length > MOST_PIECES ? ` or ${words.length - MOST_PIECES} more` : "";
  return words.slice(0, MOST_PIECES).join(" or ") + more;
}

/** The values of a finding's columns in words, as `claims <= -1, age >= 25`. */
const box = (view, finding) =>
  view.inputs.map((_, at) => `${view.column(at)} ${cell(listOf(finding.cells?.[at]), view.unit(at))}`).join(", ");

const named = (rules) => `${rules.length === 1 ? "rule" : "rules"} ${first(rules)}`;

/** What a finding says, without its witness. */
export function said(view, finding) {
  const [rule, ...others] = listOf(finding.rules);
  const unsure = finding.sure === false ? ", if the columns may take these values together" : "";
  switch (finding.finding) {
    case "overlap": return `rules ${rule} and ${others[0]} both hit, which gives null: ${box(view, finding)}${unsure}`;
    case "gap": return `no rule hits: ${box(view, finding)}${unsure}`;
    case "never": return `rule ${rule} never hits`;
    case "masked": return `rule ${rule} never decides: ${named(listOf(finding.before))} ${listOf(finding.before).length === 1 ? "goes" : "go"} before it`;
    default: return show(finding);
  }
}

/** The rules, from 0, at whose rows a finding stands. */
export const rowsOf = ({ finding, rules }) => listOf(rules).slice(0, finding === "overlap" ? 2 : 1).map((rule) => rule - 1);

/** An item of the list: what a finding says, ways to its rules, and a button by which its values are tried. */
function item(view, finding, fill) {
  if (finding.more !== undefined) return el("li", {}, `and ${counted(finding.more, `more ${finding.finding}`)}`);
  const ways = rowsOf(finding).flatMap((at) =>
    [" ", button(`to rule ${at + 1}`, () => view.moveTo(at), { class: "link" })]);
  const values = shown(view.witness(finding));
  const witness = finding.witness ? [" ", button(`Try ${values}`, () => fill(view, finding),
    { "aria-label": `Try ${values}: fill the form with these values` })] : [];
  return el("li", {}, said(view, finding), ways, witness);
}

/** The list of what was found of a table; `fill` is called with the view and a finding whose values are to be tried. */
export function listed(view, findings, fill) {
  if (findings.length === 0) return [];
  const isOther = (finding) => finding.finding === "gap" && finding.witness && finding.asked !== true;
  const items = (some) => some.map((finding) => item(view, finding, fill));
  const others = findings.filter(isOther);
  const inner = others.length === 0 ? null : el("li", {}, el("details", {},
    el("summary", {}, `no rule hits for other kinds of values (${others.length})`), el("ul", {}, items(others))));
  const hasDefault = view.outputs.some((output) => output.default !== undefined);
  const hasGap = findings.some(({ finding }) => finding === "gap");
  return [el("details", { class: "found", open: findings.length <= ALL_OPEN },
    el("summary", {}, "What the check finds"),
    hasDefault && hasGap ? el("p", { class: "quiet" }, "Where no rule hits, the default stands in.") : null,
    el("ul", {}, items(findings.filter((finding) => !isOther(finding))), inner))];
}
