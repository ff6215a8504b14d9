// A value as it is drawn: a table of names for a context, rows for a list, and null and limits in colours of their own.
import { broken, counted, el, isObject, show } from "./dom.js";

/** How many rows of a list or a context are drawn. */
const MOST_ROWS = 200;

/** The kind of a value, by which it has its colour. */
const kindOf = (value) => (value === null || value === undefined ? "null" : typeof value === "string" ? "string" : "plain");

/** A JSON text that may be broken behind its commas. */
export const commas = (text) => (text.match(/"(?:[^"\\]|\\.)*"?|[^",]+|,/g) ?? []).flatMap((part) => (part === "," ? [part, el("wbr")] : [part]));

/** A value on one line, which may be broken; of a longer one so many letters. */
export function inLine(value, most = Infinity) {
  const whole = show(value);
  const text = whole.length > most ? `${whole.slice(0, most)} ..` : whole;
  return el("span", { class: `is-${kindOf(value)}` }, value !== null && typeof value === "object" ? commas(text) : text);
}

/** What the model's limit is called where a value would be. */
export const limit = (text = "limit") => el("span", { class: "is-limit" }, text);

/** A value as elements. */
export function drawn(value) {
  if (Array.isArray(value)) return value.length > 0 ? rowsOf(value) : el("span", { class: "is-plain" }, "[]");
  if (!isObject(value)) return inLine(value);
  const names = Object.keys(value);
  if (names.length === 0) return el("span", { class: "is-plain" }, "{}");
  const rows = names.slice(0, MOST_ROWS).map((name) =>
    el("tr", {}, el("th", { scope: "row" }, broken(name)), el("td", {}, drawn(value[name]))));
  return el("table", { class: "value-table", "aria-label": `${names.length} names` }, el("tbody", {}, rows, more(names.length, "name")));
}

/** The rows of a list: contexts with the same names have columns. */
function rowsOf(list) {
  const names = isObject(list[0]) ? Object.keys(list[0]) : [];
  const isTable = names.length > 0 && list.every((it) => isObject(it) && Object.keys(it).join("\0") === names.join("\0"));
  const cells = (it) => (isTable ? names.map((name) => el("td", {}, drawn(it[name]))) : el("td", {}, drawn(it)));
  const rows = list.slice(0, MOST_ROWS).map((it, at) => el("tr", {}, el("th", { scope: "row" }, String(at + 1)), cells(it)));
  const head = isTable ? el("thead", {}, el("tr", {}, el("td"), names.map((name) => el("th", { scope: "col" }, broken(name))))) : null;
  return el("table", { class: "value-table list", "aria-label": `${list.length} rows` }, head, el("tbody", {}, rows, more(list.length, "row")));
}

function more(count, word) {
  return count > MOST_ROWS ? el("tr", {}, el("td", { colspan: 99, class: "quiet" }, `and ${counted(count - MOST_ROWS, `more ${word}`)}`)) : null;
}
