// Cells of CSV as values of inputs. What is read here, and what is refused, is that of desk run: see docs/CASES.md.
import { readJSON, writeJSON } from "./dom.js";

/** Why a row is not taken. */
export class RowFault extends Error {}

const TRUTHS = Object.fromEntries([
  ...["TRUE", "WAHR", "VRAI", "VERO", "VERDADERO", "VERDADEIRO", "WAAR"].map((word) => [word, "true"]),
  ...["FALSE", "FALSCH", "FAUX", "FALSO", "ONWAAR"].map((word) => [word, "false"]),
]);
const SHEET_FAULT = /^(#+|#\S*[!?]|#N\/[A-Z]|#NV|Err:\d{3})$/;
const SHORTENED = /^[+-]?\d+([.,]\d+)?E[+-]\d+$/;
const NUMERAL = /^-?\d+([.,]\d{3})*[.,]\d+$/;
const DATED = /^(?:(\d{1,2})\.(\d{1,2})\.(\d{4})|(\d{4}-\d\d-\d\d))(?:[ T](\d{1,2}:\d\d)(:\d\d(?:\.\d+)?)?(Z|[+-]\d\d:\d\d)?)?$/;
const IN_QUOTES = "; in quotes within the cell it is a text";

/** What a JSON Schema allows, as far as it matters here. */
function kindOf(schema) {
  const types = [schema?.type].flat();
  const is = (...names) => types.some((name) => names.includes(name));
  const kinds = { text: is("string"), number: is("number", "integer"), truth: is("boolean"), parts: is("array", "object") };
  const only = Object.keys(kinds).filter((name) => kinds[name]);
  return { only: only.length === 1 ? only[0] : "", format: schema?.format, properties: schema?.properties ?? {} };
}

/** The value of a cell that is not empty, as a JSON text. */
export function valueOf(cell, kind, isComma) {
  const text = cell.trim();
  if (text === "null") return "null";
  if (isSheetFault(text)) throw new RowFault(`${writeJSON(text)} is a fault of the spreadsheet`);
  if (kind.only === "text") return kind.format ? writeJSON(isoDate(text)) : textOf(cell);
  if (kind.only === "truth") return truthOf(text, true) ?? refuse(cell, "is not true or false");
  if (kind.only === "number") return numberOf(text, isComma) ?? refuse(cell, whyNot(text, isComma));
  if (kind.only === "parts") return partsOf(text);
  return anyOf(cell, text, isComma);
}

function refuse(cell, why) {
  throw new RowFault(`${writeJSON(cell)} ${why}`);
}

const isSheetFault = (text) => text.length > 2 && SHEET_FAULT.test(text) && (!text.startsWith("#") || text === text.toUpperCase());

function anyOf(cell, text, isComma) {
  const truth = truthOf(text, false);
  if (text === "") return writeJSON(cell);
  if (truth) return truth;
  if (/^[[{]/.test(text)) return partsOf(text);
  if (text.startsWith('"')) return textOf(cell);
  if (SHORTENED.test(text)) refuse(cell, whyNot(text, isComma) + IN_QUOTES);
  if (!/^[-0-9]/.test(text) || /^0\d+$/.test(text)) return writeJSON(cell);
  const number = numberOf(text, isComma);
  if (number === null && NUMERAL.test(text)) refuse(cell, whyNot(text, isComma) + IN_QUOTES);
  return number ?? writeJSON(cell);
}

function truthOf(text, isTyped) {
  const word = TRUTHS[text.toUpperCase()];
  return isTyped || text.toLowerCase() === word || text === text.toUpperCase() ? word : undefined;
}

/** A text; one that is JSON's string, in quotes, is what that stands for. */
function textOf(cell) {
  if (!cell.startsWith('"')) return writeJSON(cell);
  try {
    const value = readJSON(cell);
    return writeJSON(typeof value === "string" ? value : cell);
  } catch {
    return writeJSON(cell);
  }
}

function partsOf(text) {
  if (!/^[[{]/.test(text)) refuse(text, "is no list or object of JSON");
  try {
    readJSON(text);
  } catch (fault) {
    throw new RowFault(fault.message);
  }
  return text.replace(/[\r\n]/g, " ");
}

function whyNot(text, isComma) {
  if (SHORTENED.test(text)) return "is a number that the spreadsheet shortened: give its column a format with all digits";
  if (!NUMERAL.test(text)) return "is not a number";
  return isComma ? "is not a number: it has a decimal comma, and no points" : "is not a number: it has a decimal point, and no commas";
}

/** A number as JSON has it: +007,50 with a decimal comma is 7.5; null where it is none. */
function numberOf(text, isComma) {
  const [, sign, digits, part] = (isComma ? /^([+-]?)(\d*)(?:,(\d*))?$/ : /^([+-]?)(\d*)(?:\.(\d*))?$/).exec(text) ?? [];
  if (digits === undefined || !(digits + (part ?? ""))) return null;
  const fraction = (part ?? "").replace(/0+$/, "");
  const whole = digits.replace(/^0+/, "") || "0";
  const number = fraction ? `${whole}.${fraction}` : whole;
  return sign === "-" && number !== "0" ? `-${number}` : number;
}

function isoDate(text) {
  const [, day, month, year, iso, time, seconds, offset] = DATED.exec(text) ?? [];
  if (!year && !iso) return text;
  const date = iso ?? `${year}-${month.padStart(2, "0")}-${day.padStart(2, "0")}`;
  return time ? `${date}T${time.padStart(5, "0")}${seconds ?? ":00"}${offset ?? ""}` : date;
}

/** The cells of a record, without the quotes around them. */
export function cellsOf(text, separator) {
  const found = [];
  for (let at = 0; ; ) {
    const { cell, next } = cellAt(text, at, separator);
    found.push(cell);
    if (next === text.length) return found;
    at = next + 1;
  }
}

/** The cell that begins at a place; `next` is where the separator after it is, or the end. */
export function cellAt(text, at, separator) {
  if (text[at] !== '"') {
    const end = text.indexOf(separator, at);
    const cell = text.slice(at, end < 0 ? text.length : end);
    if (cell.includes('"')) throw new RowFault('a quote within a cell: put the cell in quotes, and write "" for the quote');
    return { cell, next: at + cell.length };
  }
  const end = closing(text, at + 1);
  if (end < 0) throw Object.assign(new RowFault("the quote that begins here is not closed"), { isOpen: true });
  if (end + 1 < text.length && text[end + 1] !== separator) throw new RowFault("a separator is due after the closing quote");
  return { cell: text.slice(at + 1, end).replaceAll('""', '"'), next: end + 1 };
}

/** Where the first quote is that isn't written twice, or -1. */
export function closing(text, from) {
  for (let at = text.indexOf('"', from); at >= 0; at = text.indexOf('"', at + 2)) {
    if (text[at + 1] !== '"') return at;
  }
  return -1;
}

/** What the columns of a header are for: inputs of a service, or parts of them. */
export class Columns {
  constructor(header, model, service) {
    this.model = model;
    const words = [...model.inputs, ...model.parameters(service)];
    this.words = new Map(words.flatMap((word) => [[word, word], [canonical(model.name(word)), word]]));
    this.tree = { parts: new Map() };
    this.count = header.length;
    header.map(canonical).forEach((name, at) => this.add(name, at));
  }

  add(name, at) {
    if (/^[=#]/.test(name)) return;
    const [word, path] = this.found(name);
    if (!word) throw new RowFault(`column ${at + 1}: the model has no input ${writeJSON(name)}${meant(name, [...this.words.keys()])}`);
    let [node, schema] = [part(this.tree, word), this.model.types[word]];
    for (const inner of path) {
      const { properties } = kindOf(schema);
      const known = Object.keys(properties).find((it) => it === inner || canonical(this.model.name(it)) === inner);
      if (!known && Object.keys(properties).length > 0) throw new RowFault(`column ${at + 1}: ${writeJSON(name)} is no part of an input`);
      [node, schema] = [part(node, inner), properties[known]];
    }
    if (node.at !== undefined || node.parts.size > 0) throw new RowFault(`column ${at + 1}: another column has ${writeJSON(name)}, or a part of it`);
    Object.assign(node, { at, kind: kindOf(schema) });
  }

  /** The word of an input, and what is named within it: the longest name before a point that is known. */
  found(name) {
    for (let end = name.length; end > 0; end = name.lastIndexOf(".", end - 1)) {
      const word = this.words.get(canonical(name.slice(0, end)));
      if (word) return [word, end === name.length ? [] : name.slice(end + 1).split(".").map(canonical)];
    }
    return [];
  }

  /** The inputs of a row, as a JSON text. */
  inputs(cells, isComma) {
    if (cells.length !== this.count) {
      throw new RowFault(`the row has ${cells.length === 1 ? "1 cell" : `${cells.length} cells`}, and the header has ${this.count}`);
    }
    return written(this.tree, cells, isComma) ?? "{}";
  }
}

/** Suggests the name that differs by the fewest letters from one that is not known, if few do. */
function meant(name, names) {
  const best = names.map((other) => [distance(name.toLowerCase(), other.toLowerCase()), other]).sort(([one], [other]) => one - other)[0];
  return best && best[0] < 2 + name.length / 4 ? `; did you mean ${writeJSON(best[1])}?` : "";
}

/** How many letters are put in, left out or changed from one text to another; of long ones at most their lengths. */
function distance(one, other) {
  if (one.length > 100 || other.length > 100) return Math.max(one.length, other.length);
  let row = Array.from({ length: other.length + 1 }, (_, at) => at);
  [...one].forEach((letter, i) => {
    const next = [i + 1];
    [...other].forEach((it, j) => next.push(Math.min(row[j] + (letter === it ? 0 : 1), row[j + 1] + 1, next[j] + 1)));
    row = next;
  });
  return row.at(-1);
}

const canonical = (name) => name.trim().split(/\s+/).join(" ");

function part(node, key) {
  if (node.at !== undefined) throw new RowFault(`another column has the value of which ${writeJSON(key)} is a part`);
  if (!node.parts.has(key)) node.parts.set(key, { parts: new Map() });
  return node.parts.get(key);
}

function written(node, cells, isComma) {
  if (node.at !== undefined) return cells[node.at] === "" ? undefined : valueOf(cells[node.at], node.kind, isComma);
  const members = [...node.parts].map(([key, inner]) => [key, written(inner, cells, isComma)]);
  const there = members.filter(([, value]) => value !== undefined);
  return there.length > 0 ? `{${there.map(([key, value]) => `${writeJSON(key)}:${value}`).join(",")}}` : undefined;
}
