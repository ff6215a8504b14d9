// Elements and numbers. Names and values come into the page as text nodes and attributes alone, never as markup.

const SVG = "http://www.w3.org/2000/svg";

/** Characters that turn, hide or part text without being seen. */
export const SIGNS = new RegExp("([\\0-\\x08\\x0b\\x0c\\x0e-\\x1f\\x7f-\\x9f\\u00ad\\u034f\\u061c\\u115f\\u1160\\u17b4\\u17b5\\u180b-\\u180f" +
  "\\u200b-\\u200f\\u2028-\\u202e\\u2060-\\u206f\\u2800\\u3164\\ufe00-\\ufe0f\\ufeff\\uffa0\\ufff9-\\ufffb" +
  "\\u{1d173}-\\u{1d17a}\\u{e0000}-\\u{e007f}\\u{e0100}-\\u{e01ef}])", "gu");
const nameOf = (sign) => `U+${sign.codePointAt(0).toString(16).toUpperCase().padStart(4, "0")}`;

/** A text with the names of such characters in their place. */
export const plain = (text) => String(text).replace(SIGNS, nameOf);

/** The same as nodes, in which the names are marked. */
function signed(text) {
  if (text.search(SIGNS) < 0) return [text];
  return text.split(SIGNS).map((part, at) => (at % 2 ? el("span", { class: "sign" }, nameOf(part)) : part));
}

/** What is only text: no element can be inside. */
const TEXT_ALONE = new Set(["option", "title", "text"]);

const nodesOf = (children, isText) => children.flat(Infinity).filter((child) => child !== null && child !== undefined)
  .flatMap((child) => (child instanceof Node ? [child] : isText ? [plain(child)] : signed(String(child))));

function fill(element, attributes, children) {
  for (const [name, value] of Object.entries(attributes ?? {})) {
    if (name.startsWith("on")) element.addEventListener(name.slice(2), value);
    else if (value === true) element.setAttribute(name, "");
    else if (value !== undefined && value !== null && value !== false) {
      element.setAttribute(name, /^(title|aria-label|placeholder)$/.test(name) ? plain(value) : String(value));
    }
  }
  element.append(...nodesOf(children, TEXT_ALONE.has(element.localName)));
  return element;
}

/** Puts these in the place of what an element has. */
export const put = (element, ...children) => element.replaceChildren(...nodesOf(children, TEXT_ALONE.has(element.localName)));

/** A text that may be broken at its blanks alone. */
export const whole = (text) => (/[^\w\s."']/.test(text) && /\s/.test(text.trim()) ?
  el("span", {}, text.split(/(\s+)/).map((part, at) => (at % 2 ? part : el("span", { class: "whole" }, part)))) : text);

/** A name that may be broken at its blanks and behind its underscores. */
export function broken(name) {
  const parts = String(name).split(/(\s+|(?<=_)(?=[^_\s]))/).filter((part) => part !== undefined);
  const isPlain = parts.length === 1 || /^[\w\s]*$/.test(name);
  const nodes = parts.map((part, at) => (at % 2 ? part || el("wbr") : isPlain ? part : el("span", { class: "whole" }, part)));
  return el("span", {}, nodes);
}

/** An element of HTML with attributes, listeners (`onclick`) and children: elements, and texts as text nodes. */
export const el = (tag, attributes, ...children) => fill(document.createElement(tag), attributes, children);

/** An element of SVG. */
export const svg = (tag, attributes, ...children) => fill(document.createElementNS(SVG, tag), attributes, children);

/** The element of index.html with this id. */
export const byID = (id) => document.getElementById(id);

/** A text that is read out and not seen. */
export const unseen = (text) => el("span", { class: "unseen" }, text);

export const button = (text, onclick, attributes) => el("button", { type: "button", onclick, ...attributes }, text);

// Numbers go to 2^63 and have up to 34 digits, beyond what JavaScript's keep. Where a text has such a long number, it is read into
// a BigInt or a Decimal by way of a text that begins with MARK; texts that begin with it anyway get one more.
const MARK = "\uE000";
const LONG = /(?:\d\.?){16}/;

/** A number of which JavaScript's would lose digits: `text` is as JSON has it. */
export class Decimal {
  constructor(text) {
    this.text = text;
    // JSON.stringify takes no BigInt, so that none goes out as an object.
    this.digits = 0n;
  }
}

/** Whether a value is an object of JSON. */
export const isObject = (value) => value !== null && typeof value === "object" && !Array.isArray(value) && !(value instanceof Decimal);

/** A deep copy of a value of JSON. */
export function copied(value) {
  if (Array.isArray(value)) return value.map(copied);
  return isObject(value) ? Object.fromEntries(Object.entries(value).map(([key, part]) => [key, copied(part)])) : value;
}

/** Reads a JSON text; numbers that would lose digits become BigInts, or Decimals where they have a point. */
export function readJSON(text) {
  if (!LONG.test(text)) return JSON.parse(text);
  const marked = text.replace(/"(?:[^"\\]|\\.)*"|-?\d[\d.eE+-]*/gs, (token) => {
    if (token.startsWith('"')) return token.startsWith('"' + MARK) ? '"' + MARK + token.slice(1) : token;
    return LONG.test(token) && Number.isFinite(JSON.parse(token)) ? `"${MARK}n${token}"` : token;
  });
  return JSON.parse(marked, (_, value) => {
    if (typeof value !== "string" || !value.startsWith(MARK)) return value;
    return value[1] === "n" ? longNumber(value.slice(2)) : value.slice(1);
  });
}

/** A whole number of a unit with so many decimals, as a number. */
export function pointed(number, decimals) {
  const [, sign, digits] = /^(-?)(\d+)$/.exec(String(number)) ?? [];
  if (decimals === 0 || digits === undefined) return number;
  const padded = digits.padStart(decimals + 1, "0");
  const fraction = padded.slice(-decimals).replace(/0+$/, "");
  return longNumber(sign + padded.slice(0, -decimals) + (fraction ? `.${fraction}` : ""));
}

function longNumber(text) {
  const number = Number(text);
  if (String(number) === text) return number;
  return /^-?\d+$/.test(text) ? BigInt(text) : new Decimal(text);
}

/** Writes a value as JSON; `space` parts it as in JSON.stringify. */
export function writeJSON(value, space) {
  try {
    return JSON.stringify(value, null, space);
  } catch {
    const marked = JSON.stringify(value, (_, part) => {
      if (typeof part === "bigint") return `${MARK}n${part}`;
      if (part instanceof Decimal) return `${MARK}n${part.text}`;
      return typeof part === "string" && part.startsWith(MARK) ? MARK + part : part;
    }, space);
    return marked.replace(new RegExp(`"${MARK}(?:n(-?[\\d.]+(?:[eE][+-]?\\d+)?)"|(?=${MARK}))`, "g"), (_, number) => number ?? '"');
  }
}

const LONGEST = 2000;

/** A value for people: JSON, cut where it is long. `space` parts it as in JSON.stringify. */
export function show(value, space) {
  const text = value === undefined ? "" : writeJSON(value, space);
  return text.length > LONGEST ? text.slice(0, LONGEST) + " .." : text;
}

/** A number with a comma before each three digits. */
export const grouped = (number) => String(number).replace(/\B(?=(\d{3})+$)/g, ",");

/** "1 rule", "2 rules". */
export const counted = (number, word) => `${grouped(number)} ${word}${number === 1 ? "" : "s"}`;

/** The first of some numbers, on one line. */
export const first = (numbers) => numbers.slice(0, 12).join(", ") + (numbers.length > 12 ? " .." : "");

/** A row of CSV (RFC 4180). A text that a spreadsheet would take for a formula begins with a quote. */
export function csvRow(cells) {
  return cells.map((cell) => {
    let text = typeof cell === "string" ? cell : writeJSON(cell);
    if (typeof cell === "string" && /^[=+@\t\r]|^-(?!\d+$)/.test(text)) text = `'${text}`;
    return /[",\r\n]/.test(text) ? `"${text.replaceAll('"', '""')}"` : text;
  }).join(",") + "\r\n";
}

/** A file that the browser saves. */
export function save(name, text, type = "text/csv") {
  const url = URL.createObjectURL(new Blob([text], { type }));
  el("a", { href: url, download: name }).click();
  setTimeout(() => URL.revokeObjectURL(url), 10_000);
}

/** Something that may be larger than the page, in a frame in which it scrolls. */
export const framed = (name, ...children) =>
  el("div", { class: "scroll", role: "region", tabindex: 0, "aria-label": `${name}, which scrolls` }, ...children);

/** The head of a table. */
export const heads = (...texts) => el("thead", {}, el("tr", {}, texts.filter(Boolean).map((text) => el("th", { scope: "col" }, text))));
