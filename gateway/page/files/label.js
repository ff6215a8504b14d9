// What is written in a box of the graph: a name and the value below it, in the largest letters that have room there.
import { grouped, isObject, plain, show, svg } from "./dom.js";

/** The sizes of letters by the class of their node, each with the height of a line. */
export const GREAT = { kind: "node great", size: 20, line: 24 };
export const LARGE = { kind: "node", size: 14, line: 17 };
export const SMALL = { kind: "node small", size: 12, line: 14 };
const MOST_ROWS = 3;
/** How far letters stay from the border. */
const PADDING = 4;
/** The part of a line above the foot of its letters, and how high capital letters are, in parts of their size. */
const FOOT = 0.78;
const CAPITAL = 0.73;

const canvas = document.createElement("canvas").getContext("2d");

/** How wide a text is, in letters of a size. */
function widthOf(text, size, isValue) {
  const mono = () => getComputedStyle(document.documentElement).getPropertyValue("--mono");
  const key = `${size} ${isValue}`;
  if (canvas.key !== key) Object.assign(canvas, { key, font: isValue ? `600 ${size}px ${mono()}` : `${size}px system-ui, sans-serif` });
  return canvas.measureText(text).width;
}

/** A text in so much room; where it has none, its end is two points. */
function cut(text, room, size, isValue) {
  if (widthOf(text, size, isValue) <= room) return text;
  let letters = Math.min(text.length, Math.floor(room / 2));
  while (letters > 1 && widthOf(`${text.slice(0, letters)}..`, size, isValue) > room) letters -= 1;
  return `${text.slice(0, letters)}..`;
}

/** A value in so much room: a context or a list that has none is the number of its parts. */
function inShort(value, room, size) {
  const whole = plain(show(value));
  const isLong = widthOf(whole, size, true) > room;
  if (isLong && Array.isArray(value)) return `list of ${grouped(value.length)}`;
  if (isLong && isObject(value)) {
    const count = Object.keys(value).length;
    return `${grouped(count)} ${count === 1 ? "entry" : "entries"}`;
  }
  return cut(whole, room, size, true);
}

/** Whether all of a name has room in a box. */
export const fits = (name, box, size) => rowsOf(plain(name), box, size).isWhole;

/** The rows of a name in a box: as few as have room. */
function rowsOf(name, box, size) {
  const most = Math.max(1, Math.min(MOST_ROWS, Math.floor(box.height / size.line) - 1));
  let rows;
  for (let count = 1; count <= most && !rows?.isWhole; count += 1) {
    rows = filled(name, count, (line) => roomOf(box, size, line, count + 1), size.size);
  }
  return rows;
}

/** A name in so many rows, broken at its blanks and behind its underscores. */
function filled(name, count, room, size) {
  const rows = [""];
  for (const word of name.split(/(?<=[ _])/)) {
    const isFull = widthOf((rows.at(-1) + word).trimEnd(), size) > room(rows.length - 1);
    if (rows.at(-1) && isFull && rows.length < count) rows.push("");
    rows[rows.length - 1] += word;
  }
  const texts = rows.map((row, at) => cut(row.trimEnd(), room(at), size));
  return { texts, isWhole: texts.every((text, at) => text === rows[at].trimEnd()) };
}

/** Where a line of so many stands in a box: the foot of its letters, from the top. */
const footOf = ({ height }, { line }, at, count) => (height - count * line) / 2 + (at + FOOT) * line;

/** How much room a line of so many has: the corners of the box may be round. */
function roomOf(box, size, at, count) {
  const foot = footOf(box, size, at, count);
  const edge = Math.max(0, Math.min(foot - CAPITAL * size.size, box.height - foot));
  const round = Math.max(0, box.radius - edge);
  return box.width - 2 * (box.radius - Math.sqrt(box.radius ** 2 - round ** 2) + PADDING);
}

/** The texts in a box, which has `x`, `y`, `width`, `height` and the `radius` of its corners. */
export class Label {
  /** The name has the largest letters of some sizes in which it is whole, or the least. */
  constructor(name, box, sizes) {
    this.box = box;
    this.size = sizes.find((size) => fits(name, box, size)) ?? sizes.at(-1);
    this.names = rowsOf(plain(name), box, this.size).texts.map((row) => svg("text", {}, row));
    this.value = svg("text", { class: "worth" });
    this.texts = [...this.names, this.value];
    this.tell();
  }

  /** Shows a value, or the text of a fault; the name alone where there is neither. */
  tell(it) {
    const count = this.names.length + (it ? 1 : 0);
    const { box, size } = this;
    const room = roomOf(box, size, count - 1, count);
    this.value.textContent = !it ? "" : it.fault ? cut(it.fault, room, size.size, true) : inShort(it.value, room, size.size);
    this.texts.forEach((text, at) => {
      text.setAttribute("x", box.x + box.width / 2);
      text.setAttribute("y", box.y + footOf(box, size, at, count));
    });
  }
}
