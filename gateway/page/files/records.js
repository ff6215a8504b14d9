// Files of requests in the forms of desk run: lines of JSON, a JSON array, CSV; in UTF-8 or UTF-16. They are cut where records end.
import { Problem } from "./api.js";
import { cellAt, cellsOf, closing, Columns, RowFault } from "./cells.js";
import { isObject, readJSON, writeJSON } from "./dom.js";

/** The most bytes of a record. */
const MOST = 1024 * 1024;
const utf8 = new TextDecoder("utf-8", { fatal: true, ignoreBOM: true });
/** One character a byte: what separates records is ASCII. */
const bytewise = new TextDecoder("windows-1252");

/** The bytes of a part of a file, and the same as a text with a character a byte. */
export async function bytesOf(blob, start, end) {
  const bytes = new Uint8Array(await blob.slice(start, end).arrayBuffer());
  return { bytes, raw: bytewise.decode(bytes) };
}

/** Opens a file: `blob` is UTF-8, its records begin at `start`, on the line `line`. */
export async function openRecords(file, model, service, isComma) {
  const blob = await asUTF8(file);
  const { bytes, raw } = await bytesOf(blob, 0, MOST + 3);
  const start = raw.startsWith("\u00ef\u00bb\u00bf") ? 3 : 0;
  const [first] = raw.slice(start).trimStart();
  const at = raw.indexOf(first ?? "", start);
  if (/\.csv$/i.test(file.name) || !(/[[{]/.test(first) || /\.(jsonl|ndjson|json)$/i.test(file.name))) {
    return new CSV(blob, bytes.subarray(start), raw.slice(start), start, { model, service, isComma });
  }
  if (first !== "[") return new Lines(blob, start, headOf(raw.slice(start)));
  return new List(blob, at + 1, 1 + newlines(raw.slice(0, at)));
}

/** A file as UTF-8. UTF-16 is known by its mark, or by a zero beside the first byte. */
async function asUTF8(file) {
  const [one, two] = (await bytesOf(file, 0, 2)).bytes;
  const isBig = (one === 0xfe && two === 0xff) || (one === 0 && two !== 0);
  if (!isBig && !(one === 0xff && two === 0xfe) && !(one !== 0 && two === 0)) return file;
  const decoder = new TextDecoderStream(isBig ? "utf-16be" : "utf-16le", { fatal: true });
  try {
    return await new Response(file.stream().pipeThrough(decoder).pipeThrough(new TextEncoderStream())).blob();
  } catch {
    return refuse("it is no valid UTF-16");
  }
}

function refuse(detail) {
  throw new Problem({ title: "The file can't be read", detail });
}

const newlines = (text) => text.split("\n").length - 1;

function textOf(bytes) {
  try {
    return utf8.decode(bytes);
  } catch {
    throw new RowFault("a byte is not UTF-8: save the file as UTF-8");
  }
}

/** Members that are no inputs: what is due, what is left alone, and the result in a line of serve. */
const MARKED = /"(?:[=#]|result")/;

function withoutMarks(text) {
  if (!MARKED.test(text)) return text;
  const value = readJSON(text);
  if (!isObject(value)) return text;
  const isRequest = typeof value.service === "string" && value.inputs !== undefined;
  const members = Object.entries(value).filter(([name]) => !/^[=#]/.test(name) && !(isRequest && name === "result"));
  return writeJSON(Object.fromEntries(members));
}

/** Records `{start, end, line}` of a piece as lines of JSON, each with the line on which it begins; and those that are refused. */
function converted(records, { bytes, raw }, make) {
  const [made, starts, refused] = [[], [], []];
  for (const { start, end, line } of records) {
    try {
      if (end - start > MOST) throw new RowFault(`the row has over ${MOST} bytes`);
      made.push(make(textOf(bytes.subarray(start, end))));
      starts.push(line);
    } catch (fault) {
      if (!(fault instanceof RowFault || fault instanceof SyntaxError)) throw fault;
      refused.push({ line, problem: "row", detail: fault.message });
    }
  }
  return { text: made.map((it) => `${it}\n`).join(""), starts, refused, lines: newlines(raw) };
}

/** How many bytes the first two lines of a file of the journal have, which tell its release; 0 where it is none. */
function headOf(raw) {
  const second = raw.indexOf("\n") + 1;
  const isJournal = /^\{"n":\d+,"begins":true,/.test(raw.slice(second, second + 40));
  return second > 0 && isJournal ? raw.indexOf("\n", second) + 1 : 0;
}

/** Lines of JSON. */
class Lines {
  constructor(blob, start, head) {
    Object.assign(this, { blob, start, head, line: 1 });
  }

  /** How many bytes of whole records a text begins with, which is not the end of the file. */
  cut(raw) {
    return raw.lastIndexOf("\n") + 1;
  }

  /** The lines of a piece of a journal as they are, behind the first two. */
  async recorded({ bytes, raw, start }) {
    const isFirst = start === this.start;
    const head = isFirst ? "" : await this.blob.slice(this.start, this.start + this.head).text();
    const lines = newlines(raw);
    const starts = [...(isFirst ? [] : [null, null]), ...Array.from({ length: lines + 1 }, (_, at) => at)];
    return { text: head + new TextDecoder().decode(bytes), starts, refused: [], lines };
  }

  /** The requests of a piece, as `converted` gives them; null where they are those of the file. */
  requests(piece) {
    const { raw } = piece;
    if (this.head > 0) return this.recorded(piece);
    if (!MARKED.test(raw)) return null;
    const records = [];
    for (let [start, line] = [0, 0]; start < raw.length; line += 1) {
      const next = raw.indexOf("\n", start);
      const end = next < 0 ? raw.length : next;
      if (raw.slice(start, end).trim()) records.push({ start, end, line });
      start = end + 1;
    }
    return converted(records, piece, withoutMarks);
  }
}

/** The items of a JSON array. */
class List {
  constructor(blob, start, line) {
    Object.assign(this, { blob, start, line, over: Infinity });
  }

  cut(raw, start) {
    if (start >= this.over) return raw.length;
    const { used, isOver } = this.items(raw);
    if (isOver) this.over = start + used;
    return used;
  }

  /** The items of a text that begins with one: `{start, end}`; what ends with them is used. */
  items(raw) {
    const tokens = /"(?:[^"\\]|\\.)*"|[[\]{},]/gs;
    const found = [];
    let [depth, start, used, isOver] = [0, 0, 0, false];
    for (let token = tokens.exec(raw); token && !isOver; token = tokens.exec(raw)) {
      const [mark] = token;
      if (depth === 0 && (mark === "," || mark === "]")) {
        found.push({ start, end: token.index });
        used = start = tokens.lastIndex;
        isOver = mark === "]";
      } else if (mark === "[" || mark === "{") depth += 1;
      else if (mark === "]" || mark === "}") depth -= 1;
    }
    return { found, used, isOver };
  }

  requests(piece) {
    const { raw, start, isLast } = piece;
    const { found, used, isOver } = start >= this.over ? { found: [], used: 0, isOver: true } : this.items(raw);
    let [line, at] = [0, 0];
    const records = [];
    for (const item of found) {
      const begin = item.start + raw.slice(item.start, item.end).search(/\S/);
      if (begin < item.start) continue;
      line += newlines(raw.slice(at, begin));
      at = begin;
      records.push({ start: begin, end: item.end, line });
    }
    const made = converted(records, piece, (text) => withoutMarks(text).replace(/[\r\n]/g, " "));
    const refuse = (detail, offset) => made.refused.push({ line: newlines(raw.slice(0, offset)), problem: "row", detail });
    if (isOver && raw.slice(used).trim() !== "") refuse("something is after the list", used + raw.slice(used).search(/\S/));
    if (isLast && !isOver) refuse("the list is not closed: ] is due", raw.length);
    return made;
  }
}

/** Rows of CSV. Their header says what the columns are for. */
class CSV {
  constructor(blob, bytes, raw, offset, options) {
    this.blob = blob;
    this.isComma = options.isComma;
    let header = this.header(raw, 0);
    let separator;
    if (/^sep=.$/.test(header.text)) {
      separator = header.text.at(-1);
      header = this.header(raw, header.next);
    }
    this.separator = separator ?? separatorOf(header.text, options.isComma);
    try {
      const text = textOf(bytes.subarray(header.next - header.length, header.next)).replace(/\r?\n$/, "");
      this.columns = new Columns(cellsOf(text, this.separator), options.model, options.service);
    } catch (fault) {
      if (!(fault instanceof RowFault)) throw fault;
      refuse(`line ${header.line}: ${fault.message}`);
    }
    this.start = offset + header.next;
    this.line = header.line + 1;
  }

  /** The first line from a place on that has something. */
  header(raw, from) {
    for (let start = from; start < raw.length; ) {
      const end = raw.indexOf("\n", start);
      const next = end < 0 ? raw.length : end + 1;
      const text = raw.slice(start, next).replace(/\r?\n$/, "");
      if (next - start > MOST) refuse(`the row has over ${MOST} bytes`);
      if (text.includes("\r")) refuse("a carriage return without a line feed: save the file with line ends of Windows or Unix");
      if (text.trim()) return { text, next, length: next - start, line: 1 + newlines(raw.slice(0, start)) };
      start = next;
    }
    return refuse("a header is due: the names of the columns");
  }

  cut(raw) {
    return this.rows(raw, false).used;
  }

  /** The rows of a text that begins with one. One whose quotes are wrong ends with its first line. */
  rows(raw, isEnd) {
    const found = [];
    let [used, line] = [0, 0];
    for (let row = this.row(raw, 0, isEnd); row; row = this.row(raw, used, isEnd)) {
      if (!this.isBlank(raw.slice(used, row.end))) found.push({ start: used, end: row.end, line });
      used = row.next;
      line += row.count;
    }
    return { found, used };
  }

  isBlank(text) {
    return text.trim() === "" && !(this.separator === "\t" && text.includes("\t"));
  }

  /** Where the row ends that begins at a place, and where the next one begins; null where that is not known. */
  row(raw, start, isEnd) {
    const first = lineAt(raw, start, isEnd);
    if (!first) return null;
    let [line, count] = [first, 1];
    let { isOpen, isFine } = this.after(raw.slice(start, first.end), false);
    while (isOpen && isFine && line.next - start <= MOST) {
      line = lineAt(raw, line.next, isEnd);
      if (!line && !isEnd) return null;
      if (!line) break;
      count += 1;
      ({ isOpen, isFine } = this.after(raw.slice(line.start, line.end), true));
    }
    const isWhole = line && !isOpen && isFine && line.next - start <= MOST;
    return isWhole ? { ...line, count } : { ...first, count: 1 };
  }

  /** Whether a line ends within quotes, where it does or doesn't begin within some; and whether its quotes are right. */
  after(line, wasOpen) {
    if (!line.includes('"')) return { isOpen: wasOpen, isFine: true };
    let at = 0;
    if (wasOpen) {
      const end = closing(line, 0);
      if (end < 0) return { isOpen: true, isFine: true };
      if (end + 1 < line.length && line[end + 1] !== this.separator) return { isOpen: false, isFine: false };
      at = end + 2;
    }
    try {
      while (at <= line.length) at = cellAt(line, at, this.separator).next + 1;
    } catch (fault) {
      return { isOpen: fault.isOpen === true, isFine: fault.isOpen === true };
    }
    return { isOpen: false, isFine: true };
  }

  requests(piece) {
    return converted(this.rows(piece.raw, true).found, piece, (text) => this.columns.inputs(cellsOf(text, this.separator), this.isComma));
  }
}

/** The line that begins at a place, without its end; null where there is none, or none that ends. */
function lineAt(raw, start, isEnd) {
  if (start >= raw.length) return null;
  const newline = raw.indexOf("\n", start);
  if (newline < 0 && !isEnd) return null;
  const next = newline < 0 ? raw.length : newline + 1;
  const end = newline < 0 ? next : newline;
  return { start, end: end > start && raw[end - 1] === "\r" ? end - 1 : end, next };
}

/** The separator that is most often in a header, outside of quotes. */
function separatorOf(header, isComma) {
  const plain = header.replace(/"[^"]*"?/g, "");
  const count = (it) => plain.split(it).length;
  return [isComma ? ";" : ",", ";", ",", "\t", "|"].reduce((best, it) => (count(it) > count(best) ? it : best));
}
