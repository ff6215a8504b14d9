// Counts over a file of requests: it is read in pieces of whole records, a few of which are asked at once.
import { cover, Problem } from "./api.js";
import { csvRow, writeJSON } from "./dom.js";
import { listOf, tablesOf } from "./model.js";
import { bytesOf, openRecords } from "./records.js";

const PIECE = 512 * 1024;
const LONGEST = 16 * 1024 * 1024;
/** A browser has six connections to a service at once: one is left for what is asked meanwhile. */
const AT_ONCE = 5;
const NEWLINE = 10;

export class Coverage {
  /** `onprogress` is called with how much of the file was counted, from 0 to 1. Numbers of CSV have a decimal comma if `isComma`. */
  constructor(file, model, service, isComma, onprogress) {
    Object.assign(this, { file, model, service, isComma, onprogress });
    this.tables = new Map();
    this.pieces = [];
    this.answers = [];
    this.done = 0;
    this.start = performance.now();
    this.isWhole = false;
    this.abort = new AbortController();
  }

  /** Counts to the end of the file, or until it is stopped: then over what was counted by then. */
  async run() {
    this.records = await openRecords(this.file, this.model, this.model.word(this.service), this.isComma);
    const pieces = this.parts();
    const worker = async () => {
      for (let next = await pieces.next(); !next.done; next = await pieces.next()) await this.ask(next.value);
    };
    const workers = Array.from({ length: AT_ONCE }, () => worker().catch((fault) => {
      this.stop();
      throw fault;
    }));
    const ends = await Promise.allSettled(workers);
    await this.number();
    this.answers = this.pieces.flatMap((piece) => piece.answers);
    this.isWhole = ends.every((end) => end.status === "fulfilled");
    const fault = ends.map((end) => end.reason).find((reason) => reason && reason.name !== "AbortError");
    if (fault) throw fault;
  }

  stop() {
    this.abort.abort();
  }

  /** The file in pieces of whole records. */
  async* parts() {
    const { blob } = this.records;
    let { start } = this.records;
    while (start < blob.size) {
      const end = await this.endOfRecords(start);
      const piece = { start, end, answers: [] };
      this.pieces.push(piece);
      yield piece;
      start = end;
    }
  }

  /** Where the whole records end that begin here and fit into a piece; the first one may be longer. */
  async endOfRecords(start) {
    const { blob } = this.records;
    for (let size = PIECE; size <= LONGEST; size *= 2) {
      const end = start + size;
      if (end >= blob.size) return blob.size;
      this.abort.signal.throwIfAborted();
      const length = this.records.cut((await bytesOf(blob, start, end)).raw, start);
      if (length > 0) return start + length;
    }
    throw new Problem({ title: "A line of the file is too long" });
  }

  /** The requests of a piece as lines of JSON, with the lines of the file on which they begin; null where they are those of the file. */
  async requestsOf(piece) {
    const { blob } = this.records;
    return this.records.requests({ ...await bytesOf(blob, piece.start, piece.end), start: piece.start, isLast: piece.end === blob.size });
  }

  async ask(piece) {
    const made = await this.requestsOf(piece);
    const lines = made?.text ?? this.records.blob.slice(piece.start, piece.end);
    const told = made?.text === "" ? { answers: [], tables: {} } : await cover(this.model, this.service, lines, this.abort.signal);
    piece.answers = told.answers;
    // Requests of a list may stand on one line.
    for (const answer of piece.answers) Object.assign(answer, { piece, at: answer.line - 1 });
    if (made) {
      for (const answer of piece.answers) answer.line = made.starts[answer.at] + 1;
      for (const it of made.refused) piece.answers.push({ ...it, line: it.line + 1 });
      piece.answers.sort((one, other) => one.line - other.line);
    }
    piece.lines = made?.lines ?? told.lines;
    for (const [pointer, counts] of Object.entries(told.tables)) this.add(pointer, counts);
    this.done += piece.end - piece.start;
    this.onprogress(this.done / this.records.blob.size);
  }

  /** Numbers the lines of the whole file. Those of a piece that the service did not count are counted here. */
  async number() {
    let { line } = this.records;
    for (const piece of this.pieces) {
      piece.line = line;
      for (const answer of piece.answers) answer.line += line - 1;
      line += piece.lines ?? newlines((await bytesOf(this.records.blob, piece.start, piece.end)).bytes);
    }
  }

  add(pointer, counts) {
    const sum = this.tables.get(pointer) ?? { asked: 0, defaults: 0, none: 0, hits: [], decided: counts.decided && [] };
    for (const key of ["asked", "defaults", "none"]) sum[key] += counts[key];
    for (const key of ["hits", "decided"]) {
      counts[key]?.forEach((count, at) => { sum[key][at] = (sum[key][at] ?? 0) + count; });
    }
    this.tables.set(pointer, sum);
  }

  /** The counts of a table, also of one that was never asked. */
  of(pointer) {
    return this.tables.get(pointer) ?? { asked: 0, defaults: 0, none: 0, hits: [], decided: [] };
  }

  /** Each rule with its counts. Whether a rule decided is null where that was not told. */
  * rules() {
    for (const { pointer, table, decision } of tablesOf(this.model)) {
      const counts = this.of(pointer);
      for (let at = 0; at < listOf(table.rules).length; at += 1) {
        const decided = counts.decided ? counts.decided[at] ?? 0 : null;
        yield { pointer, decision, rule: at + 1, hits: counts.hits[at] ?? 0, decided };
      }
    }
  }

  /** The service and the inputs that got an answer, as a JSON text. */
  async request({ piece, at }) {
    if (!piece) return "null";
    const made = await this.requestsOf(piece);
    const lines = made?.text ?? await this.records.blob.slice(piece.start, piece.end).text();
    return lines.split("\n")[at];
  }

  rulesCSV() {
    const rows = [["decision", "table", "rule", "hit", "decided"]];
    for (const { decision, pointer, rule, hits, decided } of this.rules()) {
      rows.push([this.model.name(decision), pointer, rule, hits, decided ?? ""]);
    }
    return rows.map(csvRow).join("");
  }

  answersCSV() {
    const rows = this.answers.map((it) => csvRow([it.line, it.client ?? "", it.service ?? this.model.name(this.service),
      it.problem === undefined ? writeJSON(it.result) : "", it.problem ?? "", it.detail ?? ""]));
    return csvRow(["line", "client", "service", "result", "problem", "detail"]) + rows.join("");
  }
}

function newlines(bytes) {
  let count = 0;
  for (let at = bytes.indexOf(NEWLINE); at >= 0; at = bytes.indexOf(NEWLINE, at + 1)) count += 1;
  return count;
}
