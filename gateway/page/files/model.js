// A model as the page knows it: its parts under the names of the file, and what was found at each place.
import { isObject, pointed } from "./dom.js";

const POLICIES = {
  U: ["Unique", "one rule alone may hit; where several do, the result is null"],
  A: ["Any", "all rules that hit have to give the same; where they do not, the result is null"],
  P: ["Priority", "of the rules that hit, one decides whose output stands first in the list of output values"],
  F: ["First", "the first rule that hits decides"],
  R: ["Rule order", "the result is the list of all that hit, in the order of the rules"],
  O: ["Output order", "the result is the list of all that hit, in the order of the output values"],
  C: ["Collect", "the result is the list of all that hit"],
  "C+": ["Collect, sum", "the result is the sum of all that hit"],
  "C<": ["Collect, least", "the result is the least of all that hit"],
  "C>": ["Collect, greatest", "the result is the greatest of all that hit"],
  "C#": ["Collect, count", "the result is how many hit"],
};

/** What the hit policy of a table is called, and which rules decide under it. */
export const policyOf = (table) =>
  (Object.hasOwn(POLICIES, table.hit) ? POLICIES[table.hit] : ["Unknown", "it is no hit policy"]);

const KEPT = ["model", "names", "locals", "types", "domains", "required", "places", "diagram", "language", "release"];

export class Model {
  /** Of what `GET /v1/model?whole=true` and `POST /v1/check` give. */
  constructor(whole) {
    this.sha256 = whole.sha256;
    // What desk import writes of it, by which the service can be told of it again.
    this.source = Object.fromEntries(KEPT.flatMap((key) => (whole[key] === undefined ? [] : [[key, whole[key]]])));
    this.release = whole.release;
    this.isLawful = whole.lawful;
    this.fault = whole.fault;
    const written = whole.model ?? {};
    this.names = new Map(Object.entries(whole.names ?? {}));
    this.locals = new Map(Object.entries(whole.locals ?? {}));
    this.words = new Map([...this.names].map(([word, name]) => [name, word]));
    this.types = whole.types ?? {};
    this.places = whole.places ?? {};
    const texts = Object.keys(this.places).filter((pointer) => this.places[pointer].text);
    this.tablesWithTexts = new Set(texts.filter((it) => it.includes("/rules/")).map((it) => it.split("/rules/")[0]));
    // The model counts in units, and has parts that the file doesn't have.
    this.isTranslated = texts.length > 0 || Object.values(this.types).some(isCounted);
    this.diagram = whole.diagram;
    this.language = whole.language;
    this.findings = whole.findings;
    // What is found of the tables is asked for later, where it does not stand there.
    this.tables = whole.tables ?? undefined;
    this.gives = whole.gives;
    // A model with a fault may have any form.
    this.inputs = listOf(written.inputs).filter((name) => typeof name === "string");
    this.decisions = listOf(written.decisions).filter((part) => typeof part?.name === "string");
    this.services = listOf(written.services).filter((part) => typeof part?.name === "string");
    this.known = new Set([...this.inputs, ...this.decisions.map((decision) => decision.name)]);
    this.numbers = new Map(this.decisions.map((decision, at) => [decision.name, at]));
    this.ruleCount = tablesOf(this).reduce((sum, { table }) => sum + listOf(table.rules).length, 0);
  }

  /** The name in the file of a word, which may be one that stands within a decision alone. */
  name(word) {
    return this.names.get(word) ?? this.locals.get(word) ?? word;
  }

  /** The word of a name; of a word the word itself. */
  word(name) {
    return this.words.get(name) ?? name;
  }

  /** A text of the model with the names of the file, or what the file has at its place. */
  text(text, pointer) {
    const written = pointer && this.places[pointer]?.text;
    if (written) return written;
    if (typeof text !== "string") return JSON.stringify(text) ?? "";
    if (this.names.size === 0) return text;
    return text.replace(/"(?:[^"\\]|\\.)*"|[A-Za-z_][A-Za-z0-9_]*/g,
      (token) => (token.startsWith('"') ? token : this.name(token)));
  }

  /** What a column of the table at a pointer is called: by its label in the file, or by its expression. */
  column(pointer, table, at) {
    const place = `${pointer}/inputs/${at}`;
    return this.places[place]?.name || this.text(listOf(table?.inputs)[at], place);
  }

  /** How a value of an input column is read of the model, which counts in units; null where it is a part of a quotient. */
  unitOf(pointer, at) {
    const place = this.places[`${pointer}/inputs/${at}`];
    return place?.over ? null : (value) => inFile(value, place?.type);
  }

  /** Values of inputs that the model has, as requests have them. */
  inputsInFile(inputs) {
    return Object.fromEntries(Object.entries(inputs).map(([word, value]) => [word, inFile(value, this.types[word])]));
  }

  /** Whether the file has an entry of a context: what only the translation has is not shown. */
  isOfFile({ name } = {}) {
    return !this.isTranslated || this.names.has(name) || this.locals.has(name);
  }

  /** The input columns of a table that the file has: the last may be one of conditions that the translation added. */
  inputsOf(pointer, table) {
    const inputs = listOf(table.inputs);
    const last = inputs.length - 1;
    const isOwn = !this.isTranslated || inputs[last] !== "true" || this.places[`${pointer}/inputs/${last}`] ||
      listOf(table.rules).some((_, at) => this.places[`${pointer}/rules/${at}/when/${last}`]);
    return isOwn ? inputs : inputs.slice(0, last);
  }

  /** An expression as the file has it: its text, or the part that the translation put entries in front of; with its pointer. */
  written(expr, pointer) {
    const entries = listOf(expr?.context);
    if (this.places[pointer]?.text) return { expr: this.places[pointer].text, pointer, isText: true };
    if (entries.length === 0 || expr.result === undefined || entries.some((it) => this.isOfFile(it))) return { expr, pointer };
    const hidden = entries.findLastIndex((it, at) => this.isFromFile(it?.expr, `${pointer}/context/${at}/expr`));
    if (hidden >= 0 && typeof expr.result === "string" && !this.places[`${pointer}/result`]?.text) {
      return this.written(entries[hidden].expr, `${pointer}/context/${hidden}/expr`);
    }
    return this.written(expr.result, `${pointer}/result`);
  }

  /** Whether the file has an expression that the translation gave a name. */
  isFromFile(expr, pointer) {
    if (this.places[pointer]?.text) return true;
    if (expr?.context) return expr.result !== undefined && this.isFromFile(expr.result, `${pointer}/result`);
    return Boolean(expr?.table) && (this.places[pointer] !== undefined || this.tablesWithTexts.has(`${pointer}/table`));
  }

  service(word) {
    return this.services.find((service) => service.name === word);
  }

  /** The words of a service's parameters, in its order. */
  parameters(word) {
    const service = this.service(word);
    return service ? [...listOf(service.inputDecisions), ...listOf(service.inputData)] : [];
  }

  /** The needs of a decision that are inputs or decisions of the model. */
  needs(decision) {
    return listOf(decision.needs).filter((name) => this.known.has(name));
  }

  /** What was found just at a place, or in parts of it too. */
  foundAt(pointer, inside) {
    return this.findings.filter(({ pointer: at }) => at !== undefined &&
      (at === pointer || (inside && at.startsWith(pointer + "/"))));
  }

  /** Values with the words of the model as their keys, or with the names of the file. */
  worded(value) {
    return withKeys(value, (name) => this.word(name));
  }

  named(value) {
    return withKeys(value, (word) => this.name(word));
  }
}

/** A value whose contexts have other keys: `keyOf` gives them. */
function withKeys(value, keyOf) {
  if (Array.isArray(value)) return value.map((part) => withKeys(part, keyOf));
  if (!isObject(value)) return value;
  return Object.fromEntries(Object.entries(value).map(([key, part]) => [keyOf(key), withKeys(part, keyOf)]));
}

/** Whether numbers of a type are counted in a unit. */
function isCounted(type) {
  return type !== undefined && ((type.multipleOf ?? 1) !== 1 || type.per !== undefined || isCounted(type.items) ||
    Object.values(type.properties ?? {}).some(isCounted));
}

/** A value of the model, whose numbers count a unit of its type, as the file has it. */
function inFile(value, type) {
  if (Array.isArray(value)) return value.map((part) => inFile(part, type?.items ?? type));
  if (isObject(value)) return Object.fromEntries(Object.entries(value).map(([key, part]) => [key, inFile(part, type?.properties?.[key])]));
  const isNumber = typeof value === "number" || typeof value === "bigint";
  return isNumber && type?.multipleOf ? pointed(value, Math.max(0, -Math.round(Math.log10(type.multipleOf)))) : value;
}

export const listOf = (value) => (Array.isArray(value) ? value : []);

/** What a finding says, on one line. */
export function sentence(finding) {
  if (finding.more) return `and ${finding.more} more`;
  const place = finding.place ?? (finding.line ? `line ${finding.line}, column ${finding.column}` : "");
  const text = finding.text === undefined || String(place).includes(finding.text) ? "" : ` (${finding.text})`;
  const hint = finding.hint ? `: ${finding.hint}` : "";
  return `${place ? place + ": " : ""}${finding.said ?? finding.fault ?? ""}${text}${hint}`;
}

/** Each table of a model with its JSON Pointer, the decision that it stands in, and what it is a table of. */
export function tablesOf(model) {
  const found = [];
  const walk = (expr, pointer, decision, name) => {
    if (expr?.table) found.push({ pointer: `${pointer}/table`, table: expr.table, decision, name });
    listOf(expr?.list).forEach((member, at) => walk(member, `${pointer}/list/${at}`, decision, `member ${at + 1} of ${name}`));
    listOf(expr?.context).forEach((entry, at) =>
      walk(entry?.expr, `${pointer}/context/${at}/expr`, decision, `${model.name(entry?.name)} of ${name}`));
    if (expr?.result !== undefined) walk(expr.result, `${pointer}/result`, decision, name);
  };
  model.decisions.forEach((decision, at) => walk(decision.expr, `/decisions/${at}/expr`, decision.name, model.name(decision.name)));
  return found;
}

/**
 * What differs from one model to another: of each decision that was added, removed or changed its name, how, and of
 * those changed the pointers of the rules that differ in the other model. Rules that stand the same before and behind a
 * part that differs are taken as the same.
 */
export function differences(before, after) {
  const found = [];
  const olds = new Map(before.decisions.map((decision) => [before.name(decision.name), decision]));
  after.decisions.forEach((decision, at) => {
    const name = after.name(decision.name);
    const old = olds.get(name);
    olds.delete(name);
    if (!old) found.push({ name, how: "added", places: [] });
    else if (JSON.stringify(old.expr) !== JSON.stringify(decision.expr) ||
        JSON.stringify(old.needs) !== JSON.stringify(decision.needs)) {
      found.push({ name, how: "changed", places: changedRules(old.expr, decision.expr, `/decisions/${at}/expr`) });
    }
  });
  for (const name of olds.keys()) found.push({ name, how: "removed", places: [] });
  return found;
}

function changedRules(before, after, pointer) {
  if (typeof after !== "object" || typeof before !== "object" || after === null || before === null) return [];
  const places = [];
  if (after.table && before.table) places.push(...differingRules(before.table, after.table, `${pointer}/table`));
  listOf(after.list).forEach((member, at) => places.push(
    ...changedRules(before.list?.[at], member, `${pointer}/list/${at}`)));
  listOf(after.context).forEach((entry, at) => places.push(
    ...changedRules(before.context?.[at]?.expr, entry?.expr, `${pointer}/context/${at}/expr`)));
  if (after.result !== undefined) places.push(...changedRules(before.result, after.result, `${pointer}/result`));
  return places;
}

function differingRules(before, after, pointer) {
  const olds = listOf(before.rules).map((rule) => JSON.stringify(rule));
  const news = listOf(after.rules).map((rule) => JSON.stringify(rule));
  let start = 0;
  while (start < news.length && start < olds.length && news[start] === olds[start]) start += 1;
  let end = 0;
  while (end < news.length - start && end < olds.length - start && news.at(-1 - end) === olds.at(-1 - end)) end += 1;
  return news.slice(start, news.length - end).map((_, at) => `${pointer}/rules/${start + at}`);
}
