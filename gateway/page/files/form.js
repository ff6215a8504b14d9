// The form of a service's inputs, made from their types, or from how the model uses them where it has none.
import { broken, copied, el, isObject, put as putInto, readJSON, writeJSON } from "./dom.js";
import { listOf, tablesOf } from "./model.js";

let count = 0;

/** Sets a member, whatever its name. */
const put = (object, key, value) =>
  Object.defineProperty(object, key, { value, enumerable: true, configurable: true, writable: true });
const member = (object, key) => (isObject(object) ? Object.getOwnPropertyDescriptor(object, key)?.value : undefined);

export class Form {
  constructor(model, service) {
    this.model = model;
    this.fields = [];
    this.base = {};
    const words = model.parameters(service).filter((word) => !isFromClock(model, word));
    this.element = el("div", {}, words.map((word) => this.part(shapeOf(model, word), [word])));
  }

  part(shape, path) {
    const name = this.model.name(path.at(-1));
    if (shape.members) {
      const parts = shape.members.map(([word, inner]) => this.part(inner, [...path, word]));
      return el("fieldset", {}, el("legend", {}, broken(name)), parts);
    }
    const id = `field-${count += 1}`;
    const error = el("span", { id: `${id}-error`, class: "error" });
    const suggested = shape.suggested?.map((value) => el("option", { value }));
    const list = suggested ? el("datalist", { id: `${id}-list` }, suggested) : null;
    const isDate = shape.format === "date";
    const input = shape.choices ? choice(shape.choices, id) : el("input", { id, type: isDate ? "date" : "text", autocomplete: "off",
      min: isDate ? "0001-01-01" : null, max: isDate ? "9999-12-31" : null, placeholder: isDate ? null : shape.example,
      inputmode: shape.kind === "number" ? "numeric" : null, spellcheck: "false", list: list?.id });
    input.setAttribute("aria-describedby", error.id);
    this.fields.push({ path, shape, input, error });
    return el("p", { class: "field" }, el("label", { for: id }, broken(name)), input, list, error);
  }

  /** The inputs as they stand in the form; null where a field has no value of its type: the first such gets the focus if it is asked. */
  value(isAsked) {
    const inputs = copied(this.base);
    let wrong;
    for (const field of this.fields) {
      const read = readField(field);
      mark(field, read.fault);
      wrong ??= read.fault ? field : undefined;
      set(inputs, field.path, read.value);
    }
    if (wrong && isAsked) wrong.input.focus();
    return wrong ? null : inputs;
  }

  /** Fills the form; members that it has no field for are kept. */
  fill(inputs) {
    this.base = copied(inputs);
    for (const field of this.fields) {
      mark(field, "");
      writeField(field, field.path.reduce(member, inputs));
    }
  }

  /** Marks the field of a value that is not taken, by its JSON Pointer; it gets the focus if it is asked. */
  refuse(pointer, text, isAsked) {
    const tokens = pointer.split("/").slice(1).map((token) => token.replaceAll("~1", "/").replaceAll("~0", "~"));
    const path = tokens.map((token) => this.model.word(token));
    const field = this.fields.find((it) => it.path.every((key, at) => path[at] === key));
    if (!field) return;
    mark(field, text);
    if (isAsked) field.input.focus();
  }
}

function set(inputs, path, value) {
  let at = inputs;
  for (const key of path.slice(0, -1)) {
    if (!isObject(member(at, key))) {
      if (value === undefined) return;
      put(at, key, {});
    }
    at = member(at, key);
  }
  if (value === undefined) delete at[path.at(-1)];
  else put(at, path.at(-1), value);
}

function mark({ input, error }, text) {
  putInto(error, text ?? "");
  if (text) input.setAttribute("aria-invalid", "true");
  else input.removeAttribute("aria-invalid");
}

function choice(values, id) {
  const text = (value) => (typeof value === "string" ? value : writeJSON(value));
  const options = values.map((value) => el("option", { value: writeJSON(value) }, text(value)));
  return el("select", { id }, el("option", { value: "" }, "nothing"), options);
}

/** The value of a field: undefined where it is empty. */
function readField({ shape, input }) {
  const text = input.value.trim();
  if (text === "") return {};
  if (shape.choices) return { value: readJSON(text) };
  if (shape.kind === "number") {
    if (!/^-?\d{1,19}$/.test(text)) return { fault: "a whole number is due, in digits alone" };
    return { value: readJSON(text.replace(/^(-?)0+(?=\d)/, "$1")) };
  }
  if (shape.kind === "decimal") {
    if (!/^-?\d+(\.\d+)?$/.test(text)) return { fault: "a number is due, as 12.50" };
    return { value: readJSON(text.replace(/^(-?)0+(?=\d)/, "$1")) };
  }
  if (shape.kind === "text") return { value: text === '""' ? "" : input.value };
  try {
    return { value: readJSON(text) };
  } catch {
    return { value: input.value };
  }
}

function writeField({ shape, input }, value) {
  if (value === undefined || value === null) {
    input.value = "";
  } else if (shape.choices) {
    const text = writeJSON(value);
    if (![...input.options].some((option) => option.value === text)) input.append(el("option", { value: text }, text));
    input.value = text;
  } else if (shape.kind === "text" && typeof value === "string") {
    input.value = value === "" ? '""' : value;
  } else {
    input.value = typeof value === "string" && isPlain(value) ? value : writeJSON(value);
  }
}

/** Whether a text is read back as itself where no quotes stand round it. */
function isPlain(text) {
  try {
    readJSON(text);
    return false;
  } catch {
    return text !== "" && text.trim() === text;
  }
}

function shapeOf(model, word) {
  return Object.hasOwn(model.types, word) ? shapeOfType(model.types[word]) : shapeOfUse(model, word);
}

/** The shape of a JSON Schema: `members`, `choices`, or a `kind`: number, text or any. */
function shapeOfType(type) {
  const kinds = [type.type ?? []].flat().filter((kind) => kind !== "null");
  if (Array.isArray(type.enum)) return { choices: type.enum.filter((value) => value !== null) };
  if (kinds.length === 1 && kinds[0] === "boolean") return { choices: [true, false] };
  if (kinds.length === 1 && kinds[0] === "object" && type.properties) {
    return { members: Object.entries(type.properties).map(([word, inner]) => [word, shapeOfType(inner)]) };
  }
  const kind = { integer: "number", number: "decimal", string: "text" }[kinds.length === 1 ? kinds[0] : ""];
  return { kind: kind ?? "any", format: kind === "text" ? type.format : undefined, example: exampleOf(type) };
}

/** An example of a date, a time or a duration, which a field shows while it is empty. */
function exampleOf({ format, unit, offset }) {
  const zone = offset ? "+02:00" : "";
  return { date: "2026-01-31", time: `12:30:00${zone}`, "date-time": `2026-01-31T12:30:00${zone}`,
    duration: unit === "month" ? "P1Y6M" : "P1DT2H" }[format];
}

/** Whether a clock gives the input: callers may not. */
const isFromClock = (model, word) => Object.hasOwn(model.types, word) && model.types[word].clock !== undefined;

/** The shape of an input without a type, from the paths that the model has into it and the columns that test it. */
function shapeOfUse(model, word) {
  const texts = [];
  const walk = (part) => {
    if (typeof part === "string") texts.push(part);
    else if (part !== null && typeof part === "object") Object.values(part).forEach(walk);
  };
  for (const decision of model.decisions) {
    if (listOf(decision.needs).includes(word)) walk(decision.expr);
  }
  const all = texts.join("\n").replace(/"(?:[^"\\]|\\.)*"/g, '""');
  if (new RegExp(`\\b(sum|min|max|count)\\(\\s*${word}\\b`).test(all)) return { kind: "any" };
  const paths = [...all.matchAll(new RegExp(`(?<![\\w.])${word}((?:\\.\\w+)+)`, "g"))].map((match) => match[1].slice(1));
  const build = (path, rests) => {
    const firsts = [...new Set(rests.map((rest) => rest.split(".")[0]))];
    if (firsts.length === 0) return shapeOfColumns(model, path);
    const below = (first) => rests.filter((rest) => rest.startsWith(`${first}.`)).map((rest) => rest.slice(first.length + 1));
    return { members: firsts.map((first) => [first, build(`${path}.${first}`, below(first))]) };
  };
  return build(word, paths);
}

function shapeOfColumns(model, path) {
  const cells = [];
  for (const { table } of tablesOf(model)) {
    listOf(table.inputs).forEach((text, at) => {
      if (text === path) listOf(table.rules).forEach((rule) => cells.push(rule.when?.[at]));
    });
  }
  const tests = [...new Set(cells)].filter((text) => typeof text === "string" && text !== "-");
  if (tests.length > 0 && tests.every((text) => text === "true" || text === "false")) return { choices: [true, false] };
  const texts = tests.slice(0, 2000).flatMap((text) => text.match(/"[^"\\]*"/g) ?? []).map((text) => text.slice(1, -1));
  return { kind: "any", suggested: texts.length > 0 ? [...new Set(texts)].slice(0, 100) : undefined };
}
