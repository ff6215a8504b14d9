// Cases that are kept, each with the answer that is due; and a file of them that desk test reads.
import * as api from "./api.js";
import { decide, fillFrom, remember } from "./case.js";
import { button, byID, counted, el, first, isObject, put, readJSON, save, show, writeJSON } from "./dom.js";
import { showTab } from "./panes.js";
import { alarm, model, state, tried } from "./state.js";
import { commas, inLine, limit } from "./values.js";

/** How many letters of the inputs of a case are shown. */
const MOST_LETTERS = 240;

/** Whether the case that is shown can be kept. */
export function drawKeep() {
  const told = state.told[state.shown];
  byID("keep").disabled = !told || told.problem !== undefined;
  if (state.kept.some((it) => it.asked !== model().sha256)) drawKept();
}

/** Keeps the case that is shown, with its answer as the one that is due. */
export function keepCase() {
  const { result } = state.told[state.shown] ?? {};
  if (result === undefined) return;
  const name = `case ${1 + Math.max(0, ...state.kept.map((it) => Number(/^case (\d+)$/.exec(it.name)?.[1] ?? 0)))}`;
  state.kept.push({ name, service: model().name(state.service), inputs: state.inputs, due: writeJSON(result), got: result, asked: model().sha256 });
  drawKept();
  showTab("cases");
  remember();
}

/** Asks for the cases that were not asked under the model that is shown, and shows what came. */
async function askKept() {
  const it = model();
  for (const kept of state.kept.filter((one) => one.asked !== it.sha256)) {
    kept.asked = it.sha256;
    try {
      const told = await api.explain(it, kept.service, kept.inputs, {});
      [kept.got, kept.fault] = [told.result, told.problem?.message];
    } catch (fault) {
      [kept.got, kept.fault] = [undefined, fault.message];
    }
    if (it !== model()) return;
  }
  drawKept();
}

const isMet = (it) => it.fault === undefined && it.got !== undefined && canonical(it.got) === canonical(readJSON(it.due));

/** A value as JSON whose members are in the order of their names. */
function canonical(value) {
  const sorted = (part) => {
    if (Array.isArray(part)) return part.map(sorted);
    return isObject(part) ? Object.fromEntries(Object.keys(part).sort().map((key) => [key, sorted(part[key])])) : part;
  };
  return writeJSON(sorted(value));
}

function drawKept() {
  if (state.kept.some((it) => it.asked !== model().sha256)) {
    askKept();
    return;
  }
  byID("cases-save").disabled = state.kept.length === 0;
  const failed = state.kept.filter((it) => !isMet(it)).length;
  put(byID("kept"),
    state.kept.length === 0 ? "" : el("p", {}, `${counted(state.kept.length, "case")}, ${failed === 0 ? "each with its due answer" :
      `${failed} with another answer than is due`}.`),
    el("ul", { class: "kept" }, state.kept.map(item)));
}

function item(it, at) {
  const id = `due-${at}`;
  const due = el("input", { id, value: it.due, spellcheck: "false", autocomplete: "off", onchange: ({ target }) => setDue(it, target) });
  const rename = ({ target }) => {
    it.name = target.value || it.name;
  };
  const name = el("input", { id: `name-${at}`, value: it.name, autocomplete: "off", onchange: rename });
  const remove = () => {
    state.kept.splice(state.kept.indexOf(it), 1);
    drawKept();
  };
  const isFine = isMet(it);
  return el("li", { class: isFine ? "met" : "unmet" },
    el("p", { class: "field" }, el("label", { for: name.id }, "Name"), name),
    el("p", { class: "field" }, el("label", { for: id }, "Due"), due),
    el("p", {}, isFine ? "✓ it comes. " : ["✗ what comes is ", it.fault ? limit(it.fault) : inLine(it.got), ". "]),
    el("p", { class: "quiet" }, commas(show(model().named(it.inputs)).slice(0, MOST_LETTERS))),
    el("p", { class: "row" }, button("Open", () => openCase(it), { "aria-label": `Open ${it.name}` }), " ",
      button("Remove", remove, { "aria-label": `Remove ${it.name}` })));
}

/** Takes a due answer as it was typed; what is no JSON is refused. */
function setDue(it, input) {
  try {
    readJSON(input.value);
    it.due = input.value;
    alarm("");
    drawKept();
  } catch {
    alarm(`The due answer of ${it.name} is no JSON: texts stand in quotes.`);
    input.setAttribute("aria-invalid", "true");
    input.focus();
  }
}

async function openCase(it) {
  fillFrom(it.service, it.inputs);
  showTab("case");
  await decide();
}

/** Saves the cases as lines that desk test reads. */
export function saveCases() {
  const lines = state.kept.map((it) =>
    `{"client":${writeJSON(it.name)},"service":${writeJSON(it.service)},"inputs":${writeJSON(it.inputs)},"result":${it.due}}\n`);
  save("cases.jsonl", lines.join(""), "application/x-ndjson");
}

/** Takes cases from a file: lines of requests with their results. */
export async function takeCases(file) {
  await tried(async () => {
    const lines = (await file.text()).split("\n").filter((line) => line.trim());
    const wrong = [];
    const taken = lines.flatMap((line, at) => {
      try {
        const it = readJSON(line);
        if (isObject(it) && typeof it.service === "string" && isObject(it.inputs) && it.result !== undefined) {
          return [{ name: String(it.client ?? `case ${at + 1}`), service: it.service, inputs: it.inputs, due: writeJSON(it.result) }];
        }
      } catch {
        // It is listed with the others.
      }
      wrong.push(at + 1);
      return [];
    });
    state.kept.push(...taken);
    showTab("cases");
    drawKept();
    if (wrong.length > 0) alarm(`Of ${file.name} these lines are no cases with a service, inputs and a result: ${first(wrong)}`);
  });
}
