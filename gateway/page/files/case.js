// A case: the inputs of a request, what is told of them under each model, and the address that has them.
import * as api from "./api.js";
import { drawDifferences } from "./changed.js";
import { drawKeep } from "./cases.js";
import { broken, button, byID, el, first, isObject, put, readJSON, show, SIGNS, unseen, writeJSON } from "./dom.js";
import { outcome } from "./logic.js";
import { listOf } from "./model.js";
import { currentTab, showTab } from "./panes.js";
import { chooseService, goTo, openDecision } from "./show.js";
import { alarm, model, state, tried } from "./state.js";
import { drawn, limit } from "./values.js";

/** Asks for what stands in the form, under each model. A wrong input gets the focus if it `isSent` by a person. */
export async function decide(isSent) {
  const inputs = state.form?.value(isSent === true);
  state.asked += 1;
  const asked = state.asked;
  if (!inputs || !model().isLawful || !state.service) {
    state.told = {};
    tell();
    return;
  }
  state.inputs = inputs;
  state.asking?.abort();
  state.asking = new AbortController();
  remember();
  byID("json").value = escaped(writeJSON(inputs, 2));
  await tried(async () => {
    try {
      const all = Object.entries(state.models).map(async ([which, it]) => [which, await answerOf(it, which)]);
      const told = await Promise.all(all);
      if (asked !== state.asked) return;
      state.told = Object.fromEntries(told);
      tell();
    } catch (fault) {
      if (asked !== state.asked) return;
      state.told = {};
      tell();
      if (fault.body?.pointer) state.form.refuse(fault.body.pointer, fault.body.detail, isSent === true);
      throw fault;
    }
  });
}

/** How many letters of a value stand in the list of what it came from. */
const MOST_LETTERS = 160;

/** Of a model with more rules it is not told at once which test of each was not met. */
const MOST_RULES = 4000;

async function answerOf(it, which, misses = it.ruleCount <= MOST_RULES) {
  const name = model().name(state.service);
  const service = it.services.find((other) => it.name(other.name) === name);
  if (!it.isLawful || !service) return undefined;
  try {
    return await api.explain(it, name, state.inputs, { misses, signal: state.asking.signal });
  } catch (fault) {
    if (which === state.shown) throw fault;
    return { problem: fault };
  }
}

/** Asks which test of each rule was not met, once it is asked. */
export async function askMisses() {
  const asked = state.asked;
  const told = await tried(() => answerOf(model(), state.shown, true));
  if (!told || asked !== state.asked) return;
  state.told[state.shown] = told;
  tell(true);
}

/** Fills the form with the values of a finding of a table, and asks; or says at the table why it cannot. */
export async function tryWitness(view, finding) {
  const it = model();
  const [, at] = view.pointer.match(/^\/decisions\/(\d+)/);
  const service = finding.inputs && serviceFor(it, it.decisions[Number(at)].name, Object.keys(finding.inputs));
  if (!service) {
    view.say(`The form cannot be filled with these values: ${whyNot(it, view, finding)}.`);
    return;
  }
  fillFrom(it.name(service.name), merged(state.inputs, it.inputsInFile(finding.inputs)));
  openDecision(it.decisions[Number(at)].name);
  await decide();
  const values = view.witness(finding).map((value, at) => `${view.column(at)} ${show(value)}`).join(", ");
  const isTaken = state.told[state.shown] !== undefined;
  view.say(`The form has ${values}. `, isTaken ? "The rules that hit are lit." : "The service does not take them: see the form.");
}

/** A service that takes some inputs and evaluates a decision: the one that is chosen, if it does. */
function serviceFor(it, decision, inputs) {
  const does = (service) => [...listOf(service.outputs), ...listOf(service.encapsulated)].includes(decision) &&
    inputs.every((word) => listOf(service.inputData).includes(word));
  return [it.service(state.service), ...it.services].filter(Boolean).find(does);
}

function whyNot(it, view, finding) {
  if (finding.inputs) return "no service takes these inputs and evaluates this decision";
  const isInput = (text) => it.inputs.includes(String(text).split(".")[0]) && /^[\w.]+$/.test(text);
  const others = view.inputs.flatMap((text, at) => (isInput(text) ? [] : [view.column(at)]));
  return others.length > 0 ? `no input stands in ${others.join(", ")}, but what is computed on the way` :
    "its columns are not each an input of its own";
}

/** An object with the members of another one put into it, also within members that both have. */
function merged(object, other) {
  if (!isObject(object) || !isObject(other)) return other;
  const pairs = Object.entries(other).map(([key, value]) => [key, merged(object[key], value)]);
  return { ...object, ...Object.fromEntries(pairs) };
}

/** Shows what was told of the inputs; `isMore` says that it is more of the same case. */
export function tell(isMore = false) {
  const it = model();
  const told = state.told[state.shown];
  const byWord = new Map(listOf(told?.decisions).map((part) => [it.word(part.name), part]));
  for (const [word, view] of state.views) view.tell(byWord.get(word), isMore);
  const values = new Map();
  if (told) it.parameters(state.service).forEach((word) => values.set(word, { value: state.inputs[word] ?? null }));
  for (const [word, part] of byWord) values.set(word, { value: part.given ?? part.value, fault: part.fault });
  state.graph.tell(values);
  drawResult(told, byWord);
  drawDifferences();
  drawKeep();
}

function drawResult(told, byWord) {
  byID("json-result").hidden = !told || Boolean(told.problem);
  if (!told) {
    put(byID("result"), el("p", { class: "quiet" }, "Nothing was asked yet."));
    put(byID("way"));
    return;
  }
  put(byID("result"), el("div", { class: "answer" }, unseen("The result is "),
    told.problem ? limit(told.problem.message) : drawn(told.result)));
  put(byID("as-json"), told.problem ? "" : escaped(writeJSON(told.result, 2)));
  if (told.explained) {
    put(byID("way"), el("p", {}, "How it came about is too long to be told."));
    return;
  }
  const steps = [...byWord].map(([word, part]) => el("li", {},
    button(model().name(word), () => goTo(word), { class: "link" }), " = ", el("code", {}, outcome(part, MOST_LETTERS)),
    el("span", { class: "by" }, part.given === undefined ? whichRules(word, part) : ", given")));
  put(byID("way"), el("h3", {}, "Why"), el("ol", { class: "way" }, steps));
}

/** A JSON text in which characters that turn or hide text are written by their numbers. */
const escaped = (text) => text.replace(SIGNS, (sign) =>
  sign.split("").map((unit) => `\\u${unit.charCodeAt(0).toString(16).padStart(4, "0")}`).join(""));

/** Which rules made the value of a decision, and by which values. */
function whichRules(word, part) {
  const at = model().numbers.get(word);
  const made = tableOf(model().decisions[at]?.expr, part, `/decisions/${at}/expr`);
  if (!made) return "";
  const hits = listOf(made.told.hits).map((hit) => hit.rule);
  if (hits.length === 0) return made.told.defaults ? ", no rule hit: the default" : ", no rule hit";
  const said = (rules, did) => `, ${rules.length === 1 ? "rule" : "rules"} ${first(rules)} ${did}${byValues(made, rules)}`;
  const { decided } = made.told;
  if (!decided) return said(hits, "hit");
  return decided.length > 0 ? said(decided, "decided") : said(hits, "hit, none decided");
}

/** The table that made a value: that of the part itself, of its result, or of the entry that this names. */
function tableOf(whole, part, from) {
  const { expr, pointer } = model().written(whole, from);
  if (part?.table) return { table: expr?.table, told: part.table, pointer: `${pointer}/table` };
  if (!part?.result) return null;
  const entries = listOf(expr?.context).map((entry, at) => ({ entry, at })).filter(({ entry }) => model().isOfFile(entry ?? undefined));
  const kept = entries.findIndex(({ entry }) => entry?.name === expr.result);
  if (kept < 0) return tableOf(expr?.result, part.result, `${pointer}/result`);
  return tableOf(entries[kept].entry.expr, listOf(part.entries)[kept], `${pointer}/context/${entries[kept].at}/expr`);
}

/** The values that the tests of a rule met, where one rule alone is told. */
function byValues({ table, told, pointer }, rules) {
  if (rules.length !== 1 || !table || !told.inputs) return "";
  const test = (at) => model().text(listOf(table.rules)[rules[0] - 1]?.when?.[at], `${pointer}/rules/${rules[0] - 1}/when/${at}`);
  const met = model().inputsOf(pointer, table).flatMap((_, at) =>
    (test(at) === "-" ? [] : [`${model().column(pointer, table, at)} is ${show(told.inputs[at])}`]));
  return met.length > 0 ? `: ${met.join(" and ")}` : "";
}

/** The address of what is shown: the case, the decision that is open and the tab. */
function address() {
  const words = new URLSearchParams();
  if (Object.keys(state.inputs).length > 0) {
    words.set("service", model().name(state.service));
    words.set("inputs", writeJSON(state.inputs));
  }
  if (state.open) words.set("decision", model().name(state.open));
  if (currentTab() !== "case") words.set("tab", currentTab());
  return `#${words}`;
}

/** Keeps what is shown in the address; what was before is where Back goes, unless the address is being read. */
export function remember() {
  const text = address();
  if (text === location.hash) return;
  if (state.isReading) history.replaceState(null, "", text);
  else history.pushState(null, "", text);
}

/** Shows what the address says, and asks. Nothing of it is a step that Back goes to. */
export async function readAddress() {
  const words = new URLSearchParams(location.hash.slice(1));
  let told;
  state.isReading = true;
  try {
    if (words.has("tab")) showTab(words.get("tab"));
    else showTab("case");
    if (words.has("inputs")) fillFrom(words.get("service"), readJSON(words.get("inputs")));
    else clear();
    if (words.has("decision")) openDecision(model().word(words.get("decision")));
    if (words.has("inputs")) told = decide();
  } catch {
    alarm("The inputs in the address cannot be read.");
    return;
  } finally {
    remember();
    state.isReading = false;
  }
  await told;
}

/** Leaves the case. */
export function clear() {
  state.asked += 1;
  state.told = {};
  fillFrom(null, {});
}

export function fillFrom(service, inputs) {
  state.inputs = model().worded(inputs);
  const word = model().word(service ?? "");
  chooseService(model().service(word) ? word : state.service);
  byID("json").value = escaped(writeJSON(state.inputs, 2));
}
