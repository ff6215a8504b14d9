// The model that is shown: its graph, the decision that is open, what was found in it, and the form of a service.
import * as api from "./api.js";
import { remember, tell } from "./case.js";
import { el, byID, put } from "./dom.js";
import { Form } from "./form.js";
import { GraphView } from "./graph.js";
import { drawChecks, drawTables } from "./checks.js";
import { byTable } from "./findings.js";
import { listOf } from "./model.js";
import { showTab } from "./panes.js";
import { drawHead } from "./release.js";
import { indexed } from "./search.js";
import { model, state, tried } from "./state.js";
import { DecisionView } from "./decision.js";
import { differences } from "./model.js";

/** How small the graph is at least, for its letters of 12 pixels to have 10 of them. */
const LEAST_SCALE = 10.2 / 12;

export function showModel() {
  const it = model();
  drawHead();
  state.graph = new GraphView(it, (word) => goTo(word));
  put(byID("graph"), state.graph.element);
  byID("main").classList.toggle("tall", state.graph.isTall);
  byID("main").style.setProperty("--map", `${state.graph.width * LEAST_SCALE}px`);
  put(byID("zoom"), state.graph.buttons);
  put(byID("service"), it.services.map((service) => el("option", { value: service.name }, it.name(service.name))));
  byID("service-line").hidden = it.services.length < 2;
  indexed(it);
  drawDecisions();
  drawChecks();
  chooseService(it.service(state.service) ? state.service : it.services[0]?.name ?? "");
  askTables(it);
}

/** Asks what the check finds of the tables, unless that is known, and shows it. */
async function askTables(it) {
  if (it.isLawful && it.tables === undefined) {
    it.tables = null;
    it.isUnderWay = true;
    drawChecks();
    const told = await tried(() => api.tables(it));
    it.tables = told?.tables ?? null;
    it.gives = told?.gives;
    it.isUnderWay = false;
  }
  if (it !== model()) return;
  drawChecks();
  if (!it.tables) return;
  state.found = byTable(it.tables);
  for (const view of state.views.values()) view.analyse(state.found);
  drawTables(state.found);
}

function drawDecisions() {
  const it = model();
  const differing = state.shown === "changed" ?
    new Set(differences(state.models.inForce, it).flatMap((difference) => difference.places)) : undefined;
  const open = state.open;
  state.found = null;
  state.byWord = new Map();
  state.views = new Map(it.decisions.map((decision, at) => [decision.name, new DecisionView(it, decision, at, differing)]));
  put(byID("decisions"), [...state.views.values()].map((view) => view.element));
  state.open = "";
  if (state.views.has(open)) openDecision(open);
}

/** Opens a decision in its pane. */
export function openDecision(word) {
  const view = state.views.get(word);
  if (!view) return undefined;
  state.views.get(state.open)?.close();
  state.open = word;
  byID("open").scrollTop = 0;
  view.open();
  state.graph.open(word);
  return view;
}

/** Opens the decision that a service is asked for. */
const openOutput = (service) => openDecision(listOf(model().service(service)?.outputs).at(-1) ?? model().decisions[0]?.name);

/** The view of a table by its JSON Pointer, with its decision opened. */
export function openTable(pointer) {
  const [, at] = pointer.match(/^\/decisions\/(\d+)/) ?? [];
  const view = openDecision(model().decisions[Number(at)]?.name);
  showTab("open");
  remember();
  return view?.logic.tables.find((table) => pointer === table.pointer || pointer.startsWith(`${table.pointer}/`));
}

/** Goes to the place of a finding. */
export function reveal(finding) {
  if (!finding.pointer.startsWith("/decisions/")) return goTo(model().inputs[Number(finding.pointer.split("/")[2])]);
  const table = openTable(finding.pointer);
  if (!table) return goTo(state.open);
  table.come();
  return table.reveal(finding);
}

/** Goes to a decision, or to the field of an input. */
export function goTo(word) {
  const view = openDecision(word);
  showTab(view ? "open" : "case");
  remember();
  const target = view?.heading ?? state.form?.fields.find((field) => field.path[0] === word)?.input;
  if (!view) target?.scrollIntoView({ block: "nearest" });
  target?.focus({ preventScroll: true });
}

export function chooseService(word) {
  if (word !== state.service || !state.views.has(state.open)) openOutput(word);
  state.service = word;
  byID("service").value = word;
  state.form = new Form(model(), word);
  put(byID("fields"), state.form.element);
  byID("decide").disabled = !model().isLawful || word === "";
  state.form.fill(state.inputs);
  tell();
}

export function showWhich(which) {
  state.shown = which;
  document.querySelector(`input[name=which][value=${which}]`).checked = true;
  state.coverage?.stop();
  state.coverage = null;
  put(byID("coverage"));
  put(byID("counted"));
  showModel();
}
