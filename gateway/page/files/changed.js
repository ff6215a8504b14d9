// A changed model beside the one in force: checked, tried with the same inputs, and what differs.
import * as api from "./api.js";
import { decide } from "./case.js";
import { button, byID, counted, el, first, framed, heads, put, show } from "./dom.js";
import { leaveBeside } from "./beside.js";
import { differences, listOf, Model, sentence } from "./model.js";
import { showTab } from "./panes.js";
import { showWhich } from "./show.js";
import { state, tried } from "./state.js";

export async function takeModel(file) {
  put(byID("changed"), el("p", {}, `${file.name} is being checked ..`));
  showTab("try");
  const whole = await tried(() => api.check(file).catch((fault) => {
    drawRefused(file.name, fault);
    throw fault;
  }));
  if (!whole) return;
  state.models.changed = new Model(whole);
  state.told = {};
  const it = state.models.changed;
  const said = it.isLawful ? "the model has no fault" : `the model has a fault, ${it.fault}`;
  const same = it.sha256 === state.models.inForce.sha256 ? " It is the model in force." : "";
  put(byID("changed"),
    el("p", {}, `${file.name}: ${said}, and ${counted(it.findings.length, "place")} to look at.${same}`),
    el("p", { class: "row" }, button("Leave it", () => leaveModel())));
  byID("which").hidden = false;
  leaveBeside(it.isLawful);
  showWhich("changed");
  await decide();
  drawDifferences();
}

function drawRefused(name, fault) {
  put(byID("changed"), el("p", { class: "fault" }, `${name}: ${fault.message}`),
    el("ul", {}, listOf(fault.body?.errors).slice(0, 200).map((place) => el("li", {}, sentence(place),
      place.line ? ` at line ${place.line}, column ${place.column}` : "",
      place.element ? ` (${[place.element, place.name].filter(Boolean).join(" ")})` : ""))));
}

function leaveModel() {
  delete state.models.changed;
  delete state.told.changed;
  byID("which").hidden = true;
  put(byID("changed"));
  leaveBeside(false);
  showWhich("inForce");
}

export function drawDifferences() {
  const { inForce, changed } = state.models;
  if (!changed) {
    put(byID("differences"));
    return;
  }
  const number = (place) => Number(place.split("/").at(-1)) + 1;
  const parts = differences(inForce, changed).map(({ name, how, places }) => el("li", {}, `${name}: ${how}`,
    places.length > 0 ? `, rule ${first(places.map(number))}` : ""));
  put(byID("differences"), el("h3", {}, "What differs"),
    parts.length > 0 ? el("ul", {}, parts) : el("p", {}, "No decision differs."), differingValues());
}

/** A table of the values under both models. */
function differingValues() {
  const [one, other] = [state.told.inForce, state.told.changed];
  if (!one || !other) return [el("p", { class: "quiet" }, "Ask, to see what differs for these inputs.")];
  const text = (part) => part.fault ?? show(part.given ?? part.value);
  const values = (told) => new Map(listOf(told.decisions).map((part) => [part.name, text(part)]));
  const [ones, others] = [values(one), values(other)];
  const answer = (told) => told.problem?.message ?? show(told.result);
  const rows = [...new Set([...ones.keys(), ...others.keys()])].map((name) => [name, ones.get(name), others.get(name)]);
  rows.push(["Result", answer(one), answer(other)]);
  return [framed("Values under both models", el("table", {}, heads("Decision", "in force", "changed"),
    el("tbody", {}, rows.map(([name, before, after]) => el("tr", { class: before === after ? "" : "differs" },
      el("th", { scope: "row" }, name, before === after ? null : el("span", { class: "label" }, "differs")),
      el("td", {}, el("code", {}, before ?? "none")), el("td", {}, el("code", {}, after ?? "none")))))))];
}
