// The search over decisions, inputs and texts of the model, as one types.
import { broken, byID, el, put } from "./dom.js";
import { listOf, tablesOf } from "./model.js";
import { goTo, reveal } from "./show.js";

/** How many hits are shown, and how many letters of a text. */
const MOST = 40;
const LETTERS = 80;

let entries = [];
let source = null;
let hits = [];
let current = -1;

/** Takes a model; its index is made when something is typed. */
export function indexed(model) {
  source = model;
  entries = [];
}

/** What can be found: names first, then the texts of the logic, each with its place. */
function index() {
  if (!source || entries.length > 0) return;
  const add = (kind, text, of, go) => entries.push({ kind, text, of, go, low: text.toLowerCase() });
  const model = source;
  model.decisions.forEach(({ name }) => add("decision", model.name(name), "", () => goTo(name)));
  model.inputs.forEach((word) => add("input", model.name(word), "", () => goTo(word)));
  const walk = (part, pointer, of) => {
    if (typeof part === "string") {
      const text = model.text(part, pointer);
      if (text.length > 1) add("text", text, of, () => reveal({ pointer, said: text }));
    } else if (part !== null && typeof part === "object") {
      for (const [key, inner] of Object.entries(part)) if (key !== "hit") walk(inner, `${pointer}/${key}`, of);
    }
  };
  model.decisions.forEach((decision, at) => walk(decision.expr, `/decisions/${at}/expr`, model.name(decision.name)));
  for (const { pointer, table, decision } of tablesOf(model)) {
    listOf(table.inputs).forEach((text, at) => {
      const label = model.column(pointer, table, at);
      if (label !== model.text(text)) add("text", label, model.name(decision), () => reveal({ pointer: `${pointer}/inputs/${at}`, said: label }));
    });
  }
}

/** The entries that have all words of what was typed; those that begin with it first. */
function found(typed) {
  const words = typed.toLowerCase().split(/\s+/).filter(Boolean);
  if (words.length === 0) return [];
  const has = ({ low }) => words.every((word) => low.includes(word));
  const rank = (it) => (it.kind === "text" ? 4 : 0) + (it.low === typed.toLowerCase() ? 0 : it.low.startsWith(words[0]) ? 1 : 2);
  const all = entries.filter(has);
  return all.map((it, at) => [rank(it), at, it]).sort((one, other) => one[0] - other[0] || one[1] - other[1]).map(([, , it]) => it);
}

function draw() {
  index();
  const all = found(byID("search").value);
  hits = all.slice(0, MOST);
  const cut = (text) => (text.length > LETTERS ? `${text.slice(0, LETTERS)} ..` : text);
  const items = hits.map((it, at) => el("li", { role: "option", id: `hit-${at}`, "aria-selected": "false", "data-at": at },
    el("span", { class: "kind" }, it.kind), " ", el("span", { class: "hit" }, it.of ? cut(it.text) : broken(it.text),
      it.of ? el("span", { class: "quiet" }, " in ", broken(it.of)) : null)));
  const more = all.length > MOST ? el("li", { class: "quiet", role: "presentation" }, `and ${all.length - MOST} more: type on`) : null;
  const isTyped = byID("search").value.trim() !== "";
  put(byID("hits"), items, more, isTyped && hits.length === 0 ? el("li", { class: "quiet", role: "presentation" }, "nothing has this") : null);
  show(isTyped);
  put(byID("hits-said"), isTyped ? `${all.length} found` : "");
  pick(hits.length > 0 ? 0 : -1);
}

function show(is) {
  byID("hits").hidden = !is;
  byID("search").setAttribute("aria-expanded", is);
}

function pick(at) {
  byID(`hit-${current}`)?.setAttribute("aria-selected", "false");
  current = at;
  const option = byID(`hit-${at}`);
  option?.setAttribute("aria-selected", "true");
  option?.scrollIntoView({ block: "nearest" });
  if (option) byID("search").setAttribute("aria-activedescendant", option.id);
  else byID("search").removeAttribute("aria-activedescendant");
}

function go(at) {
  const hit = hits[at];
  if (!hit) return;
  show(false);
  hit.go();
}

export function listenSearch() {
  const input = byID("search");
  input.addEventListener("input", draw);
  input.addEventListener("focus", () => input.value && draw());
  input.addEventListener("blur", () => show(false));
  input.addEventListener("keydown", (event) => {
    const steps = { ArrowDown: 1, ArrowUp: -1 };
    if (event.key === "Enter") go(current);
    else if (event.key === "Escape") show(false);
    else if (steps[event.key] && hits.length > 0) pick((current + steps[event.key] + hits.length) % hits.length);
    else return;
    event.preventDefault();
  });
  // The field keeps the focus while a hit is clicked on.
  byID("hits").addEventListener("pointerdown", (event) => event.preventDefault());
  byID("hits").addEventListener("click", ({ target }) => go(Number(target.closest("[data-at]")?.dataset.at)));
  addEventListener("keydown", (event) => {
    if (event.key !== "/" || event.ctrlKey || event.metaKey || event.target.closest?.("input, textarea, select")) return;
    event.preventDefault();
    input.focus();
    input.select();
  });
}
