// What would change: recorded requests asked of the model in force and of another one. The section is made here:
// index.html only includes this file.
import * as api from "./api.js";
import { decide, fillFrom } from "./case.js";
import { button, byID, counted, el, framed, grouped, heads, readJSON } from "./dom.js";
import { Rows } from "./rows.js";
import { alarm, state, tried } from "./state.js";

/** How many milliseconds pass at least from one change of the progress to the next. */
const PAUSE = 100;
/** How many kinds of differences are listed, and how many parts that changed. */
const MOST_LISTED = 50;

/** What says which requests are asked: the words of the query, their labels and what is written there as an example. */
const FILTER = [["from", "From", "2026-11-01"], ["to", "Before", "2026-12-01"], ["client", "Caller", ""],
  ["rule", "Rule", "price:3"]];

const models = el("select", { id: "trial-model" });
const fields = FILTER.map(([word, , example]) =>
  el("input", { id: `trial-${word}`, placeholder: example, autocomplete: "off", spellcheck: "false" }));
const progress = el("progress", { hidden: true, "aria-label": "Recorded requests are being asked" });
const said = el("div", { id: "trial-said", role: "status" });
const found = el("div", { id: "trial-found" });
const stop = button("Stop", () => running?.abort(), { id: "trial-stop", hidden: true });

/** What ends the trial under way. */
let running = null;

function section() {
  const field = (label, input) => el("p", { class: "field" }, el("label", { for: input.id }, label), input);
  const ask = (event) => {
    event.preventDefault();
    run();
  };
  return el("details", { id: "trial", ontoggle: ({ target }) => target.open && tried(offer) },
    el("summary", {}, "What would change for the requests in the journal"),
    el("form", { id: "trial-form", novalidate: true, onsubmit: ask },
      field("Under", models), FILTER.map(([, label], at) => field(label, fields[at])),
      el("p", { class: "row" }, el("button", { id: "trial-ask" }, "Ask both models"), " ", stop, " ",
        button("Save all as CSV", saveCSV, { id: "trial-csv" }))),
    progress, said, found);
}

/** Offers the changed model and the releases; one that is not in force is picked first. */
async function offer() {
  const picked = models.value;
  const releases = (await api.releases()).filter((it) => it.sha256);
  const options = releases.map((it) => el("option", { value: it.sha256 },
    [it.name, it.version].filter(Boolean).join(" ") || it.file, it.active ? " (in force)" : ""));
  models.replaceChildren(el("option", { value: "" }, "the changed model on this page"), ...options);
  const other = releases.find((it) => !it.active);
  models.value = releases.some((it) => it.sha256 === picked) ? picked : state.models.changed ? "" : other?.sha256 ?? "";
}

/** The query of what is asked, or nothing where no model is picked. */
function query(more) {
  const sum = models.value || (state.models.changed?.isLawful ? state.models.changed.sha256 : "");
  if (!sum) {
    alarm("Pick a release, or drop a changed model without a fault first.");
    return undefined;
  }
  const words = FILTER.map(([word], at) => [word, fields[at].value.trim()]).filter(([, value]) => value !== "");
  return new URLSearchParams([["model", sum], ...words, ...more]);
}

/** The lines of an answer, as they come. */
async function* linesOf(body) {
  const reader = body.pipeThrough(new TextDecoderStream()).getReader();
  let rest = "";
  for (let part = await reader.read(); !part.done; part = await reader.read()) {
    const lines = (rest + part.value).split("\n");
    rest = lines.pop();
    yield* lines;
  }
  if (rest) yield rest;
}

/** Asks, and draws what is found. */
async function run() {
  const words = query([]);
  if (!words) return;
  running?.abort();
  const own = new AbortController();
  running = own;
  begin(true);
  const trial = { asked: 0, changes: [], differences: [], done: null, start: performance.now(), told: 0 };
  await tried(async () => {
    for await (const line of linesOf(await api.trial(words, own.signal))) take(trial, readJSON(line), own);
    if (!trial.done) throw new api.Problem({ title: "The answer ended early" });
  });
  if (running !== own) return;
  begin(false);
  draw(trial);
}

/** Shows whether a trial is under way. */
function begin(is) {
  progress.hidden = stop.hidden = !is;
  byID("trial-ask").disabled = byID("trial-csv").disabled = is;
  if (!is) return;
  said.replaceChildren("Recorded requests are being asked ..");
  found.replaceChildren();
}

/** Takes a line of the answer. */
function take(trial, line, own) {
  if (line.problem) throw new api.Problem(line.problem);
  if (line.changes) trial.changes = line.changes;
  if (line.difference) trial.differences.push(line.difference);
  if (line.done) trial.done = line;
  if (line.asked === undefined) return;
  trial.asked = line.asked;
  // Each change is drawn, and may be read out.
  if (running !== own || performance.now() - trial.told < PAUSE) return;
  trial.told = performance.now();
  said.replaceChildren(`${counted(trial.asked, "request")} asked by now, ${listed(trial)}.`);
}

const listed = ({ differences }) => `${grouped(differences.length)} with another answer listed`;

function draw(trial) {
  const { asked, changes, differences, done } = trial;
  const seconds = ((performance.now() - trial.start) / 1000).toFixed(1);
  said.replaceChildren(el("p", {}, done ? "" : "It ended before all were asked. ", counted(asked, "request"), ", ",
    done ? `${grouped(done.differing)} with another answer` : listed(trial),
    done?.left > 0 ? `, ${grouped(done.left)} that can't be asked again` : "", `, in ${seconds} s.`));
  found.replaceChildren(...byRules(done?.by ?? []), ...changesOf(changes), ...listOf(differences, done));
}

/** How many answers differ, by the rules that decide. */
function byRules(all) {
  if (all.length === 0) return [];
  const items = all.slice(0, MOST_LISTED).map((it) => el("li", {}, `${grouped(it.count)}: `, el("code", {}, it.rules)));
  const more = all.length > MOST_LISTED ? el("li", {}, `and ${grouped(all.length - MOST_LISTED)} more kinds`) : null;
  return [el("h3", {}, "By which rules"), el("ul", { id: "trial-by" }, items, more)];
}

/** What differs between the models: of a rule its cells. */
function changesOf(changes) {
  if (changes.length === 0) return [el("p", { id: "trial-changes" }, "No part of the models differs.")];
  const body = el("tbody");
  const scroller = framed("What changed in the model", el("table", { class: "virtual", id: "trial-changes" },
    heads("In", "Part", "In force", "Tried"), body));
  const rows = new Rows(scroller, body, (at) => {
    const { change, what, of, name, old, new: after } = changes[at];
    const part = [change, what, name].filter(Boolean).join(" ");
    return el("tr", { class: "differs" }, el("th", { scope: "row", title: of }, of ?? ""),
      el("td", { title: part }, part), el("td", { title: old }, el("code", {}, old ?? "")),
      el("td", { title: after }, el("code", {}, after ?? "")));
  });
  queueMicrotask(() => rows.show(changes.length));
  return [el("h3", {}, counted(changes.length, "change"), " of the model"), scroller];
}

/** A time of the journal as people have it. */
const timeOf = (text) => new Date(text).toLocaleString("en-GB", { day: "numeric", month: "short", hour: "2-digit", minute: "2-digit",
  second: "2-digit" });

/** The requests that get another answer; a click shows one. */
function listOf(differences, done) {
  if (differences.length === 0) return [];
  const body = el("tbody");
  const scroller = framed("Requests with another answer", el("table", { class: "virtual answers", id: "trial-list" },
    heads("Time", "Rules", "In force", "Tried"), body));
  const rows = new Rows(scroller, body, (at) => {
    const it = differences[at];
    const name = it.request ?? it.id;
    const attributes = { class: "rule", "data-at": at, title: [name, it.time].filter(Boolean).join(", "), "aria-label": `Case ${name}: look at it` };
    return el("tr", {}, el("th", { scope: "row" }, button(it.time ? timeOf(it.time) : it.id, () => open(it), attributes)),
      el("td", { title: it.rules }, it.rules), el("td", { title: it.old }, el("code", {}, it.old)),
      el("td", { title: it.new }, el("code", {}, it.new)));
  });
  queueMicrotask(() => rows.show(differences.length));
  const isCut = done && done.differing > differences.length;
  const more = isCut ? `, the first ${grouped(differences.length)}; the CSV has all` : "";
  return [el("h3", {}, `Requests with another answer${more}`), scroller];
}

/** Fills the form with the inputs of a recorded request, and asks. */
const open = (it) => tried(async () => {
  fillFrom(it.service, it.inputs);
  document.querySelector("[role=tab][data-tab=case]")?.click();
  await decide();
  byID("result-title").scrollIntoView();
});

/** Saves all requests that get another answer, asked anew. */
async function saveCSV() {
  const words = query([["csv", "true"]]);
  if (!words) return;
  running?.abort();
  const own = new AbortController();
  running = own;
  progress.hidden = stop.hidden = false;
  const text = await tried(async () => new Response(await api.trial(words, own.signal)).blob());
  if (running !== own) return;
  progress.hidden = stop.hidden = true;
  if (!text) return;
  const url = URL.createObjectURL(text);
  el("a", { href: url, download: "differing.csv" }).click();
  setTimeout(() => URL.revokeObjectURL(url), 10_000);
}

byID("changed-title").parentElement.append(section());
