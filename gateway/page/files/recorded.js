// A case that is found by its id in a file of the journal, as it was decided then; and as it is decided now.
import { decide, fillFrom, remember } from "./case.js";
import { button, byID, el, put, readJSON, show, writeJSON } from "./dom.js";
import { showTab } from "./panes.js";
import { model, state, tried } from "./state.js";
import { drawn, limit } from "./values.js";

/** How many cases of one id are shown: a list has one for each of its requests. */
const MOST = 20;

/** The lines of a file, read in pieces. */
async function* linesOf(file) {
  const reader = file.stream().pipeThrough(new TextDecoderStream()).getReader();
  let rest = "";
  for (let part = await reader.read(); !part.done; part = await reader.read()) {
    const lines = (rest + part.value).split("\n");
    rest = lines.pop();
    yield* lines;
  }
  if (rest) yield rest;
}

/** The entries of a journal with an id: each with its request. */
async function entriesOf(file, id) {
  const found = [];
  let asked = "";
  for await (const line of linesOf(file)) {
    if (!/^\{"n":\d+,"id":/.test(line)) {
      if (line.startsWith('{"client":')) asked = line;
      continue;
    }
    if (!line.includes(id)) continue;
    const about = readJSON(line);
    const is = (own) => own === id || String(own ?? "").startsWith(`${id}#`);
    if (is(about.id) || is(about.request) || `#${about.n}` === id) found.push({ about, asked: about.inputs ? about : readJSON(asked) });
    if (found.length === MOST) break;
  }
  return found;
}

export async function findRecorded(file) {
  const id = byID("record-id").value.trim();
  if (!id || !file) {
    put(byID("recorded"), el("p", { class: "error" }, id ? "A file of the journal is due." :
      "An id is due: Desk-Record or X-Request-Id of the answer."));
    if (!id) byID("record-id").focus();
    return;
  }
  put(byID("recorded"), el("p", {}, `${id} is looked for in ${file.name} ..`));
  const found = await tried(() => entriesOf(file, id));
  put(byID("recorded"), !found ? "" : found.length === 0 ? el("p", {}, `${file.name} has no case ${id}.`) : found.map(drawRecorded));
}

function drawRecorded({ about, asked }) {
  const rules = (Array.isArray(about.rules) ? about.rules : []).map((it) =>
    `${it.decision}: ${it.default ? "default" : `rule ${it.rule}`}`);
  const said = el("p", { role: "status" });
  const look = () => tried(async () => {
    fillFrom(asked.service, asked.inputs);
    showTab("case");
    remember();
    await decide();
    const now = state.told[state.shown];
    const isSame = now?.result !== undefined && writeJSON(now.result) === writeJSON(about.result);
    put(said, `By the model that is shown now: ${isSame ? "the same." : `${now ? show(now.result) || now.problem?.message : "no answer"}.`}`);
  });
  const isShown = about.release === model().sha256;
  return el("article", { class: "record" }, el("h3", {}, about.request ?? about.id),
    el("p", {}, `${new Date(about.time).toLocaleString("en-GB")}, by release ${String(about.release).slice(0, 12)}.., `,
      isShown ? "which is shown" : "which is another than the one that is shown"),
    el("div", {}, about.problem ? limit(`${about.problem.type} ${about.problem.pointer ?? ""}`) : drawn(about.result)),
    rules.length > 0 ? el("ul", {}, rules.map((rule) => el("li", {}, rule))) : null,
    el("p", {}, button("Show the case", look)), said);
}
