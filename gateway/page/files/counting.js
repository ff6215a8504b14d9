// What was counted over a file of requests: rules that never decided, each answer, and both as CSV.
import { decide, fillFrom } from "./case.js";
import { Coverage } from "./coverage.js";
import { button, byID, counted, el, framed, grouped, heads, put, readJSON, save, show } from "./dom.js";
import { showTab } from "./panes.js";
import { Rows } from "./rows.js";
import { reveal } from "./show.js";
import { model, state, tried } from "./state.js";

/** How many milliseconds pass at least from one change of the progress to the next. */
const PAUSE = 100;

export async function takeRequests(file) {
  state.coverage?.stop();
  const progress = byID("progress");
  let told = 0;
  const coverage = new Coverage(file, model(), model().name(state.service), byID("comma").checked, (part) => {
    // Each change is drawn, and may be read out.
    if (performance.now() - told < PAUSE) return;
    told = performance.now();
    progress.value = part;
    put(byID("counted"), `${file.name}: ${Math.floor(100 * part)} of 100 parts were counted.`);
  });
  state.coverage = coverage;
  progress.value = 0;
  progress.hidden = byID("stop").hidden = false;
  put(byID("counted"), `${file.name} is being counted ..`);
  showTab("count");
  put(byID("coverage"));
  await tried(() => coverage.run());
  if (state.coverage !== coverage) return;
  progress.hidden = byID("stop").hidden = true;
  if (!coverage.records) {
    put(byID("counted"));
    return;
  }
  drawCoverage(coverage);
}

function drawCoverage(coverage) {
  coverage.isDrawn = true;
  for (const view of state.views.values()) view.count(coverage);
  const rules = [...coverage.rules()];
  const word = rules.every((it) => it.decided !== null) ? "decided" : "hit";
  const never = rules.filter((it) => (it.decided ?? it.hits) === 0);
  const count = coverage.answers.length;
  const refused = coverage.answers.filter((it) => it.problem !== undefined).length;
  put(byID("coverage"),
    el("p", { class: "row" }, button("Rules as CSV", () => save("rules.csv", coverage.rulesCSV())), " ",
      button("Answers as CSV", () => save("answers.csv", coverage.answersCSV()))),
    ...neverList(never, `Rules that never ${word}`), ...answersOf(coverage));
  const seconds = (performance.now() - coverage.start) / 1000;
  put(byID("counted"), el("p", {}, coverage.isWhole ? "" : "Stopped before the end. ",
    `${counted(count, "request")}, ${grouped(count - refused)} with a result`,
    refused > 0 ? `, ${grouped(refused)} without` : "", `, in ${seconds.toFixed(1)} s. `,
    `${grouped(never.length)} of ${counted(rules.length, "rule")} never ${word}.`));
}

/** Rules that never decided, each with a way to it. */
function neverList(never, title) {
  if (never.length === 0) return [];
  const item = (it) => {
    const hit = it.hits > 0 ? `, which hit ${counted(it.hits, "time")}` : "";
    const finding = { pointer: `${it.pointer}/rules/${it.rule - 1}`, said: `Rule ${it.rule} never decided${hit}.` };
    const name = `${model().name(it.decision)}, rule ${it.rule}`;
    return el("li", {}, button(name, () => reveal(finding), { class: "link" }), hit);
  };
  const more = never.length > 500 ? el("li", {}, `and ${grouped(never.length - 500)} more, which the CSV has`) : null;
  return [el("details", { open: never.length <= 20 }, el("summary", {}, title),
    el("ul", { class: "never-list" }, never.slice(0, 500).map(item), more))];
}

/** The answers, all of them or those of one kind. */
function answersOf(coverage) {
  const kindOf = (it) => it.problem ?? show(it.result).slice(0, 60);
  const said = (it) => (it.problem === undefined ? show(it.result) : [it.problem, it.detail].filter(Boolean).join(": "));
  const kinds = new Map();
  for (const it of coverage.answers) {
    const kind = kindOf(it);
    kinds.set(kind, (kinds.get(kind) ?? 0) + 1);
  }
  let shown = coverage.answers;
  const body = el("tbody");
  const hasClients = coverage.answers.some(({ client }) => client);
  const scroller = framed("The answers", el("table", { class: `virtual answers ${hasClients ? "clients" : ""}` },
    heads("Line", hasClients && "Client", "Answer"), body));
  const rows = new Rows(scroller, body, (at) => {
    const it = shown[at];
    const attributes = { class: "rule", "data-at": at, "aria-label": `Line ${it.line}: look at it` };
    return el("tr", {}, el("th", { scope: "row" }, button(`${it.line}`, () => openLine(coverage, it), attributes)),
      hasClients ? el("td", { title: it.client }, it.client ?? "") : null, el("td", { title: said(it) }, el("code", {}, said(it))));
  });
  const only = (kind) => {
    shown = kind === "" ? coverage.answers : coverage.answers.filter((it) => kindOf(it) === kind);
    scroller.scrollTop = 0;
    rows.show(shown.length);
  };
  const most = [...kinds].sort((one, other) => other[1] - one[1]).slice(0, 50);
  const options = most.map(([kind, times]) => el("option", { value: kind }, `${kind} (${grouped(times)})`));
  const choice = el("select", { id: "only", onchange: (event) => only(event.target.value) },
    el("option", { value: "" }, "all"), options);
  queueMicrotask(() => only(""));
  return [el("p", { class: "row" }, el("label", { for: "only" }, "Answers"), " ", choice), scroller];
}

/** Fills the form with the inputs that got an answer, and asks. */
export async function openLine(coverage, answer) {
  await tried(async () => {
    const line = readJSON(await coverage.request(answer));
    if (line === null) return;
    const isRequest = typeof line.service === "string" && line.inputs !== undefined;
    fillFrom(isRequest ? line.service : coverage.service, isRequest ? line.inputs : line);
    showTab("case");
    await decide();
  });
}
