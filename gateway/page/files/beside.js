// A file of requests under both models, case by case: which of them get another answer from the changed one.
import { openLine } from "./counting.js";
import { Coverage } from "./coverage.js";
import { button, byID, counted, csvRow, el, framed, grouped, heads, put, save, show } from "./dom.js";
import { Rows } from "./rows.js";
import { state, tried } from "./state.js";

/** Leaves what was compared; it can be done where there is a lawful changed model. */
export function leaveBeside(can) {
  byID("beside").hidden = !can;
  put(byID("beside-said"));
  put(byID("beside-rows"));
}

export async function takeBeside(file) {
  const { inForce, changed } = state.models;
  const name = inForce.name(state.service);
  const of = (it) => new Coverage(file, it, name, byID("comma").checked, () => {});
  const both = [of(inForce), of(changed)];
  put(byID("beside-rows"));
  put(byID("beside-said"), `${file.name} is being asked under both models ..`);
  const isDone = await tried(async () => {
    for (const one of both) await one.run();
    return true;
  });
  if (!isDone || state.models.changed !== changed) return put(byID("beside-said"));
  return drawBeside(file.name, both);
}

const answer = (it) => (it === undefined ? "none" : it.problem === undefined ? show(it.result) : [it.problem, it.detail].filter(Boolean).join(": "));

/** What tells a request from the others of its file, of which several may stand on one line. */
const place = ({ piece, at, line }) => (piece ? `${piece.start} ${at}` : `line ${line}`);

function drawBeside(name, [before, after]) {
  const news = new Map(after.answers.map((it) => [place(it), it]));
  const rows = before.answers.map((it) => ({ ...it, before: answer(it), after: answer(news.get(place(it))) }));
  const differing = rows.filter((row) => row.before !== row.after);
  put(byID("beside-said"), el("p", {}, `${name}: ${counted(rows.length, "request")}, ${grouped(differing.length)} with another answer.`));
  if (differing.length === 0) return;
  const kinds = new Map();
  for (const row of differing) {
    const kind = `${row.before.slice(0, 60)} → ${row.after.slice(0, 60)}`;
    kinds.set(kind, (kinds.get(kind) ?? 0) + 1);
  }
  const most = [...kinds].sort((one, other) => other[1] - one[1]).slice(0, 12);
  const body = el("tbody");
  const hasClients = differing.some(({ client }) => client);
  const scroller = framed("Requests with another answer", el("table", { class: `virtual answers beside ${hasClients ? "clients" : ""}` },
    heads("Line", hasClients && "Client", "In force", "Changed"), body));
  const table = new Rows(scroller, body, (at) => {
    const row = differing[at];
    const attributes = { class: "rule", "data-at": at, "aria-label": `Line ${row.line}: look at it` };
    return el("tr", {}, el("th", { scope: "row" }, button(String(row.line), () => openLine(before, row), attributes)),
      hasClients ? el("td", { title: row.client }, row.client ?? "") : null, el("td", { title: row.before }, el("code", {}, row.before)),
      el("td", { title: row.after }, el("code", {}, row.after)));
  });
  put(byID("beside-rows"), el("ul", {}, most.map(([kind, times]) => el("li", {}, `${grouped(times)}: `, el("code", {}, kind)))),
    el("p", { class: "row" }, button("What differs as CSV", () => save("differences.csv", asCSV(differing)))), scroller);
  table.show(differing.length);
}

const asCSV = (rows) => csvRow(["line", "client", "in force", "changed"]) +
  rows.map((row) => csvRow([row.line, row.client ?? "", row.before, row.after])).join("");
