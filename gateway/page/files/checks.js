// What the check found: as a badge with its count, and as a list with ways to each place.
import { button, byID, counted, el, grouped, put } from "./dom.js";
import { verdict } from "./findings.js";
import { sentence, tablesOf } from "./model.js";
import { openTable, reveal } from "./show.js";
import { model } from "./state.js";

export function drawChecks() {
  const it = model();
  const of = it.isLawful ? "warning" : "fault";
  const shown = it.findings.map((finding) => {
    const isPlace = /^\/(decisions|inputs)\/\d/.test(finding.pointer ?? "");
    return el("li", {}, el("span", { class: of }, `${finding[of] ?? of}: `), sentence(finding), " ",
      isPlace ? button("Show", () => reveal(finding), { class: "link" }) : null);
  });
  const said = it.isLawful ? "The model has no fault" : `The model has a fault: ${it.fault}`;
  const more = it.isLawful && shown.length === 0 ? ", and nothing in it looks like a mistake." : ".";
  put(byID("checks"), el("p", {}, said, more), el("ul", {}, shown));
  put(byID("tables"), it.isUnderWay ? el("p", { class: "quiet" }, "The check of the tables is under way.") : "");
  drawBadge(it.findings.length);
}

/** Lists what was found of each table. */
export function drawTables(found) {
  let open = 0;
  const items = tablesOf(model()).filter(({ pointer }) => found.has(pointer)).map(({ pointer, table, name }) => {
    const { text, isFine } = verdict(found.get(pointer).told, table);
    open += isFine ? 0 : 1;
    return el("li", { class: isFine ? "" : "finding" }, `${name}: ${text} `, button("Show", () => openTable(pointer)?.come(), { class: "link" }));
  });
  const title = items.length > 0 ? el("p", {}, `What was found of ${counted(items.length, "table")}:`) : "";
  put(byID("tables"), title, el("ul", {}, items));
  drawBadge(model().findings.length + open);
}

function drawBadge(count) {
  const it = model();
  const isBad = !it.isLawful;
  const said = it.isUnderWay ? "under way" : count === 0 ? "nothing found" : `${grouped(count)} to look at`;
  byID("badge").className = `badge ${isBad ? "bad" : count > 0 ? "open" : ""}`;
  put(byID("badge"), el("span", {}, "Checks"), " ", it.isUnderWay && count > 0 ? `${grouped(count)}, under way` : said);
}
