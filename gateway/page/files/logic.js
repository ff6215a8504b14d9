// The logic of a decision: a text, a list, a context or a table, each with what it came to.
import { broken, el, put, unseen } from "./dom.js";
import { listOf, sentence } from "./model.js";
import { TableView } from "./table.js";
import { inLine, limit } from "./values.js";

export class LogicView {
  constructor(model, whole, from, name, options) {
    const { expr, pointer, isText } = model.written(whole, from);
    this.tables = [];
    this.parts = [];
    this.value = el("span", { class: "value" });
    const part = (inner, at, of) => {
      const view = new LogicView(model, inner, `${pointer}${at}`, of, options);
      this.tables.push(...view.tables);
      return view;
    };
    const found = model.foundAt(pointer).map((finding) => el("p", { class: "finding" }, sentence(finding)));
    if (expr?.table && typeof expr.table === "object") {
      this.table = new TableView(model, expr.table, `${pointer}/table`, name, options);
      this.tables.push(this.table);
      this.element = el("div", {}, found, this.table.element);
    } else if (Array.isArray(expr?.list)) {
      this.parts = expr.list.map((member, at) => part(member, `/list/${at}`, `member ${at + 1} of ${name}`));
      const members = this.parts.map((view) => el("li", {}, view.element));
      this.element = el("div", {}, found, el("ol", { class: "list" }, members));
    } else if (Array.isArray(expr?.context)) {
      const entries = expr.context.map((entry, at) => ({ entry, at })).filter(({ entry }) => model.isOfFile(entry ?? undefined));
      this.parts = entries.map(({ entry, at }) =>
        part(entry?.expr, `/context/${at}/expr`, `${model.name(entry?.name)} of ${name}`));
      const rows = this.parts.map((view, at) => el("div", { class: "entry" },
        el("dt", {}, broken(model.name(entries[at].entry?.name))), el("dd", {}, view.element)));
      if (expr.result !== undefined) {
        this.result = part(expr.result, "/result", name);
        rows.push(el("div", { class: "entry" }, el("dt", {}, "result"), el("dd", {}, this.result.element)));
      }
      this.element = el("div", {}, found, el("dl", { class: "context" }, rows));
    } else {
      this.element = el("div", { class: "text" }, el("code", {}, isText ? expr : model.text(expr)), " ", this.value, found);
    }
  }

  /** Shows what an explanation tells of it; nothing where it tells none. */
  tell(told, isMore) {
    this.table?.tell(told?.table, isMore);
    this.parts.forEach((view, at) => view.tell((told?.entries ?? told?.members)?.[at], isMore));
    this.result?.tell(told?.result, isMore);
    put(this.value, outcome(told));
  }
}

/** What a part came to, as nodes; of a longer value so many letters. */
export function outcome(told, most) {
  if (told === undefined || told === null) return [];
  if (told.fault) return [unseen("breaks a limit"), limit()];
  if (told.given !== undefined) return [unseen("is "), inLine(told.given, most)];
  return told.value === undefined ? [] : [unseen("is "), inLine(told.value, most)];
}
