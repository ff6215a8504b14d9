// A decision in its pane: its value, what it needs and what needs it, and its logic, which is made when it is first opened.
import { askMisses, tryWitness } from "./case.js";
import { broken, button, el, put } from "./dom.js";
import { LogicView, outcome } from "./logic.js";
import { sentence } from "./model.js";
import { goTo } from "./show.js";
import { state } from "./state.js";

/** How many ways to other decisions are shown at once, and how many letters of a value. */
const MOST_WAYS = 4;
const MOST_LETTERS = 160;

export class DecisionView {
  constructor(model, decision, at, differing) {
    Object.assign(this, { model, decision, at, differing, part: undefined, logic: null });
    this.value = el("span", { class: "value" });
    this.heading = el("h3", { tabindex: -1 }, broken(model.name(decision.name)), " ", this.value);
    this.gives = el("p", { class: "quiet", hidden: true });
    this.top = el("div", { class: "top" }, this.heading, this.gives);
    this.element = el("article", { hidden: true }, this.top);
  }

  open() {
    this.logic ?? this.make();
    this.element.hidden = false;
    for (const table of this.logic.tables) table.seen();
    // What decided is in view.
    const row = this.element.querySelector("tr.decided") ?? this.element.querySelector("tr.hit");
    if (row) row.scrollIntoView({ block: "nearest" });
    else this.top.scrollIntoView({ block: "nearest" });
  }

  close() {
    this.element.hidden = true;
  }

  make() {
    const { model, decision, at } = this;
    this.logic = new LogicView(model, decision.expr, `/decisions/${at}/expr`, model.name(decision.name),
      { askMisses, tryWitness, differing: this.differing });
    const users = model.decisions.filter((other) => model.needs(other).includes(decision.name)).map((other) => other.name);
    const found = model.foundAt(`/decisions/${at}`).map((finding) => el("p", { class: "finding" }, sentence(finding)));
    const ways = [this.ways("needs", model.needs(decision)), this.ways("is needed by", users)].filter(Boolean);
    if (ways.length > 0) this.top.append(el("p", { class: "quiet ways" }, ways));
    this.element.append(...found, this.logic.element);
    this.logic.tell(this.part, false);
    if (state.found) this.analyse(state.found);
    if (state.coverage?.isDrawn) this.count(state.coverage);
  }

  /** Ways to other decisions and inputs; those beyond the first are shown where they are asked for. */
  ways(said, words) {
    if (words.length === 0) return null;
    const links = (some, isLast) => some.flatMap((word, at) => [el("span", { class: "ended" },
      button(this.model.name(word), () => goTo(word), { class: "link" }), isLast && at === some.length - 1 ? "" : ","), " "]);
    const rest = words.slice(MOST_WAYS);
    const way = el("span", { class: "way-to" }, `${said} `, links(words.slice(0, MOST_WAYS), rest.length === 0));
    const more = button(`${rest.length} more`, () => more.replaceWith(...links(rest, true)), { class: "link" });
    if (rest.length > 0) way.append(more, " ");
    return way;
  }

  /** Shows what was told of it, nothing where that is none. */
  tell(part, isMore) {
    this.part = part;
    this.logic?.tell(part, isMore);
    put(this.value, part ? ["= ", outcome(part, MOST_LETTERS), part.given === undefined ? "" : " (given)"] : []);
  }

  count(coverage) {
    for (const table of this.logic?.tables ?? []) table.count(coverage.of(table.pointer));
  }

  /** Shows what the check found of its tables, and what it can give. */
  analyse(found) {
    const words = Object.entries(this.model.gives ?? {}).find(([word]) => word === this.decision.name)?.[1];
    put(this.gives, words ? `can give ${words}` : "");
    this.gives.hidden = !words;
    for (const table of this.logic?.tables ?? []) {
      if (found.has(table.pointer)) table.analyse(found.get(table.pointer));
    }
  }
}
