// A decision table: which of its rules hit and decided, why others missed, and what was found of it.
import { el, put, show } from "./dom.js";
import { listed, rowsOf, said, verdict } from "./findings.js";
import { byRule, mark, put as putFound } from "./marks.js";
import { listOf, policyOf, sentence } from "./model.js";
import { ALL_AT_ONCE, Rows } from "./rows.js";
import { TableFit } from "./tablefit.js";
import { footRow, headRow, ruleRow } from "./tableparts.js";

export class TableView {
  /**
   * `askMisses` is called where it is asked why a rule missed and that was not told, `tryWitness` with the view and a finding
   * whose values are to be tried.
   */
  constructor(model, table, pointer, name, { askMisses, tryWitness, differing }) {
    Object.assign(this, { model, table, pointer, name, askMisses, tryWitness, differing });
    this.rules = listOf(table.rules);
    this.inputs = model.inputsOf(pointer, table);
    this.outputs = listOf(table.outputs);
    this.isVirtual = this.rules.length > ALL_AT_ONCE;
    this.found = byRule(model, pointer);
    this.current = 0;
    this.hits = new Map();
    this.decided = null;
    this.misses = null;
    this.body = el("tbody", { role: "rowgroup" });
    this.head = el("thead", { role: "rowgroup" });
    this.foot = el("tfoot", { role: "rowgroup" });
    this.why = el("p", { class: "why", role: "status" });
    this.verdict = el("p", { class: "verdict" });
    this.analysis = el("div");
    this.grid = el("table", { role: "table", "aria-label": `Table of ${name}`,
      class: this.isVirtual ? "rules virtual" : "rules" }, this.head, this.body, this.foot);
    this.scroller = el("div", { class: "scroll", role: "region", tabindex: 0,
      "aria-label": `Table of ${name}, which scrolls` }, this.grid);
    this.element = el("div", { class: "table" }, this.policy(), this.verdict, this.scroller, this.why, this.analysis);
    this.body.addEventListener("keydown", (event) => this.key(event));
    this.rows = new Rows(this.scroller, this.body, (at) => ruleRow(this, at));
    this.fit = new TableFit(this);
    this.draw();
    // What is drawn then may change the size again.
    new ResizeObserver(() => requestAnimationFrame(() => this.seen())).observe(this.element);
  }

  /** What is due once the table is in view, or has another size. */
  seen() {
    if (this.element.clientWidth === 0) return;
    if (this.fit.isOther()) {
      this.draw();
      this.target ??= this.current;
    }
    const above = this.scroller.getBoundingClientRect().top - (this.element.closest("article") ?? this.element).getBoundingClientRect().top;
    this.scroller.style.setProperty("--above", `${above}px`);
    this.fit.stay();
    this.rows.draw();
    if (this.target !== undefined) this.comeTo(this.target);
    this.target = undefined;
  }

  column(at) {
    return this.model.column(this.pointer, this.table, at);
  }

  unit(at) {
    return this.model.unitOf(this.pointer, at);
  }

  /** The values of a finding that are to be tried, as the file has them. */
  witness(finding) {
    const inFile = (value, at) => {
      const unit = this.unit(at);
      return unit ? unit(value) : "some quotient";
    };
    return listOf(finding.witness).slice(0, this.inputs.length).map(inFile);
  }

  policy() {
    const [name, said] = policyOf(this.table);
    return el("p", { class: "policy" }, el("strong", {}, `${this.table.hit} `), `${name}: ${said}`,
      mark(this.model.foundAt(`${this.pointer}/hit`).concat(this.model.foundAt(this.pointer)), (text) => this.say(text)));
  }

  say(...parts) {
    put(this.why, parts);
  }

  draw() {
    this.grid.querySelector("colgroup")?.remove();
    this.grid.prepend(...this.fit.columns());
    put(this.head, headRow(this));
    put(this.foot, footRow(this));
    this.grid.setAttribute("aria-rowcount", this.rules.length + this.head.children.length + this.foot.children.length);
    this.rows.show(this.rules.length);
    this.fit.letters();
    this.fit.stay();
  }

  /** A cell of a rule as the file has it. */
  cell(at, kind, column) {
    return this.model.text(this.rules[at][kind]?.[column], `${this.pointer}/rules/${at}/${kind}/${column}`);
  }

  /** Whether a rule missed at a column. A test that the translation moved into a column of its own missed there. */
  hasMissed(at, column, miss) {
    const isMoved = this.rules[at].when?.[column] === "-" && this.cell(at, "when", column) !== "-";
    return miss === column + 1 || (isMoved && miss > this.inputs.length);
  }

  key(event) {
    const steps = { ArrowDown: 1, ArrowUp: -1, PageDown: 10, PageUp: -10, Home: -Infinity, End: Infinity };
    const step = steps[event.key];
    if (step === undefined || !event.target.matches(".rule")) return;
    event.preventDefault();
    this.moveTo(Math.max(0, Math.min(this.rules.length - 1, this.current + step)));
  }

  /** Makes a rule the one that the Tab key comes to, and brings it into view. */
  comeTo(at) {
    this.rows.at(this.current)?.setAttribute("tabindex", -1);
    this.current = at;
    this.rows.bring(at, this.head.offsetHeight);
    this.rows.at(at)?.setAttribute("tabindex", 0);
  }

  moveTo(at) {
    this.comeTo(at);
    this.rows.at(at)?.focus();
  }

  /** Says of a rule what became of it. */
  async select(at) {
    this.moveTo(at);
    const number = at + 1;
    if (!this.values) return this.say(`Rule ${number}: the table was not evaluated for these inputs.`);
    if (this.hits.has(number)) return this.say(...this.hitSaid(number));
    if (!this.misses) {
      this.say("Being asked ..");
      await this.askMisses();
    }
    const miss = this.misses?.get(number);
    const column = 1 + this.inputs.findIndex((_, it) => this.hasMissed(at, it, miss));
    if (!column) return this.say(`Rule ${number} missed. Which of its tests was not met is not told.`);
    const test = this.cell(at, "when", column - 1);
    this.rows.at(at)?.focus();
    const code = (text) => el("code", {}, text);
    return this.say(`Rule ${number} missed: its test `, code(test), " on ", code(this.column(column - 1)),
      ` (column ${column}) is not met by `, code(show(this.values[column - 1])), ".");
  }

  hitSaid(number) {
    const [, said] = policyOf(this.table);
    const value = this.hits.get(number);
    const parts = value === undefined ? [`Rule ${number} hit`] : [`Rule ${number} hit and gives `, el("code", {}, show(value))];
    if (!this.decided) parts.push(".");
    else if (this.decided.has(number)) parts.push(". It decided.");
    else parts.push(`. It did not decide: ${said}.`);
    return parts;
  }

  /** Shows what is told of the table, nothing where that is none. `isMore` says that it is of the same case. */
  tell(told, isMore) {
    this.values = told?.inputs ?? null;
    this.hits = new Map(listOf(told?.hits).map((hit) => [hit.rule, hit.value]));
    this.decided = told?.decided ? new Set(told.decided) : null;
    this.misses = told?.misses ? new Map(told.misses.map((miss) => [miss.rule, miss.column])) : null;
    this.defaults = told?.defaults === true;
    if (!isMore) this.say();
    this.draw();
    const [rule] = this.decided?.size ? this.decided : this.hits.keys();
    if (isMore || !rule) return;
    // A table that is not in view comes to the rule once it is.
    if (this.scroller.clientWidth > 0) this.comeTo(rule - 1);
    else this.target = rule - 1;
  }

  /** Shows how often each rule hit and decided; nothing where that was not counted. */
  count(counts) {
    this.counts = counts ?? null;
    this.draw();
  }

  /** Shows what the check found of the table as such. */
  analyse({ told, findings }) {
    const { text, isFine } = verdict(told, this.table);
    this.verdict.classList.toggle("finding", !isFine);
    put(this.verdict, text);
    put(this.analysis, listed(this, findings, this.tryWitness));
    for (const finding of findings) {
      for (const at of rowsOf(finding)) putFound(this.found, at, { finding: { said: said(this, finding) } });
    }
    this.draw();
  }

  /** Brings the table into view, and makes it the place where keys go. */
  come() {
    this.element.scrollIntoView({ block: "center" });
    this.scroller.focus({ preventScroll: true });
  }

  /** Goes to the place of a finding, and says it. */
  reveal(finding) {
    const [, rule] = finding.pointer.slice(this.pointer.length).match(/^\/rules\/(\d+)/) ?? [];
    if (rule !== undefined) this.moveTo(Number(rule));
    else this.scroller.focus();
    this.say(sentence(finding));
  }
}
