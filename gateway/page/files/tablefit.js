// How a decision table fits its frame: how wide its columns are, how large its letters, and what stays in view as it is scrolled.
import { widthsOf } from "./columns.js";
import { el } from "./dom.js";
import { fitNames } from "./heads.js";

/** How much of the frame the columns that stay in view may take. */
const MOST_STAYING = 0.75;
/** The same with counts, which stay where there is more room. */
const MOST_WITH_COUNTS = 0.6;
/** A frame is narrow where it has fewer pixels across. */
const NARROW = 560;

const sumOf = (numbers) => numbers.reduce((sum, number) => sum + number, 0);

export class TableFit {
  /** Of the view of a table. */
  constructor(view) {
    Object.assign(this, { view, isNarrow: false });
    view.scroller.addEventListener("scroll", () => view.scroller.scrollLeft !== this.across && this.fitNames(), { passive: true });
  }

  /** Whether the frame has another width than when it was last asked. */
  isOther() {
    const { clientWidth } = this.view.element;
    const is = clientWidth !== this.width;
    this.width = clientWidth;
    this.isNarrow = clientWidth < NARROW;
    return is;
  }

  /** The columns of a table whose rows come and go. */
  columns() {
    const { grid, rows, isVirtual } = this.view;
    if (!isVirtual) return [];
    const { all, lines, isSmall } = this.sized(this.isNarrow);
    rows.setLines(lines, isSmall);
    grid.classList.toggle("several", lines > 1);
    grid.style.setProperty("--row", `${rows.height}px`);
    grid.style.width = `${sumOf(all)}ch`;
    return [el("colgroup", {}, all.map((letters) => {
      const column = el("col");
      column.style.width = `${letters}ch`;
      return column;
    }))];
  }

  /** How wide all columns are, in letters: small ones in a narrow frame, and where the frame has not all columns else. */
  sized(isSmall) {
    const { grid, rules, found, counts } = this.view;
    grid.classList.toggle("narrow", isSmall);
    const isMarked = [...found.values()].flat().some(({ kind }) => kind === undefined);
    const rule = String(rules.length).length + (isSmall ? 4.5 : 7) + (isMarked ? 4 : 0);
    const frame = this.lettersInView();
    const { widths, lines } = this.layout({ frame, rule, isSmall });
    const all = [rule, ...widths, ...(counts ? [9, 11] : [])];
    return isSmall || sumOf(all) <= frame ? { all, lines, isSmall } : this.sized(true);
  }

  /** The widths of what stands in each column, which are kept for a frame. */
  layout(frame) {
    const { rules, inputs, outputs, found, model, pointer } = this.view;
    const column = (kind, name, at) => ({ kind, name, texts: rules.map((_, rule) => this.view.cell(rule, kind, at)) });
    this.texts ??= [...inputs.map((_, at) => column("when", this.view.column(at), at)),
      ...outputs.map((output, at) => column("then", model.name(output.name), at))];
    const marked = new Set([...found.values()].flat().map(({ kind, column: at }) => (kind === "then" ? at + inputs.length : at)));
    const heads = this.texts.map(({ kind }, at) =>
      model.foundAt(`${pointer}/${kind === "then" ? `outputs/${at - inputs.length}` : `inputs/${at}`}`, true).length > 0);
    const key = JSON.stringify([frame, [...marked], heads]);
    if (this.laidOut?.key !== key) {
      const columns = this.texts.map((it, at) => ({ ...it, isMarked: marked.has(at), isHeadMarked: heads[at] }));
      this.laidOut = { key, ...widthsOf(columns, frame) };
    }
    return this.laidOut;
  }

  /** How many letters of the cells are in view across. */
  lettersInView() {
    const letter = 0.6 * parseFloat(getComputedStyle(this.view.grid).fontSize);
    return (this.width ?? Infinity) / (letter || 1);
  }

  /** Of few rules the columns are as wide as the browser makes them: letters are small where the frame has not all columns else. */
  letters() {
    const { grid, element, isVirtual } = this.view;
    if (isVirtual) return;
    grid.classList.toggle("narrow", this.isNarrow);
    if (!this.isNarrow) grid.classList.toggle("narrow", grid.offsetWidth > element.clientWidth);
  }

  /** Says to each output, and each count behind it, how far from the end it stays when the table is scrolled, if there is room. */
  stay() {
    const { scroller, head, grid } = this.view;
    const { clientWidth } = scroller;
    if (clientWidth === 0) return;
    const rule = head.querySelector("th")?.offsetWidth ?? 0;
    // Where it is scrolled, a column begins behind the numbers of the rules.
    scroller.style.setProperty("scroll-padding-inline-start", `${rule}px`);
    scroller.classList.add("stepping");
    let room = MOST_STAYING * clientWidth - rule;
    const cells = [...head.querySelectorAll("[data-stay]")];
    const outputs = cells.slice(0, this.view.outputs.length);
    const isLoose = sumOf(outputs.map((it) => it.offsetWidth)) > room;
    const least = (at) => (at < outputs.length ? 0 : (MOST_STAYING - MOST_WITH_COUNTS) * clientWidth);
    const staying = isLoose ? [] : cells.filter((it, at) => (room -= it.offsetWidth) >= least(at));
    for (const it of cells) grid.style.setProperty(`--stay-${it.dataset.stay}`, "auto");
    let right = 0;
    for (const it of staying.reverse()) {
      grid.style.setProperty(`--stay-${it.dataset.stay}`, `${right}px`);
      right += it.offsetWidth;
    }
    this.fitNames();
  }

  /** Has the names of columns in what is seen of these. */
  fitNames() {
    this.across = this.view.scroller.scrollLeft;
    fitNames(this.view.scroller, this.view.head);
  }
}
