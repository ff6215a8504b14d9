// Rows of a table's body. Where there are many they have one height, and are made as they come into view.
import { el } from "./dom.js";

/** More rows than these are not all made at once. */
export const ALL_AT_ONCE = 60;
/** How many rows are made before and behind those in view. */
const AROUND = 12;

export class Rows {
  /** `make` makes the row with a number, which has an element with its number under `data-at` that may have the focus. */
  constructor(scroller, body, make) {
    Object.assign(this, { scroller, body, make, count: 0, first: -1, last: -1, size: 2 });
    scroller.addEventListener("scroll", () => this.draw(), { passive: true });
  }

  /** Makes the rows anew. */
  show(count) {
    this.count = count;
    this.first = -1;
    this.draw();
  }

  /** Of many rows, each has room for so many lines of letters, which may be small; in steps of 8 pixels, and 32 at least. */
  setLines(lines, isSmall) {
    this.size = Math.max(2, Math.ceil(2 * (lines * (isSmall ? 0.9375 : 1.09375) + 0.125)) / 2);
  }

  /** The height of a row where there are many, in pixels. */
  get height() {
    return this.size * parseFloat(getComputedStyle(document.documentElement).fontSize);
  }

  draw() {
    if (this.count <= ALL_AT_ONCE) {
      if (this.first !== 0) this.put(0, this.count, []);
      return;
    }
    const height = this.height;
    const top = Math.max(0, Math.min(Math.floor(this.scroller.scrollTop / height), this.count - 1));
    const bottom = Math.min(this.count, top + Math.ceil((this.scroller.clientHeight || 640) / height) + 1);
    if (this.first >= 0 && top >= this.first && bottom <= this.last) return;
    const first = Math.max(0, top - AROUND);
    const last = Math.min(this.count, bottom + AROUND);
    this.put(first, last, [first * height, (this.count - last) * height]);
  }

  /** Puts these rows in, between spaces of these heights. */
  put(first, last, spaces) {
    const focused = this.body.contains(document.activeElement) ? document.activeElement.dataset.at : undefined;
    this.first = first;
    this.last = last;
    const rows = Array.from({ length: last - first }, (_, at) => this.make(first + at));
    const [above, below] = spaces.map((height) => {
      const cell = el("td", { class: "space" });
      cell.style.height = `${height}px`;
      return el("tr", { "aria-hidden": "true", class: "space" }, cell);
    });
    this.body.replaceChildren(...[above, ...rows, below].filter(Boolean));
    if (focused !== undefined) this.at(focused)?.focus({ preventScroll: true });
  }

  /** The element of a row that may have the focus, where the row is made. */
  at(number) {
    return this.body.querySelector(`[data-at="${number}"]`);
  }

  /** Scrolls a row into view, without the focus. `above` is how high what stands above the rows is. */
  bring(number, above) {
    if (this.count <= ALL_AT_ONCE) return;
    const top = number * this.height;
    const { scrollTop, clientHeight } = this.scroller;
    if (top < scrollTop || top + this.height + above > scrollTop + clientHeight) {
      this.scroller.scrollTop = Math.max(0, top - (clientHeight - above) / 2);
    }
    this.draw();
  }
}
