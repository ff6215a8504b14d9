// What is seen of a drawing: all of it at first, and a part of it by zoom, wheel, drag and keys.

/** So many units of the drawing are seen at least, so that letters get no larger than in a heading. */
const LEAST = 240;

export class MapView {
  /** `drawing` is where the drawing is in its own units. */
  constructor(element, drawing) {
    Object.assign(this, { element, drawing });
    element.addEventListener("wheel", (event) => this.wheel(event), { passive: false });
    element.addEventListener("pointerdown", (event) => this.drag(event));
    element.addEventListener("keydown", (event) => this.key(event));
    this.whole();
    new ResizeObserver(() => this.isWhole && this.whole()).observe(element);
  }

  /** Takes a drawing that was made anew, and shows all of it. */
  take(drawing) {
    this.drawing = drawing;
    this.whole();
  }

  set(view) {
    this.view = view;
    this.isWhole = false;
    this.element.setAttribute("viewBox", `${view.x} ${view.y} ${view.width} ${view.height}`);
  }

  /** How much is seen where all is: the drawing gets no larger than it is. */
  get most() {
    const { width, height } = this.drawing;
    return { width: Math.max(width, this.element.clientWidth), height: Math.max(height, this.element.clientHeight) };
  }

  /** Shows all of the drawing, in the middle. */
  whole() {
    const { width, height } = this.most;
    const { drawing } = this;
    this.set({ x: drawing.x + (drawing.width - width) / 2, y: drawing.y + (drawing.height - height) / 2, width, height });
    this.isWhole = true;
  }

  /** Shows so much of what is shown, around a place of the drawing. */
  zoom(part, at) {
    const { x, y, width, height } = this.view;
    const { most } = this;
    const least = Math.min(LEAST / width, 1);
    const by = Math.max(least, Math.min(part, Math.max(most.width / width, most.height / height)));
    const middle = at ?? { x: x + width / 2, y: y + height / 2 };
    if (by * width >= most.width && by * height >= most.height) return this.whole();
    return this.set({ x: middle.x - (middle.x - x) * by, y: middle.y - (middle.y - y) * by, width: width * by, height: height * by });
  }

  /** Has a box in view: what is seen is moved where it is outside. */
  reach(box) {
    const { x, y, width, height } = this.view;
    const isInside = box.x >= x && box.y >= y && box.x + box.width <= x + width && box.y + box.height <= y + height;
    if (!isInside) this.set({ width, height, x: box.x + (box.width - width) / 2, y: box.y + (box.height - height) / 2 });
  }

  /** Shows a box with what is around it, as large as in the file. */
  near(box) {
    const { clientWidth, clientHeight } = this.element;
    this.set({ x: box.x + (box.width - clientWidth) / 2, y: box.y + (box.height - clientHeight) / 2, width: clientWidth || LEAST,
      height: clientHeight || LEAST });
  }

  /** The place of the drawing under the pointer. */
  place({ clientX, clientY }) {
    const point = new DOMPoint(clientX, clientY).matrixTransform(this.element.getScreenCTM().inverse());
    return { x: point.x, y: point.y };
  }

  wheel(event) {
    event.preventDefault();
    this.zoom(event.deltaY > 0 ? 1.25 : 0.8, this.place(event));
  }

  drag(start) {
    if (start.button !== 0) return;
    const from = this.place(start);
    const isFar = (event) => Math.hypot(event.clientX - start.clientX, event.clientY - start.clientY) > 4;
    let isMoved = false;
    const move = (event) => {
      isMoved = isMoved || isFar(event);
      if (!isMoved) return;
      const to = this.place(event);
      this.set({ ...this.view, x: this.view.x + from.x - to.x, y: this.view.y + from.y - to.y });
    };
    const end = () => {
      removeEventListener("pointermove", move);
      // A drag picks no node.
      if (!isMoved) return;
      const stop = (event) => event.stopPropagation();
      this.element.addEventListener("click", stop, true);
      setTimeout(() => this.element.removeEventListener("click", stop, true));
    };
    addEventListener("pointermove", move);
    addEventListener("pointerup", end, { once: true });
  }

  key(event) {
    const work = { "+": () => this.zoom(0.7), "-": () => this.zoom(1 / 0.7), 0: () => this.whole() }[event.key];
    if (!work || event.ctrlKey || event.metaKey) return;
    event.preventDefault();
    work();
  }
}
