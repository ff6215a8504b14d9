// The graph of what needs what as a map: laid out here, or as the file draws it; whole at first, with zoom.
import { button, isObject, plain, show, svg } from "./dom.js";
import { fits, GREAT, Label, LARGE, SMALL } from "./label.js";
import { asDrawn, layersOf, mostAcross, placed } from "./layers.js";
import { MapView } from "./map.js";

/** How much is seen around the boxes. */
const AROUND = 2;
/** A drawing is tall that is so many times as high as wide: it stands beside the decision, not below. */
const TALL = 1.2;
/** How round the corners of decisions and of inputs are. */
const ROUND = { decision: 2, input: 12 };
/** So many parts of a value are listed where it is pointed at. */
const MOST_PARTS = 32;

export class GraphView {
  /** `onpick` is called with the word of a decision or an input. */
  constructor(model, onpick) {
    Object.assign(this, { model, onpick, told: new Map() });
    this.element = svg("svg", { role: "group", "aria-label": "The decisions, and what each needs" });
    this.drawn = asDrawn(model);
    this.layers = this.drawn ? null : layersOf(model);
    this.draw(this.drawn ?? placed(this.layers, this.most = mostAcross(this.layers)));
    const around = this.around();
    this.isTall = around.height > TALL * around.width;
    this.width = around.width;
    this.view = new MapView(this.element, around);
    const of = (text, label, work) => button(text, work, { "aria-label": label, title: label });
    this.buttons = [of("+", "Zoom in", () => this.view.zoom(0.7)), of("\u2212", "Zoom out", () => this.view.zoom(1 / 0.7)),
      of("All", "Show the whole graph", () => this.view.whole()),
      of("Here", "Show the decision that is open", () => this.come(this.current))];
    this.element.addEventListener("keydown", (event) => this.key(event));
    this.stop([...this.boxes.keys()][0]);
    if (this.layers) new ResizeObserver(() => this.layOut()).observe(this.element);
  }

  /** Draws all boxes, and the lines between them. */
  draw(boxes) {
    const { model } = this;
    const radius = (word) => (model.numbers.has(word) ? ROUND.decision : ROUND.input);
    this.boxes = new Map([...boxes].map(([word, box]) => [word, { ...box, radius: Math.min(radius(word), box.height / 2) }]));
    const isGreat = ({ name }) => fits(model.name(name), this.boxes.get(name), GREAT);
    this.sizes = this.drawn && model.decisions.every(isGreat) ? [GREAT, LARGE, SMALL] : [LARGE, SMALL];
    this.edges = new Map([...boxes.keys()].map((word) => [word, []]));
    this.nodes = new Map();
    const lines = model.decisions.flatMap((decision) => model.needs(decision).map((need) => {
      const line = edge(this.boxes.get(need), this.boxes.get(decision.name));
      for (const word of [need, decision.name]) this.edges.get(word).push(line);
      return line;
    }));
    this.element.replaceChildren(arrow(), ...lines, ...[...this.boxes].map(([word, box]) => this.node(word, box)));
  }

  /** Lays the boxes out for the frame as it is now, where letters get larger by that. */
  layOut() {
    const { clientWidth: width, clientHeight: height } = this.element;
    const most = width > 0 && height > 0 ? mostAcross(this.layers, { width, height }) : this.most;
    if (most === this.most) return;
    this.most = most;
    const hasFocus = this.element.contains(document.activeElement);
    this.draw(placed(this.layers, most));
    this.tell(this.told);
    this.stop(this.stopped);
    this.mark(true);
    this.view.take(this.around());
    if (hasFocus) this.nodes.get(this.stopped)?.group.focus({ preventScroll: true });
  }

  /** What is around all boxes. */
  around() {
    const all = [...this.boxes.values()];
    if (all.length === 0) return { x: 0, y: 0, width: 1, height: 1 };
    const x = Math.min(...all.map((box) => box.x)) - AROUND;
    const y = Math.min(...all.map((box) => box.y)) - AROUND;
    const right = Math.max(...all.map((box) => box.x + box.width)) + AROUND;
    const bottom = Math.max(...all.map((box) => box.y + box.height)) + AROUND;
    return { x, y, width: right - x, height: bottom - y };
  }

  /** Makes a node the one that the Tab key comes to. */
  stop(word) {
    this.nodes.get(this.stopped)?.group.setAttribute("tabindex", -1);
    this.stopped = word;
    this.nodes.get(word)?.group.setAttribute("tabindex", 0);
  }

  /** Arrows go to the nearest node in their direction. */
  key(event) {
    const [across, down] = { ArrowRight: [1, 0], ArrowLeft: [-1, 0], ArrowDown: [0, 1], ArrowUp: [0, -1] }[event.key] ?? [];
    if (across === undefined) return;
    event.preventDefault();
    const from = middle(this.boxes.get(this.stopped));
    let [best, least] = [null, Infinity];
    for (const [word, box] of this.boxes) {
      const to = middle(box);
      const along = (to.x - from.x) * across + (to.y - from.y) * down;
      const aside = Math.abs((to.x - from.x) * down) + Math.abs((to.y - from.y) * across);
      if (along > 1 && along + 2 * aside < least) [best, least] = [word, along + 2 * aside];
    }
    if (best === null) return;
    this.stop(best);
    this.nodes.get(best).group.focus({ preventScroll: true });
    this.view.reach(this.boxes.get(best));
  }

  /** Marks the decision that is open, and has it in view. */
  open(word) {
    this.mark(false);
    this.current = word;
    this.mark(true);
    if (!this.nodes.has(word)) return;
    this.stop(word);
    this.view.reach(this.boxes.get(word));
  }

  /** Marks the decision that is open and the lines to it, or no longer. */
  mark(is) {
    this.nodes.get(this.current)?.group.classList.toggle("current", is);
    for (const line of this.edges.get(this.current) ?? []) line.classList.toggle("near", is);
  }

  /** Shows a decision so near that it can be read. */
  come(word) {
    if (this.boxes.has(word)) this.view.near(this.boxes.get(word));
  }

  node(word, box) {
    const decision = this.model.decisions[this.model.numbers.get(word)];
    const name = this.model.name(word);
    const label = new Label(name, box, decision ? this.sizes : [LARGE, SMALL]);
    const pick = () => this.onpick(word);
    const needs = decision ? this.model.needs(decision).map((need) => this.model.name(need)).join(", ") : "";
    const said = decision ? `decision ${name}${needs ? `, needs ${needs}` : ""}` : `input ${name}`;
    const onkeydown = (event) => {
      if (event.key !== "Enter" && event.key !== " ") return;
      event.preventDefault();
      pick();
    };
    const attributes = { class: label.size.kind, role: "button", tabindex: -1, "aria-label": said };
    const title = svg("title", {}, name);
    const { x, y, width, height, radius } = box;
    const group = svg("g", { ...attributes, onclick: pick, onkeydown }, svg("title", {}, name),
      svg("rect", { x, y, width, height, rx: radius }, title), ...label.texts);
    this.nodes.set(word, { group, label, name, said, title });
    return group;
  }

  /** Shows the value of each decision and input: a map from words to what was told. */
  tell(values) {
    this.told = values;
    for (const [word, { group, label, name, said, title }] of this.nodes) {
      const it = values.get(word);
      label.tell(it);
      const text = it === undefined ? "" : it.fault ?? show(it.value);
      group.classList.toggle("told", it !== undefined);
      group.classList.toggle("limit", Boolean(it?.fault));
      group.classList.toggle("null", it !== undefined && !it.fault && it.value === null);
      group.setAttribute("aria-label", plain(text ? `${said}; its value is ${text}` : said));
      title.textContent = plain([name, ...(it === undefined || it.fault ? [text] : this.parts(it.value))].join("\n").trim());
    }
  }

  /** A value in lines: each part of a context or a list has one, with the way to it. */
  parts(value) {
    const lines = [];
    const walk = (part, way) => {
      const inner = Array.isArray(part) ? part.map((it, at) => [at + 1, it]) : isObject(part) ? Object.entries(part) : [];
      if (inner.length === 0) lines.push([way.join("."), show(part)].filter(Boolean).join(": "));
      for (const [key, it] of inner) if (lines.length <= MOST_PARTS) walk(it, [...way, this.model.name(key)]);
    };
    walk(value, []);
    return lines.length <= MOST_PARTS ? lines : [...lines.slice(0, MOST_PARTS), ".."];
  }
}

const arrow = () => svg("defs", {}, svg("marker", { id: "arrow", viewBox: "0 0 8 8", refX: 7, refY: 4, markerWidth: 8,
  markerHeight: 8, markerUnits: "userSpaceOnUse", orient: "auto" }, svg("path", { d: "M0 0 8 4 0 8z" })));

/** A line between two boxes, from border to border. */
function edge(from, to) {
  const [one, other] = [middle(from), middle(to)];
  const [start, end] = [border(from, one, other), border(to, other, one)];
  return svg("line", { class: "edge", x1: start.x, y1: start.y, x2: end.x, y2: end.y, "marker-end": "url(#arrow)" });
}

const middle = (box) => ({ x: box.x + box.width / 2, y: box.y + box.height / 2 });

function border(box, from, to) {
  const [across, down] = [to.x - from.x, to.y - from.y];
  const part = Math.min(box.width / 2 / Math.abs(across), box.height / 2 / Math.abs(down), 1);
  return { x: from.x + across * part, y: from.y + down * part };
}
