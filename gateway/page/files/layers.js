// Where the boxes of the graph stand: as the file draws them, or in layers that are laid out for a frame.
const WIDTH = 168;
const HEIGHT = 64;
const ACROSS = 16;
const MARGIN = 10;
/** How far boxes stand from the layer below, and from the next row of their own. */
const DOWN = 40;
const WITHIN = 16;
/** How many boxes stand in a row at most, and the frame before it is known. */
const MOST_ACROSS = 48;
const FRAME = { width: 620, height: 290 };
/** How often the boxes of each layer are sorted by what they need, and by what needs them. */
const SORTS = 3;

/** The boxes of the file's own diagram; null where it has none. */
export function asDrawn(model) {
  const words = [...model.inputs, ...model.decisions.map((decision) => decision.name)];
  if (!model.diagram || !words.every((word) => model.diagram[word])) return null;
  const left = Math.min(...words.map((word) => model.diagram[word][0])) - MARGIN;
  const top = Math.min(...words.map((word) => model.diagram[word][1])) - MARGIN;
  return new Map(words.map((word) => {
    const [x, y, width, height] = model.diagram[word];
    return [word, { x: x - left, y: y - top, width, height }];
  }));
}

/** Layers of words: inputs at the bottom, each decision above all that it needs; neighbours near what they have to do with. */
export function layersOf(model) {
  const needs = new Map(model.decisions.map((decision) => [decision.name, model.needs(decision)]));
  const users = new Map();
  for (const [word, needed] of needs) {
    for (const need of needed) {
      if (!users.has(need)) users.set(need, []);
      users.get(need).push(word);
    }
  }
  const layers = byDepth(model.inputs, needs);
  const places = new Map();
  const put = (layer) => layer.forEach((word, at) => places.set(word, at - (layer.length - 1) / 2));
  const sort = (layer, near) => {
    const middles = new Map(layer.map((word) => [word, mean(near.get(word), places) ?? places.get(word)]));
    layer.sort((one, other) => middles.get(one) - middles.get(other));
    put(layer);
  };
  layers.forEach(put);
  for (let times = 0; times < SORTS; times += 1) {
    layers.slice(1).forEach((layer) => sort(layer, needs));
    layers.slice(0, -1).reverse().forEach((layer) => sort(layer, users));
  }
  return layers;
}

/** The mean of the places of some words; nothing where there are none. */
function mean(words, places) {
  const known = (words ?? []).filter((word) => places.has(word));
  return known.length > 0 ? known.reduce((sum, word) => sum + places.get(word), 0) / known.length : undefined;
}

/** Words by how long the longest way down from each is. A model with a fault may go round. */
function byDepth(inputs, needs) {
  const depths = new Map(inputs.map((word) => [word, 0]));
  const depth = (word, above) => {
    if (depths.has(word)) return depths.get(word);
    if (above.has(word)) return 0;
    above.add(word);
    const deepest = Math.max(0, ...(needs.get(word) ?? []).map((need) => depth(need, above)));
    above.delete(word);
    depths.set(word, deepest + 1);
    return deepest + 1;
  };
  const layers = [[...new Set(inputs)]];
  for (const word of needs.keys()) {
    const at = depth(word, new Set());
    while (layers.length <= at) layers.push([]);
    layers[at].push(word);
  }
  return layers;
}

/** How many boxes of layers stand in a row at most, for letters to be largest where a frame shows the whole. */
export function mostAcross(layers, { width, height } = FRAME) {
  let [best, scale] = [MOST_ACROSS, 0];
  for (let most = MOST_ACROSS; most >= 1; most -= 1) {
    const rows = rowsOf(layers, most);
    const across = Math.max(...rows.map(({ words }) => words.length)) * (WIDTH + ACROSS);
    const down = rows.reduce((sum, { below }) => sum + HEIGHT + below, 0);
    const got = Math.min(1, width / across, height / down);
    if (got > scale) [best, scale] = [most, got];
  }
  return best;
}

/** The rows of layers from below, and how far each stands from the one below it: layers that are wide have several. */
function rowsOf(layers, most) {
  return layers.flatMap((layer, depth) => {
    const count = Math.ceil(layer.length / most);
    const length = Math.ceil(layer.length / count);
    const parts = Array.from({ length: count }, (_, at) => layer.slice(at * length, (at + 1) * length));
    return parts.reverse().map((words, at) => ({ words, below: at > 0 ? WITHIN : depth > 0 ? DOWN : 0 }));
  });
}

/** The boxes of layers, with at most so many in a row. */
export function placed(layers, most) {
  const rows = rowsOf(layers, most);
  const widest = Math.max(1, ...rows.map(({ words }) => words.length));
  const boxes = new Map();
  let y = MARGIN + rows.reduce((sum, { below }) => sum + HEIGHT + below, 0);
  for (const { words, below } of rows) {
    y -= HEIGHT + below;
    words.forEach((word, at) => boxes.set(word, {
      x: MARGIN + (at + (widest - words.length) / 2) * (WIDTH + ACROSS), y, width: WIDTH, height: HEIGHT,
    }));
  }
  return boxes;
}
