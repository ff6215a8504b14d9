// How wide the columns of a table are whose rows come and go: they are laid out before their cells are made, by what these will have.

/** The most letters on a line of a cell: as such, and where texts have several lines, of inputs and of outputs. */
const MOST = 48;
const MOST_WRAPPED = 16;
const MOST_LINES = 4;
const MOST_HEAD_LINES = { whole: 3, wrapped: 4 };
/** The letters that the space around a text takes, also where letters are small, and those of a mark, also of one at the head. */
const AROUND = 2.25;
const AROUND_SMALL = 2.5;
const MARK = 4;
const HEAD_MARK = 0.6;
/** What the border before the outputs takes. */
const EDGE = 0.3;
/** How much of the frame what stays in view may take before texts get several lines. */
const MOST_OF_FRAME = 0.45;

const longest = (texts) => texts.reduce((most, text) => Math.max(most, text.length), 0);
const wordsOf = (text) => text.split(/\s+/);
const partsOf = (name) => name.split(/\s+|(?<=_)(?=[^_])/);

/** How many lines parts have where so many letters are on each, of which no part has more. A part may end in an underscore. */
function linesOf(parts, letters) {
  let [lines, left] = [1, letters];
  for (const part of parts) {
    if (part.length > left && left < letters) [lines, left] = [lines + 1, letters];
    left -= part.length + (part.endsWith("_") ? 0 : 1);
  }
  return lines;
}

const mostLines = (texts, letters) => texts.reduce((most, text) => Math.max(most, linesOf(wordsOf(text), letters)), 1);

/** So many letters, or more where the name has too many lines of them. */
function forName(name, letters, most) {
  let enough = Math.max(letters, longest(partsOf(name)));
  while (linesOf(partsOf(name), enough) > most) enough += 1;
  return enough;
}

/** The letters of a line of a column whose texts have several lines, but not too many. */
function wrapped({ name, texts }) {
  const least = longest(texts.flatMap(wordsOf));
  let letters = Math.max(least, Math.min(longest(texts), MOST_WRAPPED));
  while (mostLines(texts, letters) > MOST_LINES) letters = Math.ceil(1.25 * letters);
  const lines = mostLines(texts, letters);
  // Letters that save no line are not needed.
  while (letters > least && mostLines(texts, letters - 1) === lines) letters -= 1;
  return forName(name, letters, MOST_HEAD_LINES.wrapped);
}

/** The letters of a line of a column whose texts have one line. */
const single = ({ name, texts }) => forName(name, Math.max(3, Math.min(MOST, longest(texts))), MOST_HEAD_LINES.whole);

/**
 * The widths of columns in letters, and how many lines their cells have. A column has its `kind` (when or then), `name`, `texts`
 * and whether cells or the head have marks. `frame` is how many letters are in view, `rule` how many the number of the rule takes. Small are
 * letters where the frame is narrow, or has not all columns.
 */
export function widthsOf(columns, { frame, rule, isSmall }) {
  const mark = (it) => (it.isMarked ? MARK : it.isHeadMarked ? HEAD_MARK : 0);
  const around = (it) => (isSmall ? AROUND_SMALL : AROUND) + (it.kind === "then" ? EDGE : 0) + mark(it);
  const width = (of) => columns.map((it) => of(it) + around(it));
  const widths = width(single);
  const staying = columns.reduce((sum, { kind }, at) => sum + (kind === "then" ? widths[at] : 0), rule);
  if (!isSmall && staying <= MOST_OF_FRAME * frame) return { widths, lines: 1 };
  const lines = columns.reduce((most, it) => Math.max(most, mostLines(it.texts, wrapped(it))), 1);
  return { widths: width(wrapped), lines };
}
