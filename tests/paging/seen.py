"""How much is seen at once: columns of a wide table, names at its head and in the header, and letters in the graph."""

from __future__ import annotations

from . import analysts, bench, rows

# Of 12 columns so many are whole beside the rule and the outputs at 1,280 pixels: at first, and where the decision is widened.
AT_FIRST, WIDENED = 4, 8
# The least letters in the graph, in pixels.
LETTERS = 10


class Seen:
    def __init__(self, suite) -> None:
        self.suite, self.browser = suite, suite.browser

    def wide(self) -> None:
        self.browser.resize(1280, 800)
        self.browser.open(self.suite.service("wide", bench.wide()), bench.WIDE)
        self.browser.answer()
        self.browser.drawn()

    def columns(self) -> str:
        """Many of 12 columns are seen, and more where the decision is widened, which is remembered."""
        self.wide()
        self.browser.js("localStorage.clear()")
        self.wide()
        first = self.browser.js(WHOLE)
        assert first >= AT_FIRST, f"{first} columns are whole"
        try:
            self.browser.js("document.getElementById('widen').click()")
            self.browser.wait(lambda: self.browser.js(WHOLE) >= WIDENED, f"{WIDENED} columns")
            self.wide()
            self.browser.wait(lambda: self.browser.js(WHOLE) >= WIDENED, f"{WIDENED} columns when the page is opened again")
            assert self.browser.js("return document.getElementById('widen').getAttribute('aria-pressed')") == "true"
            out = self.browser.js(analysts.STAYING)
            assert not out, out
            more = self.browser.js(WHOLE)
        finally:
            self.browser.js("localStorage.clear()")
        return f"{first} of 12, {more} where it is widened"

    def names(self) -> str:
        """A name that is not seen whole ends in dots, and has a title; so do the title and the parts of the header."""
        for width, height in ((1280, 800), (390, 844)):
            self.wide()
            self.browser.resize(width, height)
            self.browser.tab("open")
            self.browser.drawn()
            for across in (0, 60, 200, 1e6):
                self.browser.js("document.querySelector('.table .scroll').scrollTo(arguments[0], 0)", across)
                self.browser.drawn()
                self.browser.comes(lambda: self.browser.js(CUT), [], f"names that are whole or end in dots, {across} across of {width}")
            lines = self.browser.js(PARTS)
            assert len(lines) == 4 and all("·" not in it for it in lines), lines
        return ""

    def letters(self) -> str:
        """Letters in the graph can be read as it is first seen."""
        least = {}
        for width, height in ((1280, 800), (390, 844)):
            self.browser.resize(width, height)
            self.browser.open(self.suite.service("dmn/loan.dmn"), rows.DECLINED, rows.SERVICE)
            self.browser.answer()
            self.browser.tab("map")
            self.browser.drawn()
            least[width] = self.browser.js(LEAST)
            cut = self.browser.js("return [...document.querySelectorAll('.node text:not(.worth)')].map((it) => it.textContent).filter((it) => it.endsWith('..'))")
            assert least[width] >= LETTERS and not cut, (least, cut)
        return ", ".join(f"{size:.1f} pixels at {width}" for width, size in least.items())


    def values(self) -> str:
        """Values in the graph stand in their boxes; a context is the number of its entries, and all of it is shown where it is pointed at."""
        for width, height in ((1280, 800), (390, 844)):
            self.browser.resize(width, height)
            self.browser.open(self.suite.service("dmn/loan.dmn"), rows.DECLINED, rows.SERVICE)
            self.browser.answer()
            self.browser.tab("map")
            self.browser.drawn()
            out = self.browser.js(OUTSIDE)
            assert not out, (width, out)
            told = self.browser.js("""return Object.fromEntries([...document.querySelectorAll(".node")].map((it) =>
                [it.querySelector("title").textContent, [it.querySelector(".worth").textContent, it.querySelector("rect title").textContent]]))""")
            assert told["Required monthly installment"] == ["200", "Required monthly installment\n200"], told
            assert told["Applicant data"][0] == "5 entries", told
            assert set(told["Applicant data"][1].splitlines()) == PARTS_OF_IT, told
        return ""

    def wide_letters(self) -> str:
        """Letters in the graph of 12 inputs can be read as it is first seen, also where the decision is widened and the graph is low."""
        least = {}
        try:
            for width, height, is_widened in ((1280, 800, False), (1280, 800, True), (390, 844, False)):
                self.wide()
                self.browser.resize(width, height)
                self.browser.tab("map")
                if is_widened:
                    self.browser.js("document.getElementById('widen').click()")
                self.browser.wait(lambda: self.browser.js(LEAST) >= LETTERS, f"letters of {LETTERS} pixels")
                assert not self.browser.js(OUTSIDE), (width, self.browser.js(OUTSIDE))
                least[f"{width}{' widened' if is_widened else ''}"] = self.browser.js(LEAST)
        finally:
            self.browser.js("localStorage.clear()")
        return ", ".join(f"{size:.1f} pixels at {name}" for name, size in least.items())

    def words(self) -> str:
        """Of a column that is partly covered the name is seen with all its words, or dots stand for it."""
        dots = 0
        for width, height in ((1280, 800), (390, 844)):
            self.browser.resize(width, height)
            self.browser.open(self.suite.service("dmn/loan.dmn"), rows.DECLINED, rows.SERVICE)
            self.browser.answer()
            self.browser.drop("some.jsonl", rows.lines(rows.applicants(20)))
            self.browser.wait(lambda: "20 requests" in self.browser.text("counted"), "the counts")
            self.browser.pick("Eligibility")
            self.browser.tab("open")
            dots += self.whole_words()
            self.wide()
            self.browser.resize(width, height)
            self.browser.tab("open")
            dots += self.whole_words()
        return f"dots at {dots} of the places"

    def whole_words(self) -> int:
        """Scrolls the open table across; gives how many names were dots."""
        dots = 0
        for across in (0, 30, 60, 100, 200, 400, 1e6):
            self.browser.js("document.querySelector('article:not([hidden]) .table .scroll').scrollTo(arguments[0], 0)", across)
            self.browser.drawn()
            self.browser.comes(lambda: self.browser.js(WORDS)[0], [], f"names with all their words, {across} across")
            dots += self.browser.js(WORDS)[1]
        return dots

    def narrow(self) -> str:
        """At 390 pixels a column of the wide table is whole beside the rule and the outputs, as it is opened and as it is scrolled on."""
        self.wide()
        self.browser.resize(390, 844)
        self.browser.tab("open")
        self.browser.comes(lambda: self.browser.js(WHOLE) >= 1, True, "a column that is whole")
        across = self.browser.js("return [...document.querySelectorAll('.rules thead .input')].map((it) => it.offsetLeft)")
        for at in (1, 2, 5):
            # Where a person lets go beside the start of a column, the table goes there.
            self.browser.js("document.querySelector('.table .scroll').scrollTo(arguments[0] - arguments[1] - 20, 0)", across[at], across[0])
            self.browser.comes(lambda: self.browser.js(WHOLE) >= 1, True, f"that column {at + 1} is whole")
        return ""

    def marks(self) -> str:
        """Marks at the head of the wide table take no line of it."""
        for width, height in ((1280, 800), (390, 844)):
            self.wide()
            self.browser.resize(width, height)
            self.browser.tab("open")
            self.browser.wait(lambda: "under way" not in self.browser.text("badge"), "the end of the check")
            self.browser.drawn()
            high = lambda: self.browser.js("return document.querySelector('article:not([hidden]) .rules thead tr').offsetHeight")
            count, with_marks = self.browser.js("return document.querySelectorAll('.rules thead .mark').length"), high()
            self.browser.js("for (const it of document.querySelectorAll('.rules thead .mark')) it.remove()")
            assert count > 0 and with_marks == high(), (width, count, with_marks, high())
        return ""


# All of the applicant's data, each entry with the way to it.
PARTS_OF_IT = {"Applicant data", "Age: 20", 'Marital Status: "S"', 'Employment Status: "STUDENT"', "Existing Customer: false", "Monthly.Income: 1000",
               "Monthly.Repayments: 0", "Monthly.Expenses: 700"}

# Texts in the graph that are not within their boxes.
OUTSIDE = """return [...document.querySelectorAll(".node")].flatMap((node) => {
  const box = node.querySelector("rect").getBoundingClientRect();
  return [...node.querySelectorAll("text")].filter((it) => it.textContent).filter((it) => {
    const own = it.getBoundingClientRect();
    return own.left < box.left - 1 || own.right > box.right + 1 || own.top < box.top - 2 || own.bottom > box.bottom + 2;
  }).map((it) => it.textContent);
});"""

# Of the names of columns that are partly covered: the words that are not seen, and how many names are dots.
WORDS = """const heads = [...document.querySelectorAll("article:not([hidden]) .scroll thead th")].map((it) => [it, it.getBoundingClientRect()]);
const start = heads[0][1].right - 1;
const stays = heads.filter(([it]) => it.dataset.stay && getComputedStyle(it).right !== "auto").map(([, box]) => box.left);
const frame = heads[0][0].closest(".scroll").getBoundingClientRect();
const end = Math.min(frame.right, ...stays) + 1;
const cut = [];
let dots = 0;
for (const [it, box] of heads) {
  if (!it.matches(".input") || box.right <= start + 2 || box.left >= end - 2) continue;
  const name = it.querySelector(".head");
  if (getComputedStyle(name).visibility === "hidden") {
    dots += getComputedStyle(it, "::after").content.includes("…") ? 1 : 0;
    if (!it.title) cut.push(it.textContent);
    continue;
  }
  const walker = document.createTreeWalker(name, NodeFilter.SHOW_TEXT);
  while (walker.nextNode()) {
    const text = walker.currentNode;
    if (text.parentElement.closest(".value, .mark, .unseen")) continue;
    for (const {0: word, index} of text.data.matchAll(/[^\\s_]+/g)) {
      const range = document.createRange();
      range.setStart(text, index);
      range.setEnd(text, index + word.length);
      const boxes = [...range.getClientRects()];
      if (boxes.length !== 1 || boxes.some((one) => one.left < start || one.right > end)) cut.push(word);
    }
  }
}
return [cut, dots];"""

# How many input columns are whole between the number of the rule and what stays in view.
WHOLE = """const heads = [...document.querySelectorAll("article:not([hidden]) .scroll thead th")].map((it) => [it, it.getBoundingClientRect()]);
const start = heads[0][1].right - 1;
const end = Math.min(...heads.filter(([it]) => it.dataset.stay).map(([, box]) => box.left)) + 1;
return heads.filter(([it, box]) => it.matches(".input") && box.left >= start && box.right <= end).length;"""

# The names of columns of which a part is covered, that reach below what covers it or have no title.
CUT = """const heads = [...document.querySelectorAll("article:not([hidden]) .scroll thead th")].map((it) => [it, it.getBoundingClientRect()]);
const start = heads[0][1].right - 1;
const end = Math.min(...heads.filter(([it]) => it.dataset.stay).map(([, box]) => box.left)) + 1;
return heads.filter(([it, box]) => it.matches(".input") && box.right > start + 2 && box.left < end - 2).filter(([it]) => {
  const name = it.querySelector(".head");
  if (getComputedStyle(name).visibility === "hidden") return false;
  const box = name.getBoundingClientRect();
  return box.left < start || box.right > end || !it.title;
}).map(([it]) => it.textContent);"""

# The parts of the line below the title: none has a dot in its text, and each is whole.
PARTS = """const line = document.getElementById("model").getBoundingClientRect();
return [...document.querySelectorAll("#model .part")].filter((it) => it.getBoundingClientRect().right <= line.right + 1).map((it) => it.textContent);"""

# The height of the least letters in the graph.
LEAST = """const scale = document.querySelector("#graph svg").getScreenCTM().a;
return Math.min(...[...document.querySelectorAll(".node text")].filter((it) => it.textContent)
  .map((it) => parseFloat(getComputedStyle(it).fontSize) * scale));"""


def run(suite) -> None:
    seen = Seen(suite)
    suite.row("how many columns are seen", seen.columns)
    suite.row("names that are whole or end in dots", seen.names)
    suite.row("letters in the graph", seen.letters)
    suite.row("values in the graph", seen.values)
    suite.row("a graph of 12 inputs", seen.wide_letters)
    suite.row("words of names that are partly covered", seen.words)
    suite.row("a wide table at 390 pixels", seen.narrow)
    suite.row("marks at the head", seen.marks)
