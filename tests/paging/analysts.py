"""What an analyst does on the page, and how it looks: wide tables, values, cases in a file, a month under two models, print."""

from __future__ import annotations

import base64
import json
import os
import re
import subprocess
from pathlib import Path

from . import bench, rows

HERE = Path(__file__).resolve().parent.parent.parent
TURNED = "\u202e"
VALUES = {"inputs": ["a"], "decisions": [{"name": "the_values", "needs": ["a"], "expr": {"context": [
    {"name": "rows", "expr": {"list": ["1", "null"]}}, {"name": "text", "expr": '"x y"'}, {"name": "none", "expr": "null"},
    {"name": "sums", "expr": {"list": [{"context": [{"name": "n", "expr": "a"}, {"name": "m", "expr": "2"}]},
                                       {"context": [{"name": "n", "expr": "3"}, {"name": "m", "expr": "4"}]}]}}]}}],
    "services": [{"name": "s", "outputs": ["the_values"], "encapsulated": [], "inputDecisions": [], "inputData": ["a"]}]}


class Analysts:
    def __init__(self, suite) -> None:
        self.suite, self.browser = suite, suite.browser

    def loan(self) -> None:
        self.browser.open(self.suite.service("dmn/loan.dmn"), rows.DECLINED, rows.SERVICE)
        self.browser.answer()

    def wide(self) -> str:
        """Of 12 columns by 300 rules the head, the rule and the outputs stay in view both ways; no token is broken."""
        for width, height in ((1280, 800), (390, 844)):
            self.browser.resize(width, height)
            self.browser.open(self.suite.service("wide", bench.wide()), bench.WIDE)
            self.browser.answer()
            self.browser.tab("open")
            self.browser.drawn()
            for across, down in ((0, 0), (1e6, 0), (0, 1e6), (700, 4000)):
                self.browser.js("const it = document.querySelector('.table .scroll'); it.scrollTo(arguments[0], arguments[1]);", across, down)
                self.browser.drawn()
                out = self.browser.js(STAYING)
                assert not out, (width, across, down, out)
            cut = self.browser.js(BROKEN)
            assert not cut, cut
            self.columns()
        self.browser.resize(390, 844)
        self.browser.open(self.suite.service("large", bench.large()))
        cut = self.browser.js(BROKEN)
        assert not cut, cut
        return ""

    def columns(self) -> None:
        """Columns are as wide as what stands in them: no cell is cut, and one of longer texts is wider."""
        cut = self.browser.js("""return [...document.querySelectorAll(".rules tbody td:not(.space)")].filter((it) =>
            it.scrollWidth > it.clientWidth || it.scrollHeight > it.clientHeight + 1).map((it) => it.textContent).slice(0, 5)""")
        assert not cut, cut
        heads = self.browser.js("return [...document.querySelectorAll('.rules thead th.input')].map((it) => it.offsetWidth)")
        widths = dict(zip(bench.COLUMNS, heads))
        assert widths["employment_status"] > widths["region"] > widths["score"], widths

    def values(self) -> str:
        """A context is drawn as a table of names, a list as rows; null and limits have colours of their own, never green."""
        service = self.suite.service("values", VALUES)
        colours = set()
        for dark in (False, True):
            self.browser.dark(dark)
            self.browser.open(service, {"a": 1})
            answer = self.browser.answer()
            names = self.browser.js("return [...document.querySelectorAll('#result > div > table > tbody > tr > th')].map((it) => it.textContent)")
            assert names == list(answer) and sorted(names) == ["none", "rows", "sums", "text"], (names, answer)
            lists = self.browser.js("""return [...document.querySelectorAll("#result .list")].map((it) => [...it.querySelectorAll("tr")].map((row) =>
                [...row.children].map((part) => part.textContent).join(" ").trim()))""")
            # An answer has its names in the order of their bytes.
            assert lists == [["1 1", "2 null"], ["m n", "1 2 1", "2 4 3"]], lists
            colour = lambda of: self.browser.js("return getComputedStyle(document.querySelector(arguments[0])).color", of)
            null, plain = colour("#result .is-null"), colour("#result .is-plain")
            self.browser.open(self.suite.service("limits", NUMBERS), {"a": 9223372036854775807})
            self.browser.wait(lambda: self.browser.js("return !!document.querySelector('#result .is-limit')"), "the limit")
            limit = colour("#result .is-limit")
            assert len({null, plain, limit}) == 3, (null, plain, limit)
            colours |= {null, plain, limit}
        self.browser.dark(False)
        for colour in colours:
            red, green, blue = (int(part) for part in colour.removeprefix("rgb(").removesuffix(")").split(", "))
            assert not (green > red + 16 and green > blue + 16), f"{colour} is green"
        return ""

    def scale(self) -> str:
        """Four sizes of letters, spaces in steps of 8 pixels, and colours that have names, of which one is the accent."""
        style = (HERE / "gateway" / "page" / "files" / "style.css").read_text()
        names, rest = style[:style.index("* {")], style[style.index("* {"):]
        assert names.count("--accent:") == 2 and not re.findall(r"#[0-9a-f]{3,8}\b(?=[;\s])|rgb|hsl", rest), "a colour without a name"
        self.browser.resize(1280, 800)
        self.loan()
        self.browser.drop("some.jsonl", rows.lines(rows.applicants(20)))
        self.browser.wait(lambda: "20 requests" in self.browser.text("counted"), "the counts")
        odd = set()
        for tab in ("case", "cases", "count", "try", "checks"):
            self.browser.tab(tab)
            odd |= {tuple(it) for it in self.browser.js(SCALE)}
        assert not odd, sorted(odd)[:8]
        return ""

    def signs(self) -> str:
        """Characters that turn or hide text are shown by their numbers, in tables, results and the search, and are warnings."""
        model = rows.service_of(["a"], {"hit": "F", "inputs": ["a"], "outputs": [{"name": "o"}], "rules": [
            {"when": [f'"x{TURNED}y"'], "then": [f'"tur{TURNED}ned"']}, {"when": ["-"], "then": ['"hid\u200bden"']}]})
        self.browser.open(self.suite.service("signs", model), {"a": f"x{TURNED}y"})
        self.browser.wait(lambda: "turU+202Ened" in self.browser.text("result"), "the result")
        cells = self.browser.js("return [...document.querySelectorAll('.rules td')].map((it) => it.textContent)")
        # The marks are those of the warnings.
        assert cells == ['"xU+202Ey"!', '"turU+202Ened"!', "-", '"hidU+200Bden"!'], cells
        self.browser.js("""const it = document.getElementById("search"); it.value = "tur"; it.dispatchEvent(new Event("input"));""")
        assert "U+202E" in self.browser.text("hits"), self.browser.text("hits")
        raw = self.browser.js("""const found = [];
            const walker = document.createTreeWalker(document.documentElement, NodeFilter.SHOW_TEXT | NodeFilter.SHOW_ELEMENT);
            while (walker.nextNode()) {
              const it = walker.currentNode;
              const texts = it.nodeType === 3 ? [it.data] : [it.title, it.getAttribute("aria-label"), it.localName === "textarea" ? it.value : ""];
              if (texts.some((text) => /[\\u202e\\u200b]/.test(text ?? ""))) found.push(it.nodeName);
            }
            return found;""")
        assert not raw, raw
        warned = self.browser.text("checks")
        assert "U+202E, which isn't seen" in warned and "U+200B, which isn't seen" in warned, warned
        return ""

    def wrong(self) -> str:
        """A wrong input gets the focus, whether the page or the service refuses it."""
        from selenium.webdriver.common.keys import Keys
        self.loan()
        age = "[...document.querySelectorAll('#fields label')].find((it) => it.textContent === 'Age').control"
        self.browser.js(f"{age}.focus(); {age}.select()")
        self.browser.keys("many", Keys.TAB, Keys.TAB)
        self.browser.js("document.getElementById('decide').focus()")
        self.browser.keys(Keys.ENTER)
        assert self.browser.js(f"return document.activeElement === {age}")
        assert "digits" in self.browser.js(f"return {age}.closest('p').querySelector('.error').textContent")
        self.browser.open(self.suite.service("parcel.json"), {"weight": 1, "express": True})
        self.browser.answer()
        weight = "document.querySelector('#fields input')"
        self.browser.js(f"{weight}.focus(); {weight}.value = '1.5'")
        self.browser.keys(Keys.ENTER)
        self.browser.wait(lambda: self.browser.js(f"return {weight}.getAttribute('aria-invalid')") == "true", "that it is refused")
        assert self.browser.js(f"return document.activeElement === {weight}")
        return ""

    def kept(self) -> str:
        """Cases with their due answers are a file that `desk test` reads."""
        self.loan()
        self.browser.js("document.getElementById('keep').click()")
        self.browser.js("document.getElementById('keep').click()")
        due = '{"Bureau call type":"FULL","Strategy":"BUREAU"}'
        self.browser.js("""const it = document.getElementById("due-1"); it.value = arguments[0]; it.dispatchEvent(new Event("change"));""", due)
        assert "1 with another answer than is due" in self.browser.text("kept"), self.browser.text("kept")
        for old in self.browser.downloads.iterdir():
            old.unlink()
        self.browser.js("document.getElementById('cases-save').click()")
        path = self.browser.wait(lambda: [it for it in self.browser.downloads.iterdir() if it.suffix == ".jsonl"], "the file")[0]
        ran = subprocess.run([self.suite.programs[0], "test", rows.LOAN, path], capture_output=True, text=True, check=False,
                             env=os.environ | {"DESK_ENGINE": self.suite.programs[1]})
        assert ran.returncode == 1 and "1 passed, 1 failed" in ran.stdout, ran.stdout + ran.stderr
        saved = self.suite.folder / "kept.jsonl"
        saved.write_bytes(path.read_bytes())
        self.loan()
        self.browser.file("cases-file", saved)
        self.browser.wait(lambda: "2 cases, 1 with another answer" in self.browser.text("kept"), "the cases of the file")
        return ""

    def beside(self) -> str:
        """A month under two models, as lines, CSV or a list: each request with another answer is listed, and looked at."""
        model = bench.changed()
        path, month = self.suite.folder / "changed.json", self.suite.folder / "months.jsonl"
        path.write_text(json.dumps(model))
        asked = [{"applicant": {"defaults": number % 3, "age": 16 + number % 30, "income": 2000, "expenses": 900}, "instalment": 100}
                 for number in range(500)]
        month.write_text(rows.lines(asked))
        run = lambda of: subprocess.run([self.suite.programs[0], "run", of, month], capture_output=True, text=True, check=True,
                                        env=os.environ | {"DESK_ENGINE": self.suite.programs[1]}).stdout.splitlines()
        due = [str(at + 1) for at, (one, other) in enumerate(zip(run(bench.LOAN), run(path))) if one != other]
        assert due, "no answer differs"
        self.browser.open(self.suite.service("loan", bench.LOAN), bench.CASE, "loan")
        self.browser.drop("changed.json", json.dumps(model))
        self.browser.wait(lambda: "risk: changed" in self.browser.text("differences"), "what differs")
        self.browser.file("beside-file", month)
        self.browser.wait(lambda: f"500 requests, {len(due)} with another answer" in self.browser.text("beside-said"), f"{len(due)} requests")
        columns = ["applicant.defaults", "applicant.age", "applicant.income", "applicant.expenses", "instalment"]
        cells = [[*(str(it["applicant"][name.split(".")[1]]) for name in columns[:4]), str(it["instalment"])] for it in asked]
        for name, text in (("months.csv", "".join(",".join(row) + "\n" for row in [columns, *cells])), ("months.json", json.dumps(asked))):
            (self.suite.folder / name).write_text(text)
            self.browser.file("beside-file", self.suite.folder / name)
            self.browser.wait(lambda: f"{name}: 500 requests, {len(due)} with another answer" in self.browser.text("beside-said"), f"those of {name}")
        self.browser.drawn()
        # The list stands on one line.
        self.looked_at(asked[int(due[1]) - 1])
        self.browser.tab("try")
        self.browser.file("beside-file", month)
        self.browser.wait(lambda: f"{month.name}: 500 requests" in self.browser.text("beside-said"), "those of the lines")
        self.browser.drawn()
        shown = self.browser.js("return [...document.querySelectorAll('.beside tbody .rule')].map((it) => it.textContent)")
        assert shown == due[:len(shown)] and shown, shown
        self.looked_at(asked[int(due[1]) - 1])
        return f"{len(due)} of 500"

    def looked_at(self, due: dict) -> None:
        """The second request with another answer is looked at: its inputs are those that are due."""
        self.browser.js("document.querySelectorAll('.beside .rule')[1].click()")
        self.browser.wait(lambda: json.loads(self.browser.js("return document.getElementById('json').value")) == due, "its inputs")

    def recorded(self) -> str:
        """A case is found by its id in a file of the journal, with what came then."""
        folder = self.suite.folder / "journal"
        service = self.suite.service("recording", HERE / "examples" / "parcel.json", "--journal", str(folder))
        for weight in (1, 5):
            inputs = json.dumps({"weight": weight, "express": False})
            assert service.send("/v1/services/shipping", "POST", inputs, {"X-Request-Id": f"id-{weight}"})[0].status == 200
        path = next(folder.glob("*.jsonl"))
        self.browser.open(service)
        self.browser.tab("cases")
        self.browser.file("record-file", path)
        self.browser.js("document.getElementById('record-id').value = 'id-5'; document.querySelector('#record button').click()")
        self.browser.wait(lambda: "950" in self.browser.text("recorded"), "the case")
        assert "price: rule 3" in self.browser.text("recorded"), self.browser.text("recorded")
        self.browser.js("document.querySelector('.record button').click()")
        assert self.browser.answer() == 950
        self.browser.wait(lambda: "now: the same." in self.browser.text("recorded"), "that it is the same now")
        return ""

    def language(self) -> str:
        """The page has the language that the file says it is in."""
        path = self.suite.folder / "german.dmn"
        path.write_text((HERE / "examples" / "dmn" / "kita-beitrag.dmn").read_text().replace(":definitions ", ':definitions xml:lang="de" ', 1))
        assert 'xml:lang="de"' in path.read_text()
        self.browser.open(self.suite.service("german", path))
        assert self.browser.js("return document.documentElement.lang") == "de"
        return ""

    def printed(self) -> str:
        """Print gives the case on a page."""
        self.browser.resize(1280, 800)
        self.loan()
        made = self.browser.driver.execute_cdp_cmd("Page.printToPDF", {"paperWidth": 8.27, "paperHeight": 11.69})
        pages = base64.b64decode(made["data"]).count(b"/Type /Page\n") or base64.b64decode(made["data"]).count(b"/Type /Page ")
        self.browser.driver.execute_cdp_cmd("Emulation.setEmulatedMedia", {"media": "print"})
        try:
            parts = ["fields", "result", "way", "title", "search", "tabs", "open", "map", "decide"]
            seen = self.browser.js("return arguments[0].filter((id) => document.getElementById(id).checkVisibility())", parts)
        finally:
            self.browser.driver.execute_cdp_cmd("Emulation.setEmulatedMedia", {"media": ""})
        assert seen == ["fields", "result", "way", "title"], seen
        assert pages == 1, pages
        return ""


NUMBERS = {"inputs": ["a"], "decisions": [{"name": "d", "needs": ["a"], "expr": "a + 1"}],
           "services": [{"name": "s", "outputs": ["d"], "encapsulated": [], "inputDecisions": [], "inputData": ["a"]}]}

# What of the head, the rules' numbers and the outputs is not in view in its frame.
STAYING = """const frame = document.querySelector(".table .scroll");
const box = frame.getBoundingClientRect();
const inside = (it) => { const own = it.getBoundingClientRect(); return own.left >= box.left - 1 && own.right <= box.right + 1; };
const out = [];
for (const it of frame.querySelectorAll("thead th")) if (Math.abs(it.getBoundingClientRect().top - box.top) > 2) out.push("head " + it.textContent);
const isSeen = (own) => own.bottom > box.top + 60 && own.top < box.bottom;
const rows = [...frame.querySelectorAll("tr")].filter((row) => isSeen(row.getBoundingClientRect()));
if (rows.length < 4) out.push(rows.length + " rows");
for (const row of rows) {
  if (!row.firstElementChild.matches(".space") && !inside(row.firstElementChild)) out.push("rule " + row.textContent.slice(0, 20));
  for (const it of row.querySelectorAll("[data-stay]")) if (!inside(it)) out.push("output " + it.textContent);
}
return out.slice(0, 5);"""

# Words between blanks and underscores that are not on one line, in labels, heads of tables and headings.
BROKEN = """const cut = [];
for (const of of document.querySelectorAll("#fields label, legend, .rules th, #decisions h3, .value-table th, .rules code")) {
  if (!of.checkVisibility()) continue;
  const walker = document.createTreeWalker(of, NodeFilter.SHOW_TEXT);
  while (walker.nextNode()) {
    const it = walker.currentNode;
    for (const {0: word, index} of it.data.matchAll(/[^\\s_]+/g)) {
      const range = document.createRange();
      range.setStart(it, index);
      range.setEnd(it, index + word.length);
      const tops = new Set([...range.getClientRects()].map((box) => Math.round(box.top)));
      if (tops.size > 1) cut.push(word);
    }
  }
}
return cut.slice(0, 5);"""

# Elements whose letters or spaces are of another size.
SCALE = """const odd = [];
for (const it of document.body.querySelectorAll("*:not(svg, svg *, option, wbr, br, [type=file], [type=radio], [type=checkbox])")) {
  if (!it.checkVisibility()) continue;
  const style = getComputedStyle(it);
  const name = it.localName + "." + it.className + "#" + it.id;
  if (![12, 14, 16, 20].includes(parseFloat(style.fontSize))) odd.push([name, "font-size", style.fontSize]);
  for (const side of ["Top", "Right", "Bottom", "Left"]) {
    for (const kind of ["margin", "padding"]) {
      const size = style[kind + side];
      if (!it.matches(".unseen, .skip") && size.endsWith("px") && parseFloat(size) % 8 !== 0) odd.push([name, kind + side, size]);
    }
  }
  for (const kind of ["rowGap", "columnGap"]) {
    if (style[kind].endsWith("px") && parseFloat(style[kind]) % 8 !== 0) odd.push([name, kind, style[kind]]);
  }
}
return odd;"""


def run(suite) -> None:
    analysts = Analysts(suite)
    suite.row("12 columns by 300 rules", analysts.wide)
    suite.row("values as they are drawn", analysts.values, "status of 422")
    suite.row("one scale of letters and spaces", analysts.scale)
    suite.row("characters that turn or hide text", analysts.signs)
    suite.row("a wrong input gets the focus", analysts.wrong, "status of 422")
    suite.row("cases in a file", analysts.kept)
    suite.row("a month under two models", analysts.beside)
    suite.row("a case found by its id", analysts.recorded)
    suite.row("the language of the file", analysts.language)
    suite.row("print", analysts.printed)
