"""The page as a workbench: panes, search, map, tabs, Back, wide tables, values, and a model that is put meanwhile."""

from __future__ import annotations

import datetime
import json
import random
import urllib.parse
from pathlib import Path

from . import rows

HERE = Path(__file__).resolve().parent.parent.parent
LOAN = HERE / "examples" / "loan.json"
CASE = {"applicant": {"defaults": 0, "age": 22, "income": 2000, "expenses": 900}, "instalment": 100}
COLUMNS = ["applicant_annual_income", "employment_status", "years_at_the_current_address", "existing_customer", "number_of_dependants",
           "region", "product", "loan_to_value_in_percent", "months_since_the_last_default", "channel", "currency", "score"]


def changed() -> dict:
    """The loan with another limit of age."""
    model = json.loads(LOAN.read_text())
    model["decisions"][0]["expr"]["table"]["rules"][2]["when"][1] = "< 21"
    return model


def large(count: int = 1000) -> dict:
    """So many decisions, each of which needs one or two before it."""
    pick = random.Random(86)
    inputs = [f"applicant_annual_income_{number}" for number in range(12)]
    decisions = []
    for number in range(count):
        near = {f"part_of_the_score_{pick.randrange(max(0, number - 60), number)}" for _ in range(2)} if number > 30 else ()
        needs = sorted(near) or [pick.choice(inputs)]
        made = [{"when": [f"< {limit * 10}"] + ["-"] * (len(needs) - 1), "then": [str(limit)]} for limit in range(1, 6)]
        table = {"hit": "F", "inputs": needs, "outputs": [{"name": "points", "default": "0"}], "rules": made}
        expr = {"table": table} if number % 3 == 0 else f"if {needs[0]} > 1000 then {number} else {needs[0]} + 1"
        decisions.append({"name": f"part_of_the_score_{number}", "needs": needs, "expr": expr})
    names = [it["name"] for it in decisions]
    return {"inputs": inputs, "decisions": decisions, "services": [
        {"name": "score", "outputs": names[-1:], "encapsulated": names[:-1], "inputDecisions": [], "inputData": inputs}]}


def wide(count: int = 300) -> dict:
    """A table of 12 columns, of which rule 121 hits for `WIDE`."""
    pick = random.Random(12)
    made = [{"when": [f"[{number * 1000}..{number * 1000 + 999}]", '"EMPLOYED", "SELF-EMPLOYED"', pick.choice(["-", ">= 2"]), "-", "-",
                      pick.choice(['"NORTH"', "-"]), "-", "<= 80", "-", "-", '"EUR"', ">= 600"],
             "then": [pick.choice(['"ACCEPT"', '"REFER TO THE CREDIT OFFICER"']), str(number % 17)]} for number in range(count)]
    return rows.service_of(COLUMNS, {"hit": "F", "inputs": COLUMNS, "outputs": [{"name": "outcome_of_it"}, {"name": "rate"}], "rules": made})


WIDE = dict(zip(COLUMNS, (120500, "EMPLOYED", 3, True, 0, "NORTH", "LOAN", 70, 30, "ONLINE", "EUR", 650)))


class Bench:
    def __init__(self, suite) -> None:
        self.suite, self.browser = suite, suite.browser

    def loan(self) -> None:
        self.browser.open(self.suite.service("dmn/loan.dmn"), rows.DECLINED, rows.SERVICE)
        self.browser.answer()

    def open(self) -> str:
        """The decision that is open, without its value."""
        return self.browser.js("return document.querySelector('article:not([hidden]) h3')?.textContent.split(' = ')[0].trim()")

    def field(self, name: str) -> str:
        return f"[...document.querySelectorAll('#fields label')].find((it) => it.textContent === '{name}')?.control"

    def places(self) -> str:
        """At 1,280 by 800 the loan needs no scrolling, and panes keep their places."""
        self.browser.resize(1280, 800)
        self.loan()
        for of, count in (("#fields label", 8), ("#decide", 1), ("#result tr", 2), ("#way li", 6), ("#graph svg", 1), (".node", 8),
                          ("article:not([hidden]) .rules tr", 4), ("#badge", 1), ("#search", 1)):
            found = self.browser.js(INSIDE, of)
            assert len(found) == count and all(it[0] for it in found), f"{of}: {found}"
        high = self.browser.js("return [document.scrollingElement.scrollHeight, document.scrollingElement.scrollWidth]")
        assert high[0] <= 800 and high[1] <= 1280, high
        way = self.browser.js("return [...document.querySelectorAll('#way li > button')].map((it) => it.textContent)")
        assert way[0] == "Application risk score" and way[-1] == "Strategy", way
        boxes = lambda: self.browser.js("""return ["case", "open", "map"].map((id) => {
            const {x, y, width, height} = document.getElementById(id).getBoundingClientRect(); return [x, y, width, height]; })""")
        before = boxes()
        self.browser.pick_all()
        assert boxes() == before, (before, boxes())
        return ""

    def head(self) -> str:
        """The header has the name, the version and the time of the release, and how much the check found, also while it is under way."""
        service = self.suite.service("released", rows.warned())
        put = service.send("/v1/model?name=prices&version=7", "PUT", json.dumps(rows.warned()))
        assert put[0].status == 200, put[1]
        about = json.loads(service.get("/v1/model")[1])
        since = datetime.datetime.fromisoformat(about["since"].replace("Z", "+00:00")[:19] + "+00:00").astimezone()
        held = self.browser.driver.execute_cdp_cmd("Page.addScriptToEvaluateOnNewDocument", {"source": HELD})
        try:
            self.browser.open(service, {"a": 5})
            self.browser.answer()
        finally:
            self.browser.driver.execute_cdp_cmd("Page.removeScriptToEvaluateOnNewDocument", held)
        assert self.browser.text("title") == "prices"
        said = self.browser.text("model")
        assert "version 7" in said and f"in force since {since.day} {since:%b %Y, %H:%M}" in said, (said, about)
        count = self.browser.js("return document.querySelectorAll('#checks li').length")
        assert count > 0 and self.browser.text("badge") == f"Checks {count}, under way", self.browser.text("badge")
        self.browser.js("document.getElementById('badge').click()")
        assert "under way" in self.browser.text("tables") and self.shown() == ["checks-pane", "open", "map"], self.shown()
        self.browser.js("window.held.forEach((go) => go())")
        self.browser.wait(lambda: "under way" not in self.browser.text("badge"), "the end of the check")
        count = self.browser.js("return document.querySelectorAll('#checks li, #tables li.finding').length")
        assert self.browser.text("badge") == f"Checks {count} to look at", self.browser.text("badge")
        self.browser.open(self.suite.service("dmn/approval.dmn"))
        self.browser.comes(lambda: self.browser.text("badge"), "Checks nothing found", "that nothing was found")
        return ""

    def shown(self) -> list[str]:
        """The panes that are shown."""
        return self.browser.js("return [...document.querySelectorAll('.pane')].filter((it) => it.checkVisibility()).map((it) => it.id)")

    def missed(self) -> str:
        """In the table that is open, what decided is lit and the first test that each other rule missed is marked, with nothing clicked."""
        self.loan()
        lit = self.browser.lit()["Strategy"]
        assert lit == {"hits": [1], "decided": [1]}, lit
        missed = self.browser.js("""return [...document.querySelectorAll("article:not([hidden]) td.missed")].map((it) =>
            [it.closest("tr").querySelector("[data-at]").dataset.at, it.textContent])""")
        assert missed == [["1", '"ELIGIBLE" is not met'], ["2", '"ELIGIBLE" is not met']], missed
        return ""

    def tabs(self) -> str:
        """Below 1,100 pixels one pane is shown at a time; each keeps what it holds, and arrows go from tab to tab."""
        from selenium.webdriver.common.keys import Keys
        for width in (390, 1099):
            self.browser.resize(width, 844)
            self.loan()
            self.browser.js("document.getElementById('keep').click()")
            self.browser.drop("loan.dmn", rows.LOAN.read_text())
            self.browser.wait(lambda: "It is the model in force" in self.browser.text("changed"), "the model that is tried")
            self.browser.js("document.querySelector('input[value=inForce]').click()")
            self.browser.tab("case")
            self.browser.drop("some.jsonl", rows.lines(rows.applicants(20)))
            self.browser.wait(lambda: "20 requests" in self.browser.text("counted"), "the counts")
            for tab, pane in (("case", "case"), ("open", "open"), ("map", "map"), ("cases", "cases"), ("try", "try"), ("checks", "checks-pane"),
                              ("count", "count")):
                self.browser.tab(tab)
                assert self.shown() == [pane], (width, tab, self.shown())
                assert self.browser.js(INSIDE, "#tabs [aria-selected=true]")[0][0], f"the tab {tab} is not in view at {width} pixels"
            assert "20 requests" in self.browser.text("counted")
            assert "1 case, each with its due answer" in self.browser.text("kept") and "It is the model in force" in self.browser.text("changed")
            self.browser.js("document.getElementById('tab-count').focus()")
            self.browser.keys(Keys.ARROW_RIGHT)
            assert self.shown() == ["try"], self.shown()
        self.browser.resize(1100, 844)
        assert self.shown() == ["try", "open", "map"], self.shown()
        self.browser.tab("case")
        assert self.browser.answer() == {"Bureau call type": "FULL", "Strategy": "DECLINE"}
        return ""

    def search(self) -> str:
        """Over 1,000 decisions: names, inputs and texts are found as one types, by keys."""
        from selenium.webdriver.common.keys import Keys
        self.browser.resize(1280, 800)
        self.browser.open(self.suite.service("large", large()), {name: 5 for name in large(0)["inputs"]})
        self.browser.answer()
        found = lambda: self.browser.js("return [...document.querySelectorAll('#hits [role=option]')].map((it) => it.textContent)")
        self.browser.keys("/")
        self.browser.keys("score_777")
        assert found()[0] == "decision part_of_the_score_777", found()
        self.browser.keys(Keys.ENTER)
        assert self.open() == "part_of_the_score_777", self.open()
        self.browser.keys("/")
        self.browser.keys("income_7")
        assert found()[0] == "input applicant_annual_income_7", found()
        self.browser.keys(Keys.ENTER)
        assert self.browser.js("return document.activeElement.labels[0].textContent") == "applicant_annual_income_7"
        self.browser.js("const it = document.getElementById('search'); it.focus(); it.select()")
        self.browser.keys("> 1000 then 901")
        assert found() and found()[0].startswith("text if") and "part_of_the_score_901" in found()[0], found()
        self.browser.keys(Keys.ESCAPE)
        took = self.browser.js("""const input = document.getElementById("search");
            const start = performance.now();
            for (const text of ["p", "pa", "par", "part", "part_"]) { input.value = text; input.dispatchEvent(new Event("input")); }
            return (performance.now() - start) / 5""")
        made = self.browser.js("return document.querySelectorAll('table.rules').length")
        assert made < 10, made
        return f"{took:.0f} ms a key"

    def map(self) -> str:
        """The map is whole at first, of 8 and of 1,012 nodes; it is zoomed, and nodes have values."""
        for service, count in ((self.suite.service("large", large()), 1012), (self.suite.service("dmn/loan.dmn"), 8)):
            self.browser.resize(1280, 800)
            inputs = {name: 5 for name in large(0)["inputs"]} if count > 8 else rows.DECLINED
            self.browser.open(service, inputs, "" if count > 8 else rows.SERVICE)
            self.browser.answer()
            inside = self.browser.js("""const frame = document.querySelector("#graph svg").getBoundingClientRect();
                return [...document.querySelectorAll(".node rect")].map((it) => it.getBoundingClientRect()).filter((it) =>
                    it.left >= frame.left - 1 && it.right <= frame.right + 1 && it.top >= frame.top - 1 && it.bottom <= frame.bottom + 1).length""")
            assert inside == count, f"{inside} of {count} nodes are in view"
            values = self.browser.js("return [...document.querySelectorAll('.node .worth')].filter((it) => it.textContent).length")
            due = self.evaluated(service, inputs, "score" if count > 8 else rows.SERVICE)
            assert values == due > 7, f"{values} nodes have a value, and {due} is due"
            stops = self.browser.js("return document.querySelectorAll('.node[tabindex=\"0\"]').length")
            assert stops == 1, stops
        width = lambda: self.browser.js("return document.querySelector('#graph svg').viewBox.baseVal.width")
        whole = width()
        self.browser.js("document.querySelector('#zoom button').click()")
        assert width() < whole, (width(), whole)
        self.browser.js("document.querySelectorAll('#zoom button')[2].click()")
        assert width() == whole, (width(), whole)
        self.browser.js("document.querySelector('.node.current').focus()")
        from selenium.webdriver.common.keys import Keys
        self.browser.keys(Keys.ARROW_DOWN, Keys.ENTER)
        assert self.open() == "Eligibility", self.open()
        return ""

    def evaluated(self, service, inputs: dict, name: str) -> int:
        """How many inputs and decisions have a value: of these, those that the service needed."""
        told = json.loads(service.send(f"/v1/explain/{urllib.parse.quote(name)}", "POST", json.dumps(inputs))[1])
        model = json.loads(service.get("/v1/model?whole=true")[1])["model"]
        return len(told["decisions"]) + len(model["inputs"])

    def back(self) -> str:
        """Back goes to the decision, the case and the tab before."""
        # A tab of its own: from a history that is full Chromium drops steps that no person made.
        driver = self.browser.driver
        before = driver.current_window_handle
        driver.switch_to.new_window("tab")
        self.browser.resize(1280, 800)
        try:
            return self.back_by_steps()
        finally:
            driver.close()
            driver.switch_to.window(before)

    def back_by_steps(self) -> str:
        self.loan()
        self.browser.pick("Eligibility")
        self.browser.js(f"const it = {self.field('Age')}; it.value = '40'; it.dispatchEvent(new Event('change', {{bubbles: true}}));")
        self.browser.wait(lambda: "40" in self.browser.js("return location.hash"), "the address")
        self.browser.tab("count")
        self.browser.driver.back()
        self.browser.comes(lambda: self.browser.js("return document.body.dataset.work"), "case", "the tab before")
        self.browser.driver.back()
        self.browser.comes(lambda: self.browser.js(f"return {self.field('Age')}?.value"), "20", "the case before")
        assert self.open() == "Eligibility", self.open()
        self.browser.driver.back()
        self.browser.comes(self.open, "Strategy", "the decision before")
        return ""

    def tab_to(self, due: str, most: int = 80) -> None:
        """Presses Tab until what has the focus is found by a selector."""
        from selenium.webdriver.common.keys import Keys
        for _ in range(most):
            if self.browser.js("return document.activeElement.matches(arguments[0])", due):
                return
            self.browser.keys(Keys.TAB)
        raise AssertionError(f"Tab does not come to {due}")

    def keys(self) -> str:
        """By keys, at both widths, in the light and in the dark: one of 1,000 decisions, its node, and a rule of 300; texts stand out."""
        least = {}
        for width, height in ((1280, 800), (390, 844)):
            for is_dark in (False, True):
                self.browser.resize(width, height)
                self.browser.dark(is_dark)
                self.decision_by_keys(width)
                self.rule_by_keys(width)
                worst = min(self.browser.js(rows.CONTRAST), key=lambda it: it[0])
                assert worst[0] >= 4.5, (width, is_dark, worst)
                least[f"{width} {'dark' if is_dark else 'light'}"] = worst[0]
        self.browser.dark(False)
        return "the least contrast is " + ", ".join(f"{value:.1f} at {name}" for name, value in least.items())

    def decision_by_keys(self, width: int) -> None:
        """A decision is searched for, and its neighbour gone to in the graph."""
        from selenium.webdriver.common.action_chains import ActionChains
        from selenium.webdriver.common.keys import Keys
        self.browser.open(self.suite.service("large", large()), {name: 5 for name in large(0)["inputs"]})
        self.browser.answer()
        self.browser.keys("/")
        self.browser.keys("score_640", Keys.ENTER)
        assert self.browser.js("return document.activeElement.matches('article:not([hidden]) h3')") and self.open() == "part_of_the_score_640"
        if width < 1100:
            ActionChains(self.browser.driver).key_down(Keys.SHIFT).send_keys(Keys.TAB).key_up(Keys.SHIFT).perform()
            self.browser.keys(Keys.ARROW_RIGHT)
            assert self.shown() == ["map"], self.shown()
        self.tab_to(".node")
        self.browser.keys(Keys.ARROW_DOWN, Keys.ENTER)
        assert self.open() != "part_of_the_score_640" and "open" in self.shown(), (self.open(), self.shown())

    def rule_by_keys(self, width: int) -> None:
        """The last rule is gone to, and says why it missed."""
        from selenium.webdriver.common.keys import Keys
        self.browser.open(self.suite.service("wide", wide()), WIDE)
        self.browser.answer()
        if width < 1100:
            self.tab_to("[role=tab]")
            self.browser.keys(Keys.ARROW_RIGHT)
            assert self.shown() == ["open"], self.shown()
        self.browser.drawn()
        self.tab_to(".rule")
        assert self.browser.js("return document.activeElement.dataset.at") == "120"
        self.browser.keys(Keys.END)
        assert self.browser.js("return document.activeElement.dataset.at") == "299"
        self.browser.keys(Keys.ENTER)
        why = lambda: self.browser.js("return document.querySelector('.why').textContent")
        self.browser.wait(lambda: why().startswith("Rule 300 missed: its test [299000..299999] on applicant_annual_income (column 1)"), "why")

    def put(self) -> str:
        """A model that is put while the page is open is said, and is no dead end."""
        service = self.suite.service("put", LOAN)
        self.browser.open(service, CASE, "loan")
        old = self.browser.answer()
        put = service.send("/v1/model?name=loan&version=2", "PUT", json.dumps(changed()))
        assert put[0].status == 200, put[1]
        self.browser.js("document.getElementById('decide').click()")
        self.browser.wait(lambda: self.browser.js("return !document.getElementById('banner').hidden"), "the banner")
        said = self.browser.text("banner")
        assert "loan 2" in said and "risk: changed, rule 3" in said, said
        self.browser.js("document.getElementById('decide').click()")
        self.browser.drawn()
        assert self.browser.answer() == old and self.browser.text("alert") == ""
        self.browser.js("document.querySelector('#banner button').click()")
        self.browser.wait(lambda: self.browser.answer() != old, "the answer of the new one")
        assert self.browser.text("title") == "loan" and "version 2" in self.browser.text("model"), self.browser.text("model")
        assert self.browser.js("return document.getElementById('banner').hidden")
        return ""


# Tables are checked once `held` is called.
HELD = """const own = window.fetch;
window.held = [];
window.fetch = (path, ...more) => String(path).includes("v1/tables") ?
  new Promise((go) => window.held.push(go)).then(() => own(path, ...more)) : own(path, ...more);"""

# Of each element whether it is wholly in view, within its pane too.
INSIDE = """return [...document.querySelectorAll(arguments[0])].map((it) => {
  const box = it.getBoundingClientRect();
  const pane = (it.closest(".ask, .told") ?? it.closest(".pane") ?? document.body).getBoundingClientRect();
  return [box.width > 0 && box.top >= pane.top - 1 && box.bottom <= Math.min(pane.bottom, innerHeight) + 1 && box.left >= pane.left - 1 &&
    box.right <= Math.min(pane.right, innerWidth) + 1, it.textContent.slice(0, 40)];
});"""


def run(suite) -> None:
    bench = Bench(suite)
    suite.row("panes that keep their places", bench.places)
    suite.row("the header", bench.head)
    suite.row("missed tests in the open table", bench.missed)
    suite.row("one pane at a time, by tabs", bench.tabs)
    suite.row("the search over 1,000 decisions", bench.search)
    suite.row("the graph as a map", bench.map)
    suite.row("Back", bench.back)
    suite.row("large models by keys, at both widths, light and dark", bench.keys)
    suite.row("another release in force", bench.put, "status of 404")
