"""What the page shows, row by row. Selenium is imported where it is used, once it is installed."""

from __future__ import annotations

import collections
import copy
import json
import random
import re
from hashlib import sha256
from pathlib import Path

HERE = Path(__file__).resolve().parent.parent.parent
DMN = HERE / "examples" / "dmn"
LOAN = DMN / "loan.dmn"
SERVICE = "Bureau Strategy Decision Service"
# How many rows of a long table are made at once at most.
MOST_ROWS = 120
# The page reads a file of requests in pieces of so many bytes.
PIECE = 512 * 1024
# How much memory the gateway may take for them, in bytes.
MOST_MEMORY = 400_000_000
# The second applicant of examples/dmn/README.md, who is declined.
DECLINED = {"Applicant data": {"Age": 20, "Marital Status": "S", "Employment Status": "STUDENT", "Existing Customer": False,
                               "Monthly": {"Income": 1000, "Repayments": 0, "Expenses": 700}},
            "Required monthly installment": 200}


def applicants(count: int) -> list[dict]:
    """Requests to the loan, the same in each run."""
    pick = random.Random(61)
    return [{"client": f"c{number % 7}", "service": "Bureau_Strategy_Decision_Service", "inputs": {
        "Applicant_data": {"Age": pick.randrange(16, 70), "Marital_Status": pick.choice("SM"),
                           "Employment_Status": pick.choice(["EMPLOYED", "STUDENT", "UNEMPLOYED"]),
                           "Existing_Customer": pick.random() < 0.3,
                           "Monthly": {"Income": pick.randrange(0, 9000), "Repayments": pick.randrange(0, 900),
                                       "Expenses": pick.randrange(0, 4000)}},
        "Required_monthly_installment": pick.randrange(0, 900)}} for number in range(count)]


def lines(requests: list[dict]) -> str:
    return "".join(json.dumps(request, separators=(",", ":")) + "\n" for request in requests)


def tables(part: dict, name: str):
    """Each table of a part of an explanation, with a name for its place."""
    if "table" in part:
        yield name, part["table"]
    for kind in ("entries", "members"):
        for at, inner in enumerate(part.get(kind, [])):
            yield from tables(inner, f"{name}/{kind}/{at}")
    if isinstance(part.get("result"), dict):
        yield from tables(part["result"], f"{name}/result")


def counted(answers: list[dict]) -> tuple[collections.Counter, collections.Counter]:
    """How often each rule hit and decided: by the decision and the rule, summed up over its tables."""
    hit, decided = collections.Counter(), collections.Counter()
    for answer in answers:
        for decision in answer.get("decisions", []):
            for place, table in tables(decision, decision["name"]):
                hit.update((place, it["rule"]) for it in table.get("hits", []))
                decided.update((place, rule) for rule in table.get("decided", []))
    return hit, decided


def by_pointer(model: dict, counts: collections.Counter) -> collections.Counter:
    """The same by the JSON Pointer of the table."""
    numbers = {decision["name"]: at for at, decision in enumerate(model["decisions"])}
    moved = collections.Counter()
    for (place, rule), count in counts.items():
        name, *rest = place.split("/")
        path = "/".join(rest).replace("entries", "context").replace("members", "list")
        path = re.sub(r"(context/\d+)", r"\1/expr", path)
        moved[(f"/decisions/{numbers[name]}/expr{'/' + path if path else ''}/table", str(rule))] = count
    return moved


def due_of_answers(answers: list[dict]) -> list[dict]:
    return [{key: value for key, value in answer.items() if key in ("result", "fault")} for answer in answers]


class Rows:
    def __init__(self, suite) -> None:
        self.suite, self.browser = suite, suite.browser
        told = suite.explained(LOAN, applicants(1))[0]
        self.tells_decided = "decided" in next(table for decision in told["decisions"] for _, table in tables(decision, ""))

    def loan(self, inputs: object = None):
        service = self.suite.service("dmn/loan.dmn")
        self.browser.open(service, inputs, SERVICE if inputs else "")
        return service

    def drawn(self) -> str:
        """The graph as the file draws it, and each decision."""
        self.loan()
        js = self.browser.js
        boxes = js("""return Object.fromEntries([...document.querySelectorAll(".node")].map((it) => [it.querySelector("title").textContent,
            ["x", "y", "width", "height"].map((name) => Number(it.querySelector("rect").getAttribute(name)))]))""")
        text = LOAN.read_text()
        ids = dict(re.findall(r'<(?:\w+:)?(?:decision|inputData) id="([^"]+)" name="([^"]+)"', text))
        due = {}
        for of, bounds in re.findall(r'<dmndi:DMNShape [^>]*dmnElementRef="([^"]+)"[^>]*>\s*<dc:Bounds ([^>]*)/>', text):
            if of in ids and ids[of] in boxes:
                due[ids[of]] = [float(dict(re.findall(r'(\w+)="([^"]*)"', bounds))[key]) for key in ("x", "y", "width", "height")]
        left, top = min(box[0] for box in due.values()) - 10, min(box[1] for box in due.values()) - 10
        moved = {name: [box[0] - left, box[1] - top, box[2], box[3]] for name, box in due.items()}
        assert moved == boxes and len(boxes) == 8, f"{boxes}, and {moved} is due"
        self.browser.pick_all()
        headings = js("return [...document.querySelectorAll('#decisions h3')].map((it) => it.textContent.trim())")
        assert headings == ["Application risk score", "Pre-bureau risk category", "Bureau call type", "Pre-bureau affordability",
                            "Eligibility", "Strategy"], headings
        rules = js("return [...document.querySelectorAll('table.rules')].map((it) => it.querySelectorAll('tbody tr').length)")
        assert rules == [11, 8, 3, 3, 4, 3], rules
        # The word of the age is another one than in the table of the score: each is a parameter of its own.
        entries = js("return [...document.querySelectorAll('#decisions article')[4].querySelectorAll('dt')].map((it) => it.textContent)")
        assert entries == ["Eligibility rules", "Pre-bureau Risk Category", "Pre-bureau Affordability", "Age", "result", "result"], entries
        first = js("return [...document.querySelectorAll('table.rules')[0].querySelectorAll('tbody tr')[5].children].map((it) => it.textContent)")
        assert first == ["6", "-", '"S"', "-", "25"], first
        return ""

    def typed(self) -> str:
        """An applicant is typed in, and each table has the rules lit that `desk explain` tells."""
        self.loan()
        from selenium.webdriver.common.by import By
        from selenium.webdriver.support.ui import Select
        fields = {it.text: it.get_attribute("for") for it in self.browser.driver.find_elements(By.CSS_SELECTOR, "#fields label")}
        assert list(fields) == ["Age", "Employment Status", "Existing Customer", "Marital Status", "Expenses", "Income", "Repayments",
                                "Required monthly installment"], fields
        for name, value in {"Age": "20", "Expenses": "700", "Income": "1000", "Repayments": "0", "Required monthly installment": "200",
                            "Marital Status": "S", "Employment Status": "STUDENT", "Existing Customer": "false"}.items():
            field = self.browser.driver.find_element(By.ID, fields[name])
            Select(field).select_by_visible_text(value) if field.tag_name == "select" else field.send_keys(value)
        self.browser.driver.find_element(By.ID, "decide").click()
        due = {"Bureau call type": "FULL", "Strategy": "DECLINE"}
        self.browser.wait(lambda: self.browser.answer() == due, f"the result {due}")
        told = self.suite.explained(LOAN, [{"client": "c", "service": "Bureau_Strategy_Decision_Service",
                                            "inputs": worded(DECLINED)}])[0]
        wanted = {}
        for decision in told["decisions"]:
            for _, table in tables(decision, ""):
                wanted.setdefault(decision["name"].replace("_", " "), []).append(table)
        self.browser.pick_all()
        lit = {name.split(" of ")[-1].replace("-", " ").replace("_", " "): it for name, it in self.browser.lit().items()}
        for name, found in wanted.items():
            hits = [hit["rule"] for hit in found[-1]["hits"]]
            assert lit[name]["hits"] == hits, f"{name}: {lit[name]}, and {hits} is due"
            if self.tells_decided:
                assert lit[name]["decided"] == found[-1]["decided"], f"{name}: {lit[name]}, and {found[-1]['decided']} is due"
        # Worked out by hand in examples/dmn/README.md: not affordable, so rule 2 of the eligibility, and rule 1 of the strategy.
        assert lit["Eligibility"]["hits"] == [2, 4] and lit["Strategy"]["hits"] == [1], lit
        if not self.tells_decided:
            return "which rules decided: skipped, the engine does not tell it"
        assert lit["Eligibility"]["decided"] == [2] and lit["Strategy"]["decided"] == [1], lit
        way = self.browser.text("way")
        assert "rule 1 decided" in way, way
        return ""

    def missed(self) -> str:
        if not self.tells_decided:
            return "skipped, the engine does not tell misses"
        self.loan(DECLINED)
        self.browser.answer()
        self.browser.pick_all()
        self.browser.js("""[...document.querySelectorAll("table.rules")].at(-2).querySelector("[data-at='2']").click()""")
        said = lambda: self.browser.js("return [...document.querySelectorAll('.why')].at(-2).textContent")
        self.browser.wait(lambda: "missed" in said(), "why the rule missed")
        assert said() == "Rule 3 missed: its test < 18 on Age (column 3) is not met by 20.", said()
        cells = self.browser.js("return document.querySelectorAll('td.missed').length")
        # Of 11 + 8 + 3 + 3 + 4 + 3 rules, 3 + 1 + 1 + 1 + 2 + 1 hit.
        assert cells == 32 - 9, cells
        self.browser.js("""[...document.querySelectorAll("table.rules")].at(-2).querySelector("[data-at='3']").click()""")
        self.browser.wait(lambda: said().startswith('Rule 4 hit and gives "ELIGIBLE". It did not decide'), "why rule 4 did not decide")
        return ""

    def address(self) -> str:
        """The address that the page makes brings the case back."""
        self.loan(DECLINED)
        self.browser.answer()
        address = self.browser.js("return location.href")
        self.browser.driver.get("about:blank")
        self.browser.driver.get(address)
        assert self.browser.answer() == {"Bureau call type": "FULL", "Strategy": "DECLINE"}
        # The address has the model's words as the form sends them, and no part of it is sent to the service.
        assert "#" in address and "?" not in address, address
        return ""

    def requests(self) -> str:
        """A file is dropped: the counts are those of `desk explain` and this script, and so are the answers."""
        service = self.loan()
        requests = applicants(2000)
        requests[7] = {"client": "c", "service": "nothing", "inputs": {}}
        requests[8]["inputs"]["Applicant_data"]["Age"] = "x"
        text = '{"client":"mark","close":true}\n\n' + lines(requests)
        self.browser.drop("month.jsonl", text)
        self.browser.wait(lambda: "2,000 requests, 1,998 with a result, 2 without" in self.browser.text("counted"), "the counts")
        answers = self.suite.explained(LOAN, [it for at, it in enumerate(requests) if at not in (7, 8)])
        model = json.loads(service.get("/v1/model?whole=true")[1])["model"]
        hit, decided = (by_pointer(model, counts) for counts in counted(answers))
        rows = self.browser.saved("Rules as CSV")
        assert len(rows) == 32, len(rows)
        for row in rows:
            place = (row["table"], row["rule"])
            assert int(row["hit"]) == hit[place], f"{row}, and {hit[place]} is due"
            if self.tells_decided:
                assert int(row["decided"]) == decided[place], f"{row}, and {decided[place]} is due"
        self.browser.pick("Strategy")
        shown = self.browser.js("""return [...document.querySelectorAll("table.rules")].at(-1).querySelectorAll("tbody .count")""")
        shown = [it.text for it in shown][::2]
        assert shown == [row["hit"] for row in rows[-3:]], shown
        never = [row for row in rows if int(row["decided"] or row["hit"]) == 0]
        assert f"{len(never)} of 32 rules never" in self.browser.text("counted"), self.browser.text("counted")
        got = self.browser.saved("Answers as CSV")
        due = [json.dumps({key.replace("_", " "): value for key, value in it["result"].items()}, separators=(",", ":")) for it in answers]
        due[7:7] = ["", ""]
        assert [row["result"] for row in got] == due and [row["line"] for row in got] == [str(at) for at in range(3, 2003)]
        assert [row["problem"] for row in got[6:10]] == ["", "service", "value", ""], got[6:10]
        return self.look(got, requests)

    def look(self, got: list[dict], requests: list[dict]) -> str:
        """An answer is picked, and its case is in the form."""
        at = next(at for at, row in enumerate(got) if at > 100 and "DECLINE" in row["result"])
        self.browser.js("""const only = document.getElementById("only");
            only.value = arguments[0]; only.dispatchEvent(new Event("change", {bubbles: true}));""", got[at]["result"])
        first = next(row["line"] for row in got if row["result"] == got[at]["result"])
        self.browser.wait(lambda: self.browser.js("return document.querySelector('.answers [data-at=\"0\"]')?.textContent") == first,
                          "the first such answer")
        self.browser.js("document.querySelector('.answers [data-at=\"0\"]').click()")
        inputs = requests[int(first) - 3]["inputs"]
        self.browser.wait(lambda: json.loads(self.browser.text("json") or self.browser.js("return document.getElementById('json').value")
                                             or "null") == inputs, "its inputs")
        assert self.browser.answer() == json.loads(got[at]["result"])
        return ""

    def many(self) -> str:
        """100,000 requests are counted, with progress; and are stopped."""
        service = self.loan()
        some = applicants(1000)
        path = self.suite.folder / "many.jsonl"
        path.write_text(lines(some) * 100)

        said = self.counted_at_once(service, path)
        model = json.loads(self.suite.service("dmn/loan.dmn").get("/v1/model?whole=true")[1])["model"]
        hit = by_pointer(model, counted(self.suite.explained(LOAN, some))[0])
        for row in self.browser.saved("Rules as CSV"):
            assert int(row["hit"]) == 100 * hit[(row["table"], row["rule"])], row
        self.browser.js("window.onprogress = () => document.getElementById('stop').click()")
        self.browser.file("coverage-file", path)
        self.browser.wait(lambda: "Stopped before the end" in self.browser.text("counted"), "that it was stopped")
        return said

    def counted_at_once(self, service, path: Path) -> str:
        """Counts a file in its pieces, each sent once, with progress that only grows, in bounded memory."""
        self.browser.js(PROGRESS)
        self.browser.file("coverage-file", path)
        self.browser.wait(lambda: "100,000 requests, 100,000 with a result" in self.browser.text("counted"), "the counts", 300)
        parts = self.browser.js("return window.parts")
        assert parts and parts == sorted(parts) and 0 < parts[0] and parts[-1] <= 1, parts
        calls = self.browser.js("return performance.getEntriesByType('resource').filter((it) => it.name.includes('/v1/coverage')).length")
        pieces = path.stat().st_size // PIECE
        assert pieces <= calls <= pieces + 2, f"{calls} calls for {pieces} pieces"
        memory = service.most_memory()
        assert memory < MOST_MEMORY, f"the gateway takes {memory:,} bytes"
        took = re.search(r"in ([\d.]+) s", self.browser.text("counted"))[1]
        return f"100,000 in {took} s, {memory / 1e6:.0f} MB"

    def markup(self) -> str:
        """Names and values that are markup are shown as texts, and run nothing."""
        path = self.suite.folder / "markup.dmn"
        path.write_text(MARKUP)
        service = self.suite.service("markup", path)
        for value in ("<svg onload=window.ran=3>", "<img src=x onerror=window.ran=5>"):
            self.browser.open(service, {"a": value})
            answer = self.browser.answer()
            assert answer == ("<iframe srcdoc='<script>parent.ran=4</script>'>" if "svg" in value else value), answer
        self.browser.drop("some.jsonl", lines([{"a": "<img src=x onerror=window.ran=6>"}]))
        self.browser.wait(lambda: "1 request" in self.browser.text("counted"), "the counts")
        self.browser.drawn()
        assert self.browser.js("return window.ran") is None
        names = self.browser.js("return [...document.querySelectorAll('img, iframe, #main script, #main svg svg')].length")
        assert names == 0, names
        heading = self.browser.js("return document.querySelector('#decisions h3').firstChild.textContent")
        assert heading == "<img src=x onerror='window.ran=1'>", heading
        return ""

    def keyboard(self) -> str:
        """By keys alone: the form is filled and sent, a rule is gone to, and it says why it missed."""
        from selenium.webdriver.common.keys import Keys
        service = self.suite.service("loan", HERE / "examples" / "loan.json")
        self.browser.open(service)
        focused = lambda of="": self.browser.js("const it = document.activeElement; return (it.labels?.[0] ?? it).textContent.trim()")
        where = lambda: self.browser.js("return document.activeElement.id || document.activeElement.className")

        def tab_to(is_there) -> None:
            for _ in range(60):
                self.browser.keys(Keys.TAB)
                if is_there():
                    return
            raise AssertionError("the Tab key does not come there")
        tab_to(lambda: where() == "skip")
        for name, value in (("defaults", "0"), ("age", "22"), ("income", "2000"), ("expenses", "900"), ("instalment", "900")):
            tab_to(lambda: focused() == name)
            self.browser.keys(value)
        self.browser.keys(Keys.ENTER)
        # With no defaults and 22 years, rules 3 and 4 hit, and MEDIUM stands first; 200 are left, which is tight: no rule, so the default.
        self.browser.wait(lambda: self.browser.answer() == {"answer": "refer", "rate": None}, "the result")
        # The field that searches is come to by a key, and goes to the decision.
        tab_to(lambda: where() == "decide")
        self.browser.keys("/")
        self.browser.keys("risk", Keys.ENTER)
        assert focused().startswith("risk"), focused()
        tab_to(lambda: where() == "rule")
        at = lambda: self.browser.js("return document.activeElement.getAttribute('aria-label')")
        first = at()
        self.browser.keys(Keys.HOME)
        assert at().startswith("Rule 1"), at()
        self.browser.keys(Keys.END)
        assert at().startswith("Rule 4"), at()
        self.browser.keys(Keys.UP, Keys.UP)
        assert at().startswith("Rule 2, missed"), (first, at())
        if not self.tells_decided:
            return "why it missed: skipped, the engine does not tell it"
        self.browser.keys(Keys.ENTER)
        why = lambda: self.browser.js("return document.querySelector('.why').textContent")
        self.browser.wait(lambda: why() == "Rule 2 missed: its test [1..2] on applicant.defaults (column 1) is not met by 0.", "why")
        self.browser.keys(Keys.DOWN, Keys.ENTER)
        self.browser.wait(lambda: why() == 'Rule 3 hit and gives "MEDIUM". It decided.', "that it decided")
        return ""

    def narrow(self) -> str:
        """At 360 pixels nothing scrolls sideways but what stands in a frame of its own."""
        for name, inputs in (("dmn/loan.dmn", DECLINED), ("dmn/traffic-violation.dmn", {}), ("parcel.json", {"weight": 5}),
                             ("long", {"a": 1500, "b": "k7"})):
            service = self.suite.service(name, long_table() if name == "long" else None)
            self.browser.resize(360, 740)
            self.browser.open(service, inputs)
            self.browser.answer()
            for tab in ("case", "open", "cases", "count", "try", "checks", "map"):
                self.browser.tab(tab)
                wide = self.browser.js("return document.scrollingElement.scrollWidth")
                assert wide <= 360, f"{name} is {wide} wide"
                over = self.browser.js("""return [...document.querySelectorAll("main *")].filter((it) => !it.closest(".scroll, svg") &&
                    it.getBoundingClientRect().right > 361 && !it.closest(".unseen")).map((it) => it.outerHTML.slice(0, 80))""")
                assert not over, (tab, over[:3])
        return ""

    def long(self) -> str:
        """Of a table of 2,000 rules the rows in view are made, and no others; and the rule that decided is in view."""
        self.browser.open(self.suite.service("long", long_table()), {"a": 1500, "b": "k7"})
        self.browser.answer()
        made = self.browser.js("return document.querySelectorAll('.rules tbody tr').length")
        assert made < MOST_ROWS, made
        lit = self.browser.lit()["d"]
        assert lit["hits"] == [1501], lit
        inside = self.browser.js("""const row = document.querySelector(".rules tr.hit, .rules tr.decided").getBoundingClientRect();
            const frame = document.querySelector(".table .scroll").getBoundingClientRect();
            return row.top >= frame.top && row.bottom <= frame.bottom""")
        assert inside, "the rule is not in view"
        self.browser.js("document.querySelector('.table .scroll').scrollTop = 1e9")
        self.browser.wait(lambda: self.browser.js("return !!document.querySelector('[data-at=\"1999\"]')"), "the last rule")
        steps = self.browser.js(SCROLL)
        assert len(steps) == 40 and all(made < MOST_ROWS and is_filled for made, is_filled in steps), steps
        shown = self.browser.js("""return performance.getEntriesByName("shown")[0].startTime""")
        return f"shown after {shown:.0f} ms"

    def contrast(self) -> str:
        """Each text stands out by 4.5 or more, in the light and in the dark."""
        least = []
        for dark in (False, True):
            self.browser.dark(dark)
            service = self.suite.service("warned", warned())
            self.browser.open(service, {"a": 5})
            self.browser.answer()
            self.browser.drop("some.jsonl", lines([{"a": 5}] * 5))
            self.browser.wait(lambda: "5 requests" in self.browser.text("counted"), "the counts")
            faint = self.browser.js(CONTRAST)
            worst = min(faint, key=lambda it: it[0])
            least.append(worst[0])
            assert worst[0] >= 4.5, worst
            assert len(faint) > 60, len(faint)
        self.browser.dark(False)
        return f"the least are {least[0]:.1f} in the light and {least[1]:.1f} in the dark"

    def changed(self) -> str:
        """A changed model is checked and tried beside the one in force, which stays."""
        service = self.suite.service("loan", HERE / "examples" / "loan.json")
        before = service.get("/v1/model")[0].getheader("ETag")
        model = json.loads((HERE / "examples" / "loan.json").read_text())
        model["decisions"][0]["expr"]["table"]["rules"][2]["when"][1] = "< 21"
        case = {"applicant": {"defaults": 0, "age": 22, "income": 2000, "expenses": 900}, "instalment": 100}
        self.browser.open(service, case, "loan")
        old = self.browser.answer()
        self.browser.drop("changed.json", json.dumps(model))
        self.browser.wait(lambda: "risk: changed, rule 3" in self.browser.text("differences"), "what differs")
        rows = self.browser.wait(lambda: self.browser.js("""return [...document.querySelectorAll("#differences tr.differs")].map((row) =>
            [...row.children].map((it) => it.firstChild.textContent))"""), "the values that differ")
        # With 22 years, rule 3 hit before; it doesn't now, so rule 4 decides: LOW. 1000 are left, so the offer is another.
        assert rows[0] == ["risk", '"MEDIUM"', '"LOW"'], rows
        new = self.browser.answer()
        assert new != old and rows[-1] == ["Result", json.dumps(old, separators=(",", ":")), json.dumps(new, separators=(",", ":"))], rows
        self.browser.pick("risk")
        marked = self.browser.js("return [...document.querySelectorAll('tbody tr.differs .rule')].map((it) => it.dataset.at)")
        assert marked == ["2"], marked
        self.browser.js("document.querySelector('input[value=inForce]').click()")
        assert self.browser.answer() == old
        assert service.get("/v1/model")[0].getheader("ETag") == before, "another model is in force"
        return ""

    def faulty(self) -> str:
        """A model with faults is drawn with them at their cells; a file that can't be taken is told by its places."""
        service = self.suite.service("loan", HERE / "examples" / "loan.json")
        self.browser.open(service)
        model = json.loads((HERE / "examples" / "loan.json").read_text())
        model["decisions"][0]["expr"]["table"]["rules"][1]["when"][0] = ">= 1 and <= 2"
        self.browser.drop("changed.json", json.dumps({"model": model}))
        self.browser.wait(lambda: "the model has a fault, expression" in self.browser.text("changed"), "the fault")
        self.browser.pick("risk")
        mark = self.browser.js("""const it = document.querySelector("td .mark");
            return [it.closest("tr").querySelector("[data-at]").dataset.at, it.getAttribute("aria-label")]""")
        assert mark[0] == "1" and mark[1].startswith("fault: decisions[0] \"risk\", rule 2, input 1"), mark
        self.browser.js("[...document.querySelectorAll('#checks button')][0].click()")
        assert self.browser.js("return document.activeElement.dataset.at") == "1"
        assert "no unary tests" in self.browser.js("return document.querySelector('.why').textContent")
        assert self.browser.js("return document.getElementById('decide').disabled")
        refused = next(DMN.joinpath("refused").glob("*.dmn"))
        self.browser.drop(refused.name, refused.read_text())
        self.browser.wait(lambda: self.browser.js("return document.querySelectorAll('#changed li').length") > 0, "its places")
        assert "line " in self.browser.text("changed"), self.browser.text("changed")
        return ""

    def warnings(self) -> str:
        """A warning stands at its cell, and in the list, from where it is gone to."""
        self.browser.open(self.suite.service("warned", warned()))
        mark = self.browser.wait(lambda: self.browser.js("""const it = document.querySelector("tbody .mark");
            return it && [it.closest("tr").querySelector("[data-at]").dataset.at, it.getAttribute("aria-label")]"""), "the mark")
        assert mark[0] == "1" and mark[1].startswith("warning: "), mark
        self.browser.js("[...document.querySelectorAll('#checks button')].find((it) => it.textContent === 'Show').click()")
        assert self.browser.js("return document.activeElement.dataset.at") == "1"
        return ""

    def guarded(self) -> str:
        """Where tokens are asked for, so does the page."""
        tokens = self.suite.folder / "tokens"
        tokens.write_text(f"author call {sha256(b'secret').hexdigest()}\n")
        service = self.suite.service("guarded", HERE / "examples" / "parcel.json", "--tokens", str(tokens))
        from selenium.webdriver.common.by import By
        self.browser.driver.get("about:blank")
        self.browser.driver.get(service.url + "#inputs=%7B%22weight%22%3A5%2C%22express%22%3Afalse%7D")
        guard = self.browser.driver.find_element(By.ID, "token")
        self.browser.wait(guard.is_displayed, "the field of the token")
        guard.send_keys("wrong\n")
        self.browser.wait(lambda: "token" in self.browser.text("alert"), "that it is wrong")
        guard.clear()
        guard.send_keys("secret\n")
        assert self.browser.answer() == 950
        return ""

    def headers(self) -> str:
        """Nothing but the page's own files is loaded or run, and no markup can be made of a text."""
        service = self.loan()
        for path in ("/", "/page/app.js", "/page/style.css"):
            policy = service.get(path)[0].getheader("Content-Security-Policy")
            assert policy and "default-src 'none'" in policy and "unsafe" not in policy and "require-trusted-types-for 'script'" in policy
        made = self.browser.js("""try { document.body.insertAdjacentHTML("beforeend", "<b>x</b>"); return "made"; }
            catch (fault) { return fault.name; }""")
        assert made == "TypeError", made
        answer, _ = service.get("/page/../service.go")
        assert answer.status in (400, 404), answer.status
        assert service.get("/", "POST")[0].status == 405
        return ""

    def spoken(self) -> str:
        """Each thing that can be used has a name for a screen reader, and headings stand in their order."""
        self.loan(DECLINED)
        self.browser.answer()
        nodes = self.browser.driver.execute_cdp_cmd("Accessibility.getFullAXTree", {})["nodes"]
        roles = collections.Counter()
        for node in nodes:
            role, name = node.get("role", {}).get("value"), node.get("name", {}).get("value", "")
            roles[role] += not node.get("ignored")
            used = role in ("button", "textbox", "combobox", "radio", "table", "region", "checkbox", "progressbar")
            assert node.get("ignored") or not used or name.strip(), node
        for role in ("main", "table", "columnheader", "rowheader", "status", "alert"):
            assert roles[role] > 0, (role, roles)
        levels = self.browser.js("return [...document.querySelectorAll('h1, h2, h3')].map((it) => Number(it.tagName[1]))")
        assert levels[0] == 1 and all(after - before <= 1 for before, after in zip(levels, levels[1:])), levels
        assert self.browser.js("return document.documentElement.lang") == "en"
        return ""

    def numbers(self) -> str:
        """Numbers that JavaScript's lose digits of are asked and shown whole."""
        model = {"inputs": ["a"], "decisions": [{"name": "d", "needs": ["a"], "expr": "a - 1"}],
                 "services": [{"name": "s", "outputs": ["d"], "encapsulated": [], "inputDecisions": [], "inputData": ["a"]}]}
        service = self.suite.service("numbers", model)
        self.browser.open(service, {"a": 9223372036854775807})
        assert self.browser.answer() == 9223372036854775806
        self.browser.open(service, {"a": -9223372036854775807})
        self.browser.wait(lambda: "limit" in self.browser.text("result"), "that a limit is broken")
        return ""

    def examples(self) -> str:
        """The first request to each example gives on the page the answer that stands beside it."""
        count = 0
        for path in sorted(DMN.glob("*.dmn")):
            service = self.suite.service(f"dmn/{path.name}")
            request = json.loads(path.with_suffix(".jsonl").read_text().splitlines()[0])
            self.browser.open(service, request["inputs"], request["service"])
            due = json.loads(path.with_suffix(".answers.jsonl").read_text().splitlines()[0])["result"]
            names = json.loads(service.get("/v1/model?whole=true")[1]).get("names", {})
            assert self.browser.answer() == named(due, names), f"{path.name}: {self.browser.text('result')}, and {due} is due"
            count += 1
        assert count == 10, count
        return ""

    def shots(self) -> str:
        """The pictures of README.md and docs/HTTP.md."""
        self.browser.resize(1280, 800)
        self.loan(DECLINED)
        self.browser.answer()
        where = self.suite.pictures
        self.browser.drawn()
        self.browser.picture(where / "page.png", 1280, 800)
        self.browser.drop("month.jsonl", lines(applicants(400)))
        self.browser.wait(lambda: "400 requests" in self.browser.text("counted"), "the counts")
        if self.tells_decided:
            self.browser.pick("Eligibility")
            self.browser.js("""document.querySelector("article:not([hidden]) table.rules [data-at='0']").click()""")
            self.browser.wait(lambda: "missed" in self.browser.js("return document.querySelector('article:not([hidden]) .why').textContent"), "why")
        self.browser.js("document.activeElement.blur()")
        self.browser.drawn()
        self.browser.picture(where / "rules.png", 1280, 800)
        sizes = {it.name: it.stat().st_size for it in where.glob("*.png")}
        assert sizes and all(5_000 < size < 250_000 for size in sizes.values()), sizes
        return ", ".join(f"{name} {size // 1000} kB" for name, size in sizes.items())


def worded(value: object) -> object:
    if isinstance(value, dict):
        return {key.replace(" ", "_"): worded(part) for key, part in value.items()}
    return value


def named(value: object, names: dict[str, str]) -> object:
    if isinstance(value, dict):
        return {names.get(key, key): named(part, names) for key, part in value.items()}
    return [named(part, names) for part in value] if isinstance(value, list) else value


def service_of(inputs: list[str], table: dict) -> dict:
    return {"inputs": inputs, "decisions": [{"name": "d", "needs": inputs, "expr": {"table": table}}], "services": [
        {"name": "s", "outputs": ["d"], "encapsulated": [], "inputDecisions": [], "inputData": inputs}]}


def long_table() -> dict:
    """2,000 rules of two columns, of which one hits."""
    rules = [{"when": [str(number), f'"k{number % 10}", "k7"'], "then": [f'"group {number // 100}"', f"{number} * 3 + a"]}
             for number in range(2000)]
    return service_of(["a", "b"], {"hit": "U", "inputs": ["a", "b"], "outputs": [{"name": "group"}, {"name": "price"}], "rules": rules})


def warned() -> dict:
    """A rule that never decides, a default, and hits of which one decides."""
    rules = [{"when": ["> 3"], "then": ['"many"']}, {"when": ["> 3"], "then": ['"more"']}, {"when": ["> 9"], "then": ['"most"']}]
    return service_of(["a"], {"hit": "F", "inputs": ["a"], "outputs": [{"name": "o", "default": '"few"'}], "rules": rules})


MARKUP = """<definitions xmlns="https://www.omg.org/spec/DMN/20191111/MODEL/" name="m" namespace="n">
<inputData id="i" name="a"><variable name="a" typeRef="string"/></inputData>
<decision id="d" name="&lt;img src=x onerror='window.ran=1'&gt;">
<informationRequirement><requiredInput href="#i"/></informationRequirement><decisionTable hitPolicy="FIRST">
<input label="&lt;script&gt;window.ran=2&lt;/script&gt;"><inputExpression><text>a</text></inputExpression></input><output/>
<rule><inputEntry><text>"&lt;svg onload=window.ran=3&gt;"</text></inputEntry><outputEntry>
<text>"&lt;iframe srcdoc='&lt;script&gt;parent.ran=4&lt;/script&gt;'&gt;"</text></outputEntry></rule>
<rule><inputEntry><text>-</text></inputEntry><outputEntry><text>a</text></outputEntry></rule></decisionTable></decision>
</definitions>"""

# Of each of forty steps in which the table is scrolled: how many rows are made, and whether a rule stands in the middle of the view.
SCROLL = """const frame = document.querySelector(".table .scroll");
return Array.from({length: 40}, (_, at) => {
  frame.scrollTop = frame.scrollHeight * at / 40;
  frame.dispatchEvent(new Event("scroll"));
  const {top, bottom} = frame.getBoundingClientRect();
  const rows = [...frame.querySelectorAll("tbody tr")];
  const isInside = (box) => box.top <= (top + bottom) / 2 && box.bottom >= (top + bottom) / 2;
  return [rows.length, rows.some((row) => row.querySelector("[data-at]") && isInside(row.getBoundingClientRect()))];
});"""

# Keeps under `parts` each progress that the page shows, and calls `onprogress` then.
PROGRESS = """window.parts = [];
new MutationObserver(() => {
  const progress = document.getElementById("progress");
  if (progress.hidden || progress.value === 0) return;
  window.parts.push(progress.value);
  window.onprogress?.();
}).observe(document.getElementById("counted"), {childList: true});"""

# The contrast of each text that is seen with what stands behind it, as WCAG 2 has it.
CONTRAST = """
const canvas = document.createElement("canvas").getContext("2d", {willReadFrequently: true});
const read = (color) => {
  canvas.clearRect(0, 0, 1, 1);
  canvas.fillStyle = color;
  canvas.fillRect(0, 0, 1, 1);
  return [...canvas.getImageData(0, 0, 1, 1).data];
};
const light = (color) => {
  const [r, g, b] = color.map((part) => part / 255).map((part) => part <= .04045 ? part / 12.92 : ((part + .055) / 1.055) ** 2.4);
  return .2126 * r + .7152 * g + .0722 * b;
};
const behind = (it) => {
  for (let at = it; at; at = at.parentElement) {
    const color = read(getComputedStyle(at).backgroundColor);
    if (color[3] === 255) return color;
  }
  return read(getComputedStyle(document.body).backgroundColor);
};
const found = [];
const walker = document.createTreeWalker(document.body, NodeFilter.SHOW_TEXT);
while (walker.nextNode()) {
  const it = walker.currentNode.parentElement;
  if (!walker.currentNode.textContent.trim() || it.closest(".unseen, .skip, noscript, [hidden], option, title, :disabled")) continue;
  if (!it.checkVisibility()) continue;
  const style = getComputedStyle(it);
  const node = it.closest(".node");
  const paper = node ? read(getComputedStyle(node.querySelector("rect")).fill) : behind(it);
  const [one, other] = [light(read(node ? style.fill : style.color)), light(paper)].sort((a, b) => b - a);
  found.push([(one + .05) / (other + .05), walker.currentNode.textContent.slice(0, 40), it.tagName + "." + it.className]);
}
return found;"""


def run(suite) -> None:
    rows = Rows(suite)
    suite.row("the graph and the decisions are drawn", rows.drawn)
    suite.row("inputs are typed: the rules that hit and decided are lit", rows.typed)
    suite.row("why a rule missed", rows.missed)
    suite.row("the address has the case", rows.address)
    suite.row("the coverage of a file that is dropped", rows.requests)
    suite.row("many requests", rows.many)
    suite.row("markup in names and values", rows.markup)
    suite.row("the keyboard alone", rows.keyboard)
    suite.row("360 pixels", rows.narrow)
    suite.row("a table of 2,000 rules", rows.long)
    suite.row("contrast", rows.contrast)
    suite.row("a changed model", rows.changed)
    suite.row("a model with faults", rows.faulty, "status of 422")
    suite.row("a model with warnings", rows.warnings)
    suite.row("a token is asked for", rows.guarded, "status of 401")
    suite.row("the policy of the page", rows.headers, "TrustedHTML", "Content Security Policy", "unsafe-eval")
    suite.row("names for screen readers", rows.spoken)
    suite.row("long numbers", rows.numbers, "status of 422")
    suite.row("the examples in DMN", rows.examples)
    suite.row("pictures", rows.shots)
