"""The way of someone who sees the page for the first time: why one applicant was declined, and which rules a month never used."""

from __future__ import annotations

import collections
import subprocess
from pathlib import Path

from . import rows

HERE = Path(__file__).resolve().parent.parent.parent
# The applicant who is declined, in the order of the form's fields; of a list of choices the letters that are typed.
TYPED = {"Age": "20", "Employment Status": "ST", "Existing Customer": "f", "Marital Status": "S", "Expenses": "700", "Income": "1000",
         "Repayments": "0", "Required monthly installment": "200"}
MONTH = 6000
# At six seconds each, so many actions are done within two minutes.
MOST_ACTIONS = 20


class Walk:
    def __init__(self, suite) -> None:
        self.suite, self.browser = suite, suite.browser
        self.actions: collections.Counter[str] = collections.Counter()

    def is_current(self) -> bool:
        """Whether `./desk` runs what is there, and has nothing to build."""
        def is_of(name: str, *command: str) -> bool:
            due = subprocess.run([HERE / "tools" / command[0], *command[1:]], capture_output=True, text=True, check=True).stdout
            place = HERE / "dist" / f"{name}.sources"
            return place.exists() and place.read_text() == due
        return is_of("desk", "sources") and is_of("desk-gateway", "gateway", "--sources")

    def begin(self) -> str:
        """`./desk http examples/dmn/loan.dmn` in a terminal, and its address in a browser."""
        by = "" if self.is_current() else "without ./desk, since dist/ is of other sources; "
        script = None if by else HERE / "desk"
        service = self.suite.service("walk", HERE / "examples" / "dmn" / "loan.dmn", script=script)
        self.browser.open(service)
        self.actions["to begin"] += 2
        return by

    def seen(self, text: str, where: str = "body") -> None:
        """Waits until a text stands in what is seen of the page, with no scrolling."""
        find = """const [text, where] = arguments;
            const said = (it) => it.textContent.replace(/\\s+/g, " ").trim();
            return [...document.querySelectorAll(where + ", " + where + " *")].filter((it) => said(it).includes(text)).some((it) => {
                const box = it.getBoundingClientRect();
                return box.height > 0 && box.top >= 0 && box.bottom <= innerHeight && box.left >= 0 && box.right <= innerWidth;
            })"""
        self.browser.wait(lambda: self.browser.js(find, text, where), f"{text!r} in view")

    def click(self, step: str, text: str, within: str) -> None:
        """Clicks on a button that is in view."""
        from selenium.webdriver.common.by import By
        from selenium.webdriver.common.action_chains import ActionChains
        self.seen(text, within)
        found = [it for it in self.browser.driver.find_elements(By.CSS_SELECTOR, f"{within} button") if it.text.strip() == text]
        ActionChains(self.browser.driver).click(found[0]).perform()
        self.actions[step] += 1

    def fill(self) -> None:
        """Types the applicant in, from field to field by Tab, and presses Enter."""
        from selenium.webdriver.common.by import By
        from selenium.webdriver.common.keys import Keys
        self.browser.driver.find_element(By.CSS_SELECTOR, "#fields input").click()
        self.actions["for the form"] += 1
        for number, (name, text) in enumerate(TYPED.items()):
            label = self.browser.js("return document.activeElement.labels[0].textContent")
            assert label == name, f"the field {label}, and {name} is due"
            self.browser.keys(text, Keys.TAB if number + 1 < len(TYPED) else Keys.ENTER)
            self.actions["for the form"] += 1

    def why(self) -> None:
        """From the result to what it came from. Worked out by hand in examples/dmn/README.md."""
        self.seen('Strategy"DECLINE"', "#result")
        # "is" is read out, and not seen.
        self.seen('Strategy = is "DECLINE", rule 1 decided: Eligibility is "INELIGIBLE"', "#way")
        self.seen('Eligibility = is "INELIGIBLE", rule 2 decided: Pre-bureau Affordability is false', "#way")
        self.seen("Pre-bureau affordability = is false", "#way")
        step = "to see why"
        self.click(step, "Strategy", "#way")
        self.seen('▶ 1"INELIGIBLE"-"DECLINE"', "tr.decided")
        self.click(step, "2", "article:last-child")
        self.seen('Rule 2 missed: its test "ELIGIBLE" on Eligibility (column 1) is not met by "INELIGIBLE".', "article:last-child .why")
        self.click(step, "Eligibility", "article:last-child")
        self.seen('▶ 2-false-"INELIGIBLE"', "tr.decided")
        self.click(step, "Pre-bureau affordability", "article:nth-child(5)")
        # 1000 - (0 + 700) are left; 60 of 100 of these are 180, and 200 are due.
        self.seen("is 300", "article:nth-child(4)")
        self.seen("is 60", "article:nth-child(4)")
        self.seen("Pre-bureau affordability = is false", "article:nth-child(4) h3")

    def month(self) -> None:
        """A file of a month's requests is dropped, and a rule that it never used is gone to."""
        path = self.suite.folder / "month.jsonl"
        requests = rows.applicants(MONTH)
        path.write_text(rows.lines(requests))
        for kind in ("dragEnter", "dragOver", "drop"):
            self.browser.driver.execute_cdp_cmd("Input.dispatchDragEvent", {"type": kind, "x": 400, "y": 300, "data": {
                "items": [], "files": [str(path)], "dragOperationsMask": 1}})
        step = "to count a month"
        self.actions[step] += 1
        used = rows.counted(self.suite.explained(rows.LOAN, requests))[1]
        # The one table that has more rules than its requests reach is that of the score, of 11 rules.
        never = [rule for rule in range(1, 12) if not any(at == rule and place.startswith("Application_risk_score") for place, at in used)]
        self.seen(f"{len(never)} of 32 rules never decided", "#counted")
        names = [f"Application risk score, rule {rule}" for rule in never]
        listed = self.browser.js("return [...document.querySelectorAll('.never-list button')].map((it) => it.textContent)")
        assert names and listed == names, f"{listed}, and {names} is due"
        self.click(step, names[0], ".never-list")
        self.seen(f"Rule {never[0]} never decided.", ".why")

    def walk(self) -> str:
        said = self.begin()
        self.fill()
        self.why()
        self.month()
        total = sum(self.actions.values())
        parts = ", ".join(f"{count} {step}" for step, count in self.actions.items())
        assert total <= MOST_ACTIONS, f"{total} actions: {parts}"
        return f"{said}{total} actions: {parts}"


def run(suite) -> None:
    suite.row("why one was declined, and which rules a month never used", Walk(suite).walk)
