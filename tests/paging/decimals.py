"""What the page shows of files with decimals: their own texts, and all digits."""

from __future__ import annotations

import json

HEAD = '<definitions xmlns="https://www.omg.org/spec/DMN/20191111/MODEL/" name="m" namespace="n">'
NEEDS = ('<informationRequirement><requiredInput href="#a"/></informationRequirement>'
         '<informationRequirement><requiredInput href="#r"/></informationRequirement>')
FILE = f"""{HEAD}<itemDefinition name="tRate"><typeRef>number</typeRef><allowedValues><text>[0..9.5]</text></allowedValues></itemDefinition>
<inputData id="a" name="my amount"><variable name="my amount" typeRef="number"/></inputData>
<inputData id="r" name="rate"><variable name="rate" typeRef="number"/></inputData>
<decision id="d" name="the interest"><variable name="the interest" typeRef="number"/>{NEEDS}
<literalExpression><text>decimal(my amount * rate * 0.01, 2)</text></literalExpression></decision>
<decision id="e" name="the class"><variable name="the class" typeRef="string"/>{NEEDS}
<decisionTable hitPolicy="FIRST"><input><inputExpression><text>my amount / rate</text></inputExpression></input><output name="the class"/>
<rule><inputEntry><text>&lt;= 0.36</text></inputEntry><outputEntry><text>"low"</text></outputEntry></rule>
<rule><inputEntry><text>(0.36..1000.5]</text></inputEntry><outputEntry><text>"high"</text></outputEntry></rule></decisionTable></decision>
<decision id="f" name="the rate"><variable name="the rate" typeRef="tRate"/>{NEEDS}
<decisionTable hitPolicy="FIRST"><input><inputExpression><text>rate</text></inputExpression></input><output name="the rate"/>
<rule><inputEntry><text>&lt;= 2.25</text></inputEntry><outputEntry><text>rate * 0.5</text></outputEntry></rule>
<rule><inputEntry><text>-</text></inputEntry><outputEntry><text>rate + 0.125</text></outputEntry></rule></decisionTable></decision>
<decision id="i" name="the step"><variable name="the step" typeRef="number"/>{NEEDS}
<decisionTable hitPolicy="UNIQUE"><input><inputExpression><text>rate</text></inputExpression></input><output name="the step"/>
<rule><inputEntry><text>&lt;= 2.25</text></inputEntry><outputEntry><text>0.5</text></outputEntry></rule>
<rule><inputEntry><text>[3.5..9]</text></inputEntry><outputEntry><text>1.5</text></outputEntry></rule></decisionTable></decision>
<decision id="h" name="parts"><variable name="parts"/>{NEEDS}
<context><contextEntry><variable name="a half"/><literalExpression><text>decimal(my amount * 0.5, 1)</text></literalExpression></contextEntry>
<contextEntry><variable name="more"/><literalExpression><text>a half + 0.25</text></literalExpression></contextEntry></context></decision>
</definitions>"""
DIGITS = f"""{HEAD}<inputData id="a" name="my amount"><variable name="my amount" typeRef="number"/></inputData>
<decision id="d" name="all digits"><variable name="all digits" typeRef="number"/><informationRequirement><requiredInput href="#a"/></informationRequirement>
<literalExpression><text>my amount + 0.000000000001</text></literalExpression></decision></definitions>"""
# What only the translation of such a file has.
TRANSLATED = ("part_1", "rest_1", "quotient_1", "rounded_1", "numerator_1", "divisor_1", "value_1", "modulo(")


class Decimals:
    """Rows about a file with decimals."""

    def __init__(self, suite) -> None:
        self.suite, self.browser = suite, suite.browser

    def open(self, inputs: dict, service: str) -> None:
        path = self.suite.folder / "decimals.dmn"
        path.write_text(FILE)
        self.browser.open(self.suite.service("decimals", path), inputs, service)

    def texts(self) -> str:
        """The logic is the file's: its texts, cells and columns, and nothing of the translation."""
        self.open({"my amount": 12.5, "rate": 4.25}, "the interest")
        assert self.browser.answer() == 0.53
        self.browser.pick_all()
        shown = self.browser.text("decisions") + self.browser.text("way")
        for due in ("decimal(my amount * rate * 0.01, 2)", "my amount / rate", "<= 0.36", "(0.36..1000.5]", "rate * 0.5", "<= 2.25",
                    "decimal(my amount * 0.5, 1)", "a half + 0.25"):
            assert due in shown, f"{due} is not shown"
        for other in TRANSLATED:
            assert other not in shown, f"{other} is shown"
        return ""

    def tables(self) -> str:
        """The rules of tables are lit, whose columns are quotients or whose values are tested; why a rule missed is said."""
        self.open({"my amount": 12.5, "rate": 4.25}, "the class")
        self.browser.wait(lambda: self.browser.answer() == "high", "the class")
        assert self.browser.lit()["the class"] == {"hits": [2], "decided": [2]}, self.browser.lit()
        assert "my amount / rate is 2.941176470588235294117647058823529" in self.browser.text("way"), self.browser.text("way")
        self.browser.js("document.querySelector('table.rules [data-at=\"0\"]').click()")
        why = lambda: self.browser.js("return document.querySelector('.why').textContent")
        self.browser.wait(lambda: why() == "Rule 1 missed: its test <= 0.36 on my amount / rate (column 1) is not met by "
                                  "2.941176470588235294117647058823529.", "why rule 1 missed")
        self.open({"my amount": 1, "rate": 9}, "the rate")
        self.browser.wait(lambda: self.browser.text("result") == "The result is 9.125", "the rate")
        assert self.browser.lit()["the rate"] == {"hits": [2], "decided": [2]}, self.browser.lit()
        table = "document.querySelector('table[aria-label=\"Table of the rate\"]')"
        self.browser.js(f"{table}.querySelector('[data-at=\"0\"]').click()")
        why = lambda: self.browser.js(f"return {table}.closest('.table').querySelector('.why').textContent")
        self.browser.wait(lambda: why() == "Rule 1 missed: its test <= 2.25 on rate (column 1) is not met by 9.", "why rule 1 of the rates missed")
        return ""

    def findings(self) -> str:
        """What the check finds of a table is told in the file's decimals, and so is a value that is tried."""
        self.open({"my amount": 1, "rate": 1}, "the step")
        found = lambda: self.browser.js("return [...document.querySelectorAll('.found li')].map((it) => it.textContent)")
        self.browser.wait(lambda: any(it.startswith("no rule hits: rate [2.26..3.49]") for it in found()), f"the gap; {found()}")
        assert any(it.startswith("no rule hits: rate >= 9.01") for it in found()), found()
        self.browser.js("[...document.querySelectorAll('.found button')].find((it) => it.textContent.startsWith('Try 2.26')).click()")
        self.browser.wait(lambda: json.loads(self.browser.js("return document.getElementById('json').value")).get("rate") == 2.26, "the value in the form")
        self.browser.wait(lambda: self.browser.text("result") == "The result is null", "that no rule hits")
        return ""

    def parts(self) -> str:
        """The entries of a context have their values, also beside what only the translation has."""
        self.open({"my amount": 12.5, "rate": 4.25}, "parts")
        assert self.browser.answer() == {"a half": 6.2, "more": 6.45}
        shown = self.browser.js("return [...document.querySelectorAll('dl.context .entry')].map((it) => it.textContent)")
        assert shown == ["a halfdecimal(my amount * 0.5, 1) is 6.2", "morea half + 0.25 is 6.45"], shown
        return ""

    def digits(self) -> str:
        """Decimals of over 15 digits are shown, asked and saved with all of them."""
        path = self.suite.folder / "digits.dmn"
        path.write_text(DIGITS)
        self.browser.open(self.suite.service("digits", path, "--decimals", "12"), {"my amount": 1})
        self.browser.answer()
        field = "[...document.querySelectorAll('#fields input')].find((it) => it.closest('p').querySelector('label').textContent === 'my amount')"
        self.browser.js(f"const it = {field}; it.value = '001234567.890123456789'; it.dispatchEvent(new Event('change', {{bubbles: true}}));")
        self.browser.wait(lambda: self.browser.text("result") == "The result is 1234567.89012345679", "all digits")
        shown = self.browser.js("return document.getElementById('json').value")
        assert "1234567.890123456789" in shown, shown
        self.browser.driver.refresh()
        self.browser.wait(lambda: self.browser.text("result") == "The result is 1234567.89012345679", "all digits from the address")
        self.browser.drop("digits.csv", "my amount\n1234567.890123456789\n")
        self.browser.wait(lambda: "1 request, 1 with a result" in self.browser.text("counted"), "the counts")
        assert self.browser.saved("Answers as CSV")[0]["result"] == "1234567.89012345679"
        return ""


def run(suite) -> None:
    rows = Decimals(suite)
    suite.row("decimals: the texts of the file", rows.texts)
    suite.row("decimals: rules that hit, and why one missed", rows.tables)
    suite.row("decimals: what the check finds", rows.findings)
    suite.row("decimals: entries of a context", rows.parts)
    suite.row("decimals: all digits", rows.digits)
