"""Fields of dates and durations: a picker or an example, and no field for what a clock fills."""

from __future__ import annotations

HEAD = '<definitions xmlns="https://www.omg.org/spec/DMN/20191111/MODEL/" name="m" namespace="n">'
FILE = f"""{HEAD}<inputData id="a" name="first day"><variable name="first day" typeRef="date"/></inputData>
<inputData id="b" name="notice"><variable name="notice" typeRef="dayTimeDuration"/></inputData>
<decision id="d" name="last day"><variable name="last day" typeRef="date"/>
<informationRequirement><requiredInput href="#a"/></informationRequirement><informationRequirement><requiredInput href="#b"/></informationRequirement>
<literalExpression><text>if today() &gt; @"0001-01-01" then first day + notice else null</text></literalExpression></decision></definitions>"""


class Dates:
    """Rows about a file with dates."""

    def __init__(self, suite) -> None:
        self.suite, self.browser = suite, suite.browser

    def fields(self) -> str:
        path = self.suite.folder / "dates.dmn"
        path.write_text(FILE)
        self.browser.open(self.suite.service("dates", path, "--clock", "UTC"))
        shown = self.browser.js("return [...document.querySelectorAll('#fields p')].map((it) => [it.querySelector('label').textContent, "
                                "it.querySelector('input').type, it.querySelector('input').placeholder])")
        assert shown == [["first day", "date", ""], ["notice", "text", "P1DT2H"]], shown
        for label, value in (("first day", "2024-02-28"), ("notice", "P2D")):
            field = f"[...document.querySelectorAll('#fields input')].find((it) => it.closest('p').querySelector('label').textContent === '{label}')"
            self.browser.js(f"const it = {field}; it.value = '{value}'; it.dispatchEvent(new Event('change', {{bubbles: true}}));")
        self.browser.wait(lambda: self.browser.text("result") == 'The result is "2024-03-01"', "the last day")
        return ""


def run(suite) -> None:
    suite.row("dates: fields, and none for the clock", Dates(suite).fields)
