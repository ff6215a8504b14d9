"""What the page shows of `desk check --tables`: by a program that stands for the engine, and by the engine where it knows it."""

from __future__ import annotations

import json
import subprocess
from pathlib import Path

TABLE = "/decisions/0/expr/table"
# A program that stands for the engine: it tells of tables what stands in a file, and leaves all else to the engine.
STAND_IN = """#!/bin/sh
case "$*" in
"help check") "{engine}" help check; echo "      --tables" ;;
"check --json --tables") cat > "{folder}/asked"; "{engine}" check --json < "{folder}/asked"; cat "{folder}/told" ;;
*) exec "{engine}" "$@" ;;
esac
"""
LEAST, GREATEST = -9223372036854775807, 9223372036854775807
# Of a table nothing is undecided.
DECIDED = {"rules": [], "outputs": [], "ranks": [], "idle": [], "steps": False}


def cell(low: int | None = None, high: int = GREATEST, *, texts: tuple[str, ...] = (), but: tuple[str, ...] | None = None,
         null: bool = False, others: bool = False) -> dict:
    """Values of a column, as the engine writes them."""
    of = {"null": null, "true": others, "false": others, "parted": others}
    of |= {} if low is None else {"from": low, "to": high}
    return of | {"texts": list(texts)} | ({} if but is None else {"texts_but": list(but)})


def table(policy: str, columns: list[str], rules: list[list[str]], output: dict | None = None) -> dict:
    return {"table": {"hit": policy, "inputs": columns, "outputs": [output or {"name": "o"}],
                      "rules": [{"when": tests, "then": [f'"{at + 1}"']} for at, tests in enumerate(rules)]}}


def model(inputs: list[str], decisions: dict[str, tuple[list[str], dict]]) -> dict:
    """A model with one service, which takes all inputs and gives the last decision."""
    *inner, last = decisions
    return {"inputs": inputs, "decisions": [{"name": name, "needs": needs, "expr": expr} for name, (needs, expr) in decisions.items()],
            "services": [{"name": "s", "outputs": [last], "encapsulated": inner, "inputDecisions": [], "inputData": inputs}]}


# Of whole numbers, no rule hits where a is 10 to 19 and b 6 or more. Rules 2 and 3 hit where a is 20 or more and b is 5.
ONE_OF_EACH = model(["a", "b"], {"d": (["a", "b"], table("U", ["a", "b"], [["< 10", "-"], [">= 10", "<= 5"], [">= 20", ">= 5"]]))})
TOLD_OF_EACH = [
    {"table": TABLE, "complete": False, "asked": False, "words": False, "unique": False, "steps": 60, "undecided": DECIDED},
    {"finding": "overlap", "rules": [1, 2], "witness": [20, 5], "cells": [cell(20), cell(5, 5)]},
    {"finding": "gap", "rules": [], "witness": [10, 6], "cells": [cell(10, 19), cell(6)], "asked": True},
    {"finding": "gap", "rules": [], "witness": [None, 0], "cells": [cell(but=(), null=True, others=True),
                                                                    cell(LEAST, but=(), null=True, others=True)], "asked": False},
]
# A rule that never hits, one behind others, texts, a path into an input, and columns that are no inputs.
SEVERAL = model(["a", "t"], {
    "sum": (["a"], "a + 1"),
    "first": (["a", "t"], table("F", ["a.b", "t"], [["< 5", "-"], [">= 5", '"x"'], ["< 9", '"x"'], ["[9..5]", "-"]])),
    "last": (["first", "sum"], table("U", ["sum", "sum * 2"], [["< 3", "-"], ["> 3", "> 9"]], {"name": "o", "default": '"no"'})),
})
FIRST, LAST = "/decisions/1/expr/table", "/decisions/2/expr/table"
TOLD_OF_SEVERAL = [
    {"table": FIRST, "complete": False, "asked": None, "words": True, "unique": False, "steps": 9, "undecided": DECIDED},
    {"finding": "gap", "rules": [], "witness": [5, "y"], "cells": [cell(5, null=True), cell(but=("x", "w"))], "asked": True},
    {"finding": "gap", "more": 7},
    {"finding": "never", "rules": [3]},
    {"finding": "masked", "rules": [2], "before": [0, 1]},
    {"table": LAST, "complete": True, "asked": True, "words": True, "unique": True, "steps": 9, "undecided": DECIDED},
    {"finding": "overlap", "rules": [0, 1], "witness": [2, 10], "cells": [cell(LEAST, 2, texts=("z",)), cell(10, 12)]},
]
# A table of what can come that is complete for it, and one that isn't.
COMING = model(["a"], {"d": (["a"], table("U", ["a"], [["< 10"], [">= 10"]])), "e": (["d"], table("U", ["d"], [['"1"'], ['"3"']]))})
SECOND = "/decisions/1/expr/table"
TOLD_OF_COMING = [
    {"table": TABLE, "comes": True, "complete": True, "asked": True, "words": True, "unique": True, "steps": 9, "undecided": DECIDED},
    {"table": SECOND, "comes": True, "complete": False, "asked": False, "words": False, "unique": True, "steps": 9, "undecided": DECIDED},
    {"finding": "gap", "rules": [], "witness": ["2"], "cells": [cell(texts=("2",))], "asked": True},
]


class Found:
    def __init__(self, suite) -> None:
        self.suite, self.browser = suite, suite.browser

    def stood_in(self, name: str, of: dict, told: list[dict]):
        """A service whose engine tells this of tables."""
        folder = self.suite.folder / name
        folder.mkdir(exist_ok=True)
        (folder / "told").write_text("".join(json.dumps(line, separators=(",", ":")) + "\n" for line in told))
        engine = folder / "engine"
        engine.write_text(STAND_IN.format(engine=self.suite.programs[1], folder=folder))
        engine.chmod(0o755)
        return self.suite.service(name, of, engine=engine)

    def knows_tables(self) -> bool:
        told = subprocess.run([self.suite.programs[1], "help", "check"], capture_output=True, check=True)
        return b"--tables" in told.stdout

    def verdicts(self) -> list[str]:
        return self.browser.js("return [...document.querySelectorAll('.verdict')].map((it) => it.textContent)")

    def marks(self, at: int = 0) -> dict[str, str]:
        """What the marks at the rules of a table say."""
        return self.browser.js("""return Object.fromEntries([...document.querySelectorAll(".table")[arguments[0]].querySelectorAll(
            "tbody th .mark")].map((it) => [it.closest("tr").querySelector("[data-at]").textContent, it.title]))""", at)

    def listed(self, at: int = 0) -> list[str]:
        """What is listed under a table, without the buttons."""
        return self.browser.js("""return [...document.querySelectorAll(".table")[arguments[0]].querySelectorAll(".found > ul > li")].map(
            (it) => [...it.childNodes].filter((part) => part.nodeName === "#text").map((part) => part.textContent).join("").trim())""", at)

    def press(self, label: str, at: int = 0) -> None:
        self.browser.js("""[...document.querySelectorAll(".table")[arguments[1]].querySelectorAll(".found button")].find((it) =>
            it.textContent.startsWith(arguments[0])).click()""", label, at)

    def said(self, at: int = 0) -> str:
        return self.browser.js("return document.querySelectorAll('.table')[arguments[0]].querySelector('.why').textContent", at)

    def one_of_each(self, service) -> str:
        """A gap and an overlap stand at their table, and their values are tried."""
        self.browser.open(service)
        self.browser.comes(self.verdicts, ["not complete; rules overlap"], "what is found of the table")
        overlap = "rules 2 and 3 both hit, which gives null: a >= 20, b 5"
        self.browser.comes(lambda: self.listed()[:2], [overlap, "no rule hits: a [10..19], b >= 6"], "the list")
        self.browser.comes(self.marks, {"2": overlap, "3": overlap}, "the marks")
        tries = self.browser.js("""return [...document.querySelectorAll(".found > ul > li > button")].map((it) => it.textContent)""")
        tries = [it.removeprefix("Try ") for it in tries if it.startswith("Try ")]
        for values, is_inside, hits in ((tries[0], lambda a, b: a >= 20 and b == 5, [2, 3]),
                                        (tries[1], lambda a, b: 10 <= a <= 19 and b >= 6, [])):
            a, b = (int(it) for it in values.split(", "))
            assert is_inside(a, b), values
            self.press(f"Try {values}")
            self.browser.wait(lambda: self.said().startswith(f"The form has a {a}, b {b}."), "that the form is filled")
            self.browser.comes(self.browser.answer, None, "the result")
            self.browser.comes(lambda: self.browser.lit()["d"], {"hits": hits, "decided": []}, "the rules")
        self.browser.comes(lambda: self.browser.text("tables"), "What was found of 1 table:d: not complete; rules overlap Show", "the sum")
        return ""

    def stand_in(self) -> str:
        service = self.stood_in("each", ONE_OF_EACH, TOLD_OF_EACH)
        self.one_of_each(service)
        others = self.browser.js("return [...document.querySelectorAll('.found details li')].map((it) => it.firstChild.textContent)")
        assert others == ["no rule hits: a any text or true or false or null or a list or a context, b any"], others
        return ""

    def engine(self) -> str:
        if not self.knows_tables():
            return "skipped, desk check has no --tables"
        return self.one_of_each(self.suite.service("one of each", ONE_OF_EACH))

    def several(self) -> str:
        """Rules that never decide, texts, and values that the form has no fields for."""
        self.browser.open(self.stood_in("several", SEVERAL, TOLD_OF_SEVERAL), {"a": {"b": 1, "c": 2}, "t": "old"})
        self.browser.pick_all()
        self.browser.comes(self.verdicts, ["complete for the words that its rules ask for",
                                           "complete: some rule hits, whatever the values; no two rules overlap"], "what is found")
        assert self.listed() == ['no rule hits: a.b >= 5 or null, t any text but "x", "w"',
                                 "and 7 more gaps",
                                 "rule 4 never hits", "rule 3 never decides: rules 1, 2 go before it"], self.listed()
        assert self.marks() == {"4": "rule 4 never hits", "3": "rule 3 never decides: rules 1, 2 go before it"}, self.marks()
        unsure = 'rules 1 and 2 both hit, which gives null: sum <= 2 or "z", sum * 2 [10..12], if the columns may take these values together'
        assert self.listed(1) == [unsure], self.listed(1)
        self.press("Try 2, 10", 1)
        assert "no input stands in sum, sum * 2" in self.said(1), self.said(1)
        self.press('Try 5, "y"')
        self.browser.wait(lambda: self.said().startswith('The form has a.b 5, t "y".'), "that the form is filled")
        got = json.loads(self.browser.js("return document.getElementById('json').value"))
        assert got == {"a": {"b": 5, "c": 2}, "t": "y"}, got
        self.press("to rule 3")
        assert self.browser.js("return document.activeElement.dataset.at") == "2"
        return ""

    def coming(self) -> str:
        """Tables that were looked at for what can come."""
        self.browser.open(self.stood_in("coming", COMING, TOLD_OF_COMING), {"a": 1})
        self.browser.pick_all()
        self.browser.comes(self.verdicts, ["complete for what can come; no two rules overlap",
                                           "not complete for what can come; no two rules overlap"], "what is found")
        assert self.listed(1) == ['no rule hits: d "2", if the columns may take these values together'], self.listed(1)
        return ""

    def changed(self) -> str:
        """A changed model is checked for the same."""
        self.browser.open(self.stood_in("each", ONE_OF_EACH, TOLD_OF_EACH))
        self.browser.drop("changed.json", json.dumps(ONE_OF_EACH | {"inputs": ["b", "a"]}))
        self.browser.wait(lambda: "the model has no fault" in self.browser.text("changed"), "that it is checked")
        self.browser.comes(self.verdicts, ["not complete; rules overlap"], "what is found of its table")
        return ""


def run(suite) -> None:
    rows = Found(suite)
    suite.row("a gap and an overlap, told by a stand-in", rows.stand_in)
    suite.row("a gap and an overlap, told by the engine", rows.engine)
    suite.row("rules that never decide, and other findings of tables", rows.several)
    suite.row("tables of what can come", rows.coming)
    suite.row("findings of a changed model's table", rows.changed)
