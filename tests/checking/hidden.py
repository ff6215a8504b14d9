"""Letters that turn or hide what people see of a text. Worked out by hand."""

from __future__ import annotations

import json

from .program import Program, Result
from .twice import DECISION, ENTRIES, TABLE, model, put

# A text of FEEL as JSON, with letters as they are or by their numbers.
PLAIN, ESCAPED = '"\\"a\u202eb\\""', '"\\"a\\u202eb\\""'
TURNED = "it has U+202E, which isn't seen"

# What a file has, its text, and of each text that is told its line, its column, its place and what is said.
ROWS: list[tuple[str, str, list[tuple[int, int, str, str]]]] = [
    ("none", model('"\\"a\\""'), []),
    ("letters that are seen", model('"\\"äöü é 中文 עברית\\""'), []),
    ("ends of lines and tabulators", model('"if a = 1\\n then\\t 2\\r\\n else 3"'), []),
    ("an expression", model(PLAIN), [(5, 9, DECISION, TURNED)]),
    ("by its number", model(ESCAPED), [(5, 9, DECISION, TURNED)]),
    ("several, each once", model('"\\"\u200ba\u202eb\u200b\\""'), [(5, 9, DECISION, "it has U+200B, U+202E, which isn't seen")]),
    ("beyond 16 bits", model('"\\"a\U000e0041\\""'), [(5, 9, DECISION, "it has U+E0041, which isn't seen")]),
    ("a test", model(put('["1"]', f"[{PLAIN}]", TABLE)), [(7, 22, 'decisions[0] "d", rule 1, input 1 "a"', TURNED)]),
    ("an output", model(put('["2"]', f"[{PLAIN}]", TABLE)), [(7, 37, 'decisions[0] "d", rule 1, output 1 "x"', TURNED)]),
    ("a default", model(put('"default": "0"', f'"default": {PLAIN}', TABLE)), [(6, 39, 'decisions[0] "d", output 1 "x", default', TURNED)]),
    ("an entry", model(put('"expr": "a"', f'"expr": {PLAIN}', ENTRIES)), [(5, 44, 'decisions[0] "d", entry "p"', TURNED)]),
    ("a list", model(f'{{"list": ["a",\n{PLAIN}]}}'), [(6, 1, 'decisions[0] "d", member 2', TURNED)]),
]


def is_told(program: Program, text: str, due: list[tuple[int, int, str, str]]) -> bool:
    """Whether just these texts are told, for people and as JSON."""
    status, said = program.check(text)
    told = [it for it in said.splitlines() if it.startswith("warning") and "isn't seen" in it]
    words = [f"warning: line {line}, column {column}: {place}: {it}" for line, column, place, it in due]
    lines = [(it["line"], it["column"], it["place"], it["said"]) for it in program.lines(text) if it.get("warning") == "hidden letter"]
    return status == 0 and told == words and lines == due


def is_counted(program: Program) -> bool:
    """Of 150 texts a hundred are told, and then how many more there are."""
    entries = ", ".join([PLAIN] * 150)
    told = [it for it in program.lines(model(f'{{"list": [{entries}]}}')) if it.get("warning") == "hidden letter"]
    return len(told) == 101 and told[99]["place"] == 'decisions[0] "d", member 100' and told[100] == {"warning": "hidden letter", "more": 50}


def is_noted(program: Program) -> bool:
    """A notice of the formats for other tools has its kind."""
    log = json.loads(program.check(model(PLAIN), "--format", "sarif")[1])
    return [it["ruleId"] for it in log["runs"][0]["results"] if "isn't seen" in it["message"]["text"]] == ["warning-hidden-letter"]


def all_rows(program: Program) -> list[Result]:
    found = [(f"hidden letters: {name}", is_told(program, text, due)) for name, text, due in ROWS]
    return [*found, ("a hundred hidden letters", is_counted(program)), ("hidden letters for other tools", is_noted(program))]
