"""Keys that stand more than once in an object. Worked out by hand."""

from __future__ import annotations

import json

from .program import Program, Result

SERVICE = '"services": [{"name": "s", "outputs": ["d"], "encapsulated": [], "inputDecisions": [], "inputData": ["a"]}]'
TABLE = """{"table": {"hit": "F", "inputs": ["a"],
 "outputs": [{"name": "x", "default": "0"}],
 "rules": [{"when": ["1"], "then": ["2"]},
 {"when": ["-"], "then": ["3"]}]}}"""
ENTRIES = '{"context": [{"name": "p", "expr": "a"}],\n "result": "p"}'
DECISION = 'decisions[0] "d"'
WORDS = "the key %s stands more than once, and the last one counts"


def model(expr: str = '"a"', first: str = '"inputs": ["a"]', service: str = SERVICE) -> str:
    """A lawful model of which the first lines, the expression (from line 5 on) and the services can be others."""
    return f'{{\n{first},\n"decisions": [{{\n"name": "d", "needs": ["a"],\n"expr": {expr}\n}}],\n{service}\n}}'


def put(old: str, new: str, whole: str) -> str:
    assert whole.count(old) == 1, old
    return whole.replace(old, new)


def of_table(old: str, new: str) -> str:
    return model(put(old, new, TABLE))


# What a file is, its text, and of each key that is told where it stands for the second time, the place and the key.
ROWS: list[tuple[str, str, list[tuple[int, int, str, str]]]] = [
    ("none", model(), []),
    ("none in a table", model(TABLE), []),
    ("none in a context", model(ENTRIES), []),
    ("the top", model(first='"inputs": ["x"],\n  "inputs": ["a"]'), [(3, 3, "", "inputs")]),
    ("the top, apart", model(service=f'{SERVICE},\n"inputs": ["a"]'), [(8, 1, "", "inputs")]),
    ("three times", model(first='"inputs": [],\n"inputs": ["x"],\n"inputs": ["a"]'), [(3, 1, "", "inputs")]),
    (
        "two keys, three times in turn",
        model('"1", "needs": [], "expr": "2", "needs": ["a"],\n"expr": "a"'),
        [(5, 14, DECISION, "needs"), (5, 27, DECISION, "expr")],
    ),
    ("a decision", model('"1", "expr": "a"'), [(5, 14, DECISION, "expr")]),
    ("an escape behind", model('"1", "e\\u0078pr": "a"'), [(5, 14, DECISION, "expr")]),
    ("an escape before", put('"expr": 7', '"\\u0065xpr": "1", "expr": "a"', model("7")), [(5, 19, DECISION, "expr")]),
    ("two spellings", put('"expr": 7', '"\\u0065xpr": "1", "ex\\u0070\\u0072": "a"', model("7")), [(5, 19, DECISION, "expr")]),
    ("a service", model(service=put('"name": "s"', '"name": "t",\n"name": "s"', SERVICE)), [(8, 1, 'services[0] "s"', "name")]),
    ("a table", of_table('"hit": "F"', '"hit": "U", "hit": "F"'), [(5, 32, 'decisions[0] "d", table', "hit")]),
    ("a column", of_table('"default": "0"', '"default": "1", "default": "0"'), [(6, 44, 'decisions[0] "d", output 1 "x"', "default")]),
    ("a rule", of_table('"then": ["3"]', '"then": ["4"], "then": ["3"]'), [(8, 33, 'decisions[0] "d", rule 2', "then")]),
    ("a box", model(put('"context"', '"context": [], "context"', ENTRIES)), [(5, 25, DECISION, "context")]),
    ("an entry", model(put('"expr": "a"', '"expr": "1", "expr": "a"', ENTRIES)), [(5, 49, 'decisions[0] "d", entry "p"', "expr")]),
    ("a list", model('{"list": ["1"], "list": ["a"]}'), [(5, 25, DECISION, "list")]),
    (
        "within what doesn't count",
        model(service=f'"services": [{{"name": "q", "name": "r"}}],\n{SERVICE}'),
        [(8, 1, "", "services")],
    ),
    ("within what counts", model('{"x": 1, "x": 2}, "expr": {"list": ["a"], "list": ["a"]}'), [(5, 27, DECISION, "expr"), (5, 51, DECISION, "list")]),
    ("two models", '{"model": [],\n "model": %s}' % model(), [(2, 2, "", "model")]),
    ("a model on a line", '{"model": %s}' % model(first='"inputs": 7,\n "inputs": ["a"]'), [(3, 2, "", "inputs")]),
    ("beside a model", '{"note": {"a": 1, "a": 2}, "note": 3, "model": %s}' % model(), []),
    ("a value like a key", model('"if a = \\"needs\\" then 1 else 2"'), []),
]

# Files that are wrong, by what is told of them: no warning.
WRONG = [
    ("a name twice", model(first='"inputs": ["x"], "inputs": ["a", "a"]'), "twice: a name stands twice\n"),
    ("no list", model(first='"inputs": ["a"], "inputs": 7'), "shape: not the form of a model\n"),
]


def is_told(program: Program, text: str, due: list[tuple[int, int, str, str]]) -> bool:
    """Whether just these keys are told, for people and as JSON."""
    status, said = program.check(text)
    words = [f"warning: line {line}, column {column}: {place}{': ' if place else ''}{WORDS % key}" for line, column, place, key in due]
    lines = [(it["line"], it["column"], it["place"], it["said"]) for it in program.lines(text) if it.get("warning") == "repeated key"]
    as_json = [(line, column, place, WORDS % key) for line, column, place, key in due]
    return status == 0 and [it for it in said.splitlines() if it.startswith("warning")] == words and lines == as_json


def is_silent(program: Program, text: str, first: str) -> bool:
    status, said = program.check(text)
    return status == 3 and said.startswith(first) and "stands more than once" not in said


def is_line(program: Program) -> bool:
    """The whole line of JSON of a key in a rule."""
    due = {
        "warning": "repeated key",
        "pointer": "/decisions/0/expr/table/rules/1",
        "place": 'decisions[0] "d", rule 2',
        "said": WORDS % "then",
        "line": 8,
        "column": 33,
    }
    return program.lines(of_table('"then": ["3"]', '"then": ["4"], "then": ["3"]'))[1:] == [due]


def is_before_requests(program: Program) -> bool:
    """Of the model in the first line before requests it is told too, and not of the requests."""
    text = model('"1", "expr": "a"').replace("\n", " ") + '\n{"client":"c","service":"s","service":"s","inputs":{"a":1}}\n'
    said = program.check(text, "--requests")[1]
    return [it for it in said.splitlines() if "stands more" in it] == [f"warning: line 1, column 78: {DECISION}: {WORDS % 'expr'}"]


def is_counted(program: Program) -> bool:
    """Of 150 keys a hundred are told, and then how many more there are."""
    decisions = ",".join(f'{{"name":"d{n}","needs":[],"needs":[],"expr":"1"}}' for n in range(150))
    text = f'{{"inputs":[],"decisions":[{decisions}],"services":[{{"name":"s","outputs":{json.dumps([f"d{n}" for n in range(150)])},' \
        '"encapsulated":[],"inputDecisions":[],"inputData":[]}]}'
    said = [it for it in program.check(text)[1].splitlines() if it.startswith("warning")]
    lines = program.lines(text)
    told = [f'decisions[{n}] "d{n}"' for n in range(100)]
    return (
        [it.split(": ")[2] for it in said[:100]] == told
        and said[100:] == ["warning: and 50 more: repeated key"]
        and lines[101:] == [{"warning": "repeated key", "more": 50}]
    )


def all_rows(program: Program) -> list[Result]:
    found = [(f"a key twice: {name}", is_told(program, text, due)) for name, text, due in ROWS]
    found += [(f"a key twice in a wrong model: {name}", is_silent(program, text, first)) for name, text, first in WRONG]
    found.append(("the line of a key twice", is_line(program)))
    found.append(("a key twice before requests", is_before_requests(program)))
    return [*found, ("a hundred keys twice", is_counted(program))]
