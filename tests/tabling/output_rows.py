"""What is written for people of whole tables. Four blanks part the parts of a line."""

from __future__ import annotations

import json

from checking.program import Program, Result, unplaced

from .place_rows import model, table
from .row import Json
from .strict_rows import DEFAULT, EXAMPLES, LISTED, one


def lines_of(program: Program, it: object) -> list[str]:
    """What is told of the tables, line by line, without their lines and columns."""
    lines = program.check(json.dumps(it), "--tables")[1].splitlines()
    first = next((n for n, line in enumerate(lines) if line.startswith("table: ")), len(lines))
    return [unplaced(line) for line in lines[first:]]


def fee(second: str, third: str, fourth: str) -> Json:
    """The model of docs/MODEL.md, with these ages."""
    it = model(table(["< 25", "-"], [second, "< 3"], [third, "< 3"], [fourth, ">= 3"], columns=["age", "claims"]), inputs=("age", "claims"), needs=("age", "claims"))
    return json.loads(json.dumps(it).replace('"d0"', '"fee"'))


PARCEL: Json = json.loads((EXAMPLES / "parcel.json").read_text())
PLACES = model({"list": ["1", table("-", columns=["a"])]}, {"context": [{"name": "p", "expr": table("-", columns=["a"])}], "result": table("-", columns=["b"])})

# Why; the model; and the lines that are due.
ROWS: list[tuple[str, object, list[str]]] = [
    (
        "the parcel",
        PARCEL,
        [
            'table: decisions[0] "price": 4 rules, U: complete for numbers and truth values, no two rules overlap',
            "  no rule for null and other kinds of weight, express",
        ],
    ),
    (
        "the fee of docs/MODEL.md",
        fee("[25..60]", ">= 60", "[25..60)"),
        [
            'table: decisions[0] "fee": 4 rules, U: not complete, rules overlap',
            "  rules 2 and 3 both apply: age 60, claims <= 2    U gives null",
            "  no rule: age >= 60, claims >= 3    e.g. 60, 3    null",
            "  no rule for null and other kinds of age, claims",
        ],
    ),
    (
        "the same, mended",
        fee("[25..60]", "> 60", ">= 25"),
        [
            'table: decisions[0] "fee": 4 rules, U: complete for numbers, no two rules overlap',
            "  no rule for null and other kinds of age, claims",
        ],
    ),
    ("complete", one("5", "not(5)"), ['table: decisions[0] "d": 2 rules, U: complete, no two rules overlap']),
    ("one rule, and a policy without a word on overlaps", one("-", hit="C"), ['table: decisions[0] "d": 1 rule, C: complete']),
    (
        "an overlap under U",
        one("<= 2", ">= 2", "(5..6)"),
        [
            'table: decisions[0] "d": 3 rules, U: complete for numbers, rules overlap',
            "  rules 1 and 2 both apply: a 2    U gives null",
            "  no rule for null and other kinds of a",
            "  rule 3 never hits",
        ],
    ),
    (
        "a gap, and no default",
        one(">= 0"),
        ['table: decisions[0] "d": 1 rule, U: not complete, no two rules overlap', "  no rule: a <= -1    e.g. -1    null", "  no rule for null and other kinds of a"],
    ),
    (
        "a gap of two columns, and a default",
        one([">= 25", "< 0"], ["< 25", "-"], outputs=DEFAULT),
        [
            'table: decisions[0] "d": 2 rules, U: not complete, no two rules overlap',
            "  no rule: a >= 25, b >= 0    e.g. 25, 0    the default",
            "  no rule for null and other kinds of a, b",
        ],
    ),
    (
        "two columns without a gap",
        one([">= 25", "< 0"], ["< 25", "-"], [">= 25", ">= 0"], outputs=DEFAULT),
        ['table: decisions[0] "d": 3 rules, U: complete for numbers, no two rules overlap', "  no rule for null and other kinds of a, b"],
    ),
    (
        "words",
        one('"a"', '"b"', hit="F", outputs=DEFAULT),
        ['table: decisions[0] "d": 2 rules, F: complete for the words asked'],
    ),
    (
        "masked by one, and by two together",
        one("< 5", ">= 5", "[0..10]", "7", hit="F"),
        [
            'table: decisions[0] "d": 4 rules, F: complete for numbers',
            "  rule 3 never decides: rules 1 and 2 stand before it",
            "  rule 4 never decides: rule 2 stands before it",
        ],
    ),
    (
        "under P one that gives a higher output goes before",
        one("5", "-", hit="P", outputs=LISTED, then=['"LOW"', '"HIGH"']),
        ['table: decisions[0] "d": 2 rules, P: complete', "  rule 1 never decides: rule 2 goes before it"],
    ),
    (
        "and so do two together",
        one("[0..10]", "< 5", ">= 5", "-", hit="P", outputs=LISTED, then=['"LOW"', '"HIGH"', '"HIGH"', '"LOW"']),
        ['table: decisions[0] "d": 4 rules, P: complete', "  rule 1 never decides: rules 2 and 3 go before it"],
    ),
    (
        "under P names may decide what a rule gives",
        one("5", "-", hit="P", outputs=LISTED, then=['"LOW"', "x"], names="x"),
        ['table: decisions[0] "d": 2 rules, P: complete', "  not decided: names decide what rule 2 gives, and so which rules go before others"],
    ),
    ("a rule that never hits", one("(5..6)", "-", hit="R"), ['table: decisions[0] "d": 2 rules, R: complete', "  rule 1 never hits"]),
    (
        "A: outputs that differ, and outputs that don't",
        one("-", "5", "6", hit="A", then=["1", "2", "1"]),
        ['table: decisions[0] "d": 3 rules, A: complete, rules overlap', "  rules 1 and 2 both apply: a 5    A gives null"],
    ),
    (
        "A: outputs that names decide",
        one("-", "5", hit="A", then=["a", "a + 1"]),
        [
            'table: decisions[0] "d": 2 rules, A: complete, rules overlap',
            "  not decided: rules 1 and 2 both apply, and names decide what they give",
        ],
    ),
    (
        "a test that a name decides",
        one("x", "-", names="x"),
        ['table: decisions[0] "d": 2 rules, U: complete, overlaps not decided', "  not decided: rule 1 has tests that names or lists decide, or that break a limit"],
    ),
    (
        "a test that breaks a limit for all values",
        one("-", "> 9223372036854775807 + 1", hit="C"),
        ['table: decisions[0] "d": 2 rules, C: not decided', "  not decided: rule 2 has tests that names or lists decide, or that break a limit"],
    ),
    (
        "a test that compares texts by order",
        one('< "m"', "-"),
        ['table: decisions[0] "d": 2 rules, U: complete, rules overlap', '  rules 1 and 2 both apply: a before "m"    U gives null'],
    ),
    (
        "texts behind the last one",
        one('<= "m"', hit="C"),
        ['table: decisions[0] "d": 1 rule, C: not complete', '  no rule: a after "m"    e.g. "m\\u0000"    null', "  no rule for null and other kinds of a"],
    ),
    (
        "texts from one to another, without them",
        one('<= "k"', '>= "m"', hit="C"),
        ['table: decisions[0] "d": 2 rules, C: not complete', '  no rule: a between "k" and "m"    e.g. "k\\u0000"    null', "  no rule for null and other kinds of a"],
    ),
    (
        "with one of them",
        one('<= "k"', '> "m"', hit="C"),
        ['table: decisions[0] "d": 2 rules, C: not complete', '  no rule: a after "k" and up to "m"    e.g. "m"    null', "  no rule for null and other kinds of a"],
    ),
    (
        "with both",
        one('< "k"', '> "m"', hit="C"),
        ['table: decisions[0] "d": 2 rules, C: not complete', '  no rule: a from "k" up to "m"    e.g. "k"    null', "  no rule for null and other kinds of a"],
    ),
    (
        "an expression in a column",
        one([">= 25", "-"], ["-", "true"], columns=["a + b", "a"], needs=["a", "b"], outputs=DEFAULT),
        [
            'table: decisions[0] "d": 2 rules, U: not complete, rules overlap',
            '  rules 1 and 2 both apply: "a + b" >= 25, a true    if the columns can take these values together    U gives null',
            '  no rule: "a + b" <= 24, a false    e.g. 0, false    if the columns can take these values together    the default',
            '  no rule for null and other kinds of "a + b", a',
        ],
    ),
    (
        "tables in a list, an entry and a result",
        PLACES,
        [
            'table: decisions[0] "d0", member 2: 1 rule, U: complete, no two rules overlap',
            'table: decisions[1] "d1", entry "p": 1 rule, U: complete, no two rules overlap',
            'table: decisions[1] "d1", result: 1 rule, U: complete, no two rules overlap',
        ],
    ),
    ("no rules", one(columns=["a"]), ['table: decisions[0] "d": 0 rules, U: not complete, no two rules overlap']),
    ("a model without tables", model("a + 1"), []),
]
# A table over several lines, and where it begins.
PLACED = """{"inputs":["a"],
 "decisions":[{"name":"d","needs":["a"],"expr":
  {"table":{"hit":"U","inputs":["a"],"outputs":[{"name":"o"}],"rules":[{"when":["5"],"then":["1"]}]}}}],
 "services":[]}"""
PLACED_WORDS = 'table: line 3, column 12: decisions[0] "d": 1 rule, U: not complete, no two rules overlap'

# Of these only the first line is held against what is due, since what follows may be told in several ways.
FIRST_ONLY = {"words", "no rules", "masked by one, and by two together"}


def is_placed(program: Program) -> bool:
    """Whether people are told the line and the column of a table, and each line of JSON about it has them."""
    words = program.check(PLACED, "--tables")[1].splitlines()
    lines = [json.loads(it) for it in program.check(PLACED, "--tables", "--json")[1].splitlines()]
    places = [(it["line"], it["column"]) for it in lines if "table" in it]
    return PLACED_WORDS in words and len(places) > 1 and set(places) == {(3, 12)}


def results_of(program: Program) -> list[Result]:
    found = [("the line and the column of a table", is_placed(program))]
    for why, it, due in ROWS:
        lines = lines_of(program, it)
        is_right = lines[:1] == due[:1] and set(due[1:]) <= set(lines) if why in FIRST_ONLY else lines == due
        if not is_right:
            print(f"{why}: {lines}, and {due} is due")
        found.append((f"for people: {why}", is_right))
    return found

