"""The status of `desk check --tables --strict`: 0, 3 of a faulty model, or 4; without `--strict` 4 never comes."""

from __future__ import annotations

import json
from pathlib import Path

from checking.program import Program, Result

from .place_rows import BOXES, FIVE, SIGN, model, table
from .row import Json, Row

EXAMPLES = Path(__file__).resolve().parent.parent.parent / "examples"
NONE: list[Json] = [{"name": "r"}]
DEFAULT: list[Json] = [{"name": "r", "default": "0"}]
TWO: list[Json] = [{"name": "r"}, {"name": "q"}]
ONE_OF_TWO: list[Json] = [{"name": "r"}, {"name": "q", "default": "0"}]
LISTED: list[Json] = [{"name": "r", "values": ['"HIGH"', '"LOW"'], "default": '"LOW"'}]
LOW_HIGH = ['"LOW"', '"HIGH"']


def one(*when: str | list[str], hit: str = "U", outputs: list[Json] = NONE, then: list[str | list[str]] | None = None, columns: list[str] | None = None,
        needs: list[str] | None = None, names: str = "") -> Json:
    """A model of one table."""
    row = Row("", list(when), (None,) * 4, hit=hit, outputs=outputs, then=then or [], columns=columns or [], needs=needs or [], names={names: None} if names else None)
    return row.model()


# Each of a hundred numbers has 51 rules that give 7; behind them 200 has one that gives 8 besides 50 that give 7.
MANY_OVERLAPS = one(*["-"] * 50, *[str(number) for number in range(100)], "200", hit="A", then=["7"] * 150 + ["8"])

# Why; the model; and the status that is due with --strict.
ROWS: list[tuple[str, object, int]] = [
    ("complete for what is asked, and unique", one("<= 2", "> 2"), 0),
    ("complete for every value", one("5", "not(5)"), 0),
    ("a gap among the kinds asked, and no default", one("< 2", "> 2"), 4),
    ("the same with a default", one("< 2", "> 2", outputs=DEFAULT), 0),
    ("a default of null is a default", one("< 2", "> 2", outputs=[{"name": "r", "default": "null"}]), 0),
    ("a gap, two outputs and no default", one("< 2", "> 2", outputs=TWO, then=[["1", "1"], ["2", "2"]]), 4),
    ("a default of one of two outputs: the result is a context then, and not null", one("< 2", "> 2", outputs=ONE_OF_TWO, then=[["1", "1"], ["2", "2"]]), 0),
    ("the words asked have rules, other texts, which are asked, have none", one('"a"', '"b"'), 4),
    ("the same with a default", one('"a"', '"b"', outputs=DEFAULT), 0),
    ("a gap under F", one("< 2", "> 2", hit="F"), 4),
    ("a gap under C", one("< 2", "> 2", hit="C"), 4),
    ("a gap under C with a default", one("< 2", "> 2", hit="C", outputs=DEFAULT), 0),
    ("an overlap under U", one("<= 2", ">= 2"), 4),
    ("an overlap under U with a default", one("<= 2", ">= 2", outputs=DEFAULT), 4),
    ("an overlap under A where the outputs differ", one("<= 2", ">= 2", hit="A"), 4),
    ("an overlap under A of one output", one("<= 2", ">= 2", hit="A", then=["7", "7"]), 0),
    ("an overlap under A of outputs of one text", one("<= 2", ">= 2", hit="A", then=["a", "a"]), 0),
    ("an overlap under A of outputs that names decide", one("<= 2", ">= 2", hit="A", then=["a", "a + 1"]), 4),
    ("under A more overlaps than are looked at, the last of them with other outputs", MANY_OVERLAPS, 4),
    ("an overlap under F, where each rule decides somewhere", one("<= 2", ">= 2", hit="F"), 0),
    ("an overlap under P, where each rule decides somewhere", one("<= 2", ">= 2", hit="P", outputs=LISTED, then=LOW_HIGH), 0),
    *((f"an overlap under {it}", one("<= 2", ">= 2", hit=it), 0) for it in ("C", "R", "C+", "C<", "C>", "C#")),
    ("an overlap under O", one("<= 2", ">= 2", hit="O", outputs=LISTED, then=LOW_HIGH), 0),
    *((f"a rule that never hits, under {it}", one("(5..6)", "-", hit=it), 4) for it in ("U", "A", "P", "F", "O", "R", "C", "C+", "C#")),
    ("a masked rule under F", one("-", "5", hit="F"), 4),
    ("a rule that two mask together, under F", one("< 5", ">= 5", "[0..10]", hit="F"), 4),
    ("a masked rule under P", one("-", "5", hit="P", outputs=LISTED, then=['"HIGH"', '"LOW"']), 4),
    ("a rule under P of which a name decides what it gives", one("-", "5", hit="P", outputs=LISTED, then=['"HIGH"', "x"], names="x"), 4),
    ("the same rules under P, of which the second goes first", one("-", "5", hit="P", outputs=LISTED, then=LOW_HIGH), 0),
    *((f"a rule behind a dash, under {it}", one("-", "5", hit=it), 0) for it in ("R", "C", "C+", "C<", "C>", "C#")),
    ("a rule behind a dash, under A with one output", one("-", "5", hit="A", then=["7", "7"]), 0),
    ("whether a rule hits is up to a name: the gap is not decided, or is one", one("x", names="x"), 4),
    ("whether two rules overlap under U is up to a name", one("x", "-", names="x"), 4),
    ("the same under C, where overlaps are no fault", one("x", "-", hit="C", names="x"), 0),
    ("a column's own name as a test: the gap is not decided", one("a", names="a"), 4),
    ("a test that breaks a limit for all values", one("-", "> 9223372036854775807 + 1", hit="C"), 4),
    ("a bound that is computed", one("<= 60 * 24", "> 60 * 24", hit="C", outputs=DEFAULT), 0),
    ("under F a rule whose place in front of others a name decides", one("x", "-", hit="F", names="x"), 0),
    ("under F a rule behind one with the same test, which a name decides", one("x", "x", "-", hit="F", names="x"), 4),
    ("under C the same rules", one("x", "x", "-", hit="C", names="x"), 0),
    ("under F a rule that hits between two names", one("(x..y)", "-", hit="F", needs=["a", "x", "y"]), 0),
    ("under F each of many rules decides for a number of its own", one(*[str(number) for number in range(1500)], "-", hit="F"), 0),
    ("under F the last of many rules is the first again", one(*[str(number) for number in range(300)], "0", "-", hit="F"), 4),
    ("under P each decides where those of higher outputs miss", one("> 5", "> 3", "-", hit="P", outputs=LISTED, then=['"HIGH"', '"LOW"', '"LOW"']), 0),
    ("under A three rules that hit together, of one output", one("-", "<= 2", ">= 2", hit="A", then=["7", "7", "7"]), 0),
    ("under A rules of two outputs that never hit together", one("<= 2", "< 2", "> 2", ">= 3", hit="A", then=["7", "7", "8", "8"]), 0),
    ("no rules and no default", one(columns=["a"]), 4),
    ("no rules and a default", one(columns=["a"], outputs=DEFAULT), 0),
    ("no columns and one rule", one([]), 0),
    ("no columns and two rules, under U", one([], []), 4),
    ("no tables", model("a + 1"), 0),
    ("no decisions", model(), 0),
    ("the second of two tables", model(SIGN, FIVE), 4),
    ("the first of two tables", model(FIVE, SIGN), 4),
    ("two tables without a fault", model(SIGN, SIGN), 0),
    ("a table in a list in a list", model(BOXES), 4),
    ("a table in an entry", model({"context": [{"name": "p", "expr": FIVE}], "result": "p"}), 4),
    ("a table in a result", model({"context": [{"name": "p", "expr": "a"}], "result": FIVE}), 4),
    ("a text without a reading", model("1 <", FIVE), 3),
    ("a table that is refused", model(table("5", columns=["a"], hit="UNIQUE")), 3),
    ("no form of a model", {"inputs": []}, 3),
    ("the parcel", json.loads((EXAMPLES / "parcel.json").read_text()), 0),
]


def results_of(program: Program) -> list[Result]:
    """Each model by its status with --strict, and without, for people and as lines of JSON."""
    found = list[Result]()
    for why, it, due in ROWS:
        text = json.dumps(it)
        for options in (("--tables", "--strict"), ("--tables", "--strict", "--json"), ("--strict", "--tables"), ("--tables",)):
            wanted = due if "--strict" in options or due != 4 else 0
            status = program.check(text, *options)[0]
            if status != wanted:
                print(f"{why}, {' '.join(options)}: status {status}, and {wanted} is due")
            found.append((f"{why}, {' '.join(options)}", status == wanted))
    return found
