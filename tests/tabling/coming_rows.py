"""Tables of models with domains, which are looked at for what can come to their columns: each row has what is due of each table.

Worked out by hand from what a domain, an expression and a table mean. A table without an entry in what is due is looked at as it is
without domains.
"""

from __future__ import annotations

import json
import subprocess
from collections.abc import Iterator
from dataclasses import dataclass, field

from checking.program import Program, Result, unplaced

from .place_rows import model, table
from .row import Json, point_of
from .strict_rows import DEFAULT, EXAMPLES, LISTED, one
from .told import Told, tables_of

TABLE = "/decisions/0/expr/table"
# No answer about overlaps, which are asked under U and A alone.
NONE = "none"


@dataclass
class Due:
    """What is due of a table: whether some rule always hits, whether no two do, values without a rule that can come, and values that
    are in no gap."""

    complete: bool | None = True
    unique: object = True
    gaps: list[object] = field(default_factory=list)
    others: list[object] = field(default_factory=list)


YES = Due()
# Each of many rules hits.
MANY = Due(unique=NONE)


def gap(*gaps: object, others: list[object], unique: object = True) -> Due:
    return Due(False, unique, list(gaps), others)


AGES, KINDS = {"a": "[0..120]"}, {"a": '"ja", "nein"'}
ONE = {TABLE: YES}


def chained(*rules: str, services: list[Json] | None = None, **expressions: Json) -> Json:
    """A table over `p`, which a table over `a` gives, with a service of the last, or with these."""
    first = one("< 18", "[18..65]", "> 65", then=['"A"', '"B"', '"C"'])["decisions"][0]["expr"]  # type: ignore[index]
    decisions = [{"name": "p", "needs": ["a"], "expr": first}, {"name": "d", "needs": ["p"], "expr": table(*rules, columns=["p"])}]
    asked = [{"name": "s", "outputs": ["d"], "encapsulated": ["p"], "inputDecisions": [], "inputData": ["a"]}]
    return {"inputs": ["a"], "decisions": decisions, "services": asked if services is None else services}


P, D = "/decisions/0/expr/table", "/decisions/1/expr/table"
GIVEN: Json = {"name": "t", "outputs": ["d"], "encapsulated": [], "inputDecisions": ["p"], "inputData": []}
FIRST: Json = {"name": "t", "outputs": ["p"], "encapsulated": [], "inputDecisions": [], "inputData": ["a"]}
ENTRY: Json = {"context": [{"name": "p", "expr": table("< 18", ">= 18", columns=["a"])}], "result": table("1", "2", columns=["p"])}
WORDS = ('"A"', '"B"', '"C"')

# Why; the model; its domains; the status of --strict; and what is due of each table.
ROWS: list[tuple[str, Json, Json | None, int, dict[str, Due]]] = [
    ("numbers of an interval", one("[0..17]", "[18..120]"), AGES, 0, ONE),
    ("the same without a domain", one("[0..17]", "[18..120]"), None, 4, {}),
    ("the same, and no input has a domain", one("[0..17]", "[18..120]"), {}, 4, {}),
    ("the greatest is left out", one("[0..17]", "[18..119]"), AGES, 4, {TABLE: gap(120, others=[121, -1, 0, 119, None, "x", True])}),
    ("the least is left out", one("(0..17]", "[18..120]"), AGES, 4, {TABLE: gap(0, others=[-1, 1, 121, None])}),
    ("one within is left out", one("< 18", "> 18"), AGES, 4, {TABLE: gap(18, others=[17, 19, None])}),
    ("a gap with a default", one("< 18", "> 18", outputs=DEFAULT), AGES, 0, {TABLE: gap(18, others=[17, 19, None])}),
    ("an open interval", one("[1..119]"), {"a": "(0..120)"}, 0, ONE),
    ("at least", one(">= 0"), {"a": ">= 0"}, 0, ONE),
    ("at least, but one", one("> 0"), {"a": ">= 0"}, 4, {TABLE: gap(0, others=[-1, 1, None])}),
    ("a constant that is worked out", one("< 60 * 24"), {"a": "< 1440"}, 0, ONE),
    ("one number", one("5"), {"a": "5"}, 0, ONE),
    ("a number, or null", one("[0..17]", "[18..120]"), {"a": "[0..120], null"}, 4, {TABLE: gap(None, others=[0, 120, -1, 121, "x"])}),
    ("the same with a rule for null", one("[0..17]", "[18..120]", "null"), {"a": "[0..120], null"}, 0, ONE),
    ("any number", one("< 0", ">= 0"), {"a": ">= -9223372036854775807"}, 0, ONE),
    ("two intervals are the numbers from the least to the greatest", one("[0..9]", "[20..30]"), {"a": "[0..9], [20..30]"}, 4,
     {TABLE: gap(10, 19, others=[0, 9, 20, 30, -1, 31, None])}),
    ("two texts", one('"ja"', '"nein"'), KINDS, 0, ONE),
    ("two texts, the other way about", one('"nein"', '"ja"'), KINDS, 0, ONE),
    ("a text that no test names", one('"ja"', '"nein"'), {"a": '"ja", "nein", "wer"'}, 4,
     {TABLE: gap("wer", others=["ja", "nein", "other", "", None])}),
    ("a text that can't come has a rule", one('"ja"', '"nein"', '"wer"'), KINDS, 0, ONE),
    ("any text but one", one('"ja"', 'not("ja")'), KINDS, 0, ONE),
    ("no text but one", one('not("ja")'), KINDS, 4, {TABLE: gap("ja", others=["nein", "other", None])}),
    ("two texts, or null", one('"ja"', '"nein"'), {"a": '"ja", "nein", null'}, 4, {TABLE: gap(None, others=["ja", "nein", "other", 0])}),
    ("any text", one('"ja"', '"nein"'), {"a": '>= ""'}, 4, {TABLE: gap("wer", "", others=["ja", "nein", None, 0])}),
    ("any text, in two parts", one('< "m"', '>= "m"'), {"a": '>= ""'}, 0, ONE),
    ("truth values", one("true", "false"), {"a": "true, false"}, 0, ONE),
    ("one of the truth values", one("true"), {"a": "true, false"}, 4, {TABLE: gap(False, others=[True, None, 0])}),
    ("null alone", one("null"), {"a": "null"}, 0, ONE),
    ("nothing can come", one("5"), {"a": "[5..1]"}, 0, ONE),
    ("overlaps outside what can come", one("<= 18", ">= 18", "[19..120]"), {"a": "[0..17]"}, 0, ONE),
    ("an overlap", one("<= 18", ">= 18"), AGES, 4, {TABLE: Due(unique=False)}),
    ("an overlap under A of one output", one("<= 18", ">= 18", hit="A", then=["7", "7"]), AGES, 0, {TABLE: Due(unique=False)}),
    ("an overlap at the end of what can come", one("<= 18", ">= 18"), {"a": "[18..120]"}, 4, {TABLE: Due(unique=False)}),
    ("a rule that hits for no value", one("[0..120]", "[9..5]"), AGES, 4, ONE),
    ("a rule that never decides, whatever comes", one("-", "5", hit="F"), AGES, 4, {TABLE: MANY}),
    ("under F", one("< 18", "<= 60", "-", hit="F"), AGES, 0, {TABLE: MANY}),
    ("under P", one("< 18", ">= 18", hit="P", outputs=LISTED, then=['"HIGH"', '"LOW"']), AGES, 0, {TABLE: MANY}),
    ("under C+", one("< 18", ">= 18", "-", hit="C+"), AGES, 0, {TABLE: MANY}),
    ("two columns", one(["< 18", '"ja"'], ["< 18", '"nein"'], [">= 18", "-"]), AGES | {"b": '"ja", "nein"'}, 0, ONE),
    ("two columns, and a gap of both", one(["< 18", '"ja"'], ["< 17", '"nein"'], [">= 18", "-"]), AGES | {"b": '"ja", "nein"'}, 4,
     {TABLE: gap((17, "nein"), others=[(17, "ja"), (16, "nein"), (17, "wer"), (18, "nein"), (None, "nein")])}),
    ("a column that is worked out", one("<= 18", "> 18", columns=["a + 1"], needs=["a"]), AGES, 0, ONE),
    ("the same, up to its greatest", one("[1..120]", columns=["a + 1"], needs=["a"]), AGES, 4,
     {TABLE: gap(121, others=[0, 1, 120, 122, None])}),
    ("the greatest of a list", one("[0..9]", "[10..20]", columns=["max([0, a])"], needs=["a"]), {"a": "[-5..20]"}, 0, ONE),
    ("the same, and its least is left out", one("[1..9]", "[10..20]", columns=["max([0, a])"], needs=["a"]), {"a": "[-5..20]"}, 4,
     {TABLE: gap(0, others=[-1, 1, 9, 20, 21, None])}),
    ("the least of a list, or null", one("[-5..9]", columns=["min([9, a])"], needs=["a"]), {"a": "[-5..20], null"}, 4,
     {TABLE: gap(None, others=[-5, 0, 9, 10])}),
    ("the sum of a list", one("[12..16]", "[17..20]", columns=["sum([a, 2, a])"], needs=["a"]), {"a": "[5..9]"}, 0, ONE),
    ("how many a list has", one("2", columns=["count([a, 7])"], needs=["a"]), AGES, 0, ONE),
    ("a choice of texts", one('"x"', '"y"', columns=['if a > 9 then "x" else "y"'], needs=["a"]), AGES, 0, ONE),
    ("a test that a name decides", one("x", names="x"), {"a": "5"}, 4, {TABLE: Due(None)}),
    ("a table over what a table gives", chained(*WORDS), AGES, 0, {P: YES, D: YES}),
    ("the same, and one is left out", chained(*WORDS[:2]), AGES, 4, {P: YES, D: gap("C", others=["A", "B", "other", None])}),
    ("the same of what gives null, too", chained(*WORDS), {"a": "[0..120], null"}, 4,
     {P: gap(None, others=[0, 120, 121]), D: gap(None, others=["A", "B", "C", "other"])}),
    ("one of its results can't come", chained(*WORDS[:2]), {"a": "[0..65]"}, 0, {P: YES, D: YES}),
    ("no service needs the second", chained(*WORDS[:2], services=[FIRST]), AGES, 4, {P: YES}),
    ("no service", chained(*WORDS, services=[]), AGES, 4, {}),
    ("a hundred services", chained(*WORDS, services=[FIRST | {"name": f"t{n}"} for n in range(100)]), AGES, 4, {P: YES}),
    ("over a hundred services", chained(*WORDS, services=[FIRST | {"name": f"t{n}"} for n in range(101)]), AGES, 4, {}),
    ("an entry over a table", model(ENTRY, inputs=("a",), needs=("a",)), AGES, 0,
     {"/decisions/0/expr/context/0/expr/table": YES, "/decisions/0/expr/result/table": YES}),
    ("members of lists", model({"list": [table("[0..120]", columns=["a"]), {"list": [table("[0..119]", columns=["a"])]}]}, inputs=("a",), needs=("a",)),
     AGES, 4, {"/decisions/0/expr/list/0/table": YES, "/decisions/0/expr/list/1/list/0/table": gap(120, others=[0, 119, 121, None])}),
    ("the parcel", json.loads((EXAMPLES / "parcel.json").read_text()), {"weight": ">= 0", "express": "true, false"}, 0, ONE),
]


def line_of(whole: Json, domains: Json | None) -> str:
    return json.dumps({"model": whole} if domains is None else {"model": whole, "domains": domains})


def wrong_table(told: Told, due: Due | None) -> Iterator[str]:
    line = told.line
    if (line.get("comes") is True) != (due is not None):
        yield f"comes is {line.get('comes')}"
    if due is None:
        return
    answers = [line.get(it) for it in ("complete", "asked", "words")]
    if any(it is not due.complete for it in answers) or line.get("unique", NONE) != due.unique:
        yield f"{answers}, {line.get('unique', NONE)}, not {due.complete}, {due.unique}"
    gaps = told.of("gap")
    yield from (f"{it.line} is not asked" for it in gaps if not it.is_asked)
    yield from (f"{it} is in no gap" for it in map(point_of, due.gaps) if not any(one.has(it) for one in gaps))
    yield from (f"{it} is in a gap" for it in map(point_of, due.others) if any(one.has(it) for one in gaps))
    yield from (f"a gap {it.line}" for it in gaps if due.complete)


def wrong(program: Program, whole: Json, domains: Json | None, status: int, due: dict[str, Due]) -> Iterator[str]:
    """What is wrong with what is told of a model's tables."""
    text = line_of(whole, domains)
    found, said = program.check(text, "--json", "--tables", "--strict")
    if found != status:
        yield f"status {found}, and {status} is due"
    tables = tables_of([json.loads(line) for line in said.splitlines()])
    if not tables.keys() >= due.keys():
        yield f"the tables {list(tables)}"
        return
    for pointer, told in tables.items():
        columns = len(told.of("gap")[0].line["cells"]) if told.of("gap") else 0  # type: ignore[arg-type]
        yield from [f"{pointer}: {fault}"] if (fault := told.fault(columns)) and "values for" not in fault else []
        yield from (f"{pointer}: {it}" for it in wrong_table(told, due.get(pointer)))


# The tables of a loan, each over what others give: of none a value without a rule can come, and no two rules of any hit. Among every value
# they have nine gaps.
LOAN_DOMAINS: Json = {
    "age": "[18..99]", "income": "[0..1000000]", "spent": "[0..1000000]", "amount": "[1000..500000]", "job": '"employed", "own", "retired"',
    "history": '"good", "fair", "poor"', "purpose": '"home", "car", "other"',
}


def loan_model() -> Json:
    def decision(name: str, needs: list[str], columns: list[str], *rules: tuple[list[str], str]) -> Json:
        made = table(*(when for when, _ in rules), columns=columns)
        made["table"]["rules"] = [{"when": when, "then": [then]} for when, then in rules]  # type: ignore[index]
        return {"name": name, "needs": needs, "expr": made}

    decisions = [
        decision("stage", ["age"], ["age"], (["< 26"], '"young"'), (["[26..64]"], '"middle"'), (["> 64"], '"senior"')),
        decision("standing", ["history", "job"], ["history", "job"], (['"good"', "-"], '"strong"'), (['"fair"', '"employed", "retired"'], '"strong"'),
                 (['"fair"', '"own"'], '"weak"'), (['"poor"', "-"], '"weak"')),
        decision("risk", ["stage", "standing"], ["stage", "standing"], (['"young"', '"strong"'], "2"), (['"middle", "senior"', '"strong"'], "1"),
                 (["-", '"weak"'], "3")),
        decision("left", ["income", "spent"], ["income - spent"], (["< 0"], '"none"'), (["[0..500)"], '"little"'), ([">= 500"], '"enough"')),
        decision("most", ["risk", "left"], ["left", "risk"], (['"none"', "-"], "0"), (['"little"', "[1..2]"], "20000"), (['"little"', "3"], "0"),
                 (['"enough"', "1"], "500000"), (['"enough"', "2"], "100000"), (['"enough"', "3"], "20000")),
        decision("rate", ["risk", "purpose"], ["risk", "purpose"], (["1", '"home"'], "300"), (["1", '"car", "other"'], "450"), ([">= 2", "-"], "700")),
        decision("answer", ["most", "amount", "rate"], ["most - amount", "rate"], (["< 0", "-"], '"no"'), ([">= 0", "< 500"], '"yes"'),
                 ([">= 0", ">= 500"], '"ask"')),
    ]
    names = [str(it["name"]) for it in decisions]
    service = {"name": "s", "outputs": ["answer"], "encapsulated": names[:-1], "inputDecisions": [], "inputData": list(LOAN_DOMAINS)}
    return {"inputs": list(LOAN_DOMAINS), "decisions": decisions, "services": [service]}


# Why; the model; its domains; and the lines that are due for people.
WORDED: list[tuple[str, Json, Json, list[str]]] = [
    ("complete", one("[0..17]", "[18..120]"), AGES, ['table: decisions[0] "d": 2 rules, U: complete for what can come, no two rules overlap']),
    ("a gap", one("[0..17]", "[18..119]"), AGES,
     ['table: decisions[0] "d": 2 rules, U: not complete for what can come, no two rules overlap', "  no rule: a 120    e.g. 120    null"]),
    ("a gap of two columns", one(["< 18", '"ja"'], ["< 17", '"nein"'], [">= 18", "-"]), AGES | {"b": '"ja", "nein"'},
     ['table: decisions[0] "d": 3 rules, U: not complete for what can come, no two rules overlap', '  no rule: a 17, b "nein"    e.g. 17, "nein"    null']),
    ("a gap of null alone", one("[0..120]", outputs=DEFAULT), {"a": "[0..120], null"},
     ['table: decisions[0] "d": 1 rule, U: not complete for what can come, no two rules overlap', "  no rule: a null    e.g. null    the default"]),
    ("an overlap", one("<= 18", ">= 18"), AGES,
     ['table: decisions[0] "d": 2 rules, U: complete for what can come, rules overlap', "  rules 1 and 2 both apply: a 18    U gives null"]),
    ("under C", one("-", hit="C"), AGES, ['table: decisions[0] "d": 1 rule, C: complete for what can come']),
    ("the loan", loan_model(), LOAN_DOMAINS,
     [f'table: decisions[{n}] "{name}": {count} rules, U: complete for what can come, no two rules overlap'
      for n, (name, count) in enumerate({"stage": 3, "standing": 4, "risk": 3, "left": 3, "most": 6, "rate": 3, "answer": 3}.items())]),
]


def results_of(program: Program) -> list[Result]:
    """Each row, by whether what is told is what is due; what is wrong is printed."""
    found = list[Result]()
    for why, whole, domains, status, due in ROWS:
        try:
            faults = list(wrong(program, whole, domains, status, due))
        except (ValueError, KeyError, TypeError, subprocess.SubprocessError) as error:
            faults = [f"what is told can't be read: {error!r}"]
        found.append((f"what can come: {why}", not faults))
        print(*(f"what can come: {why}: {it}" for it in faults[:2]), sep="\n", end="\n" * bool(faults))
    for why, whole, domains, due_lines in WORDED:
        status, said = program.check(line_of(whole, domains), "--tables", "--strict")
        lines = [unplaced(it) for it in said.splitlines() if it.startswith(("table: ", "  no rule", "  rules", "  rule ", "  not decided"))]
        is_due = lines == due_lines and status == (0 if all("not " not in it and "both" not in it for it in due_lines) or "the default" in said else 4)
        if not is_due:
            print(f"what can come, in words: {why}: status {status}, {lines}")
        found.append((f"what can come, in words: {why}", is_due))
    return found
