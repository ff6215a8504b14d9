"""Where tables stand in a model, many findings, and what stands beside: each row is a model and what is due of its tables."""

from __future__ import annotations

import json
import subprocess
from collections.abc import Callable

from checking.program import Program, Result

from .asking import told_of
from .row import Json, Row
from .told import Told


def table(*when: str | list[str], columns: list[str], hit: str = "U") -> Json:
    return Row("", list(when), (None,) * 4, columns=columns, hit=hit).table()


def model(*expressions: object, inputs: tuple[str, ...] = ("a", "b"), needs: tuple[str, ...] = ("a", "b")) -> Json:
    """A model of these decisions, each of which needs the same, and a service of all."""
    decisions = [{"name": f"d{n}", "needs": list(needs), "expr": it} for n, it in enumerate(expressions)]
    outputs = [it["name"] for it in decisions]
    service = {"name": "s", "outputs": outputs, "encapsulated": [], "inputDecisions": [], "inputData": list(inputs)}
    return {"inputs": list(inputs), "decisions": decisions, "services": [service] if decisions else []}


SIGN = table("< 0", ">= 0", columns=["a"])
FIVE = table("5", "5", columns=["b"])
BOXES = {"list": ["1", SIGN, {"list": [FIVE]}]}
ENTRIES = {
    "context": [{"name": "p", "expr": SIGN}, {"name": "b", "expr": "p"}, {"name": "q", "expr": FIVE}],
    "result": table("true", columns=["p"]),
}


def answers_of(told: Told) -> tuple[object, object]:
    return told.line["asked"], told.line["unique"]


def is_in_order(program: Program) -> bool:
    """Tables in lists, entries and results, in the order of the text, each with its pointer and its own findings."""
    tables = told_of(program, model(FIVE, BOXES, "a", ENTRIES, SIGN))
    due = {
        "/decisions/0/expr/table": (False, False),
        "/decisions/1/expr/list/1/table": (True, True),
        "/decisions/1/expr/list/2/list/0/table": (False, False),
        "/decisions/3/expr/context/0/expr/table": (True, True),
        "/decisions/3/expr/context/2/expr/table": (False, False),
        "/decisions/3/expr/result/table": (False, True),
        "/decisions/4/expr/table": (True, True),
    }
    found = {place: answers_of(it) for place, it in tables.items()}
    return list(tables) == list(due) and found == due and all(it.line["table"] == place for place, told in tables.items() for it in told.findings)


def is_hidden(program: Program) -> bool:
    """An entry hides an input of its name: in the column `b` behind the entry `b`, and in `p`, a witness is no request; in the
    column `a`, which no entry hides, it is one."""
    tables = told_of(program, model(ENTRIES))
    place = "/decisions/0/expr/"
    sure = {it: [finding.line.get("sure", True) for finding in tables[place + it].of("gap")] for it in ("context/0/expr/table", "context/2/expr/table", "result/table")}
    return all(sure.values()) and all(sure["context/0/expr/table"]) and not any(sure["context/2/expr/table"]) and not any(sure["result/table"])


def is_unneeded(program: Program) -> bool:
    """A column of an input that the decision doesn't need is null, whatever a request brings: a witness is no request."""
    tables = told_of(program, model(SIGN, needs=("b",)))
    gaps = tables["/decisions/0/expr/table"].of("gap")
    return bool(gaps) and all(it.line.get("sure", True) is False and "inputs" not in it.line for it in gaps)


def are_pairs_counted(program: Program) -> bool:
    """Of the 11,175 pairs of 150 rules that all hit a hundred are told, and then how many more there are."""
    told = told_of(program, model(table(*["-"] * 150, columns=["a"])))["/decisions/0/expr/table"]
    pairs = {tuple(it.rules) for it in told.of("overlap")}
    return told.line["unique"] is False and len(pairs) == 100 and told.more == {"overlap": 11_075} and all(i < j for i, j in pairs)


def are_gaps_counted(program: Program) -> bool:
    """A rule for each of 150 pairs (n, n) leaves a gap beside each: a hundred are told, and how many more there are."""
    rules = [[str(n), str(n)] for n in range(150)]
    told = told_of(program, model(table(*rules, columns=["a", "b"])))["/decisions/0/expr/table"]
    gaps = told.of("gap")
    taken = any(it.has((n, n)) for it in gaps for n in range(150))
    return told.line["asked"] is False and len(gaps) == 100 and told.more.get("gap", 0) >= 50 and not taken


def is_behind_warnings(program: Program) -> bool:
    """Behind the lawful model and its warnings stand the tables, and behind them what is told of requests."""
    line = json.dumps(model(SIGN, FIVE, inputs=("a", "b", "c")))
    text = f'{line}\n{{"client":"c","service":"s","inputs":{{"a":1,"b":2}}}}\n'
    status, said = program.check(text, "--requests", "--json", "--tables")
    kinds = [next((it for it in ("lawful", "warning", "note", "finding", "table") if it in json.loads(line)), "") for line in said.splitlines()]
    ranks = [{"lawful": 0, "warning": 1, "finding": 2, "table": 2, "note": 3}.get(it, 4) for it in kinds]
    return status == 0 and {"lawful", "warning", "table", "finding", "note"} <= set(kinds) and ranks == sorted(ranks)


# What a warning says that a finding of the tables says again.
TOLD_AGAIN = ("no value meets", "has the same tests, so", "takes everything, so")


def without_told_again(text: str) -> str:
    return "".join(line for line in text.splitlines(keepends=True) if not any(it in line for it in TOLD_AGAIN))


def is_same_without(program: Program) -> bool:
    """What stands before the tables is what is told without them, but for warnings that these tell again; of a faulty model, and of one
    without tables, nothing is added."""
    lawful = json.dumps(model(SIGN, FIVE, inputs=("a", "b", "c")))
    others = [json.dumps(model("a + 1", {"list": ["a"]})), json.dumps(model()), json.dumps(model("1 <", FIVE)), json.dumps(model(table("5 <", columns=["a"]))), "{"]
    for options in ((), ("--json",)):
        before, after = program.check(lawful, *options), program.check(lawful, *options, "--tables")
        if before[0] != after[0] or not after[1].startswith(without_told_again(before[1])) or after[1] == before[1]:
            return False
        if any(program.check(it, *options) != program.check(it, *options, "--tables") for it in others):
            return False
    return True


def is_one_model(program: Program) -> bool:
    """A model on a line of its own, `{"model":M}`, has the same tables, with pointers into M."""
    return list(told_of(program, {"model": model(SIGN)})) == ["/decisions/0/expr/table"]


def is_same_again(program: Program) -> bool:
    """Told again, everything is the same."""
    text = json.dumps(model(FIVE, BOXES, ENTRIES))
    return program.check(text, "--json", "--tables") == program.check(text, "--json", "--tables")


CASES: list[Callable[[Program], bool]] = [
    is_in_order,
    is_hidden,
    is_unneeded,
    are_pairs_counted,
    are_gaps_counted,
    is_behind_warnings,
    is_same_without,
    is_one_model,
    is_same_again,
]


def results_of(program: Program) -> list[Result]:
    found = list[Result]()
    for case in CASES:
        try:
            found.append((case.__doc__ or "", case(program)))
        except (ValueError, KeyError, TypeError, subprocess.SubprocessError) as error:
            print(f"{case.__name__}: {error!r}")
            found.append((case.__doc__ or "", False))
    return found
