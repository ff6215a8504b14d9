"""Tables within what comes to them: what the engine tells of each where domains are declared beside the model."""

from __future__ import annotations

import json
import subprocess
from dataclasses import dataclass, field

from checking.program import Result

from .row import Json

YES, NO = True, False


@dataclass
class Due:
    """What is due of a table: whether what comes to it is known, whether it is complete for that and for the kinds asked, whether two rules
    overlap, and the witnesses of its gaps and overlaps, where these can be only such. Where every value comes to a column, gaps beside the
    kinds that its tests ask are told too."""

    comes: bool
    complete: bool | None
    unique: bool | None = YES
    asked: bool | None = None
    gaps: list[list[object]] | None = None
    overlaps: list[list[object]] = field(default_factory=list)
    every: bool = NO

    def faults(self, line: Json, findings: list[Json]) -> list[str]:
        due = {"complete": self.complete, "asked": self.complete if self.asked is None else self.asked}
        found = [f"{key}: {line.get(key)}, and {it} is due" for key, it in due.items() if line.get(key) is not it]
        if line.get("unique") is not self.unique:
            found.append(f"unique: {line.get('unique')}, and {self.unique} is due")
        if (line.get("comes") is True) != self.comes or "comes" in line and list(line)[:2] != ["table", "comes"]:
            found.append(f"comes: {line}")
        gaps = [it["witness"] for it in findings if it["finding"] == "gap"]
        if self.gaps is not None and gaps != self.gaps or self.gaps is None and bool(gaps) != (self.complete is NO):
            found.append(f"gaps: {gaps}")
        if self.comes and not self.every and any(it.get("asked") is not True for it in findings if it["finding"] == "gap"):
            found.append("a gap that isn't asked, though all that comes is")
        overlaps = [it["witness"] for it in findings if it["finding"] == "overlap"]
        return found if overlaps == self.overlaps else [*found, f"overlaps: {overlaps}"]


WHOLE = Due(YES, YES, gaps=[])
# As without domains: complete for the numbers asked, and not for null and others.
AS_EVER = Due(NO, NO, asked=YES)


def table(column: str, *when: str, hit: str = "U", default: str | None = None, gives: list[str] | None = None) -> Json:
    """A table over one column."""
    output = {"name": "r"} | ({} if default is None else {"default": default})
    texts = gives or [str(n) for n in range(len(when))]
    rules = [{"when": [it], "then": [then]} for it, then in zip(when, texts, strict=True)]
    return {"table": {"hit": hit, "inputs": [column], "outputs": [output], "rules": rules}}


def service(name: str, output: str, inputs: list[str], encapsulated: tuple[str, ...] = (), decisions: tuple[str, ...] = ()) -> Json:
    return {"name": name, "outputs": [output], "encapsulated": list(encapsulated), "inputDecisions": list(decisions), "inputData": inputs}


def one(expr: object, needs: tuple[str, ...] = ("age",)) -> Json:
    """A model of one decision, and a service for it."""
    return {"inputs": list(needs), "decisions": [{"name": "d", "needs": list(needs), "expr": expr}], "services": [service("s", "d", list(needs))]}


def priced(*when: str, also: tuple[Json, ...] = ()) -> Json:
    """A price by zones, of which a table gives A, B and C."""
    zone = {"name": "zone", "needs": ["kind"], "expr": table("kind", '"a"', '"b"', hit="F", default='"C"', gives=['"A"', '"B"'])}
    price = {"name": "price", "needs": ["zone"], "expr": table("zone", *when)}
    return {"inputs": ["kind"], "decisions": [zone, price], "services": [service("s", "price", ["kind"], ("zone",)), *also]}


def two_columns(*rules: tuple[str, str]) -> Json:
    written = [{"when": list(it), "then": [str(n)]} for n, it in enumerate(rules)]
    return one({"table": {"hit": "U", "inputs": ["age", "kind"], "outputs": [{"name": "r"}], "rules": written}}, ("age", "kind"))


D = "/decisions/0/expr/table"
ZONE, PRICE = D, "/decisions/1/expr/table"
AGES, KIND = {"age": "[0..120]"}, {"kind": '"a", "b", "c"'}
ADULT = table("age", "< 18", ">= 18")
HOLE = table("age", "[0..64]", "[66..120]")
# The kind "c" is no word of the table's tests, and so told with all other texts; the default answers it.
ZONES = Due(YES, NO, unique=None)
UNUSED = {"name": "unused", "needs": ["age"], "expr": ADULT}
COLUMNS = [("< 18", '"ja"'), ("< 18", '"nein"'), (">= 18", "-")]
# A service to which the zone is given, of which nothing is declared: any value comes.
GIVEN_ZONE = service("t", "price", [], decisions=("zone",))

# Why; the model; what is declared; the status with --strict; and what is due of each table, in their order.
ROWS: list[tuple[str, Json, Json | None, int, dict[str, Due]]] = [
    ("all ages have a rule", one(ADULT), AGES, 0, {D: WHOLE}),
    ("without domains all is as it was", one(ADULT), None, 0, {D: AS_EVER}),
    ("with none declared too", one(ADULT), {}, 0, {D: AS_EVER}),
    ("one age has none", one(HOLE), AGES, 4, {D: Due(YES, NO, gaps=[[65]])}),
    ("it has the default", one(table("age", "[0..64]", "[66..120]", default="9")), AGES, 0, {D: Due(YES, NO, gaps=[[65]])}),
    ("the first and the last age are looked at", one(table("age", "[1..119]", hit="C")), AGES, 4, {D: Due(YES, NO, unique=None)}),
    ("an age in the hole never comes", one(HOLE), {"age": "[0..64]"}, 0, {D: WHOLE}),
    ("both words have a rule", one(table("age", '"ja"', '"nein"')), {"age": '"ja", "nein"'}, 0, {D: WHOLE}),
    ("one of two words has none", one(table("age", '"ja"', '"wer"')), {"age": '"ja", "nein"'}, 4, {D: Due(YES, NO)}),
    ("a word with a rule never comes", one(table("age", '"ja"', '"nein"', '"wer"')), {"age": '"ja", "nein"'}, 0, {D: WHOLE}),
    ("both truth values have a rule", one(table("age", "true", "false")), {"age": "true, false"}, 0, {D: WHOLE}),
    ("null may come and has no rule", one(table("age", "< 5", ">= 5")), {"age": "[0..9], null"}, 4, {D: Due(YES, NO, gaps=[[None]])}),
    ("null may come and has one", one(table("age", "< 5", ">= 5", "null")), {"age": "[0..9], null"}, 0, {D: WHOLE}),
    ("two rules meet at 18", one(table("age", "<= 18", ">= 18")), AGES, 4, {D: Due(YES, YES, unique=NO, gaps=[], overlaps=[[18]])}),
    ("18 never comes", one(table("age", "<= 18", ">= 18")), {"age": "[19..120]"}, 0, {D: WHOLE}),
    ("a rule that hits for nothing that comes can still hit", one(table("age", "< 0", ">= 0")), AGES, 0, {D: WHOLE}),
    ("under A the same outputs where two rules meet", one(table("age", "<= 18", ">= 18", hit="A", gives=["1", "1"])), AGES, 0,
     {D: Due(YES, YES, unique=NO, gaps=[])}),
    ("a sum of what comes", one(table("age + 1", "<= 18", "(18..121]")), AGES, 0, {D: WHOLE}),
    ("the greatest sum has no rule", one(table("age + 1", "<= 18", "(18..121)")), AGES, 4, {D: Due(YES, NO, gaps=[[121]])}),
    ("two columns", two_columns(*COLUMNS), {**AGES, "kind": '"ja", "nein"'}, 0, {D: WHOLE}),
    ("two columns, of which one is not declared", two_columns(*COLUMNS), AGES, 4, {D: Due(YES, NO, every=YES)}),
    ("texts by order, of which none is declared", one(table("kind", '< "m"', '>= "m"'), ("kind", "age")), AGES, 0, {D: Due(YES, NO, asked=YES, every=YES)}),
    ("texts by order, of which two come", one(table("kind", '< "m"', '>= "m"'), ("kind",)), {"kind": '"a", "z"'}, 0, {D: WHOLE}),
    ("a table feeds a table", priced('"A"', '"B"', '"C"'), KIND, 0, {ZONE: ZONES, PRICE: WHOLE}),
    ("it gives what has no rule", priced('"A"', '"B"'), KIND, 4, {ZONE: ZONES, PRICE: Due(YES, NO)}),
    ("nothing is known of a given zone", priced('"A"', '"B"', '"C"', also=(GIVEN_ZONE,)), KIND, 4, {ZONE: ZONES, PRICE: Due(YES, NO, every=YES)}),
    ("in an entry of a context", one({"context": [{"name": "p", "expr": ADULT}], "result": "p"}), AGES, 0, {"/decisions/0/expr/context/0/expr/table": WHOLE}),
    ("behind an entry, which it asks", one({"context": [{"name": "p", "expr": "age + 1"}], "result": table("p", "[1..120]")}), AGES, 4,
     {"/decisions/0/expr/result/table": Due(YES, NO, gaps=[[121]])}),
    ("a list of tables", one({"list": [ADULT, "1", HOLE, {"list": [ADULT]}]}), AGES, 4,
     {"/decisions/0/expr/list/0/table": WHOLE, "/decisions/0/expr/list/2/table": Due(YES, NO, gaps=[[65]]), "/decisions/0/expr/list/3/list/0/table": WHOLE}),
    ("a decision that no service needs, before one that is needed",
     {"inputs": ["age"], "decisions": [UNUSED, {"name": "d", "needs": ["age"], "expr": HOLE}], "services": [service("s", "d", ["age"])]}, AGES, 4,
     {D: AS_EVER, PRICE: Due(YES, NO, gaps=[[65]])}),
    ("more services than are looked at", {**one(ADULT), "services": [service(f"s{n}", "d", ["age"]) for n in range(101)]}, AGES, 0, {D: AS_EVER}),
    ("a hundred are", {**one(ADULT), "services": [service(f"s{n}", "d", ["age"]) for n in range(100)]}, AGES, 0, {D: WHOLE}),
]


def tables_of(lines: list[Json]) -> dict[str, tuple[Json, list[Json]]]:
    """The line of each table, and those of its findings, which come behind it."""
    found = dict[str, tuple[Json, list[Json]]]()
    for line in lines:
        if "table" in line:
            found[str(line["table"])] = (line, [])
        elif "finding" in line:
            found[next(reversed(found))][1].append(line)
    return found


def faults_of(engine: str, whole: Json, domains: Json | None, status: int, due: dict[str, Due]) -> list[str]:
    given = json.dumps({"model": whole} if domains is None else {"model": whole, "domains": domains}).encode()
    found = list[str]()
    for options, wanted in ((["--tables"], 0), (["--tables", "--strict"], status)):
        ran = subprocess.run([engine, "check", *options], input=given, capture_output=True, timeout=60, check=False)
        if ran.returncode != wanted:
            found.append(f"{options}: status {ran.returncode}, and {wanted} is due")
            continue
        tables = tables_of([json.loads(it) for it in ran.stdout.splitlines()])
        if list(tables) != list(due):
            found.append(f"the tables {list(tables)}")
            continue
        found += [f"{place}: {fault}" for place, it in due.items() for fault in it.faults(*tables[place])]
    return found


def results_of(engine: str) -> list[Result]:
    """Each row, by whether what the engine tells is what is due; what is wrong is printed."""
    found = list[Result]()
    for why, whole, domains, status, due in ROWS:
        faults = faults_of(engine, whole, domains, status, due)
        for fault in faults:
            print(f"{why}: {fault}")
        found.append((why, not faults))
    return found
