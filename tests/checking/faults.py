"""Mistakes in a small model, each of which is told at its place alone."""

from __future__ import annotations

import json

from . import fault_rows as rows
from .program import Json, Program, Result, told

CYCLE = "needs itself, directly or through others"


def words_of(some: rows.Rows) -> set[str]:
    """What is said in these rows."""
    return {it.split(": ", 1)[1] for _, _, due in some for it in due}


def places(program: Program, text: str) -> list[Json]:
    return [it for it in program.lines(text) if "fault" in it and "pointer" in it]


def holds(program: Program, words: set[str], old: str, new: str, due: list[str]) -> bool:
    """Whether just these places are told of the mistakes that are looked for, in order."""
    text = rows.LAWFUL.replace(old, new)
    said = [told(it) for it in places(program, text) if it["said"] in words]
    return text != rows.LAWFUL and said == due


LOOKS = {
    "unread": rows.UNREAD,
    "refused": rows.REFUSED,
    "unlawful": rows.UNLAWFUL,
    "repeated": rows.REPEATED,
    "unknown": rows.UNKNOWN,
    "unfit": rows.UNFIT,
    "cycle": rows.CYCLES,
    "service": rows.SERVICES,
}


def is_counted(program: Program) -> bool:
    """Of 150 places without a reading a hundred are told, the last of them the hundredth, and then how many more there are."""
    text = rows.LAWFUL.replace('["first",', "[" + '"(",' * 150)
    said = [it for it in program.lines(text) if it["fault"] == "expression"]
    last = told(said[100]) if len(said) == 102 else ""
    return last == "decisions[2].expr.result.list[99]: no expression" and said[101].get("more") == 50


def is_not_looked_into(program: Program, words: set[str]) -> bool:
    """Where a need is unknown, neither cycles nor services are told."""
    said = {it["said"] for it in places(program, rows.LAWFUL.replace('"needs": ["age"]', '"needs": ["ages"]'))}
    return bool(said) and not said & words


def all_rows(program: Program) -> list[Result]:
    found: list[Result] = []
    for name, some in LOOKS.items():
        words = words_of(some)
        found += [(f"{name} {new!r}", holds(program, words, old, new, due)) for old, new, due in some]
    deep = places(program, rows.LAWFUL.replace("< 5", ">= 5 and < 7"))
    found += [
        ("the first hundred", is_counted(program)),
        ("no cycles where a need is unknown", is_not_looked_into(program, {CYCLE})),
        ("no services where a need is unknown", is_not_looked_into(program, words_of(rows.SERVICES))),
        ("a place as a pointer", [it["pointer"] for it in deep] == ["/decisions/1/expr/table/rules/0/when/0"]),
        ("a lawful model", program.check(rows.LAWFUL)[0] == 0 and places(program, rows.LAWFUL) == []),
        ("a lawful model as JSON", "lawful" in program.lines(rows.LAWFUL)[0] and bool(json.loads(rows.LAWFUL))),
    ]
    return found
