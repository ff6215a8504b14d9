"""What is odd in lawful models."""

from __future__ import annotations

import json

from . import odd_rows as rows
from .program import Program, Result, path_of

CELL = "decisions[1].expr.table.rules[0].when[1]"


def warnings(program: Program, text: str) -> list[str] | None:
    """What is odd in a model, place by place; None where it is not lawful."""
    said = program.lines(text)
    if "lawful" not in said[0]:
        return None
    return [f"{path_of(it)}: {it['warning']}: {it['said']}" for it in said if "warning" in it and "pointer" in it]


def warned(program: Program, model: str, old: str, new: str) -> list[str] | None:
    """What is odd in a sound model with a text in the place of another."""
    if old not in model:
        return None
    return warnings(program, model.replace(old, new, 1))


def of_cell(program: Program, cell: str) -> list[str] | None:
    """What is odd in a sound model with a cell in the place of another."""
    return warned(program, rows.SOUND, "[18..65)", json.dumps(cell)[1:-1])


def is_silent_of_brought(program: Program) -> bool:
    """Nothing is said of what a decision never gives whose value a request may bring."""
    model = rows.TABLES
    for old, new in rows.BROUGHT:
        if old not in model:
            return False
        model = model.replace(old, new, 1)
    return warnings(program, model) == []


def is_counted(program: Program) -> bool:
    """Of 150 inputs that nothing needs a hundred are told, and then how many more there are."""
    said = program.lines(json.dumps({"inputs": [f"a{n}" for n in range(150)], "decisions": [], "services": []}))
    return len(said) == 102 and said[101] == {"warning": "unneeded", "more": 50} and all("pointer" in it for it in said[1:101])


def all_rows(program: Program) -> list[Result]:
    found = [(f"a sound model {n}", warnings(program, it) == []) for n, it in enumerate((rows.SOUND, rows.LOAN, rows.TABLES))]
    for some in (rows.UNBOUND, rows.UNREACHED, rows.UNUSED, rows.VALUES, rows.KINDS, rows.PRIORITY, rows.NEVER_IN_TEXT):
        found += [(f"odd {new!r}", warned(program, rows.SOUND, old, new) == due) for old, new, due in some]
    for some in (rows.ORDER, rows.SLIPS, rows.NEVER):
        found += [(f"odd {new!r}", warned(program, rows.TABLES, old, new) == due) for old, new, due in some]
    found.append(("brought", is_silent_of_brought(program)))
    for cell in rows.UNMET:
        found.append((f"unmet {cell}", of_cell(program, cell) == [f"{CELL}: unmet tests: no value meets {cell}"]))
    found += [(f"met {cell}", of_cell(program, cell) == []) for cell in rows.MET]
    return [*found, ("a hundred of a kind", is_counted(program))]
