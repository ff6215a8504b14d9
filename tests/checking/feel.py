"""FEEL texts without a reading: where they stop, what is due there, and which sentence helps."""

from __future__ import annotations

import json

from .feel_rows import DUE, EXPRESSIONS, FAR, HINTS, LITERALS, NEAR, TESTS, WITHOUT_HINT
from .program import Json, Program, Result

# How many places of a fault are told at most.
MOST = 100


def model_of(kind: str, texts: list[str]) -> str:
    """A model that has these texts, each of this kind."""
    if kind == "expression":
        logic: Json = {"list": texts}
    elif kind == "tests":
        rules = [{"when": [it], "then": ["1"]} for it in texts]
        logic = {"table": {"hit": "U", "inputs": ["1"], "outputs": [{"name": "x"}], "rules": rules}}
    else:
        logic = {"table": {"hit": "U", "inputs": [], "outputs": [{"name": "x", "values": texts}], "rules": []}}
    return json.dumps({"inputs": [], "decisions": [{"name": "d", "needs": [], "expr": logic}], "services": []})


def index_of(place: Json) -> int:
    """Which of the texts stands at a place: the last number of its pointer, but for the entry in its rule."""
    numbers = [int(it) for it in str(place["pointer"]).split("/") if it.isdigit()]
    return numbers[1] if "/rules/" in str(place["pointer"]) else numbers[-1]


def places(program: Program, kind: str, texts: list[str]) -> dict[str, Json]:
    """What is told of each of these texts that has no reading."""
    found: dict[str, Json] = {}
    for first in range(0, len(texts), MOST):
        some = texts[first : first + MOST]
        for it in program.lines(model_of(kind, some)):
            if it.get("fault") == "expression" and "pointer" in it:
                found[some[index_of(it)]] = it
    return found


def before_and(text: str, at: int, rest: str) -> str:
    """What stands before a byte of a text, and this behind it."""
    return text.encode()[:at].decode() + rest


def stops(program: Program, kind: str, rows: list[tuple[str, int, str]]) -> list[Result]:
    """Each text stops where it is due, with something that could stand there, and what stands before can be completed."""
    found = places(program, kind, [text for text, _, _ in rows])
    unread = places(program, kind, [before_and(*row) for row in rows])

    def holds(text: str, at: int, rest: str) -> bool:
        place = found.get(text, {})
        return place.get("stop") == at and bool(place.get("due")) and before_and(text, at, rest) not in unread

    return [(f"stop of {kind} {text!r}", holds(text, at, rest)) for text, at, rest in rows]


def is_due(program: Program, kind: str, text: str, character: int, due: str) -> bool:
    """What is due where a text stops, and the number of the character there, for people too."""
    place = places(program, kind, [text]).get(text, {})
    said = program.check(model_of(kind, [text]))[1]
    where = "at the end" if character > len(text) else f"(character {character})"
    before = text.encode()[: int(str(place.get("stop", 0)))].decode()
    return place.get("due") == due and len(before) + 1 == character and f"{where}: {due} is due\n" in said


def hints(program: Program) -> list[Result]:
    found = {kind: places(program, kind, [it for other, it, _ in HINTS if other == kind]) for kind in ("expression", "tests", "literal")}
    without = places(program, "expression", WITHOUT_HINT)
    rows = [(f"hint of {text!r}", found[kind].get(text, {}).get("hint") == hint) for kind, text, hint in HINTS]
    return rows + [(f"no hint of {text!r}", text in without and "hint" not in without[text]) for text in WITHOUT_HINT]


def near_hint(program: Program, one: str, other: str) -> object:
    """What helps where a decision needs a name, and the model has only another one."""
    needing = {"name": "needing", "needs": [other], "expr": "1"}
    said = program.lines(json.dumps({"inputs": [one], "decisions": [needing], "services": []}))
    return next((it.get("hint") for it in said if it.get("fault") == "unknown" and "pointer" in it), "not told")


def near(program: Program) -> list[Result]:
    pairs = [*NEAR, *((other, one) for one, other in NEAR)]
    rows = [(f"near {one} {other}", near_hint(program, one, other) == f"is it {one}?") for one, other in pairs]
    return rows + [(f"far {one} {other}", near_hint(program, one, other) is None) for one, other in FAR]


def is_told_as_a_whole(program: Program) -> bool:
    """A text of 65 levels is told as a whole, and one of 64 is none."""
    deep = "1 + " * 64 + "1"
    place = places(program, "expression", [deep, "1 + " * 63 + "1"])
    said = program.check(model_of("expression", [deep]))[1]
    is_whole = list(place) == [deep] and (place[deep].get("stop"), place[deep].get("due")) == (0, "at most 64 levels")
    return is_whole and said.splitlines()[3] == "    it is over 64 levels deep" and "stops at" not in said


def all_rows(program: Program) -> list[Result]:
    rows = stops(program, "expression", EXPRESSIONS) + stops(program, "tests", TESTS) + stops(program, "literal", LITERALS)
    rows += [(f"due in {text!r}", is_due(program, kind, text, at, due)) for kind, text, at, due in DUE]
    return rows + hints(program) + near(program) + [("a text that is too deep", is_told_as_a_whole(program))]
