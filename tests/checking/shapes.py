"""Values that are not the form of a model, by rows and beside a second opinion on what the form is."""

from __future__ import annotations

import copy
import json
from collections.abc import Callable, Iterator

from .odd_rows import LOAN, SOUND
from .program import Json, Program, Result, told
from .shape_rows import INNERMOST, KEYS, NO_MODELS, PARTS, SHAPES

# What a member of an object has to be.
Form = Callable[[object], bool]


def is_text(value: object) -> bool:
    return isinstance(value, str)


def each(form: Form) -> Form:
    return lambda value: isinstance(value, list) and all(map(form, value))


def has(wanted: dict[str, Form], optional: dict[str, Form] | None = None) -> Form:
    """An object with just these members, some of which may be missing."""
    allowed = {**wanted, **(optional or {})}

    def holds(value: object) -> bool:
        return isinstance(value, dict) and set(wanted) <= set(value) <= set(allowed) and all(allowed[it](value[it]) for it in value)

    return holds


TEXTS = each(is_text)
COLUMN = has({"name": is_text}, {"values": TEXTS, "default": is_text})
RULE = has({"when": TEXTS, "then": TEXTS})
TABLE = has({"hit": is_text, "inputs": TEXTS, "outputs": each(COLUMN), "rules": each(RULE)})


def is_logic(value: object) -> bool:
    boxes = [has({"list": each(is_logic)}), has({"table": TABLE}), has({"context": each(ENTRY)}, {"result": is_logic})]
    return is_text(value) or any(form(value) for form in boxes)


ENTRY = has({"name": is_text, "expr": is_logic})
DECISION = has({"name": is_text, "needs": TEXTS, "expr": is_logic})
SERVICE = has({"name": is_text, **dict.fromkeys(["outputs", "encapsulated", "inputDecisions", "inputData"], TEXTS)})
MODEL = has({"inputs": TEXTS, "decisions": each(DECISION), "services": each(SERVICE)})


def shape_places(program: Program, text: str) -> list[str]:
    return [told(it) for it in program.lines(text) if it.get("fault") == "shape" and "pointer" in it]


def is_told_rightly(program: Program, value: object) -> bool:
    """Whether a value is refused for its form just where it has not the form, and then some place of it is told."""
    said = program.lines(json.dumps(value))
    is_refused = said[0].get("fault") == "shape"
    return is_refused == (not MODEL(value)) and is_refused == any("pointer" in it and it.get("fault") == "shape" for it in said)


def parts_of(value: object, way: tuple[object, ...] = ()) -> Iterator[tuple[object, ...]]:
    """The ways to a value and to all its parts."""
    yield way
    inner = enumerate(value) if isinstance(value, list) else value.items() if isinstance(value, dict) else ()
    for step, part in inner:
        yield from parts_of(part, (*way, step))


def part(whole: object, way: tuple[object, ...]) -> object:
    for step in way:
        whole = whole[step]  # type: ignore[index]
    return whole


def with_part(model: object, way: tuple[object, ...], other: object) -> object:
    """The model with another value in the place of a part."""
    if not way:
        return other
    changed = copy.deepcopy(model)
    part(changed, way[:-1])[way[-1]] = other  # type: ignore[index]
    return changed


def with_key(model: object, way: tuple[object, ...], key: str) -> object:
    """The model with a text under this key of a part."""
    changed = copy.deepcopy(model)
    part(changed, way)[key] = "a"  # type: ignore[index]
    return changed


def without(model: object, way: tuple[object, ...]) -> object:
    """The model without a member of an object."""
    changed = copy.deepcopy(model)
    del part(changed, way[:-1])[way[-1]]  # type: ignore[attr-defined]
    return changed


def changed_models() -> Iterator[tuple[str, object]]:
    """Models with another part, with a key too many, and with one too few."""
    sound, loan = json.loads(SOUND), json.loads(LOAN)
    for way in parts_of(sound):
        for other in PARTS:
            yield f"{way} {other}", with_part(sound, way, json.loads(other))
        for key in KEYS if isinstance(part(sound, way), dict) else ():
            yield f"{way} and {key}", with_key(sound, way, key)
    for way in parts_of(loan):
        if way and isinstance(part(loan, way[:-1]), dict):
            yield f"without {way}", without(loan, way)


def nested(innermost: str) -> str:
    """A model whose one decision has lists in each other as deep as may be, with this in the innermost."""
    logic = '{"list":[' * 62 + innermost + "]}" * 62
    return '{"inputs":[],"decisions":[{"name":"d","needs":[],"expr":%s}],"services":[]}' % logic


def is_refused_as_nested(program: Program, innermost: str) -> bool:
    """A text may stand innermost; whatever nests deeper is no lawful model."""
    said: Json = program.lines(nested(innermost))[0]
    return "lawful" in said if innermost == '"b"' else said.get("fault") in ("syntax", "shape")


def all_rows(program: Program) -> list[Result]:
    rows = [(f"shape {new!r}", shape_places(program, SOUND.replace(old, new, 1)) == due and old in SOUND) for old, new, due in SHAPES]
    rows += [(f"shape {text}", shape_places(program, text) == [f"{it}" for it in due]) for text, due in NO_MODELS]
    rows += [(f"form {name}", is_told_rightly(program, value)) for name, value in changed_models()]
    return rows + [(f"nested {it}", is_refused_as_nested(program, it)) for it in INNERMOST]
