"""A row: a table, and what is due of it. Worked out by hand from docs/MODEL.md and document 04, none was taken from the program."""

from __future__ import annotations

import json
from dataclasses import dataclass, field
from functools import cached_property

from .meaning import Names
from .scan import Scan, Values

Json = dict[str, object]
# What is due of an answer: what it has to be, or any of several.
Due = bool | None | tuple[bool | None, ...]
YES, NO, OPEN = True, False, None
# Where a list or a name decides it may be left undecided, but never told wrong.
YES_OR_OPEN, NO_OR_OPEN = (True, None), (False, None)


def point_of(point: object) -> Values:
    return point if isinstance(point, tuple) else (point,)


@dataclass
class Row:
    # What the row shows, and why that is due.
    why: str
    # The input entries of each rule; a text stands for a rule of one column.
    when: list[str | list[str]]
    # Complete; complete for the kinds asked; for the words asked; and whether no two rules overlap, which is asked under U and A alone.
    told: tuple[Due, Due, Due, Due]
    # Values, one a column, that no rule takes, and values that some rule takes; of one column a value stands for itself.
    gaps: list[object] = field(default_factory=list)
    taken: list[object] = field(default_factory=list)
    # The pairs of rules of which an overlap is told; the rules that never hit; those that are masked, each with what is due
    # before it, or with nothing where several lists would do.
    overlaps: list[tuple[int, int]] = field(default_factory=list)
    never: list[int] = field(default_factory=list)
    masked: dict[int, list[int]] = field(default_factory=dict)
    hit: str = "U"
    # The input expressions, what the decision needs, and the decisions before it.
    columns: list[str] = field(default_factory=list)
    needs: list[str] = field(default_factory=list)
    before: list[Json] = field(default_factory=list)
    # What each rule gives, one text a column; without it its number.
    then: list[str | list[str]] = field(default_factory=list)
    outputs: list[Json] = field(default_factory=lambda: [{"name": "r"}])
    # Whether the columns may take any values together, so that a witness is a request.
    sure: bool = True
    # What the names in the tests are taken to stand for.
    names: Names | None = None

    def __post_init__(self) -> None:
        self.rules: list[list[str]] = [[it] if isinstance(it, str) else it for it in self.when]
        count = len(self.rules[0]) if self.rules else len(self.columns)
        self.columns = self.columns or ["a", "b", "c"][:count]
        self.needs = self.needs or list(dict.fromkeys([*(it.split(".")[0] for it in self.columns), *(self.names or {})]))
        self.gap_points = [point_of(it) for it in self.gaps]
        self.taken_points = [point_of(it) for it in self.taken]

    @property
    def is_constant(self) -> bool:
        """Whether each of its tests is of literals alone."""
        return all(entry.is_literal for column in self.scan.columns for entry in column.entries)

    @cached_property
    def scan(self) -> Scan:
        return Scan(self.rules, len(self.columns), self.names, [*self.gap_points, *self.taken_points])

    def table(self) -> Json:
        gives = self.then or [str(n + 1) for n in range(len(self.rules))]
        pairs = zip(self.rules, gives, strict=True)
        rules = [{"when": when, "then": [then] if isinstance(then, str) else then} for when, then in pairs]
        return {"table": {"hit": self.hit, "inputs": self.columns, "outputs": self.outputs, "rules": rules}}

    def model(self) -> Json:
        """A model of this table, which is its last decision, with a service that asks for it."""
        named = [str(it["name"]) for it in self.before]
        inputs = list(dict.fromkeys(it for decision in [*self.before, {"needs": self.needs}] for it in decision["needs"]))  # type: ignore[attr-defined]
        inputs = [it for it in inputs if it not in named]
        decisions = [*self.before, {"name": "d", "needs": self.needs, "expr": self.table()}]
        service = {"name": "s", "outputs": ["d"], "encapsulated": named, "inputDecisions": [], "inputData": inputs}
        return {"inputs": inputs, "decisions": decisions, "services": [service]}

    @property
    def pointer(self) -> str:
        return f"/decisions/{len(self.before)}/expr/table"

    def inputs_of(self, values: Values) -> Json:
        """The inputs of a request that gives the columns, each an input or a path of one, these values."""
        found: Json = {}
        for column, value in zip(self.columns, values, strict=True):
            *way, last = column.split(".")
            inner = found
            for name in way:
                inner = inner.setdefault(name, {})  # type: ignore[assignment]
            inner[last] = value
        return found

    def order(self) -> list[int]:
        """The rules in the order in which one goes before another: under P by their places, else as they stand."""
        numbers = list(range(1, len(self.rules) + 1))
        return sorted(numbers, key=self.places) if self.hit == "P" else numbers

    def places(self, rule: int) -> list[int]:
        gives = self.then[rule - 1] if self.then else str(rule)
        found = []
        for output, text in zip(self.outputs, [gives] if isinstance(gives, str) else gives, strict=True):
            listed: list[str] = output.get("values", [])  # type: ignore[assignment]
            literals = [json.loads(it) for it in listed]
            found.append(literals.index(json.loads(text)) if listed and json.loads(text) in literals else len(listed))
        return found
