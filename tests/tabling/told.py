"""What `desk check --json --tables` tells of a table, read back, and which values the cells of a finding have."""

from __future__ import annotations

from dataclasses import dataclass, field

from .meaning import MOST, kind
from .scan import Values, is_same

Json = dict[str, object]
FOUND = {"gap", "overlap", "never", "masked"}


def is_in_piece(piece: Json, value: object) -> bool:
    """Whether a piece of a column has the value."""
    keys = set(piece)
    if keys == {"text"}:
        return is_same(piece["text"], value)
    if keys == {"value"}:
        return is_same(piece["value"], value)
    if keys == {"texts_but"}:
        return isinstance(value, str) and value not in piece["texts_but"]  # type: ignore[operator]
    if keys == {"else"}:
        named = piece["else"]["kinds"]  # type: ignore[index]
        return isinstance(value, list) and "list" in named or isinstance(value, dict) and "context" in named
    if keys and keys <= {"above", "below"} and all(isinstance(it, str) for it in piece.values()):
        is_above = "above" not in piece or str(piece["above"]) < str(value)
        return isinstance(value, str) and is_above and ("below" not in piece or str(value) < str(piece["below"]))
    if keys and keys <= {"from", "to"} and all(kind(it) == "int" for it in piece.values()):
        return kind(value) == "int" and piece.get("from", -MOST) <= value <= piece.get("to", MOST)  # type: ignore[operator]
    raise ValueError(f"no piece: {piece}")


@dataclass
class Finding:
    """A finding of a table, as it stands on its line."""

    line: Json

    @property
    def kind(self) -> str:
        return str(self.line["finding"])

    @property
    def rules(self) -> list[int]:
        return self.line["rules"]  # type: ignore[return-value]

    @property
    def before(self) -> list[int]:
        """Of a rule that never decides, those that go before it."""
        return self.line["before"]  # type: ignore[return-value]

    @property
    def witness(self) -> Values:
        return tuple(self.line["witness"])  # type: ignore[arg-type]

    @property
    def is_asked(self) -> bool:
        return self.line.get("asked") is True

    def has(self, values: Values) -> bool:
        """Whether the values, one a column, lie in its cells."""
        cells: list[list[Json]] = self.line["cells"]  # type: ignore[assignment]
        return len(cells) == len(values) and all(any(is_in_piece(it, value) for it in cell) for cell, value in zip(cells, values))

    def fault(self, columns: int) -> str | None:
        """What is wrong with its form, if anything is."""
        has_values = self.kind in ("gap", "overlap")
        own = {"gap": {"witness", "cells", "asked"}, "overlap": {"witness", "cells"}, "masked": {"before"}}.get(self.kind, set())
        keys = {"finding", "table", "line", "column", "rules"} | own
        most = keys | ({"inputs", "sure"} if has_values else set())
        if not keys <= set(self.line) <= most:
            return f"the keys {sorted(self.line)}"
        if len(self.rules) != {"gap": 0, "overlap": 2}.get(self.kind, 1) or self.kind == "masked" and not self.before:
            return f"the rules {self.rules}"
        if self.line.get("sure", False) is not False or self.line.get("asked", True) not in (True, False):
            return "sure is not false, or asked neither true nor false"
        if not has_values:
            return None
        if len(self.witness) != columns:
            return f"{len(self.witness)} values for {columns} columns"
        return None if self.has(self.witness) else f"the witness {self.witness} is in none of its own cells"


@dataclass
class Told:
    """What is told of one table: its line, and its findings, with how many more there are of each kind."""

    line: Json
    findings: list[Finding] = field(default_factory=list)
    more: dict[str, int] = field(default_factory=dict)

    @property
    def undecided(self) -> Json:
        """Why something about the table isn't known."""
        return self.line.get("undecided", {})  # type: ignore[return-value]

    def of(self, kind: str) -> list[Finding]:
        return [it for it in self.findings if it.kind == kind]

    def fault(self, columns: int) -> str | None:
        """What is wrong with the form of its lines, if anything is."""
        if set(self.line) - {"unique", "undecided", "comes"} != {"table", "line", "column", "complete", "asked", "words", "steps"}:
            return f"the keys {sorted(self.line)}"
        if any(kind(self.line.get(it)) not in ("bool", "NoneType") for it in ("complete", "asked", "words", "unique")):
            return f"an answer that is none: {self.line}"
        if kind(self.line["steps"]) != "int" or any(it not in FOUND for it in self.more):
            return f"steps or more: {self.line}, {self.more}"
        faults = ((it, it.fault(columns)) for it in self.findings)
        return next((f"{it.line}: {fault}" for it, fault in faults if fault), None)


def tables_of(lines: list[Json]) -> dict[str, Told]:
    """What is told of each table, by its pointer, in the order of the lines."""
    found = dict[str, Told]()
    for line in lines:
        if "finding" in line and "more" in line:
            found[str(line["table"])].more[str(line["finding"])] = int(str(line["more"]))
        elif "finding" in line:
            found[str(line["table"])].findings.append(Finding(line))
        elif "table" in line:
            if str(line["table"]) in found:
                raise ValueError(f"{line['table']} stands twice")
            found[str(line["table"])] = Told(line)
    return found
