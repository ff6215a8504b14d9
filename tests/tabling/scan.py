"""What holds of a table for every value, by trying them: the values that its tests can tell apart are few.

Numbers are told apart by the constants and those beside them, texts by the texts that are named and the next one behind each, and
of the rest one value of each kind is enough. So what holds of all of these holds of all, where the tests are literals.
"""

from __future__ import annotations

import itertools
import json
from collections.abc import Iterator
from dataclasses import dataclass, field
from functools import cached_property

from .meaning import MOST, Limit, Names, kind
from .reading import Entry, entry_of

Values = tuple[object, ...]
KINDS = {"int": "number", "str": "text", "bool": "truth", "NoneType": "null", "list": "list", "dict": "list"}
# The three domains, the widest first.
EVERY, ASKED, WORDS = "every value", "the kinds asked", "the words asked"


def is_same(one: object, other: object) -> bool:
    """Whether two values are the same, so that 1 is not true."""
    return json.dumps(one, sort_keys=True) == json.dumps(other, sort_keys=True)


def each_once(values: Iterator[object]) -> list[object]:
    return list({json.dumps(it, sort_keys=True): it for it in values}.values())


@dataclass
class Column:
    """The entries of one column, rule by rule, what the names in them stand for, and the values that are tried."""

    entries: list[Entry]
    names: Names
    values: list[object] = field(default_factory=list)
    # Of each value the rules whose entry it meets, as bits; and the same of values that were asked of.
    met: list[int] = field(default_factory=list)
    known: dict[str, int] = field(default_factory=dict)

    def __post_init__(self) -> None:
        self.values = each_once(self.tried())
        self.met = [self.met_by(it) for it in self.values]

    def add(self, value: object) -> None:
        """One more value to try."""
        self.values.append(value)
        self.met.append(self.met_by(value))

    @cached_property
    def constants(self) -> list[object]:
        return [it for entry in self.entries for it in entry.constants]

    def tried(self) -> Iterator[object]:
        named = [*self.constants, *(it for entry in self.entries for it in entry.lists)]
        beside = [it + more for it in named if kind(it) == "int" for more in (-1, 0, 1)]  # type: ignore[operator]
        yield from (it for it in sorted({0, MOST, -MOST, MOST - 1, 1 - MOST, *beside}) if abs(it) <= MOST)
        words = [it for it in named if isinstance(it, str)]
        yield from sorted({"", "\0", *words, *(it + "\0" for it in words)})
        yield from (None, False, True, {}, {"k": 1}, [])
        yield from (it for it in named if isinstance(it, list))
        yield from ([it] for it in named)

    def met_by(self, value: object) -> int:
        key = json.dumps(value, sort_keys=True)
        if key not in self.known:
            self.known[key] = sum(1 << n for n, it in enumerate(self.entries) if self.is_met(it, value))
        return self.known[key]

    def is_met(self, entry: Entry, value: object) -> bool:
        try:
            return entry.test.holds(value, self.names) is True
        except Limit:
            return False

    def is_asked(self, value: object, domain: str) -> bool:
        """Whether the domain has the value; a column without a constant but null asks for every value."""
        if domain == EVERY or all(it is None for it in self.constants):
            return True
        if domain == WORDS and isinstance(value, str) and not any(it.has_order for it in self.entries):
            return value in [it for it in self.constants if isinstance(it, str)]
        return KINDS[kind(value)] in {KINDS[kind(it)] for it in self.constants}

    def masks(self, domain: str) -> dict[int, object]:
        """Each set of rules whose entries a value of the domain meets, with the first such value."""
        found: dict[int, object] = {}
        for value, met in zip(self.values, self.met, strict=True):
            if self.is_asked(value, domain):
                found.setdefault(met, value)
        return found


class Scan:
    """A table's rules, of which each has an entry for each of so many columns."""

    def __init__(self, when: list[list[str]], count: int, names: Names | None = None, more: list[Values] | None = None) -> None:
        self.rules = len(when)
        self.columns = [Column([entry_of(rule[place]) for rule in when], names or {}) for place in range(count)]
        for point in more or []:
            for column, value in zip(self.columns, point, strict=True):
                column.add(value)

    def hits(self, values: Values) -> list[int]:
        """The rules that hit, from 1."""
        met = (1 << self.rules) - 1
        for column, value in zip(self.columns, values, strict=True):
            met &= column.met_by(value)
        return [n + 1 for n in range(self.rules) if met >> n & 1]

    def is_asked(self, values: Values, domain: str) -> bool:
        return all(column.is_asked(value, domain) for column, value in zip(self.columns, values, strict=True))

    def boxes(self, domain: str) -> Iterator[tuple[Values, int]]:
        """For each way in which the rules can be met, values and the rules that hit, as bits."""
        for picked in itertools.product(*(it.masks(domain).items() for it in self.columns)):
            met = (1 << self.rules) - 1
            for one, _ in picked:
                met &= one
            yield tuple(value for _, value in picked), met

    def gap(self, domain: str) -> Values | None:
        """Values of the domain for which no rule hits."""
        return next((values for values, met in self.boxes(domain) if not met), None)

    def is_complete(self, domain: str) -> bool:
        return self.gap(domain) is None

    def overlaps(self) -> set[tuple[int, int]]:
        """The pairs of rules, from 1, that some values hit both: in each column some value meets both entries."""
        pairs = itertools.combinations(range(self.rules), 2)
        return {(i + 1, j + 1) for i, j in pairs if all(any(met >> i & met >> j & 1 for met in it.masks(EVERY)) for it in self.columns)}

    @cached_property
    def never(self) -> set[int]:
        """The rules, from 1, that no values hit: in some column no value meets their entry."""
        return {n + 1 for n in range(self.rules) if any(not any(met >> n & 1 for met in it.masks(EVERY)) for it in self.columns)}

    def is_behind(self, rule: int, others: list[int]) -> bool:
        """Whether, wherever this rule hits, one of the others does; rules from 1."""
        before = sum(1 << other - 1 for other in others)
        return all(met & before for _, met in self.boxes(EVERY) if met >> rule - 1 & 1)

    def masked(self, order: list[int]) -> set[int]:
        """The rules that hit somewhere, and nowhere without one that stands before them in this order."""
        before = {rule: order[:place] for place, rule in enumerate(order)}
        return {rule for rule in order if rule not in self.never and self.is_behind(rule, before[rule])}
