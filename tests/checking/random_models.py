"""Models drawn at random: inputs with domains and values within these, decisions of all kinds, and services."""

from __future__ import annotations

import json
import operator
import re
from collections.abc import Iterator
from dataclasses import dataclass, field
from random import Random
from typing import Any

Json = dict[str, Any]
# What comes where a limit is broken.
LIMIT = object()
MOST = 9223372036854775807
SMALL = [-60, -7, -2, -1, 0, 1, 2, 3, 5, 8, 60, 100]
NUMBERS = [*SMALL, -MOST, 1 - MOST, -(10**12), -3037000500, 1000, 3037000499, 10**12, MOST - 1, MOST]
TEXTS = ["", "a", "b", "ab", "é", "Z", "ja", "nein", "\U0001f600", "x" * 32, "x" * 33]
LISTS = [[], [1, 2], [5], ["a"], [None], [[1], 2], [MOST, 1], [-MOST, -1], [{"n": 1}, {"n": MOST}], [{"n": 1}, {"u": "a"}]]
CONTEXTS = [{}, {"n": 5, "u": "a", "v": [1, 2]}, {"n": MOST}, {"n": -MOST, "v": []}, {"u": {"n": 3}}]
OTHERS = [None, True, False, *NUMBERS, *TEXTS, *LISTS, *CONTEXTS]
EMPTY = ["[5..1]", "(5..6)", "< null", f"{MOST} + 1", f"1, {MOST} + 1", '["b".."a"]', "not(< 0, >= 0)", f"> {MOST}"]
SIGNS = {"<": operator.lt, "<=": operator.le, ">": operator.gt, ">=": operator.ge}
KINDS = {int: "numbers", str: "texts", list: "lists", dict: "contexts", type(None): "null"}
LETTERS = {"numbers": "n", "null": "n", "true": "t", "false": "t", "texts": "s", "lists": "l", "contexts": "c"}
HITS = ["U", "U", "A", "A", "P", "P", "F", "F", "O", "R", "C", "C+", "C+", "C<", "C>", "C#"]
# Numbers, truth values, texts, lists, contexts; x is any. What mostly gives each, from parts, and the entries that ask of each.
PART, TOKEN = re.compile(r"\{(\w)\}"), re.compile(r'\w+|"[^"\\]*"|\(-\d+\)|\[[^\[\]]*\]')
FORMS = {
    "n": "{n} + {n}|{n} - {n}|{n} * {n}|-{n}|abs({n})|modulo({n}, {n})|sum({l})|min({l})|max({l})|count({l})|if {t} then {n} else {n}"
    "|{c}.n|{n} + {n}|{n} - {n}|if {t} then {n} else {n}|{n}",
    "t": "{n} < {n}|{n} >= {n}|{x} = {x}|{x} != {x}|{s} <= {s}|{x} > {x}|{t} and {t}|{t} or {t}|not({t})|{n} between {n} and {n}|{n} = {n}"
    "|{x} between {x} and {x}|if {t} then {t} else {t}|{s} != {s}|{n} <= {n}|{n} > {n}",
    "s": "if {t} then {s} else {s}|{c}.u|{s}|{s}",
    "l": "[{n}, {n}]|[{n}, {x}, {l}]|[{s}]|[{x}]|[{n}, {n}, {n}, {n}]|if {t} then {l} else {l}|{c}.v|{l}.n|[{n}, {n}, {n}]",
    "c": "if {t} then {c} else {c}|{c}.u|{c}",
}
ENTRIES = {
    "n": "< {n}|<= {n}|> {n}|>= {n}|[{n}..{n}]|({n}..{n})|[{n}..{n})|{n}|{n}, {n}|not({n})|not(< {n})",
    "t": "true|false|not(true)|{t}|true, false",
    "s": "{s}|{s}, {s}|not({s})|< {s}|[{s}..{s}]|>= {s}, null",
    "l": "{l}|not({l})|{n}",
    "c": "null|not(null)",
}
ANY_ENTRIES = ["-", "-", "-", "-", "null", "not(null)", "{n}, {s}", "not({x})"]
LEAVES = {"t": ["true", "false", "true", "false", "null"], "l": ["[]", "[1, 2]", "[5]", "[3, 60, (-1)]", '["a", null]'], "c": ["null"]}


def kind_of(value: Any) -> str:
    return "limit" if value is LIMIT else ("true" if value else "false") if isinstance(value, bool) else KINDS[type(value)]


def is_same(one: Any, other: Any) -> bool:
    return kind_of(one) == kind_of(other) and json.dumps(one, sort_keys=True) == json.dumps(other, sort_keys=True)


def number(draw: Random) -> int:
    return draw.choice(SMALL if draw.randrange(5) else NUMBERS)


def written(value: Any) -> str:
    """A value without contexts as a literal, a number below 0 in parentheses."""
    if isinstance(value, list):
        return "[" + ", ".join(written(it) for it in value) + "]"
    return f"({value})" if kind_of(value) == "numbers" and value < 0 else json.dumps(value, ensure_ascii=False)


def constant(draw: Random, value: Any) -> str:
    """A value, sometimes as what is calculated."""
    part = number(draw)
    is_sum = kind_of(value) == "numbers" and draw.randrange(6) == 0 and abs(value - part) <= MOST
    return f"{written(value - part)} + {written(part)}" if is_sum else written(value)


@dataclass
class Test:
    """A unary test of constants, by what it compares with what, all of which has to hold."""

    text: str
    parts: list[tuple[str, Any]]

    def answer(self, value: Any) -> bool | None:
        """Whether a value meets it; None is unknown."""
        found = list[bool | None]()
        for sign, by in self.parts:
            if sign == "=":
                found.append(is_same(value, by) or isinstance(by, list) and any(is_same(value, it) for it in by))
            else:
                found.append(SIGNS[sign](value, by) if kind_of(value) == kind_of(by) in ("numbers", "texts") else None)
        return False if False in found else None if None in found else True

    def borders(self) -> Iterator[Any]:
        for _, by in self.parts:
            yield from [by, *(by if isinstance(by, list) else [])]
            yield from [by - 1, by + 1] if kind_of(by) == "numbers" else [by + "\0", by[:-1]] if isinstance(by, str) else []


def drawn_test(draw: Random) -> Test:
    form = draw.choice("iiiiiicccnnsss" + "tlz")
    if form in "ic":
        low, high = sorted([draw.randint(-50, 50), draw.randint(-50, 50)] if draw.randrange(2) else [number(draw), number(draw)])
        low, high = (low, high) if draw.randrange(8) else draw.choice([(high, low), ("a", "b"), (low, low), ("", "nein")])
        opened, closed, sign = draw.choice("[[("), draw.choice("]])"), draw.choice([*SIGNS])
        if form == "c":
            return Test(f"{sign} {constant(draw, low)}", [(sign, low)])
        text = f"{opened}{constant(draw, low)}..{constant(draw, high)}{closed}"
        return Test(text, [(">=" if opened == "[" else ">", low), ("<=" if closed == "]" else "<", high)])
    value = draw.choice({"n": NUMBERS, "s": TEXTS, "t": [True, False], "l": [[1, 2], ["a", 5], [], [None]], "z": [None]}[form])
    return Test(constant(draw, value), [("=", value)])


@dataclass
class Input:
    """An input: what is declared of it, and values within that. Without any no request may have it."""

    name: str
    domain: str | None
    borders: list[Any] = field(default_factory=list)
    others: list[Any] = field(default_factory=list)

    @classmethod
    def drawn(cls, draw: Random, name: str) -> Input:
        form = draw.choices(["none", "any", "empty", "some", "not"], [3, 1, 1, 30, 4])[0]
        if form == "empty":
            return cls(name, draw.choice(EMPTY))
        if form in ("none", "any"):
            huge = draw.choice([[], [], [], [], [[None] * 9_999], [json.loads("[" * 100 + "]" * 100)]])
            return cls(name, None if form == "none" else "-", [], huge + draw.sample(OTHERS, 24))
        tests = [drawn_test(draw) for _ in range(draw.choice([1, 1, 1, 1, 2, 3]))]
        tests += [Test("null", [("=", None)])] if draw.randrange(4) == 0 else []
        text = ", ".join(it.text for it in tests)
        candidates = [it for test in tests for it in test.borders() if kind_of(it) != "numbers" or abs(it) <= MOST]
        numbers = [it for it in candidates if kind_of(it) == "numbers"] or [-9, 9]
        inner = [draw.randint(min(numbers), max(numbers)) for _ in range(12)]

        def meets(value: Any) -> bool:
            found = [it.answer(value) for it in tests]
            return True in found if form == "some" else found.count(False) == len(found)

        text = text if form == "some" else f"not({text})"
        return cls(name, text, [it for it in candidates if meets(it)], [it for it in [*inner, *OTHERS] if meets(it)])

    def value(self, draw: Random) -> Any:
        return draw.choice(self.borders if self.borders and draw.randrange(5) < 3 else self.others or self.borders)


@dataclass
class Model:
    """Inputs, decisions, and of each service what it answers and which decisions it is given."""

    inputs: list[Input]
    decisions: list[Json]
    asks: list[tuple[str, list[str], list[str]]] = field(default_factory=list)

    def reached(self, outputs: list[str], given: list[str]) -> list[str]:
        """The outputs and what they need, but nothing behind what is given."""
        needs, found = {it["name"]: it["needs"] for it in self.decisions}, list(dict.fromkeys(outputs))
        for name in found:
            found += [it for it in needs.get(name, []) if it not in found] if name not in given else []
        return found

    def model(self) -> Json:
        inputs, services = [it.name for it in self.inputs], list[Json]()
        for name, outputs, given in self.asks:
            found = self.reached(outputs, given)
            inner = [it for it in found if it not in inputs and it not in outputs and it not in given]
            lists = {"inputDecisions": [it for it in given if it in found], "inputData": [it for it in inputs if it in found]}
            services.append({"name": name, "outputs": outputs, "encapsulated": inner, **lists})
        return {"inputs": inputs, "decisions": self.decisions, "services": services}

    def line(self) -> Json:
        return {"model": self.model(), "domains": {it.name: it.domain for it in self.inputs if it.domain}}

    def only(self, service: str) -> Model:
        """The model with what one service needs."""
        asks = [it for it in self.asks if it[0] == service]
        found = {name for it in asks for name in self.reached(it[1], it[2]) + it[2]}
        return Model([it for it in self.inputs if it.name in found], [it for it in self.decisions if it["name"] in found], asks)


@dataclass
class Drawing:
    """Draws expressions over names, each with the kind that it mostly has."""

    draw: Random
    names: dict[str, str]

    def leaf(self, kind: str, named: float) -> str:
        names = [it for it, of in self.names.items() if of == kind]
        if names and self.draw.random() < named:
            return self.draw.choice(names)
        if self.draw.randrange(80) == 0:
            return "unbound"
        return written(number(self.draw) if kind == "n" else self.draw.choice(TEXTS)) if kind in "ns" else self.draw.choice(LEAVES[kind])

    def expression(self, kind: str, deep: int, named: float = 0.85) -> str:
        kind = self.draw.choice("nnntsslc") if kind == "x" or self.draw.randrange(30) == 0 else kind
        if deep <= 0 or self.draw.randrange(4) == 0:
            return self.leaf(kind, named)
        forms = FORMS[kind].split("|")
        if "c" not in self.names.values() and self.draw.randrange(8):
            forms = [it for it in forms if "{c}" not in it] or ["null"]
        return self.filled(self.draw.choice(forms), deep, named)

    def filled(self, form: str, deep: int, named: float) -> str:
        """A form with its parts, each in parentheses unless it is a token."""
        parts = (self.expression(it, deep - 1, named) for it in PART.findall(form))
        return PART.sub(lambda _: part if TOKEN.fullmatch(part := next(parts)) else f"({part})", form)

    def entry(self, kind: str) -> str:
        form = self.draw.choice([*ENTRIES[kind].split("|") * 2, *ANY_ENTRIES])
        return self.filled(form, self.draw.choice([1, 1, 1, 1, 2]), self.draw.choice([0, 0, 0.6]))

    def partition(self) -> list[list[str]]:
        """Entries of which one holds of each number, or of each value."""
        cuts = [written(it) for it in sorted(self.draw.sample(NUMBERS, self.draw.randint(1, 4)))]
        parts = [f"< {cuts[0]}", *(f"[{one}..{other})" for one, other in zip(cuts, cuts[1:])), f">= {cuts[-1]}"]
        parts = self.draw.choice([parts, [*parts, "null"], [cuts[0], f"not({cuts[0]})"]])
        return [[it] for it in self.draw.sample(parts, len(parts))]

    def table(self) -> tuple[Json, str]:
        draw, deep = self.draw, [0, 0, 1, 2]
        kinds = [draw.choice([*self.names.values(), *"nnst"]) for _ in range(draw.choice([0, 1, 1, 1, 1, 2, 2, 3]))]
        hit, gives = draw.choice(HITS), draw.choice("nnnnnnsst")
        columns = [self.expression(it, draw.choice([0, 0, 0, 1]), 0.95) for it in kinds]
        when = [[self.entry(it) for it in kinds] for _ in range(draw.choice([0, *[1, 2, 2, 3, 3, 4, 6] * 3] if kinds else [0, 1, 1, 1, 1, 2]))]
        when = self.partition() if kinds == ["n"] and draw.randrange(5) < 3 else when
        when += [["-"] * len(kinds)] if kinds and draw.randrange(3) == 0 else []
        width = 1 if len(hit) > 1 else draw.choice([1, 1, 1, 2])
        rules = [{"when": it, "then": [self.expression(gives, draw.choice(deep), 0.3) for _ in range(width)]} for it in when]
        outputs = [Json(name=it) for it in "nu"[:width]]
        for column in outputs:
            if draw.randrange(2 if hit in "PO" else 8) == 0:
                column["values"] = draw.sample(["1", "5", "-7", '"a"', "true", "null", str(MOST)], draw.randint(0, 3))
            if draw.randrange(2) == 0:
                column["default"] = self.expression(gives, draw.choice(deep), 0.3)
        kind = "n" if len(hit) > 1 else "l" if hit in "ORC" else gives if width == 1 else "c"
        return {"table": {"hit": hit, "inputs": columns, "outputs": outputs, "rules": rules}}, kind

    def logic(self, deep: int = 2) -> tuple[Any, str]:
        """A decision's logic, and the kind of what it mostly gives."""
        form = self.draw.choices(["text", "table", "list", "context"], [6, 5, deep / 2, deep])[0]
        if form == "text":
            kind = self.draw.choice([*self.names.values(), *"nnnntts"])
            return self.expression(kind, 3), kind
        if form == "table":
            return self.table()
        if form == "list":
            return {"list": [self.logic(deep - 1)[0] for _ in range(self.draw.randint(0, 3))]}, "l"
        inner, entries = Drawing(self.draw, dict(self.names)), list[Json]()
        for name in self.draw.sample(["n", "u", "v", "i0", "d0"], self.draw.randint(0, 3)):
            expr, inner.names[name] = inner.logic(deep - 1)
            entries.append({"name": name, "expr": expr})
        last, kind = inner.logic(deep - 1)
        return ({"context": entries}, "c") if self.draw.randrange(2) else ({"context": entries, "result": last}, kind)


def table_of(decision: Json) -> Json | None:
    """The table that is a decision's logic, but for a twin."""
    expr = decision["expr"]
    return expr.get("table") if isinstance(expr, dict) and not decision["name"].startswith("rules_") else None


def drawn_model(draw: Random) -> Model:
    """A model with a twin of each table, a service for each decision, three that are given decisions, also of twins, and one of several."""
    inputs = [Input.drawn(draw, f"i{n}") for n in range(draw.randint(1, 6))]
    kinds = {it.name: LETTERS[kind_of(it.value(draw))] if it.others or it.borders else "n" for it in inputs}
    model, grows = Model(inputs, []), draw.randrange(12) == 0
    for n in range(draw.randint(1, 30)):
        before = list(kinds)[len(inputs) :]
        needs = draw.sample([it.name for it in inputs], draw.randint(min(1, n), min(3, len(inputs))))
        needs += draw.sample(before[-6:], draw.randint(0, min(3, len(before))))
        expr, kind = Drawing(draw, {it: kinds[it] for it in needs}).logic()
        if grows and needs and draw.randrange(2):
            expr, kind = "[" + ", ".join([needs[-1]] * draw.choice([2, 10, 30])) + "]", "l"
        model.decisions.append({"name": f"d{n}", "needs": needs, "expr": expr})
        kinds[f"d{n}"] = kind
    names = [it["name"] for it in model.decisions]
    for decision, table in [(it, table_of(it)) for it in model.decisions if table_of(it)]:
        rules = [{"when": it["when"], "then": [str(n)]} for n, it in enumerate(table["rules"])]
        twin = table | {"hit": "C", "outputs": [{"name": "r"}], "rules": rules}
        model.decisions.append({"name": f"rules_{decision['name']}", "needs": decision["needs"], "expr": {"table": twin}})
    model.asks = [(f"of_{it['name']}", [it["name"]], []) for it in model.decisions]
    model.asks.append(("several", draw.sample(names, min(len(names), 3)), []))
    for n, name in enumerate(draw.sample(names, min(3, len(names)))):
        given = [it for it in model.reached([name], []) if it in names and it != name]
        given = draw.sample(given, min(len(given), n + 1))
        twins = [it["name"] for it in model.decisions if it["name"] == f"rules_{name}"]
        model.asks += [(f"given_{n}", [name], given), *((f"given_rules_{n}", [it], given) for it in twins)]
    return model
