"""Reads the input entries of the rows: the unary tests of docs/MODEL.md over literals, lists of them, names, and `+`, `-` and `*`."""

from __future__ import annotations

import operator
import re
from collections.abc import Callable
from dataclasses import dataclass, field

from .meaning import MOST, Expression, Limit, Names, Test, any_of, compared, interval, kind, literal, name, none_of, same

TOKEN = re.compile(r'\s*(?:(\d+)|([A-Za-z_]\w*)|("(?:[^"\\]|\\["\\nrt])*")|(\.\.|<=|>=|[-+*<>()\[\],]))', re.ASCII | re.DOTALL)
ESCAPES = {"\\n": "\n", "\\r": "\r", "\\t": "\t", '\\"': '"', "\\\\": "\\"}
CONSTANTS = {"true": True, "false": False, "null": None}


@dataclass
class Entry:
    """An input entry: what it asks, and the constants that stand in it."""

    test: Test
    constants: list[object] = field(default_factory=list)
    # The lists that stand in it.
    lists: list[object] = field(default_factory=list)
    # Whether it compares texts by order.
    has_order: bool = False
    # Whether each of its values is a literal, with a minus or without; lists are none.
    is_literal: bool = True

    @property
    def text(self) -> str:
        return self.test.text


def tokens_of(text: str) -> list[str]:
    found, at = list[str](), 0
    while text[at:].strip(" \t\r\n"):
        token = TOKEN.match(text, at)
        if not token:
            raise ValueError(f"no token of {text!r} at {at}")
        found.append(next(it for it in token.groups() if it is not None))
        at = token.end()
    return found


def text_of(token: str) -> str:
    """What a string stands for."""
    return re.sub(r"\\.", lambda it: ESCAPES[it[0]], token[1:-1])


OPERATORS: dict[str, Callable[[int, int], int]] = {"+": operator.add, "-": operator.sub, "*": operator.mul}


def worked_out(one: Expression, sign: str, other: Expression) -> Expression:
    """A sum, a difference or a product, which is null where an operand is no number and breaks a limit out of range."""

    def value(names: Names) -> object:
        a, b = one.value(names), other.value(names)
        if kind(a) != "int" or kind(b) != "int":
            return None
        found = OPERATORS[sign](a, b)  # type: ignore[arg-type]
        if abs(found) > MOST:
            raise Limit
        return found

    return Expression(f"{one.text} {sign} {other.text}", value)


class Reader:
    """Reads the tokens of one entry from left to right."""

    def __init__(self, text: str) -> None:
        self.left = tokens_of(text)
        self.entry = Entry(Test(text, lambda value, names: True))
        self.has_no_name = True

    def take(self, *wanted: str) -> str:
        token = self.left.pop(0)
        if wanted and token not in wanted:
            raise ValueError(f"{token!r}, and one of {wanted} is due")
        return token

    def next_is(self, *wanted: str) -> bool:
        return bool(self.left) and self.left[0] in wanted

    def constant(self, value: object) -> Expression:
        self.entry.constants.append(value)
        return literal(value)

    def listed(self) -> Expression:
        """A list, behind its bracket: its members are constants of the entry, and it is one of its lists."""
        found = list[Expression]()
        while not self.next_is("]"):
            found.append(self.value())
            if not self.next_is("]"):
                self.take(",")
        self.take("]")
        has_names = any(it[0].isalpha() for it in (one.text for one in found) if it not in CONSTANTS)
        self.entry.lists.append([] if has_names else [it.value({}) for it in found])
        self.entry.is_literal = False
        return Expression(f"[{', '.join(it.text for it in found)}]", lambda names: [it.value(names) for it in found])

    def primary(self) -> Expression:
        token = self.take()
        if token == "-":
            return worked_out(literal(0), "-", self.primary())
        if token == "(":
            found = self.value()
            self.take(")")
            return found
        if token.isdigit():
            return self.constant(int(token))
        if token.startswith('"'):
            return self.constant(text_of(token))
        if token == "[":
            return self.listed()
        if token in CONSTANTS:
            return self.constant(CONSTANTS[token])
        self.entry.is_literal = self.has_no_name = False
        return name(token)

    def product(self) -> Expression:
        found = self.primary()
        while self.next_is("*"):
            found = worked_out(found, self.take(), self.primary())
        return found

    def value(self) -> Expression:
        """An expression; where no name stands in one that is worked out, its value is the constant."""
        before, had_no_name, self.has_no_name = len(self.entry.constants), self.has_no_name, True
        at = len(self.left)
        found = self.product()
        while self.next_is("+", "-"):
            found = worked_out(found, self.take(), self.product())
        if at - len(self.left) > 1 and "[" not in found.text:
            del self.entry.constants[before:]
            if self.has_no_name:
                self.worked_out(found)
        self.has_no_name = self.has_no_name and had_no_name
        return found

    def worked_out(self, found: Expression) -> None:
        try:
            self.entry.constants.append(found.value({}))
        except Limit:
            self.entry.is_literal = False

    def bound(self) -> Expression:
        """A value with which the input is compared by order."""
        before = len(self.entry.constants)
        found = self.value()
        self.entry.has_order |= any(isinstance(it, str) for it in self.entry.constants[before:])
        return found

    def is_interval(self) -> bool:
        """Whether two dots stand before the first bracket that closes."""
        if not self.next_is("[", "(", "]"):
            return False
        ends = [place for place, token in enumerate(self.left[1:]) if token in ("..", "]", ")", "[")]
        return bool(ends) and self.left[1 + ends[0]] == ".."

    def one(self) -> Test:
        if self.next_is("<", "<=", ">", ">="):
            return compared(self.take(), self.bound())
        if not self.is_interval():
            return same(self.value())
        opening, low = self.take("[", "(", "]"), self.bound()
        self.take("..")
        high, closing = self.bound(), self.take("]", ")", "[")
        return interval("[" if opening == "[" else "(", low, high, "]" if closing == "]" else ")")

    def several(self) -> list[Test]:
        found = [self.one()]
        while self.next_is(","):
            self.take(",")
            found.append(self.one())
        return found

    def read(self) -> Entry:
        if self.left == ["-"]:
            return self.entry
        if self.left[:2] == ["not", "("] and self.left[-1] == ")":
            self.left = self.left[2:-1]
            asked = none_of(*self.several())
        else:
            asked = any_of(*self.several())
        if self.left:
            raise ValueError(f"{self.left} is left of {self.entry.text!r}")
        self.entry.test.holds = asked.holds
        return self.entry


def entry_of(text: str) -> Entry:
    return Reader(text).read()
