"""What values and unary tests mean, by docs/MODEL.md alone: nothing here was taken from the program."""

from __future__ import annotations

import json
from collections.abc import Callable
from dataclasses import dataclass

# Yes, no, or unknown.
Truth = bool | None
# What stands under each name.
Names = dict[str, object]

MOST = 2**63 - 1


class Limit(Exception):
    """A limit of values is broken."""


def kind(value: object) -> str:
    return type(value).__name__


def equal(one: object, other: object) -> Truth:
    if one is None or other is None:
        return one is None and other is None
    if kind(one) != kind(other):
        return None
    if isinstance(one, list) and isinstance(other, list):
        return len(one) == len(other) and all(equal(*pair) is True for pair in zip(one, other, strict=True))
    if isinstance(one, dict) and isinstance(other, dict):
        return set(one) == set(other) and all(equal(one[it], other[it]) is True for it in one)
    return one == other


def less(one: object, other: object) -> Truth:
    """Numbers stand by size, and texts by the code points of their characters."""
    if kind(one) == kind(other) and kind(one) in ("int", "str"):
        return one < other  # type: ignore[operator]
    return None


def opposite(truth: Truth) -> Truth:
    return None if truth is None else not truth


def either(truths: list[Truth]) -> Truth:
    return True if True in truths else None if None in truths else False


def both(truths: list[Truth]) -> Truth:
    return opposite(either([opposite(it) for it in truths]))


@dataclass
class Expression:
    """A FEEL expression, and what it gives."""

    text: str
    value: Callable[[Names], object]


@dataclass
class Test:
    """A unary test, or an entry of several, and whether it holds of an input."""

    text: str
    holds: Callable[[object, Names], Truth]


def literal(value: object) -> Expression:
    return Expression(json.dumps(value, ensure_ascii=False), lambda names: value)


def name(of: str) -> Expression:
    return Expression(of, lambda names: names[of])


def plus(of: str, number: int) -> Expression:
    """A name and a number, which breaks a limit out of range, and is null where the name stands for no number."""

    def value(names: Names) -> object:
        if kind(names[of]) != "int":
            return None
        found = names[of] + number  # type: ignore[operator]
        if abs(found) > MOST:
            raise Limit
        return found

    return Expression(f"{of} {'+' if number >= 0 else '-'} {abs(number)}", value)


def compared(sign: str, end: Expression) -> Test:
    def holds(value: object, names: Names) -> Truth:
        other = end.value(names)
        answers = {"<": lambda: less(value, other), ">": lambda: less(other, value)}
        answers |= {"<=": lambda: opposite(less(other, value)), ">=": lambda: opposite(less(value, other))}
        return answers[sign]()

    return Test(f"{sign} {end.text}", holds)


def interval(opening: str, low: Expression, high: Expression, closing: str) -> Test:
    ends = [compared(">=" if opening == "[" else ">", low), compared("<=" if closing == "]" else "<", high)]
    return Test(f"{opening}{low.text}..{high.text}{closing}", lambda value, names: both([it.holds(value, names) for it in ends]))


def same(expression: Expression) -> Test:
    """An expression holds of what is equal to it, or to a member where it is a list."""

    def holds(value: object, names: Names) -> Truth:
        found = expression.value(names)
        return equal(value, found) is True or (isinstance(found, list) and any(equal(value, it) is True for it in found))

    return Test(expression.text, holds)


def any_of(*tests: Test) -> Test:
    text = ", ".join(it.text for it in tests)
    return Test(text, lambda value, names: either([it.holds(value, names) for it in tests]))


def none_of(*tests: Test) -> Test:
    inner = any_of(*tests)
    return Test(f"not({inner.text})", lambda value, names: opposite(inner.holds(value, names)))


def texts(*values: object) -> list[Test]:
    return [same(literal(it)) for it in values]
