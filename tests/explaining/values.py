"""Values as they stand in texts for people, and whether one is what the JSON has, cut or not."""

from __future__ import annotations

import json
import re
from dataclasses import dataclass

# A value of more parts, and a text of more letters, may be cut.
MOST = 200
WORD = re.compile(r"[A-Za-z_][A-Za-z0-9_]*")
QUOTED = re.compile(r'"(?:[^"\\]|\\["\\nrt]|\\u[0-9a-f]{4})*"')
SCALAR = re.compile(r"null|true|false|-?[0-9]+")
MORE = re.compile(r"\.\. ([1-9][0-9]*) more")
# What no terminal may get: control characters, marks of direction, and letters without width.
HIDDEN = re.compile("[\0-\x09\x0b-\x1f\x7f-\x9f\xad\u061c\u180e\u200b-\u200f\u2028-\u202e\u2060-\u206f\ufeff\ufff9-\ufffb\U000e0000-\U000e007f]")


@dataclass
class Shown:
    """A value, a list of items or a dictionary of them, and how many items or letters are cut behind it."""

    value: object
    more: int = 0


class Unreadable(Exception):
    """A text is not what it has to be."""


class Scanner:
    """What is left of a line."""

    def __init__(self, text: str) -> None:
        self.text, self.at = text, 0

    def rest(self) -> str:
        return self.text[self.at :]

    def take(self, due: re.Pattern[str]) -> re.Match[str] | None:
        found = due.match(self.text, self.at)
        if found:
            self.at = found.end()
        return found

    def expect(self, due: str) -> None:
        if not self.text.startswith(due, self.at):
            raise Unreadable(f"{due!r} is due at {self.rest()[:80]!r}")
        self.at += len(due)

    def has(self, due: str) -> bool:
        if not self.text.startswith(due, self.at):
            return False
        self.at += len(due)
        return True

    def more(self) -> int:
        found = self.take(MORE)
        return int(found[1]) if found else 0

    def name(self) -> str:
        word = self.take(WORD)
        if word:
            return word[0]
        shown = self.value()
        if not isinstance(shown.value, str) or WORD.fullmatch(shown.value) or shown.more:
            raise Unreadable(f"{shown} is no name that stands in quotes")
        return shown.value

    def value(self) -> Shown:
        if self.has("["):
            return self.items("]", self.value)
        if self.has("{"):
            pairs = self.items("}", self.member)
            return Shown(dict(pairs.value), pairs.more)
        quoted = self.take(QUOTED)
        if quoted:
            return Shown(json.loads(quoted[0]), self.more())
        scalar = self.take(SCALAR)
        if not scalar:
            raise Unreadable(f"a value is due at {self.rest()[:80]!r}")
        return Shown(json.loads(scalar[0]))

    def member(self) -> tuple[str, Shown]:
        name = self.name()
        self.expect(": ")
        return name, self.value()

    def items(self, end: str, item: object) -> Shown:
        found: list[object] = []
        if self.has(end):
            return Shown(found)
        while True:
            more = self.more()
            if more:
                self.expect(end)
                return Shown(found, more)
            found.append(item())
            if self.has(end):
                return Shown(found)
            self.expect(", ")


def parts(value: object) -> int:
    """How many parts a value has, itself too."""
    if isinstance(value, list):
        return 1 + sum(map(parts, value))
    if isinstance(value, dict):
        return 1 + sum(map(parts, value.values()))
    return 1


def shown_parts(shown: Shown) -> int:
    """How many parts of a value are shown."""
    if isinstance(shown.value, list):
        return 1 + sum(map(shown_parts, shown.value))
    if isinstance(shown.value, dict):
        return 1 + sum(map(shown_parts, shown.value.values()))
    return 1


def is_shown(value: object, shown: Shown) -> bool:
    """Whether this is what is shown, as far as it is shown, and as much is cut as is said."""
    if isinstance(value, str):
        return isinstance(shown.value, str) and shown.value == value[: len(value) - shown.more] and (not shown.more or len(shown.value) == MOST)
    if isinstance(value, list):
        return isinstance(shown.value, list) and len(value) == len(shown.value) + shown.more and all(map(is_shown, value, shown.value))
    if isinstance(value, dict):
        kept = sorted(value, key=str.encode)[: len(value) - shown.more]
        return isinstance(shown.value, dict) and kept == list(shown.value) and all(is_shown(value[it], shown.value[it]) for it in kept)
    return type(value) is type(shown.value) and value == shown.value


def is_whole(value: object, shown: Shown) -> bool:
    """Whether this value is shown, and cut only behind its first 200 parts."""
    return is_shown(value, shown) and (shown_parts(shown) >= MOST or shown_parts(shown) == parts(value))
