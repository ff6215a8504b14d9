"""Runs `desk check`, and reads what it writes."""

from __future__ import annotations

import json
import re
import subprocess
from collections.abc import Callable
from dataclasses import dataclass

Json = dict[str, object]
# A row's name, and whether it holds.
Result = tuple[str, bool]


@dataclass
class Program:
    path: str

    def check_bytes(self, text: bytes, *options: str) -> tuple[int, str]:
        """The status of a check, and what it writes."""
        ran = subprocess.run([self.path, "check", *options], input=text, capture_output=True, timeout=600)
        return ran.returncode, ran.stdout.decode()

    def check(self, text: str, *options: str) -> tuple[int, str]:
        """The same of a text."""
        return self.check_bytes(text.encode(), *options)

    def lines(self, text: str) -> list[Json]:
        """What a check tells as lines of JSON."""
        return [json.loads(line) for line in self.check(text, "--json")[1].splitlines()]


# Where a place begins, before its words.
POSITION = re.compile(r"^((?:  |warning: |table: )?)line (\d+), column (\d+): ")


def unplaced(line: str) -> str:
    """A line for people without where its place begins."""
    return POSITION.sub(r"\1", line, count=1)


def position(line: str) -> tuple[int, int] | None:
    """Where the place of a line for people begins."""
    found = POSITION.match(line)
    return (int(found[2]), int(found[3])) if found else None


def path_of(place: Json) -> str:
    """The place of a line, as `decisions[0].expr`."""
    return re.sub(r"/(\d+)(?=/|$)", r"[\1]", str(place["pointer"])).replace("/", ".").lstrip(".")


def told(place: Json) -> str:
    """A line about a place: where it is, and what is said of it."""
    return f"{path_of(place)}: {place['said']}"


def results(name: str, rows: list, holds: Callable[..., bool]) -> list[Result]:
    """Each row, by whether it holds."""
    return [(f"{name} {row!r}", holds(*row)) for row in rows]
