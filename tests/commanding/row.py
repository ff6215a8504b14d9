"""A row: what is typed, and what has to come of it."""

from __future__ import annotations

import os
import signal
import subprocess
from collections.abc import Callable
from dataclasses import dataclass, field
from pathlib import Path

TOP = Path(__file__).resolve().parent.parent.parent
EXAMPLES = TOP / "examples"


@dataclass(frozen=True)
class Came:
    """What a run leaves."""

    status: int
    output: bytes
    faults: bytes


@dataclass(frozen=True)
class Row:
    """Words of a command line, what they read, and what is due: a status, texts of each stream, or that one is empty."""

    name: str
    words: tuple[str | bytes, ...]
    status: int
    # Each has to be in the stream; None says that the stream is empty; () says nothing.
    output: tuple[str, ...] | None = ()
    faults: tuple[str, ...] | None = ()
    given: bytes = b""
    environment: dict[str, str] = field(default_factory=dict)
    # What is done in the process before the program begins in it.
    before: Callable[[], object] | None = None
    is_full: bool = False
    # How many lines standard error has.
    fault_lines: int | None = None
    # Another file of the program.
    copy: Path | None = None

    def run(self, program: str, engine: str) -> Came:
        environment = os.environ | {"DESK_ENGINE": engine} | self.environment
        environment = {name: text for name, text in environment.items() if text}
        with open("/dev/full", "wb") as full:
            out = full if self.is_full else subprocess.PIPE
            ran = subprocess.run([self.copy or program, *self.words], input=self.given, stdout=out, stderr=subprocess.PIPE,
                                 env=environment, preexec_fn=self.before, restore_signals=False, timeout=60)
        return Came(ran.returncode, ran.stdout or b"", ran.stderr)

    def wrong(self, came: Came) -> list[str]:
        """What is not as it is due."""
        found = [] if came.status == self.status else [f"status {came.status}, and {self.status} is due"]
        for stream, due, text in (("output", self.output, came.output), ("faults", self.faults, came.faults)):
            said = text.decode(errors="replace")
            if due is None and said:
                found.append(f"{stream} is not empty: {said[:300]!r}")
            found += [f"{stream} has no {it!r}: {said[:600]!r}" for it in due or () if it not in said]
        lines = came.faults.count(b"\n")
        if self.fault_lines not in (None, lines):
            found.append(f"faults has {lines} lines, and {self.fault_lines} are due: {came.faults[:600]!r}")
        return found


def asked(name: str, words: str, status: int, **due) -> Row:
    return Row(name, tuple(words.split()), status, **due)


def refused(words: str, *texts: str, **more) -> Row:
    """A command line that is wrong: status 2, nothing on standard output, and these texts."""
    return asked(words, words, 2, output=None, faults=texts, **more)


def helped(words: str, *texts: str) -> Row:
    """Help: status 0, on standard output alone."""
    return asked(words, words, 0, output=("Usage: desk", *texts), faults=None)


def ignoring(*signals: int) -> Callable[[], None]:
    def ignore() -> None:
        for number in signals:
            signal.signal(number, signal.SIG_IGN)

    return ignore
