"""The words that every script of tests/ takes, and the rows that it runs.

    tests/NAME [ENGINE [GATEWAY [ROW]]] [--OPTION ..]

ENGINE and GATEWAY are the programs of dist/ where they are not given, or empty. With ROW only those rows run whose names contain
it; a script that runs rows together counts only these. The last line is 'N passed, M failed', and the status is 0 where M is.
"""

from __future__ import annotations

import os
import sys
from collections.abc import Callable, Iterable
from pathlib import Path

TOP = Path(__file__).resolve().parent.parent
# How many faults of a row are printed.
MOST_FAULTS = 10


class Rows:
    """The rows of a script, the programs that they test, and how many passed and failed."""

    def __init__(self, words: list[str]) -> None:
        if "--help" in words:
            print(sys.modules["__main__"].__doc__)
            sys.exit(0)
        plain = [it for it in words if not it.startswith("--")]
        self.options = [it for it in words if it.startswith("--")]
        engine, gateway, self.wanted = [*plain, "", "", ""][:3]
        self.engine = str(Path(engine or TOP / "dist" / "desk").resolve())
        self.gateway = str(Path(gateway or TOP / "dist" / "desk-gateway").resolve())
        self.passed = self.failed = self.skipped = 0

    def whole(self) -> str:
        """The program with all commands, which runs the engine."""
        os.environ["DESK_ENGINE"] = self.engine
        return self.gateway

    def wants(self, name: str) -> bool:
        return self.wanted in name

    def number(self, option: str, otherwise: int) -> int:
        """The number of an option, as 8 of `--runs=8`."""
        found = [it.partition("=")[2] for it in self.options if it.startswith(f"--{option}=")]
        return int(found[0]) if found else otherwise

    def count(self, name: str, faults: Iterable[str]) -> None:
        """Counts a row that ran: it failed where there are faults, and the first of them are printed."""
        if not self.wants(name):
            return
        found = list(faults)
        self.passed, self.failed = self.passed + (not found), self.failed + bool(found)
        for fault in found[:MOST_FAULTS]:
            print(f"{name}: {fault}", flush=True)

    def skip(self, name: str, why: str) -> None:
        """A row that needs what this machine lacks."""
        self.skipped += 1
        print(f"{name}: skipped: {why}", flush=True)

    def run(self, name: str, test: Callable[[], Iterable[str]]) -> None:
        """Runs a row that gives its faults, if it is wanted."""
        if self.wants(name):
            self.count(name, test())

    def holds(self, name: str, test: Callable[[], bool], fault: str = "it does not hold") -> None:
        """Runs a row that says whether it holds, if it is wanted."""
        self.run(name, lambda: [] if test() else [fault])

    def hold(self, results: Iterable[tuple[str, bool]], fault: str = "failed") -> None:
        """Counts rows that ran together."""
        for name, passed in results:
            self.count(name, [] if passed else [fault])

    def end(self) -> int:
        """Prints the last line, and gives the status of the script."""
        if self.wanted and not self.passed + self.failed + self.skipped:
            print(f"no row's name contains {self.wanted!r}", file=sys.stderr)
            self.failed += 1
        print(f"{self.passed} passed, {self.failed} failed")
        return 1 if self.failed else 0
