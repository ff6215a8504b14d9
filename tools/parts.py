"""Runs commands one after another, counts what each says that it passed, and tells how long each took."""

from __future__ import annotations

import os
import re
import shutil
import subprocess
import threading
import time
from dataclasses import dataclass
from pathlib import Path

TOP = Path(__file__).resolve().parent.parent
# The last line of a command that counts.
COUNTED = re.compile(r"^(\d+) passed, (\d+) failed\b")

# How many seconds the output of a command that has ended is still read, at most.
DRAIN = 5


@dataclass(frozen=True)
class Part:
    """A command, run at the top of the repository, and how it ended. A command that counts nothing is one test."""

    command: str
    seconds: float
    passed: int
    failed: int

    def line(self, width: int) -> str:
        verdict = f"{self.passed:,} passed" + (f", {self.failed:,} FAILED" if self.failed else "")
        return f"{self.command:<{width}}  {self.seconds:7.1f} s  {verdict}"


def counted(last: str, status: int) -> tuple[int, int]:
    """How many tests passed and failed, by the last line of a command and its status: a status of failure is one at least."""
    found = COUNTED.match(last)
    if found is None:
        return (1, 0) if status == 0 else (0, 1)
    passed, failed = int(found[1]), int(found[2])
    return passed, max(failed, 1) if status else failed


def pass_on(process: subprocess.Popen[str], lines: list[str]) -> None:
    """Prints what a command writes as it comes, and keeps the lines."""
    assert process.stdout
    for line in process.stdout:
        print(line, end="", flush=True)
        lines.append(line.strip())


def run(*words: str, **environment: str) -> Part:
    """Runs a command, and passes on what it writes as it comes."""
    name = " ".join(words)
    print(f"== {name}", flush=True)
    begun = time.monotonic()
    if shutil.which(TOP / words[0] if "/" in words[0] else words[0]) is None:
        print(f"there is no {words[0]} to run", flush=True)
        return Part(name, 0, 0, 1)
    process = subprocess.Popen(
        words,
        cwd=TOP,
        env=os.environ | environment,
        stdin=subprocess.DEVNULL,
        stdout=subprocess.PIPE,
        stderr=subprocess.STDOUT,
        text=True,
        errors="replace",
    )
    lines: list[str] = []
    reader = threading.Thread(target=pass_on, args=(process, lines), daemon=True)
    reader.start()
    try:
        process.wait()
    except BaseException:
        process.terminate()
        process.wait()
        raise
    # A process that a failed test left running may keep its output open.
    reader.join(DRAIN)
    last = next((it for it in reversed(lines) if it), "")
    return Part(name, time.monotonic() - begun, *counted(last, process.returncode))


def report(parts: list[Part], more: str = "") -> int:
    """Tells each part with its seconds, and what more there is to say; the last line has the sums. Gives the status that is due."""
    width = max(len(it.command) for it in parts)
    print("==", *(it.line(width) for it in parts), *filter(None, [more]), sep="\n")
    passed, failed = sum(it.passed for it in parts), sum(it.failed for it in parts)
    print(f"{passed} passed, {failed} failed", flush=True)
    return 1 if failed else 0


def scripts() -> list[str]:
    """The scripts of tests/, those that measure last."""
    found = [it.name for it in (TOP / "tests").iterdir() if it.is_file() and os.access(it, os.X_OK) and it.name != "run"]
    return sorted(found, key=lambda it: (measures(it), it))


def measures(name: str) -> bool:
    """Whether a script measures times, which depend on the machine and on what runs beside it. The gate leaves these out."""
    return name.endswith(("-speed", "-soak"))
