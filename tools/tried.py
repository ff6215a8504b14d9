"""On what the wrong bodies of a crate were last seen refused, and what each edit came to.

tools/wrong-bodies.seen has one sum for each crate. It covers what can change whether a wrong body is refused: the logic, the crate
itself, its wrong bodies, and of the crates below it what these name: definitions, types, and the contracts of public functions.
Comments count nowhere.

crates/NAME/out/wrong-bodies.json, which is not committed, has what each edit of a crate came to on a sum.
"""

from __future__ import annotations

import hashlib
import json
import subprocess
from collections.abc import Iterator
from functools import lru_cache
from pathlib import Path

from edits import WRONG, Edit, fenced
from reached import reached, without_comments
from rooms import TOP, Crates, below

SEEN = TOP / "tools" / "wrong-bodies.seen"
HEAD = """\
# On what the wrong bodies of must-fail/more were last seen refused, written by tools/wrong-bodies. Each line: a crate, and the
# sum of its sources and of what these name below it.
"""
# Carries the sum of the program's sources, which changes with each of them.
STAMP = TOP / "crates/desk_commands/src/version.rt"


def read_seen() -> dict[str, str]:
    lines = SEEN.read_text().splitlines() if SEEN.exists() else []
    return dict(it.split() for it in lines if it and not it.startswith("#"))


def write_seen(seen: dict[str, str]) -> None:
    SEEN.write_text(HEAD + "".join(f"{name} {it}\n" for name, it in sorted(seen.items())))


class Verdicts:
    """What the edits of a crate came to on these sources, kept in its out/."""

    def __init__(self, folder: Path, sum: str) -> None:
        self.file, self.sum = folder / "out" / "wrong-bodies.json", sum
        kept = json.loads(self.file.read_text()) if self.file.exists() else {}
        self.known: dict[str, str] = kept.get("verdicts", {}) if kept.get("sum") == sum else {}

    def of(self, edit: Edit) -> str:
        return self.known.get(edit.text, "")

    def keep(self, edit: Edit, verdict: str) -> None:
        self.known[edit.text] = verdict
        self.file.parent.mkdir(exist_ok=True)
        self.file.write_text(json.dumps({"sum": self.sum, "verdicts": self.known}, indent=1))


def own_files(folder: Path) -> Iterator[Path]:
    for part in ("src", "specs", "proofs"):
        yield from sorted(it for it in (folder / part).rglob("*") if it.is_file() and it != STAMP)


@lru_cache(maxsize=None)
def logic() -> str:
    """The sum of the logic that the toolchain proves in. It decides what can be proved; kits of one logic have other names."""
    said = subprocess.run(["rt", "version"], stdout=subprocess.PIPE, text=True, check=True).stdout
    return said.partition(" logic ")[2].strip()


def sum_of(name: str, known: Crates) -> str:
    """The sum of all that decides whether the wrong bodies of a crate are refused."""
    folder = known[name].folder
    whole, own = hashlib.sha256(f"{logic()}\n{known[name].line}\n".encode()), list[str]()
    for path in own_files(folder):
        text = without_comments(path.read_text("utf-8"), path.suffix)
        own.append(text)
        whole.update(f"{path.relative_to(folder)}\n{text}\n".encode())
    for page, edit in fenced(folder, 0).items():
        own.append(edit)
        whole.update(f"{WRONG} {page}\n{edit}\n".encode())
    for text in reached(own, [known[it].folder for it in below(name, known)]):
        whole.update(f"{text}\n".encode())
    return whole.hexdigest()
