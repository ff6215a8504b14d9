"""The crates of this repository, and folders of their own in which the toolchain's command `rt` can work on one of them.

Two runs of `rt` don't share a crate, nor what is below it. So each gets a room: a copy of the crate and of what is below
it. What was built is large and only read there, so it is no copy but the same files under a second name.
"""

from __future__ import annotations

import os
import shutil
import tempfile
from dataclasses import dataclass, field
from pathlib import Path

TOP = Path(__file__).resolve().parent.parent
PROGRAM = "desk"
# What the proof of a crate takes at most, as measured, in bytes.
MEMORY_OF_A_PROOF = 3_500_000_000


@dataclass
class Crate:
    """A line of crates.txt: a crate, and the crates of the repository that it names as its libraries."""

    name: str
    line: str
    uses: list[str] = field(default_factory=list)

    @property
    def folder(self) -> Path:
        return TOP / "crates" / self.name

    def lines_of_code(self) -> int:
        sources = [*self.folder.rglob("*.rt"), *self.folder.rglob("*.antt")]
        return sum(it.read_bytes().count(b"\n") for it in sources if "out" not in it.relative_to(self.folder).parts)


Crates = dict[str, Crate]


def crates() -> Crates:
    """All crates by their names, as crates.txt has them."""
    found: Crates = {}
    for line in (TOP / "crates.txt").read_text().splitlines():
        text = line.partition("#")[0].strip()
        if ":" in text:
            name = text.split(":")[0].split()[0]
            found[name] = Crate(name, text)
    for it in found.values():
        it.uses = [word for word in it.line.partition(":")[2].split() if word in found]
    return found


def below(name: str, known: Crates) -> list[str]:
    """The crates that this one stands on, each behind those that it uses."""
    found: list[str] = []
    for use in known[name].uses:
        found += [it for it in [*below(use, known), use] if it not in found]
    return found


def at_once() -> int:
    """How many proofs there is room for, by the processors and the memory that is free."""
    free = MEMORY_OF_A_PROOF
    for line in Path("/proc/meminfo").read_text().splitlines():
        if line.startswith("MemAvailable:"):
            free = int(line.split()[1]) * 1024
    return max(1, min(len(os.sched_getaffinity(0)), free // MEMORY_OF_A_PROOF))


def room() -> tempfile.TemporaryDirectory[str]:
    """An empty room. It lies beside the sources, since a file has a second name on the same disk alone."""
    return tempfile.TemporaryDirectory(prefix=".room-", dir=TOP)


def second_name(file: str, name: str) -> None:
    """Gives a file a second name, or copies it where the disk has no such names."""
    try:
        os.link(file, name)
    except OSError:
        shutil.copy2(file, name)


def furnish(room: Path, name: str, known: Crates) -> Path:
    """Fills a room for one crate, and gives the crate's folder in it. Of what was built, the proofs kept of the crate itself
    are copied, since they change, and the libraries below it come along."""
    names = [*below(name, known), name]
    for it in names:
        folder, to = known[it].folder, room / "crates" / it
        to.mkdir(parents=True)
        for part in ("src", "specs", "proofs"):
            if (folder / part).is_dir():
                shutil.copytree(folder / part, to / part)
        if it != name and (folder / "out/rlib").is_dir():
            shutil.copytree(folder / "out/rlib", to / "out/rlib", copy_function=second_name)
    for part in ("out/rlib", "out/incremental"):
        if (known[name].folder / part).is_dir():
            shutil.copytree(known[name].folder / part, room / "crates" / name / part)
    (room / "crates.txt").write_text("".join(f"{known[it].line}\n" for it in names))
    return room / "crates" / name
