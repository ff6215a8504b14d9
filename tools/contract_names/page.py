"""The text of docs/TRUST.md."""

from __future__ import annotations

from collections import defaultdict
from collections.abc import Iterable, Iterator
from textwrap import fill

from .reach import Reach
from .sources import Item, Key

# The calls of the page, by their letters: each one's name, where it is, and what it does. Folders stand for all public functions
# in them.
CALLS = {
    "B": ("Broker::run", "crates/box_core/src/broker.rt", "the mailboxes and their order"),
    "R": ("replay", "crates/desk_replaying/src/run.rt", "a script of lines"),
    "S": ("serve", "crates/desk_serving/src/run.rt", "many clients, with workers in threads"),
    "E": ("explain", "crates/desk_explaining/src/run.rt", "answers with reasons"),
    "P": ("dmn_check", "crates/dmn_check/src/", "each place of a fault"),
    "C": ("check", "crates/desk_checking/src/model_check.rt", "a model, and what is written of it"),
    "D": ("run_desk", "crates/desk_commands/src/run.rt", "the program: words, streams, status"),
}

INTRODUCTION = """
# What has to be believed

What the promises rest on, as `tools/trust` finds it in the sources.

A proof shows that a function does what its contract says, not that this was meant: read the contract and the
definitions it uses, listed below, what is used before what uses it. Nothing else has
to be read. Wrong code and wrong proofs fail the check. Apart from these, trust the toolchain
(prover, compiler, the ported libraries' own statements), the C library and the operating system. `./desk` hands `serve`
and `replay` over to `dist/desk`: trust its builder, or build it.

Begin with `Broker::run`, which [PROMISES.md](PROMISES.md#one-contract-explained) explains. `specs/*.antt` has
definitions, `src/*.rt` types, the models by which contracts see them, and traits.

```console
$ tools/trust --lines Broker::run | tail -2
crates/box_core/src/broker.rt: 24-31, 35-39
    Broker Model for Broker
```

It prints each file's lines and names; `tools/trust --why NAME` what reaches NAME.

**How the list was made.** The script follows names: from a contract to definitions, and to the names in them, from a
type to its fields and model, from a trait to its ghost members and clauses. Contracts see a type's model alone, so
its private fields aren't followed.

**What it can miss.** It sees names, not types. What needs no name (how numbers, texts and lists become those of a
contract, what the toolchain derives) isn't listed. A variable named as a definition counts as one. Codes (`coded`)
and sizes by which recursive types end are left out: no clause reads them.

**Marks.** A definition that no public contract reaches is marked `-- Internal: ..` in its file; `tools/trust --check`
fails if a mark is wrong or missing.

## The calls
"""

BEHIND = """
These files are reached too, but a law ties them to the grammar for every text. Believe the law's words, which are
listed; each file's first line names its laws. In all counts a law's words replace what it ties.
"""

KEPT = """
A type may state facts that all its values keep: ghost fields, and a model's `invariant`. They are proved wherever a
value is made: nobody has to believe them. They reach {} further definitions in {} files (`tools/trust --lines kept`).
"""

KIT = """
Modules of the toolchain's library and of its ported crates that the definitions name, with the calls that reach them:
"""


def short(file: str) -> str:
    return file[len("crates/") :]


def linked(file: str) -> str:
    return f"[{short(file)}](../{file})"


def ranges(numbers: set[int], blank: set[int]) -> str:
    """Line numbers as ranges, which blank lines don't part."""
    found: list[list[int]] = []
    for number in sorted(numbers):
        if found and all(line in blank for line in range(found[-1][1] + 1, number)):
            found[-1][1] = number
        else:
            found.append([number, number])
    return ", ".join(str(first) if first == last else f"{first}-{last}" for first, last in found)


class Page:
    """What is on the page."""

    def __init__(self, reach: Reach) -> None:
        self.reach, self.sources = reach, reach.sources
        self.called = {letter: reach.closure(self.roots(letter)) for letter in CALLS}
        self.all: set[Key] = set().union(*self.called.values())
        self.texts: dict[str, list[str]] = {}

    def contracts_of(self, letter: str) -> list[Item]:
        """The contract of a call, or those of all public functions of a crate."""
        name, where, _ = CALLS[letter]
        if where.endswith(".rt"):
            return [self.sources.contracts[(where, name)]]
        public = [item for item in self.sources.public if item.key[0].startswith(tuple(where.split()))]
        return [item for item in public if item.key in self.sources.contracts]

    def roots(self, letter: str) -> set[Key]:
        """What the contracts of a call name."""
        return set().union(*(item.refs for item in self.contracts_of(letter)))

    def kept(self) -> set[Key]:
        """What the facts that types keep reach beside the contracts."""
        roots = set().union(*(self.roots(letter) for letter in CALLS))
        return self.reach.closure(roots, with_kept=True) - self.all

    def lines_of(self, file: str) -> list[str]:
        if file not in self.texts:
            self.texts[file] = (self.sources.root / file).read_text("utf-8").splitlines()
        return self.texts[file]

    def items(self, keys: Iterable[Key]) -> list[Item]:
        return [self.sources.items[key] for key in keys if key in self.sources.items]

    def count(self, keys: Iterable[Key]) -> int:
        """How many lines these definitions have."""
        return len({(item.key[0], number) for item in self.items(keys) for number in item.lines})

    def in_order(self, keys: set[Key]) -> list[str]:
        """The files of these definitions: what is used before what uses it, and the lowest crate first."""
        uses: dict[str, set[str]] = defaultdict(set)
        for item in self.items(keys):
            uses[item.key[0]] |= {key[0] for key in item.refs if key in self.sources.items}
        found: list[str] = []
        begun: set[str] = set()

        def add(file: str) -> None:
            if file in begun or file not in uses:
                return
            begun.add(file)
            for used in sorted(uses[file]):
                add(used)
            found.append(file)

        for crate in self.sources.crates:
            for file in sorted(file for file in uses if file.split("/")[1] == crate):
                add(file)
        return found

    def detail(self, keys: set[Key]) -> Iterator[str]:
        """For each file of these definitions the lines to read, and the names that they define."""
        for file in self.in_order(keys):
            items = sorted((it for it in self.items(keys) if it.key[0] == file), key=lambda it: min(it.lines))
            blank = {number for number, line in enumerate(self.lines_of(file), 1) if not line.strip()}
            numbers = set().union(*(item.lines for item in items))
            yield f"{file}: {ranges(numbers, blank)}"
            yield "    " + " ".join(item.key[1] for item in items if not item.is_header)

    def letters(self, is_reached: Iterable[tuple[str, bool]]) -> str:
        return "".join(letter for letter, reaches in is_reached if reaches)

    def calls(self) -> list[str]:
        rows = ["| | Call | Contract, lines | Lines to read |", "|---|---|---|---|"]
        for letter, (name, where, does) in CALLS.items():
            items = self.contracts_of(letter)
            place = f"{len(items)} contracts"
            if where.endswith(".rt"):
                place = f"{linked(where)} {min(items[0].lines)}-{max(items[0].lines)}"
            rows.append(f"| {letter} | `{name}`: {does} | {place} | {self.count(self.called[letter]):,} |")
        both = self.count(self.called["D"] | self.called["S"])
        rests = fill(f"For `desk serve` read the files with D or S, {both:,} lines; for another command those with D.", 120)
        return [*rows, f"| | all | | {self.count(self.all):,} |", "", *rests.splitlines()]

    def files(self) -> list[str]:
        """Each file, with how many of its lines are to be read, and for which calls."""
        lines = ["## The files", "", "Each with its lines, and the letters of the calls that need it.", ""]
        for file in self.in_order(self.all):
            own = {key for key in self.all if key[0] == file}
            letters = self.letters((letter, bool(own & keys)) for letter, keys in self.called.items())
            lines.append(f"- {linked(file)} {self.count(own)} {letters}")
        return lines

    def behind(self) -> list[str]:
        roots = [self.roots(letter) for letter in CALLS]
        keys = set().union(*(self.reach.closure(it, by_laws=False) for it in roots)) - self.all
        lines = ["## Tied by laws", *BEHIND.rstrip().splitlines(), "", "| Law | Ties | To |", "|---|---|---|"]
        for name, law in sorted(self.reach.laws.items()):
            tied = ", ".join(f"`{key[1]}`" for key in sorted(law.tied))
            words = ", ".join(f"`{key[1]}`" for key in sorted(law.words) if key[0].endswith("Spells.antt"))
            lines.append(f"| [{name}](../{law.file}) | {tied} | {words} |")
        return [*lines, "", *(f"- {linked(file)}" for file in self.in_order(keys))]

    def facts(self) -> list[str]:
        keys = self.kept()
        text = KEPT.format(len([it for it in self.items(keys) if not it.is_header]), len(self.in_order(keys)))
        return ["## Facts that types keep", *text.rstrip().splitlines()]

    def kit(self) -> list[str]:
        """The modules of the kit."""
        lines = ["## Words of the toolchain", *KIT.rstrip().splitlines(), ""]
        for module in sorted({module for module, _ in self.all if not module.startswith("crates/")}):
            reached = ((letter, any(key[0] == module for key in keys)) for letter, keys in self.called.items())
            lines.append(f"- `{module}` {self.letters(reached)}")
        return lines

    def text(self) -> str:
        parts = [INTRODUCTION.strip("\n").splitlines() + [""] + self.calls(), self.files(), self.behind(), self.facts(), self.kit()]
        return "\n".join("\n".join(part).rstrip("\n") + "\n" for part in parts)
