"""What contracts reach, the marks in specs/ that say so, and the laws that some definitions stand behind."""

from __future__ import annotations

import re
from collections.abc import Iterable, Iterator
from dataclasses import dataclass, field

from .sources import Item, Key, Sources
from .specs import SpecFile

# The fixed form of a mark: a first line, or one further down that marks what stands below it.
MARK = re.compile(r"\s*-- Internal( but for [^:]*| behind [^:]*| from here on| to this crate)?[:,.]")
QUOTED = re.compile(r"`([\w']+)`")


@dataclass
class Mark:
    """What a file of specs/ says of its definitions: they are reached by no public contract, but for those named here,
    and those that stand behind these laws."""

    line: int
    but_for: set[str] = field(default_factory=set)
    laws: set[str] = field(default_factory=set)


@dataclass
class Law:
    """A law, the definitions that it ties, and what its statement names beside them."""

    name: str
    file: str
    tied: set[Key]
    words: set[Key]


def mark_of(text: str) -> Mark | None:
    for number, line in enumerate(text.splitlines(), 1):
        found = MARK.match(line)
        if found:
            names = set(QUOTED.findall(found[1] or ""))
            is_behind = (found[1] or "").startswith(" behind")
            return Mark(number, set() if is_behind else names, names if is_behind else set())
    return None


class Reach:
    """The definitions that contracts reach."""

    def __init__(self, sources: Sources) -> None:
        self.sources = sources
        self.texts = {
            f"crates/{crate}/specs/{path.name}": path.read_text("utf-8")
            for crate in sources.crates
            for path in sorted((sources.root / "crates" / crate / "specs").glob("*.antt"))
            if path.name != "Lib.antt"
        }
        self.marks = {file: mark for file, text in self.texts.items() if (mark := mark_of(text))}
        # The laws that marks name, and those of each definition that a law ties.
        self.laws: dict[str, Law] = {}
        self.law_of: dict[Key, list[Law]] = {}
        for file, mark in self.marks.items():
            for name in mark.laws - set(self.laws):
                self.add_law(name, file.split("/")[1])
        # What the public contracts reach: all, and without what stands behind laws.
        public = {key for item in sources.public for key in item.refs}
        # The marks count private fields too, since they are about where a definition is used.
        self.public_all, self.public = self.closure(public, False, hidden=True), self.closure(public, hidden=True)

    def add_law(self, name: str, crate: str) -> None:
        """Reads a law in the proofs of a crate. It ties those of its words that reach a file behind it."""
        folder = self.sources.root / "crates" / crate / "proofs"
        checked = re.findall(r"^(?:pub )?mod (\w+)", (folder / "Lib.antt").read_text("utf-8"), re.M)
        for path in [folder / f"{module}.antt" for module in checked]:
            text = path.read_text("utf-8")
            if not re.search(rf"^pub {name} :", text, re.M):
                continue
            file = str(path.relative_to(self.sources.root))
            words = SpecFile(self.sources, file, text).law(name)
            behind = {marked for marked, mark in self.marks.items() if name in mark.laws}
            tied = {key for key in words if any(met[0] in behind for met in self.closure([key], False))}
            self.laws[name] = Law(name, file, tied, {key for key in words - tied if key in self.sources.items})
            for key in tied:
                self.law_of[key] = [*self.law_of.get(key, []), self.laws[name]]

    def closure(self, roots: Iterable[Key], by_laws: bool = True, with_kept: bool = False, hidden: bool = False) -> set[Key]:
        """All that is reached from here. By laws, what a law ties reaches the law's other words in place of its own."""
        seen: set[Key] = set()
        todo = list(roots)
        while todo:
            key = todo.pop()
            if key not in seen:
                seen.add(key)
                todo += self.next_from(key, by_laws, with_kept, hidden)
            if not todo:
                instances = self.sources.instances
                todo = [item.key for both, item in instances if both <= seen and item.key not in seen]
        return seen

    def next_from(self, key: Key, by_laws: bool, with_kept: bool, hidden: bool) -> set[Key]:
        item = self.sources.items.get(key, Item(key))
        laws = self.law_of.get(key, []) if by_laws else []
        refs = {word for law in laws for word in law.words} or item.refs
        return refs | (item.kept if with_kept else set()) | (item.hidden if hidden else set())

    def laws_above(self, key: Key) -> list[Law]:
        """The laws that a definition stands behind: those whose words reach it by themselves."""
        return [law for law in self.laws.values() if key in self.closure(law.tied, False)]

    def definitions(self, file: str) -> list[Item]:
        return [item for key, item in self.sources.items.items() if key[0] == file and not item.is_header]

    def unknown_names(self) -> Iterator[str]:
        """Names of the repository's own modules that the reading has not found there."""
        for item in [*self.sources.items.values(), *self.sources.contracts.values()]:
            for file, name in sorted((item.refs | item.kept) - self.sources.items.keys()):
                if file.startswith("crates/") or file.split(".")[1:2] in [[crate] for crate in self.sources.crates]:
                    yield f"{item.key[0]}: `{item.key[1]}` names `{name}` of {file}, which is not found"

    def faults_of_marks(self) -> Iterator[str]:
        """What is untrue or missing of the marks."""
        for file in self.texts:
            yield from self.faults_in(file)
            for number, line in enumerate(self.texts[file].splitlines(), 1):
                says = line.lstrip().startswith("--") and re.search(r"\b(Internal|[Nn]o public contract)\b", line)
                mark = self.marks.get(file)
                if says and not (mark and mark.line <= number <= mark.line + 1):
                    yield f"{file}:{number}: a mark has the form '-- Internal: ..', and stands in the first line"

    def faults_in(self, file: str) -> Iterator[str]:
        mark, definitions = self.marks.get(file), self.definitions(file)
        if not mark:
            if not any(item.key in self.public for item in definitions):
                is_behind = any(item.key in self.public_all for item in definitions)
                form = "-- Internal behind ..: .." if is_behind else "-- Internal: .."
                yield f"{file}: no public contract reaches it, and its first line doesn't say '{form}'"
            return
        marked = {item.key[1]: item.key for item in definitions if mark.line == 1 or min(item.lines) >= mark.line}
        reached = {name for name, key in marked.items() if key in self.public}
        behind = {name for name, key in marked.items() if key in self.public_all} - reached
        told = {
            "are marked as internal, and a public contract reaches them": reached - mark.but_for,
            "stand behind a law that the mark doesn't name": set() if mark.laws else behind,
            "are excepted by the mark, and no public contract reaches them": mark.but_for - reached,
            "are laws in the mark, and no public lemmas of the proofs": mark.laws - set(self.laws),
        }
        yield from (f"{file}: {', '.join(sorted(names))} {what}" for what, names in told.items() if names)
        yield from (f"{file}: nothing of it stands behind {name}" for name in sorted(mark.laws) if not behind)
