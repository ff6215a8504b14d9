"""Files of src/: their types, traits and models, the contracts of their functions, and what each names.

The layout is as `rt fmt` leaves it: an item ends with a line at its own indentation.
"""

from __future__ import annotations

import re
from collections.abc import Iterator
from pathlib import Path
from typing import Tuple

from .sources import Item, Key, Scope, Sources

RUST_USE = re.compile(r"^(?:pub )?use ([\w:]+?)(?:::\{([^}]*)\}|(?: as (\w+))?);", re.M)
ITEM = re.compile(r"(?:pub |pub\(\w+\) )?(struct|enum|trait|fn|const|impl|type)\b\s*(\w*)")
MEMBER = re.compile(r"(?:pub |pub\(\w+\) )?(fn|ghost|type|const) (\w+)")
# What stands before the term of a clause or of a ghost member.
CLAUSE = re.compile(r"^\s*(?:(?:requires|ensures)\*?(?: \w+)?|ghost \w+(?::| =)) \{", re.M)
GHOST_FIELD = re.compile(r"^    ghost \w+: (\{.*?\})(?: by \{.*?\})?,$", re.M | re.S)
# Traits of the library whose members no clause of a caller names.
CONVERSIONS = {"From", "TryFrom"}
# What a model has for the prover alone: its code, and why a type that has itself as a part comes to an end.
NOT_READ = {"coded", "size", "size_decreases"}
# Texts, comments and attributes, in which brackets count for nothing.
ASIDE = re.compile(r'"(?:\\.|[^"\\])*"|b?\'(?:\\.|[^\'\\])\'|//.*|#\[.*\]')


# Where the comment above an item begins, where the item does, and where it ends.
Span = Tuple[int, int, int]


class CodeFile:
    """A file of src/."""

    def __init__(self, sources: Sources, file: str, text: str) -> None:
        self.sources, self.file, self.crate = sources, file, file.split("/")[1]
        self.written = text.splitlines()
        self.lines = ASIDE.sub(lambda found: re.sub(r"[^\n]", " ", found[0]), text).splitlines()
        self.scope = sources.scope_of(self.ghost_uses(0, 0, len(self.lines)))
        self.types = self.types_by_name(text)
        self.blocks = list(self.items(0, 0, len(self.lines)))
        for first, start, end in self.blocks:
            kind, name = self.head(start)
            if kind not in ("fn", "impl"):
                sources.items[(file, name)] = Item((file, name), self.numbers(first, end))

    def head(self, start: int) -> tuple[str, str]:
        found = ITEM.match(self.lines[start])
        return (found[1], found[2]) if found else ("", "")

    def text(self, start: int, end: int) -> str:
        return "\n".join(self.lines[start:end])

    def numbers(self, first: int, end: int) -> set[int]:
        return {at + 1 for at in range(first, end) if self.written[at].strip()}

    def ghost_uses(self, indent: int, first: int, end: int) -> Iterator[str]:
        head = " " * indent + "ghost use"
        return (line[indent + 6 :] for line in self.lines[first:end] if line.startswith(head))

    def items(self, indent: int, first: int, end: int) -> Iterator[Span]:
        """The items at an indentation."""
        begins, at = first, first
        while at < end:
            line = self.lines[at][indent:]
            if not self.written[at].strip() or line.startswith(("ghost use", "use", "pub use", "mod")):
                begins = at + 1
            elif ITEM.match(line) or MEMBER.match(line):
                last = self.last_line(indent, at)
                yield begins, at, last + 1
                begins = at = last + 1
                continue
            at += 1

    def last_line(self, indent: int, at: int) -> int:
        """The last line of the item that begins here."""
        depth = 0
        for number in range(at, len(self.lines)):
            line = self.lines[number].rstrip()
            depth += sum(map(line.count, "([{")) - sum(map(line.count, ")]}"))
            is_outer = len(line) - len(line.lstrip()) == indent
            if depth == 0 and (line.endswith(";") or (is_outer and line.endswith("}"))):
                return number
        raise SystemExit(f"tools/trust: no end of the item at {self.file}:{at + 1}")

    def types_by_name(self, text: str) -> dict[str, Key]:
        """The repository's types that go by a name in this file."""
        if re.search(r"^(?:pub )?use .*\*;", text, re.M):
            raise SystemExit(f"tools/trust: a `use` of all names is not read: {self.file}")
        found: dict[str, Key] = {}
        for path, names, short in RUST_USE.findall(text):
            parts = path.split("::")
            crate = self.crate if parts[0] in ("crate", "super", "self") else parts[0]
            for name in (names or f"{parts[-1]} as {short or parts[-1]}").split(","):
                name, _, given = name.strip().partition(" as ")
                key = self.sources.find_type(crate, name, parts[-1] if names else parts[max(0, len(parts) - 2)])
                if key:
                    found[given or name] = key
        own = self.sources.types[self.crate].items()
        found.update((name, key) for name, keys in own for key in keys if key[0] == self.file)
        return found

    def read_names(self) -> None:
        """Notes what each declaration and each contract names."""
        for first, start, end in self.blocks:
            kind, name = self.head(start)
            if kind in ("struct", "enum"):
                self.read_type(self.sources.items[(self.file, name)], start, end)
            elif kind == "type":
                self.sources.items[(self.file, name)].refs |= self.types_in(self.text(start, end)) - {(self.file, name)}
            elif kind == "trait":
                self.read_trait(self.sources.items[(self.file, name)], start, end)
            elif kind == "impl":
                self.read_impl(first, start, end)
            elif kind == "fn":
                names = self.contract(start, end, 0, self.scope)
                lines = self.numbers(first, self.contract_end(start, end, 0))
                self.add_contract(Item((self.file, name), lines, names), self.is_public(start, name))

    def is_public(self, at: int, name: str) -> bool:
        """Whether an item of the file is public in its crate's root."""
        is_named = name in self.sources.exports[self.crate]
        is_open = Path(self.file).stem in self.sources.public_modules[self.crate]
        return (is_named or is_open) and self.lines[at].startswith("pub ")

    def add_contract(self, item: Item, is_public: bool) -> None:
        self.sources.contracts[item.key] = item
        if is_public:
            self.sources.public.append(item)

    def types_in(self, text: str) -> set[Key]:
        return {self.types[name] for name in re.findall(r"\b[A-Z]\w*", text) if name in self.types}

    def ghost_names(self, text: str, scope: Scope) -> set[Key]:
        """What clauses name, or ghost members."""
        return self.sources.names_in(CLAUSE.sub(" ", text), Scope({**self.types, **scope.names}, scope.modules))

    def read_type(self, item: Item, start: int, end: int) -> None:
        text = self.text(start, end)
        item.kept |= self.ghost_names("\n".join(GHOST_FIELD.findall(text)), self.scope)
        private = self.private_in(text)
        if self.has_model(item.key[1]):
            item.hidden |= private - {item.key}
        else:
            exports = self.sources.exports[self.crate]
            private = {key for key in private if key[1] not in exports}
        item.refs |= self.types_in(GHOST_FIELD.sub("", text)) - {item.key} - private
        if self.is_public(start, item.key[1]):
            self.sources.public.append(Item(item.key, set(), {item.key}))

    def has_model(self, name: str) -> bool:
        """Whether contracts see a type of this file by a model. Then its private fields are no part of what they say."""
        return any(re.match(rf"impl\b.* Model for {name}\b", line) for line in self.lines)

    def private_in(self, text: str) -> set[Key]:
        """The types that only private fields of a type have. A definition that looks at such a field names the type itself."""
        fields = [line for line in text.splitlines()[1:] if line.startswith("    ")]
        shown = "\n".join(line for line in fields if line.startswith("    pub "))
        kept = "\n".join(line for line in fields if not line.startswith("    pub "))
        return self.types_in(kept) - self.types_in(shown)

    def contract_end(self, start: int, end: int, indent: int) -> int:
        """Where the body of a function begins."""
        for at in range(start, end):
            line = self.lines[at]
            outer = line[indent:] if line.startswith(" " * indent) else line
            if outer[:1] not in ("", " ") and outer.rstrip().endswith(("{", "{}")):
                return at + (outer[:1] != "{")
        return end

    def contract(self, start: int, end: int, indent: int, scope: Scope) -> set[Key]:
        """What the contract of a function names, with its signature."""
        text = self.text(start, self.contract_end(start, end, indent))
        clause = CLAUSE.search(text)
        signature = text[: clause.start()] if clause else text
        return self.types_in(signature) | self.ghost_names(text[len(signature) :], scope)

    def members(self, start: int, end: int) -> Iterator[tuple[str, str, Span]]:
        """The members of a trait or of an impl: what each is, its name, and its lines."""
        for lines in self.items(4, start + 1, end - 1):
            found = MEMBER.match(self.lines[lines[1]][4:])
            if found:
                yield found[1], found[2], lines

    def read_trait(self, item: Item, start: int, end: int) -> None:
        """A trait is named with its ghost members and the contracts of its functions."""
        scope = self.scope.joined(self.sources.scope_of(self.ghost_uses(4, start, end)))
        own = {name for kind, name, _ in self.members(start, end) if kind != "fn"}
        scope.names = {name: key for name, key in scope.names.items() if name not in own}
        item.refs |= self.types_in(self.lines[start])
        for kind, _, (_, at, last) in self.members(start, end):
            is_fn = kind == "fn"
            item.refs |= self.contract(at, last, 4, scope) if is_fn else self.ghost_names(self.text(at, last), scope)
        item.refs.discard(item.key)
        if self.is_public(start, item.key[1]):
            self.sources.public.append(Item(item.key, set(), {item.key}))

    def impl_header(self, start: int, end: int) -> str:
        """An impl up to its brace, without a `where`, in one line."""
        last = next(at for at in range(start, end) if self.lines[at].endswith("{"))
        return " ".join(it.strip() for it in self.lines[start : last + 1]).partition(" where ")[0]

    def read_impl(self, first: int, start: int, end: int) -> None:
        written = self.impl_header(start, end)
        header = written.replace("->", "  ")
        while "<" in header:
            header = re.sub(r"<[^<>]*>", "", header)
        trait, _, name = header[len("impl") :].strip().rstrip("{ ").rpartition(" for ")
        scope = self.scope.joined(self.sources.scope_of(self.ghost_uses(4, start, end)))
        if trait:
            self.read_instance(trait.split("::")[-1], name, scope, (first, start, end))
            return
        is_exported = name in self.sources.exports[self.crate]
        for kind, method, (begins, at, last) in self.members(start, end):
            if kind == "fn":
                names = self.contract(at, last, 4, scope) | self.types_in(written)
                numbers = self.numbers(begins, self.contract_end(at, last, 4))
                is_public = is_exported and self.lines[at].startswith("    pub fn")
                self.add_contract(Item((self.file, f"{name}::{method}"), numbers, names), is_public)

    def read_instance(self, trait: str, name: str, scope: Scope, lines: Span) -> None:
        """A model of a type, or what a trait's ghost members are at a type. No clause reads some of a model's members."""
        first, start, end = lines
        head = self.numbers(first, start + 1)
        item = Item((self.file, f"{trait} for {name}"), head, self.types_in(self.lines[start]))
        members = [(member, at, last) for kind, member, (_, at, last) in self.members(start, end) if kind != "fn"]
        for member, at, last in members:
            item.lines |= self.numbers(at, last)
            names = self.ghost_names(self.text(at, last), scope)
            if member == "invariant":
                item.kept |= names
            elif member not in NOT_READ:
                item.refs |= names
        if not members:
            return
        self.sources.items[item.key] = item
        owner, about = self.types.get(name), self.types.get(trait)
        if trait == "Model" and owner:
            self.sources.items[owner].refs.add(item.key)
        elif about or (owner and trait not in CONVERSIONS):
            self.sources.instances.append(({key for key in (about, owner) if key}, item))
        if name in self.sources.exports[self.crate]:
            self.sources.public.append(Item(item.key, set(), {item.key}))
