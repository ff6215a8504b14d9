"""Files of specs/ and of proofs/: their definitions, and what each names."""

from __future__ import annotations

import re
from collections.abc import Iterator
from dataclasses import dataclass
from typing import Tuple

from .sources import Item, Key, Sources

# What begins a definition, behind its indentation, and what opens a section with definitions of its own.
DEFINITION = re.compile(r"(?:(?:abbrev|unfoldable|pub|data|record) )+(\S+)")
SECTION = re.compile(r"(?:abbrev )?mutual\b|module .* where")
ASIDE = re.compile(r'"[^"]*"|\s--.*')

Line = Tuple[int, str]


@dataclass
class Block:
    """The lines of a definition, with the comment above it, and the sections that it stands in."""

    key: Key
    indent: int
    lines: list[Line]
    sections: list["Block"]

    def text(self) -> list[str]:
        return [ASIDE.sub(" ", line) for _, line in self.lines if not line.lstrip().startswith("--")]

    def is_section(self) -> bool:
        return self.key[1].startswith("§")


def blocks_of(file: str, text: str) -> Iterator[Block]:
    """The definitions, and the lines that open sections, one after another."""
    block: Block | None = None
    sections: list[Block] = []
    comment: list[Line] = []
    for number, line in enumerate(text.splitlines(), 1):
        words, indent = line.lstrip(), len(line) - len(line.lstrip())
        is_comment = words.startswith("--")
        if not words or (is_comment and not (block and indent > block.indent)):
            comment = [*comment, (number, line)] if words else []
            continue
        section = SECTION.match(words)
        start = None if section else DEFINITION.match(words)
        is_new = start or section or words.startswith(("use ", "infix"))
        if block and (indent > block.indent or not is_new):
            block.lines += [*comment, (number, line)]
        else:
            if block:
                yield block
            sections = [outer for outer in sections if outer.indent < indent]
            block = Block((file, start[1] if start else f"§{number}"), indent, [*comment, (number, line)], sections)
            if section:
                yield block
                sections = [*sections, block]
            if not start:
                block = None
        comment = []
    if block:
        yield block


class SpecFile:
    """A file of specs/ or of proofs/."""

    def __init__(self, sources: Sources, file: str, text: str) -> None:
        self.sources, self.file = sources, file
        self.scope = sources.scope_of(line for line in text.splitlines() if line.startswith("use "))
        self.blocks = list(blocks_of(file, text))
        for block in self.blocks:
            sources.items[block.key] = Item(block.key, {n for n, _ in block.lines}, is_header=block.is_section())
            self.scope.names[next(part for part in block.key[1].split("◌") if part)] = block.key
            if block.text()[0].lstrip().startswith("pub data "):
                self.note_constructors(block)

    def note_constructors(self, block: Block) -> None:
        for line in block.text()[1:]:
            found = re.match(r"\s+(\S+) :", line)
            if found:
                self.sources.constructors[(self.file, found[1])] = block.key
                self.scope.names[found[1]] = (self.file, found[1])

    def read_names(self) -> None:
        """Notes what each definition names."""
        for block in self.blocks:
            item = self.sources.items[block.key]
            item.refs = self.sources.names_in("\n".join(block.text()), self.scope) - {block.key}
            item.refs |= {outer.key for outer in block.sections}

    def law(self, name: str) -> set[Key]:
        """What the statement of a law names: its lines before the first equation."""
        block = next(block for block in self.blocks if block.key[1] == name)
        lines = block.text()
        end = next(at for at, line in enumerate(lines) if line.startswith(f"{name} ") or at == len(lines) - 1)
        return self.sources.names_in("\n".join(lines[:end]), self.scope) - {block.key}
