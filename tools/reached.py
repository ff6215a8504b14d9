"""What the check of a crate can read of the crates below it: the pieces that its own files name, and what these name in turn.

A piece is a definition, a type, a trait, or a public function with its contract; with it go those imports of its file that it names.
Names are taken by their letters alone, wherever they stand, so more is counted than what is read, never less; but a definition of
another crate has to be imported, or named with its module. Of a type with a model callers see the value, and none of its private
fields; where it has no others, they don't see what the model says of fields.
"""

from __future__ import annotations

import re
from collections.abc import Iterator
from dataclasses import dataclass
from functools import lru_cache
from pathlib import Path

from contract_names.code import NOT_READ, CodeFile
from contract_names.reading import is_of_tests
from contract_names.specs import blocks_of
from edits import code_file

WORD = re.compile(r"[\w']+|[^\w\s(){}\[\],;.:'\"◌]+")
IMPORT = re.compile(r"^ *(pub )?(?:ghost )?use ([^;{]*?)(?:\{([^}]*)\})?;?$", re.M | re.S)
QUALIFIED = re.compile(r"\bRattle\.([\w.◌+-]*\w)")
# Under which place the imported names stand.
IMPORTED = "imported"
CONSTRUCTOR = re.compile(r"^\s+(?:\| |pub )?(\S+) :", re.M)
COMMENT = {".rt": re.compile(r'"(?:\\.|[^"\\\n])*"|(?<!\S)//[^\n]*'), ".antt": re.compile(r'"(?:\\.|[^"\\\n])*"|(?<!\S)--[^\n]*')}


@dataclass(frozen=True)
class Piece:
    """A text of a place, a file or an impl of it, that is read where one of the names of each group is named: anywhere, or in what
    is read of its own crate, as what isn't public, or of its own place, as imports; or where it is imported under one of its paths."""

    place: Path
    text: str
    names: tuple[frozenset[str], ...]
    within: str = ""
    paths: frozenset[str] = frozenset()

    def places(self) -> Iterator[str]:
        """Where names count that its text has."""
        yield from ("", crate_of(self.place))
        if self.within != str(self.place):
            yield from (str(self.place), str(self.place.parent) if self.place.parent.suffix else "")

    def is_named_in(self, named: dict[str, set[str]]) -> bool:
        words = named.get(self.within, set())
        return bool(self.paths & named[IMPORTED]) or all(group & words for group in self.names)


def words_of(text: str) -> frozenset[str]:
    return frozenset(WORD.findall(text))


def without_comments(text: str, suffix: str) -> str:
    left = COMMENT[suffix].sub(lambda found: found[0] if found[0].startswith('"') else "", text)
    return "\n".join(it.rstrip() for it in left.splitlines() if it.strip())


def path_of(module: str) -> str:
    """The path of a module, a definition or a type, without the name that it has in this file."""
    return module.split(" as ")[0].strip().removeprefix("Rattle.").rstrip(".")


def imported_in(text: str) -> set[str]:
    """The paths of the definitions that a text imports, or names with their modules; `*` is any of a module."""
    found = set[str]()
    for _, module, names in IMPORT.findall(text):
        path = path_of(module)
        found |= {path, *(f"{path}.{it.split(' as ')[0].strip()}" for it in names.split(",") if it.strip())}
        found |= set() if names else {f"{path}.*"}
    for path in QUALIFIED.findall(IMPORT.sub("", text)):
        found |= {path, f"{path}.*", f"{path.rpartition('.')[0]}.*"}
    return found


def module_of(path: Path) -> str:
    """The path of the module that a file of specs/ is."""
    return ".".join(path.with_suffix("").parts[path.parts.index("crates") + 1 :])


def imports_in(place: Path, text: str) -> Iterator[Piece]:
    """The imports of a file or of an impl, each name by itself."""
    for is_public, path, names in IMPORT.findall(text):
        for name in (names or re.split(r"::|\.", path)[-1]).split(","):
            short = name.split(" as ")[-1].strip()
            paths = paths_of(place, [short]) if is_public and place.suffix == ".antt" else frozenset()
            if short:
                written = f"use {path.strip()}{{{' '.join(name.split())}}}" if names else f"use {path.strip()}"
                yield Piece(place, written, (words_of(short),), str(place), paths)


def paths_of(path: Path, names: list[str]) -> frozenset[str]:
    """Under which paths definitions of these names in a file of specs/ are imported."""
    module = module_of(path)
    return frozenset([f"{module}.*", *(f"{module}.{it}" for it in names)])


def definitions_in(path: Path) -> Iterator[Piece]:
    """The definitions of a file of specs/. One that goes by no name is read in any case."""
    text = without_comments(path.read_text("utf-8"), ".antt")
    yield from imports_in(path, "\n".join(it for it in text.splitlines() if it.startswith("use ")))
    for block in blocks_of(path.name, text):
        written = "\n".join(line for _, line in block.lines)
        constructors = CONSTRUCTOR.findall(written) if re.match(r"\s*(?:pub )?data ", written) else []
        names = words_of(" ".join([block.key[1], *constructors]).replace("◌", " "))
        paths = paths_of(path, [block.key[1], *constructors])
        if not written.startswith("pub mod "):
            yield Piece(path, written, () if block.is_section() else (names,), crate_of(path), paths)


def crate_of(path: Path) -> str:
    """The folder of the crate that a file is of."""
    return "/".join(path.parts[: path.parts.index("crates") + 2])


def private_types(code: CodeFile) -> set[str]:
    """The types, traits and constants of a file that no other crate can name."""
    heads = ((code.head(start), code.written[start]) for _, start, _ in code.blocks)
    return {name for (kind, name), line in heads if kind not in ("fn", "impl") and not line.startswith("pub ")}


def declared(code: CodeFile, start: int, end: int, name: str) -> str:
    """A type, a trait or a constant as a caller sees it."""
    lines = code.written[start:end]
    if code.has_model(name):
        lines = [it for it in lines if not it.startswith("    ") or it.startswith("    pub ")]
    return without_comments("\n".join(lines), ".rt")


def is_closed(code: CodeFile, start: int) -> bool:
    """Whether this begins the model of a type of the file that has no public field."""
    name = re.match(r"impl\b.* Model for (\w+)", code.lines[start])
    ends = [(at, end) for _, at, end in code.blocks if name and code.head(at) in (("struct", name[1]), ("enum", name[1]))]
    return any(code.head(at)[0] == "struct" and "    pub " not in code.text(at, end) for at, end in ends)


def members_in(place: Path, code: CodeFile, start: int, end: int) -> Iterator[Piece]:
    """What a caller sees of an impl: of a trait's all, else each public function by itself."""
    head = without_comments(code.written[start], ".rt")
    owner = frozenset(it for it in words_of(head.rpartition(" for ")[2] or head) if it[0].isalpha() and it != "impl")
    yield from imports_in(place, "\n".join(it for it in code.written[start:end] if "ghost use" in it))
    shown, hidden = [], {*NOT_READ, *(("view", "invariant") if is_closed(code, start) else ())}
    for kind, name, (_, at, last) in code.members(start, end):
        to = code.contract_end(at, last, 4) if kind == "fn" else last
        text = without_comments("\n".join([head, *code.written[at:to]]), ".rt")
        if " for " in head:
            shown += [text] if name not in hidden else []
        elif kind != "fn" or code.written[at].lstrip().startswith("pub "):
            yield Piece(place, text, (owner, frozenset([name])))
    if " for " in head:
        is_open = not owner & private_types(code)
        yield Piece(place, "\n".join(shown) or head, (owner,), "" if is_open else crate_of(place))


def items_in(path: Path) -> Iterator[Piece]:
    """What a caller sees of a file of src/."""
    code, taken = code_file(path), set[int]()
    for first, start, end in code.blocks:
        taken.update(range(first, end))
        kind, name = code.head(start)
        if kind == "impl":
            yield from members_in(path / str(start), code, start, end)
        elif kind != "fn":
            within = crate_of(path) if name in private_types(code) else ""
            yield Piece(path, declared(code, start, end, name), (frozenset([name]),), within)
        elif code.written[start].startswith("pub "):
            text = "\n".join(code.written[start : code.contract_end(start, end, 0)])
            yield Piece(path, without_comments(text, ".rt"), (frozenset([name]),))
    yield from imports_in(path, "\n".join(it for at, it in enumerate(code.written) if at not in taken))


@lru_cache(maxsize=None)
def pieces_of(folder: Path) -> tuple[Piece, ...]:
    """What the crates above can read of a crate, each piece once."""
    files = sorted(it for it in folder.glob("src/**/*.rt") if not is_of_tests(it))
    found = [piece for it in files for piece in items_in(it)]
    found += [piece for it in sorted(folder.glob("specs/**/*.antt")) for piece in definitions_in(it)]
    return tuple(dict.fromkeys(found))


def reached(texts: list[str], folders: list[Path]) -> list[str]:
    """The texts of the pieces of these crates that the texts name, and what these name in turn."""
    named = {"": {word for it in texts for word in words_of(it)}, IMPORTED: {path for it in texts for path in imported_in(it)}}
    left = [piece for it in folders for piece in pieces_of(it)]
    found: list[str] = []
    while True:
        now, later = list[Piece](), list[Piece]()
        for it in left:
            (now if it.is_named_in(named) else later).append(it)
        if not now:
            return sorted(found)
        left = later
        for it in now:
            found.append(it.text)
            named[IMPORTED] |= imported_in(it.text)
            for place in it.places():
                named.setdefault(place, set()).update(words_of(it.text))
