"""All definitions of specs/ and declarations of src/, and what a name stands for."""

from __future__ import annotations

import re
from collections import defaultdict
from collections.abc import Iterable
from dataclasses import dataclass, field
from pathlib import Path
from typing import Tuple

# A definition: its file, or its module in the kit, and its name there.
Key = Tuple[str, str]

TOKEN = re.compile(r"\[\]|[^\s(){}\[\];,]+")
GHOST_USE = re.compile(r"use ([\w.]+?)(?:\.\{(.*)\}| as (\w+))?;?$", re.M)
DECLARATION = re.compile(r"(?:pub |pub\(\w+\) )?(?:struct|enum|trait|const|type) (\w+)", re.M)
PUBLIC_USE = re.compile(r"^pub use ([\w:]+)::(\{[^}]*\}|\w+);", re.M)
PUBLIC_MODULE = re.compile(r"^pub mod (\w+);", re.M)


@dataclass
class Item:
    """A definition or a declaration, the lines that it has, and what it names."""

    key: Key
    lines: set[int] = field(default_factory=set)
    refs: set[Key] = field(default_factory=set)
    # What those facts name that every value of a type keeps.
    kept: set[Key] = field(default_factory=set)
    # The types of private fields, of a type that contracts see by a model.
    hidden: set[Key] = field(default_factory=set)
    # The line that opens a section of definitions, and no definition itself.
    is_header: bool = False


@dataclass
class Scope:
    """What names stand for in a part of a file: definitions, and modules."""

    names: dict[str, Key] = field(default_factory=dict)
    modules: dict[str, str] = field(default_factory=dict)

    def joined(self, other: "Scope") -> "Scope":
        return Scope({**self.names, **other.names}, {**self.modules, **other.modules})


class Sources:
    """The items of the repository's libraries, by file and name."""

    def __init__(self, root: Path) -> None:
        self.root = root
        names = re.findall(r"^(\w+):", (root / "crates.txt").read_text("utf-8"), re.M)
        libraries = [name for name in names if (root / "crates" / name / "src/lib.rt").exists()]
        # The lowest first, without the crates of tests.
        self.crates = [name for name in libraries if not name.startswith("test_")]
        self.items: dict[Key, Item] = {}
        # Which definition a constructor is of.
        self.constructors: dict[Key, Key] = {}
        # The types, traits and constants of a crate, and what its root makes public: a name's path, or a module.
        self.types: dict[str, dict[str, list[Key]]] = {crate: defaultdict(list) for crate in self.crates}
        self.exports: dict[str, dict[str, str]] = {crate: {} for crate in self.crates}
        self.public_modules: dict[str, set[str]] = {crate: set() for crate in self.crates}
        # The contracts of functions, and the items that are public, with their contracts.
        self.contracts: dict[Key, Item] = {}
        self.public: list[Item] = []
        # Names that a file of specs/ passes on from another one.
        self.passed_on: dict[Key, Key] = {}
        # What a trait's ghost members are at a type, with the trait and the type.
        self.instances: list[tuple[set[Key], Item]] = []

    def declare(self, file: str, text: str) -> None:
        """Notes which types a file of src/ declares, and what a root file makes public."""
        crate = file.split("/")[1]
        for name in re.findall(DECLARATION, "\n".join(line for line in text.splitlines() if line[:1] != " ")):
            self.types[crate][name].append((file, name))
        if file.endswith("src/lib.rt"):
            self.public_modules[crate] |= {"lib", *PUBLIC_MODULE.findall(text)}
            for path, names in PUBLIC_USE.findall(text):
                self.exports[crate].update((name, path) for name in re.findall(r"\w+", names))

    def pass_on(self, file: str, text: str) -> None:
        """Notes which names a file of specs/ passes on."""
        for module, names, _ in GHOST_USE.findall("\n".join(line[len("pub ") :] for line in text.splitlines() if line.startswith("pub use "))):
            for name in filter(None, (it.strip() for it in names.split(","))):
                self.passed_on[(file, name)] = self.key_of(module, name)

    def find_type(self, crate: str, name: str, module: str = "") -> Key | None:
        """A type by its crate and name; `module` tells which, where there are several of the name."""
        found = self.types.get(crate, {}).get(name, [])
        for key in found:
            if len(found) == 1 or Path(key[0]).stem == module:
                return key
        origin = self.exports.get(crate, {}).get(name, "").split("::")[0]
        if not found and origin in self.types and origin != crate:
            return self.find_type(origin, name)
        return found[0] if found else None

    def key_of(self, module: str, name: str) -> Key:
        """What a name of a module is: of a crate's specs/ or proofs/, a declared type, or of the kit."""
        path = module.split(".")
        if path[0] != "Rattle" or len(path) < 3 or path[1] not in self.types:
            return (module, name)
        if path[3:4] != ["declared"]:
            key = (f"crates/{path[1]}/{path[2]}/{'/'.join(path[3:])}.antt", name)
            return self.passed_on.get(key, key)
        names = [part for part in [*path[4:], name] if part[:1].isupper() and not part.startswith("The")]
        return self.find_type(path[1], [*names, name][0], path[4]) or (module, name)

    def scope_of(self, uses: Iterable[str]) -> Scope:
        """What the `use` lines of antt bring into scope. An operator goes by its first word."""
        scope = Scope()
        for use in uses:
            found = GHOST_USE.fullmatch(use.strip())
            if not found:
                raise SystemExit(f"tools/trust: this line is not read: {use}")
            module, names, short = found.groups()
            if names is None:
                scope.modules[short or module.split(".")[-1]] = module
            for name in (names or "").split(","):
                name, _, given = name.strip().partition(" as ")
                for word in [part for part in (given or name).split("◌") if part][:1]:
                    scope.names[word] = self.key_of(module, name)
        return scope

    def find(self, scope: Scope, token: str) -> Key | None:
        """What a word of a term stands for; `x.y` is a name of the module x, or a field of x."""
        head, _, rest = token.rstrip(".").partition(".")
        if head in scope.modules and rest:
            return self.key_of(scope.modules[head], rest.split(".")[0])
        return scope.names.get(token) or scope.names.get(head)

    def names_in(self, text: str, scope: Scope) -> set[Key]:
        """The definitions that a term names. A variable that has a definition's name counts as that definition."""
        tokens = [">>=" if token == "←" else token for token in TOKEN.findall(text)]
        found = {key for token in tokens if (key := self.find(scope, token))}
        return {self.constructors.get(key, key) for key in found}
