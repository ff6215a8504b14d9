"""The edits of crates/NAME/must-fail/more, the functions that each changes, and rounds of them that one check can try.

A check proves a function on its own: of the others it takes the contracts alone. So edits of several functions are tried at once,
and the check says of each function whether it is proved.
"""

from __future__ import annotations

import re
from collections.abc import Iterator
from dataclasses import dataclass, field
from functools import lru_cache
from pathlib import Path

from contract_names.code import CodeFile
from contract_names.reading import is_of_tests
from contract_names.sources import Sources
from rooms import TOP

# The kinds of edits: one that the proof must refuse, and one of the same shape that it must accept.
WRONG, CONTROL = "wrong body", "control"
KINDS = (WRONG, CONTROL)
IMPL = re.compile(r"impl(?P<generic><.*?>(?= ))? (?:(?P<trait>\S.*) for )?(?P<type>\S.*?) (?:where .*)?\{")


@dataclass(frozen=True)
class Function:
    """A function of a crate: its file, the lines there of its comment and attributes, of its body's beginning and of its end, and the
    prover's name for it."""

    file: str
    head: int
    first: int
    last: int
    name: str

    @property
    def proofs(self) -> str:
        """The folder of what is written of its proof."""
        return f"proofs/{self.name.replace('::', '/')}/"

    def is_answered(self, file: str, said: str) -> bool:
        """Whether this is said of its proof. What is written of functions that call each other lies in a folder of theirs, with `+`."""
        module, _, own = self.name.rpartition("::")
        in_cycle = file.startswith(f"proofs/{module.replace('::', '/')}/+") and f"`{own}-" in said
        return in_cycle or file.startswith(self.proofs)


@dataclass
class Edit:
    """An edit of a crate: its page, its kind, its text, and the functions that it changes; none where it changes anything else."""

    page: str
    kind: str
    text: str
    functions: list[Function] = field(default_factory=list)

    @property
    def name(self) -> str:
        return self.page if self.kind == WRONG else f"{self.page}, its control"


def fenced(folder: Path, place: int) -> dict[str, str]:
    """Of each page of a crate's must-fail/more, by name, the lines between the first fences, or the second ones, if it has these."""
    found = {}
    for page in sorted((folder / "must-fail" / "more").glob("*.md")):
        edits = re.findall(r"^```\n(.*?)^```$", page.read_text(), re.M | re.S)
        if not edits:
            raise SystemExit(f"wrong-bodies: {page.relative_to(TOP)} has no edit between two lines of ```")
        if len(edits) > place:
            found[page.stem] = edits[place]
    return found


def edits_of(folder: Path, kind: str) -> list[Edit]:
    """The edits of one kind that a crate has, with the functions that they change."""
    return [Edit(page, kind, text, changed_by(folder, text)) for page, text in fenced(folder, KINDS.index(kind)).items()]


def steps(edit: str) -> Iterator[tuple[str, str, str]]:
    """Each file that an edit changes, with the text there and the one that takes its place."""
    file = old = ""
    for line in edit.splitlines():
        if line.startswith("file: "):
            file = line[len("file: ") :].strip()
        elif line.startswith("old: "):
            old = line[len("old: ") :]
        elif line.startswith("new:"):
            yield file, old, line[len("new:") :].removeprefix(" ")


def edited(folder: Path, edits: list[str]) -> dict[Path, str] | str:
    """The files of a crate that these edits change, with their new texts, or why one cannot be applied to what stands."""
    texts: dict[Path, str] = {}
    for file, old, new in (it for edit in edits for it in steps(edit)):
        path = folder / file
        if not path.is_file():
            return f"there is no file {file}"
        text = texts.setdefault(path, path.read_text("utf-8"))
        if text.count(old) != 1:
            return f"its text stands {text.count(old)} times in {file}, and not once: {old.strip()}"
        texts[path] = text.replace(old, new)
    return texts


@lru_cache(maxsize=None)
def declared() -> Sources:
    """What each file of the libraries declares."""
    sources = Sources(TOP)
    for crate in sources.crates:
        for path in sorted((TOP / "crates" / crate).glob("src/**/*.rt")):
            if not is_of_tests(path):
                sources.declare(str(path.relative_to(TOP)), path.read_text("utf-8"))
    return sources


@lru_cache(maxsize=None)
def code_file(path: Path) -> CodeFile:
    return CodeFile(declared(), str(path.relative_to(TOP)), path.read_text("utf-8"))


def module_of(file: str) -> list[str]:
    """The names on the path of the module that a file of a crate's src/ is."""
    return [it for it in Path(file).with_suffix("").parts[1:] if it not in ("lib", "main", "mod")]


def owner(code: CodeFile, file: str, header: str) -> list[str]:
    """The prover's name for what an impl belongs to. That is its type in the type's own module, or of a trait in the impl's module the
    type and the trait behind it, with its arguments."""
    found = IMPL.match(header)
    if not found:
        return ["?"]
    name = re.sub(r"<.*", "", found["type"])
    if found["trait"]:
        of_trait = re.sub(r"\b\w+::", "", found["trait"])
        return [*module_of(file), name + "".join(re.findall(r"\w+", of_trait))]
    declared_in = code.types.get(name, (code.file, name))[0]
    return [*module_of(declared_in.split("/", 2)[2]), name]


@lru_cache(maxsize=None)
def bodies(folder: Path, file: str) -> tuple[Function, ...]:
    """The functions of a file with the lines of their bodies, and not of their contracts."""
    code = code_file(folder / file)
    found = []
    for above, start, end in code.blocks:
        kind, name = code.head(start)
        if kind == "fn":
            found.append(Function(file, above + 1, code.contract_end(start, end, 0) + 1, end, "::".join([*module_of(file), name])))
        elif kind == "impl":
            of = owner(code, file, code.written[start])
            for member, method, (above, at, last) in code.members(start, end):
                if member == "fn":
                    first = code.contract_end(at, last, 4) + 1
                    found.append(Function(file, above + 1, first, last, "::".join([*of, method])))
    return tuple(found)


def functions_at(folder: Path, file: str, line: int) -> list[Function]:
    """The functions that a change of this line changes: that whose body it is in, those that name the constant that it declares,
    and none at an import that only this file sees."""
    constant = re.match(r"(pub\(crate\) )?const (\w+):", code_file(folder / file).lines[line - 1])
    if not constant:
        return [it for it in bodies(folder, file) if it.first <= line <= it.last]
    files = [str(it.relative_to(folder)) for it in sorted(folder.glob("src/**/*.rt"))] if constant[1] else [file]
    return [it for name in files for it in bodies(folder, name) if names_constant(folder, it, constant[2])]


def names_constant(folder: Path, function: Function, constant: str) -> bool:
    body = code_file(folder / function.file).text(function.first - 1, function.last)
    return re.search(rf"\b{constant}\b", body) is not None


def changed_by(folder: Path, edit: str) -> list[Function]:
    """The functions whose bodies an edit changes; none where it changes anything else too, or the prover's name is not known."""
    found: list[Function] = []
    for file, old, _ in steps(edit):
        path = folder / file
        if not file.startswith("src/") or not path.is_file() or path.read_text("utf-8").count(old) != 1:
            return []
        text = path.read_text("utf-8")
        line = text[: text.find(old)].count("\n") + 1
        inside = functions_at(folder, file, line)
        if any("?" in it.name for it in inside) or not (inside or old.startswith("use ")):
            return []
        found += [it for it in inside if it not in found]
    return found


def are_apart(edit: Edit, others: list[Edit]) -> bool:
    """Whether these edits change functions alone, and none of them one that this edit changes."""
    taken = [function for it in others for function in it.functions]
    return all(it.functions for it in (edit, *others)) and not any(it in taken for it in edit.functions)


def rounds(edits: list[Edit]) -> list[list[Edit]]:
    """The edits in rounds, in each of which no two change one function. One that changes anything else than functions is alone, in a
    later round, since all of the crate is proved for it."""
    found: list[list[Edit]] = []
    for edit in edits:
        room = next((it for it in found if are_apart(edit, it)), None)
        if room is None:
            found.append([edit])
        else:
            room.append(edit)
    return sorted(found, key=lambda it: not it[0].functions)
