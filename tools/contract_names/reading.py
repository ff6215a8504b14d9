"""The sources of a repository, read."""

from __future__ import annotations

from pathlib import Path

from .code import CodeFile
from .sources import Sources
from .specs import SpecFile


def is_of_tests(path: Path) -> bool:
    """Whether the file has tests alone."""
    return path.stem == "tests" or "tests" in path.parts or path.stem.startswith("tests_")


def read_sources(root: Path) -> Sources:
    """Reads all libraries: first what each file declares, and then what that names."""
    sources = Sources(root)
    code: dict[str, str] = {}
    specs: dict[str, str] = {}
    for crate in sources.crates:
        for path in sorted(it for it in (root / "crates" / crate).glob("src/**/*.rt") if not is_of_tests(it)):
            code[str(path.relative_to(root))] = path.read_text("utf-8")
        for path in sorted((root / "crates" / crate).glob("specs/*.antt")):
            if path.name != "Lib.antt":
                specs[str(path.relative_to(root))] = path.read_text("utf-8")
    for file, text in code.items():
        sources.declare(file, text)
    for file, text in specs.items():
        sources.pass_on(file, text)
    spec_files = [SpecFile(sources, file, text) for file, text in specs.items()]
    code_files = [CodeFile(sources, file, text) for file, text in code.items()]
    for reader in [*spec_files, *code_files]:
        reader.read_names()
    return sources
