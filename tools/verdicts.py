"""What a check of a crate with edits says of each of them."""

from __future__ import annotations

import re

from edits import Edit

# The two verdicts on a crate's contracts; any other text is why there is none.
PROVED, REFUSED = "proved", "refused"
# Where a check says that it refuses something; where it cannot read a text; and where a proof file names what an edit took
# away, or cites a proof that does.
PLACE = re.compile(r"(?:note: )?(?:\./)?(?P<file>\S+?):(?P<line>\d+):\d+:(?P<said>.*)")
READING = re.compile(r"(?:\./)?(?:src|specs)/\S+:\d+:\d+: error: (`[^`]*`: )?(.*)")
UNREAD = re.compile(r"is not in scope|has no field|is no name|operand is missing|expected the end|cannot continue")
NAMED = re.compile(r"has no field|is not in scope|has no `|was not admitted")


def is_unread(line: str) -> bool:
    """Whether a text of the crate could not be read, where an edit that only makes a statement false reads well."""
    at = READING.match(line)
    return at is not None and (not at[1] or UNREAD.search(re.sub(r"`[^`]*`", "", at[2])) is not None)


def refusals(lines: list[str]) -> list[tuple[str, int, str]]:
    """The file, the line and the text of each place at which something was refused."""
    found = (PLACE.match(it) for it in lines)
    places = [(it["file"], int(it["line"]), it["said"]) for it in found if it]
    return [it for it in places if it[2].startswith(" error") or "not proved" in it[2] or "found no proof" in it[2]]


def reached(lines: list[str]) -> str:
    """Why a check says nothing of any contract; nothing where it does."""
    unread = next((it for it in lines if is_unread(it)), "")
    if unread:
        return f"the prover cannot read it: {unread}"
    if not any(it.startswith(("logic=", "only=")) for it in lines):
        return f"the prover was not reached: {next((it for it in lines if 'error' in it), lines[-1] if lines else '')}"
    return ""


def is_proved(crate: str, edit: Edit, lines: list[str]) -> bool:
    """Whether the check proved each function that the edit changes, or the whole crate."""
    if not edit.functions:
        return any(it.startswith("logic=proved") for it in lines)
    said = {it.partition(": ")[0]: it.partition(": ")[2] for it in lines if it.startswith("fn ")}
    return all(said.get(f"fn {crate}::{it.name}", "").startswith("proved") for it in edit.functions)


def verdict_on(crate: str, edit: Edit, said: str) -> str:
    """What a check of a crate with this edit, and maybe with others of other functions, says of it: PROVED, REFUSED, or why that is
    not known. What is only not proved because a function that it calls isn't has no verdict."""
    lines = said.splitlines()
    why = reached(lines)
    if why or is_proved(crate, edit, lines):
        return why or PROVED
    own = own_refusals(edit, lines)
    if own and all(NAMED.search(it) for it in own):
        return f"a proof file names what it takes away: {own[0].strip()}"
    return REFUSED if own else "the check says nothing of it"


def own_refusals(edit: Edit, lines: list[str]) -> list[str]:
    """What a check refuses of the functions that the edit changes."""
    return [f"{file}:{line}:{text}" for file, line, text in refusals(lines) if is_of(edit, file, line, text)]


def is_of(edit: Edit, file: str, line: int, said: str) -> bool:
    """Whether something that is refused there is refused of a function that the edit changes."""
    if not edit.functions:
        return True
    is_inside = any(file == it.file and it.head <= line <= it.last for it in edit.functions)
    return is_inside or any(it.is_answered(file, said) for it in edit.functions)
