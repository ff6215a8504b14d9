"""What `desk check` writes for whole inputs, notes on requests, and what helps where a model is wrong."""

from __future__ import annotations

import json

from . import output_rows as rows
from .program import Program, Result, told

MANY = '{"name":"d","needs":[],"expr":{"list":[' + ",".join(['"("'] * 150) + "]}}"
ONE = '{"name":"d","needs":["a"],"expr":"a"}'
ITS_SERVICE = '{"name":"s","outputs":["d"],"encapsulated":[],"inputDecisions":[],"inputData":["a"]}'


def model(decisions: str, services: str = "") -> str:
    return rows.MODEL % (decisions, services)


def wholes() -> list[tuple[str, list[str], str, int, str]]:
    """Inputs with their options, and the status and the whole output that are due."""
    syntax = "syntax: no JSON text\n  line %d, column %d: %s\n"
    asked = f'{model(ONE, ITS_SERVICE)}\n{{"client":"c","service":"s","inputs":{{"a":1}}}}\n\n'
    asked += '{"client":"c","service":"s","inputs":{"x":1,"a":1.5}}\n'
    within = f'{{"model":{rows.LAWFUL},"domains":{{"age":"[0..120]","score":"[0..1000]"}}}}'
    return [
        ("what can be given", ["--gives"], within, 0, rows.GIVES),
        ("what can be given, never null", ["--strict-null"], within, 0, rows.GIVES),
        ("what can be given of any values", ["--strict-null"], rows.LAWFUL, 4, rows.GIVES_ANY),
        ("domains without what can be given", [], within, 0, rows.SUMMARY),
        ("wrong domains", [], f"{rows.DOMAINS}{rows.LAWFUL}}}", 3, rows.DOMAINS_TOLD),
        ("a lawful model", [], rows.LAWFUL, 0, rows.SUMMARY),
        ("a model on a line", [], f'{{"model":{rows.LAWFUL}}}', 0, rows.SUMMARY),
        ("a lawful model as JSON", ["--json"], rows.LAWFUL, 0, rows.JSON_SUMMARY),
        ("no JSON", [], "{\n}}", 3, syntax % (2, 2, "the end is due")),
        ("no JSON as JSON", ["--json"], "{\n]", 3, rows.NO_JSON_LINES),
        ("no keys", [], '{"inputs":[]}', 3, rows.NO_KEYS_TOLD),
        ("wrong keys as JSON", ["--json"], rows.WRONG_KEYS, 3, rows.WRONG_KEYS_TOLD),
        ("a table as JSON", ["--json"], model(rows.TABLE), 3, rows.TABLE_LINES),
        ("requests", ["--requests"], asked, 0, rows.NOTES_TOLD),
        ("no JSON before requests", ["--requests"], "{\n}", 3, syntax % (1, 1, 'a key in quotes or "}" is due')),
        ("requests as JSON", ["--requests", "--json"], f'{model("")}\n{{"client":"c","service":"sum","inputs":{{}}}}\nx', 0, rows.NOTE_LINES),
    ]


# Models, the first fault, and what is told behind its line.
BEHIND = [
    ("texts without a reading", model(rows.TABLE), "expression", rows.TABLE_TOLD),
    ("texts within boxes", model(rows.BOXES), "expression", rows.BOXES_TOLD),
    ("later faults", model(rows.LATER), "name", rows.LATER_TOLD),
    ("places on several lines", rows.LINES, "name", rows.LINES_TOLD),
    ("rings, rules and services", model(rows.RINGS, rows.RINGS_SERVICE), "table", rows.RINGS_TOLD),
]


def is_behind(program: Program, text: str, fault: str, due: str) -> bool:
    status, said = program.check(text)
    first, _, places = said.partition("\n")
    return status == 3 and first.startswith(f"{fault}: ") and places == due


def ends_with(program: Program, end: str, lines: int, *options: str) -> bool:
    """Where there are too many places, a hundred are told and the others counted."""
    status, said = program.check(model(MANY), *options)
    return status == 3 and said.endswith(end) and len(said.splitlines()) == lines


def is_no_json(program: Program, text: bytes, line: int, column: int, said: str, hint: str) -> bool:
    """Whether of a text that is no JSON is told where it breaks off, and why, for people and as JSON."""
    status, words = program.check_bytes(text)
    due = f"syntax: no JSON text\n  line {line}, column {column}: {said}\n" + (f"    {hint}\n" if hint else "")
    it: dict[str, object] = {"fault": "syntax", "line": line, "column": column, "said": said}
    lines = [json.loads(it) for it in program.check_bytes(text, "--json")[1].splitlines()]
    return (status, words) == (3, due) and lines == [{"fault": "syntax"}, it | ({"hint": hint} if hint else {})]


def with_line_of(length: int) -> str:
    """A lawful model whose line of compact text has so many bytes."""
    whole = '{"decisions":[{"expr":"\\"%s\\"","name":"d","needs":[]}],"inputs":[],"services":[]}'
    return whole % ("x" * (length - len(whole % "") - len('{"model":}')))


def is_long_from_its_line_on(program: Program) -> bool:
    """A model whose line has 1,048,576 bytes is taken, also in a file with more blanks, and one of a byte more is not."""
    most = with_line_of(1_048_576)
    if len(f'{{"model":{most}}}') != 1_048_576 or any(program.check(it)[0] != 0 for it in (most, most.replace(",", " ,\n"))):
        return False
    longer = with_line_of(1_048_577)
    words = 'long: lawful, and too long for a line\n  its line {"model":..} has 1048577 bytes, and a line may have 1048576\n'
    return program.check(longer) == (3, words) and program.check(longer, "--json") == (3, '{"fault":"long"}\n{"fault":"long","length":1048577}\n')


def notes(program: Program, line: str) -> list[str]:
    """What is said of a line of requests."""
    said = program.check(f"{rows.ASKED}\n{line}", "--requests")[1].splitlines()
    return [it[len("line 2: ") :] for it in said if it.startswith("line 2: ")]


def are_told_in_turn(program: Program) -> bool:
    """Whether of lines that follow each other is told what is due, by their numbers."""
    asked = "\n".join([rows.ASKED, *(line for line, _ in rows.ASKED_IN_TURN)])
    said = program.check(asked, "--requests")[1].splitlines()
    due = [f"line {number}: {it}" for number, (_, told) in enumerate(rows.ASKED_IN_TURN, 2) for it in told]
    return [it for it in said if it.startswith("line ")] == due


def has_long_line(program: Program) -> bool:
    """Whether a line of more bytes than a line may have is told, and the one behind it is looked at."""
    request = '{"client":"a","service":"limit","inputs":{"requested":"%s","age":1}}'
    most = request % ("x" * (1_048_576 - len(request) + 2))
    said = program.check("\n".join([rows.ASKED, most, most.replace("x", "xx", 1), "{"]), "--requests")[1].splitlines()
    return [it for it in said if it.startswith("line ")] == ["line 3: the line has over 1048576 bytes", 'line 4: no JSON text: column 1: a key in quotes or "}" is due']


def name_hint(program: Program, name: str) -> list[object]:
    said = program.lines(json.dumps({"inputs": [name], "decisions": [], "services": []}))
    return [it.get("hint") for it in said if it.get("said") == "no name"]


def need_hint(program: Program, name: str) -> list[object]:
    """What helps where a decision needs this name, which the model of rings has not."""
    whole = json.loads(rows.HELPED)
    whole["decisions"].append({"name": "needing", "needs": [name], "expr": "1"})
    return [it.get("hint", "") for it in program.lines(json.dumps(whole)) if it.get("fault") == "unknown" and "pointer" in it]


def helped(program: Program) -> list[Result]:
    """Cycles and services that do not fit, with what helps."""
    said = {told(it): it.get("hint", "") for it in program.lines(rows.HELPED) if "pointer" in it}
    rings = [(n, f"decisions[{n}]: needs itself, directly or through others", hint) for n, hint in rows.RING_HINTS]
    found = [(f"ring {n}", said.get(place, "") == hint and (place in said) == bool(hint)) for n, place, hint in rings]
    return found + [(f"service {n}", said.get(f"services[{n}]: {words}") == hint) for n, (words, hint) in enumerate(rows.SERVICE_HINTS)]


def all_rows(program: Program) -> list[Result]:
    found = [(name, program.check(text, *options) == (status, due)) for name, options, text, status, due in wholes()]
    found += [(name, is_behind(program, text, fault, due)) for name, text, fault, due in BEHIND]
    found.append(("many places", ends_with(program, "\n  and 50 more\n", 203)))
    found.append(("many places as JSON", ends_with(program, '\n{"fault":"expression","more":50}\n', 102, "--json")))
    found.append(("a model that is too long for a line", is_long_from_its_line_on(program)))
    found += [(f"no JSON {row[0]!r}", is_no_json(program, *row)) for row in rows.NO_JSON]
    found += [(f"notes on {line}", notes(program, line) == due) for line, due in rows.NOTES]
    found += [("requests in turn", are_told_in_turn(program)), ("a request that is too long", has_long_line(program))]
    found += [(f"name {name!r}", name_hint(program, name) == [hint]) for name, hint in rows.NAMES]
    found += [(f"need {name!r}", need_hint(program, name) == [hint]) for name, hint in rows.NEAR]
    return found + helped(program)
