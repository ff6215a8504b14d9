"""Asks the program of each row, and says what is wrong with what it tells."""

from __future__ import annotations

import itertools
import json
import subprocess
from collections.abc import Iterator

from checking.program import Program, Result

from .row import Due, Row
from .scan import ASKED, EVERY, WORDS, Scan, Values
from .told import Finding, Told, tables_of

ANSWERS = ["complete", "asked", "words", "unique"]
MOST_POINTS = 1_000


def is_due(found: object, due: Due) -> bool:
    return any(found is it for it in due) if isinstance(due, tuple) else found is due


def wrong_row(row: Row) -> Iterator[str]:
    """What a scan of the row's own table says against the row."""
    scan = row.scan
    yield from (f"{it} is no gap" for it in row.gap_points if scan.hits(it))
    yield from (f"{it} is taken by no rule" for it in row.taken_points if not scan.hits(it))
    if not row.is_constant:
        return
    found = [*(scan.is_complete(it) for it in (EVERY, ASKED, WORDS)), not scan.overlaps() if row.hit in ("U", "A") else None]
    yield from (f"{name}: {it}" for name, it, due in zip(ANSWERS, found, row.told, strict=True) if not is_due(it, due))
    if scan.never != set(row.never):
        yield f"never: {scan.never}"
    if row.hit == "U" and scan.overlaps() != set(row.overlaps) or not scan.overlaps() >= set(row.overlaps):
        yield f"overlaps: {scan.overlaps()}"
    if row.hit in ("F", "P") and scan.masked(row.order()) != set(row.masked):
        yield f"masked: {scan.masked(row.order())}"


def points(scan: Scan) -> list[Values]:
    """Values that the tests tell apart, a thousand at most."""
    columns = [it.values for it in scan.columns]
    while len(list(itertools.islice(itertools.product(*columns), MOST_POINTS + 1))) > MOST_POINTS:
        columns = [it[:: len(it) // 8 + 1] for it in columns]
    return list(itertools.product(*columns))


def wrong_gaps(row: Row, scan: Scan, told: Told) -> Iterator[str]:
    gaps = told.of("gap")
    yield from (f"the witness {it.witness} is no gap" for it in gaps if row.is_constant and scan.hits(it.witness))
    yield from (f"the witness {it.witness} is not asked" for it in gaps if it.is_asked and not scan.is_asked(it.witness, ASKED))
    tried = {json.dumps(it): it for it in [*row.gap_points, *row.taken_points, *(points(scan) if row.is_constant else [])]}
    for point in tried.values():
        in_cells = [it for it in gaps if it.has(point)]
        if scan.hits(point) and in_cells and (row.is_constant or point in row.taken_points):
            yield f"{point} is in the cells of {in_cells[0].line}, and has a rule"
        if scan.hits(point) or told.more or row.told[0] is not False:
            continue
        # Where a rule is undecided, it is so of some values whether they have a rule.
        if not row.is_constant and told.undecided.get("rules"):
            continue
        if not in_cells:
            yield f"{point} has no rule, and is in no gap"
        elif scan.is_asked(point, ASKED) and row.told[1] is False and not any(it.is_asked for it in in_cells):
            yield f"{point} has no rule and is asked, and is in no gap that is told as asked"


def wrong_overlaps(row: Row, scan: Scan, told: Told) -> Iterator[str]:
    overlaps = told.of("overlap")
    pairs = sorted((it.rules[0], it.rules[1]) for it in overlaps)
    if row.is_constant and pairs != sorted(row.overlaps) or not set(pairs) <= set(row.overlaps):
        yield f"overlaps: {pairs}"
    if not row.is_constant:
        return
    yield from (f"{it.witness} meets not both {it.rules}" for it in overlaps if not set(it.rules) <= set(scan.hits(it.witness)))
    for it, point in itertools.product(overlaps, points(scan)):
        if it.has(point) and not set(it.rules) <= set(scan.hits(point)):
            yield f"{point} is in the cells of {it.line}, and meets not both"


def wrong_masked(row: Row, scan: Scan, told: Told) -> Iterator[str]:
    found = {it.rules[0]: it.before for it in told.of("masked") if it.rules[0] not in row.never}
    due = set(row.masked) if row.hit in ("F", "P") else set()
    if row.is_constant and set(found) != due or not set(found) <= due:
        yield f"masked: {found}"
    for rule, before in found.items():
        order = row.order()
        if not all(order.index(it) < order.index(rule) for it in before):
            yield f"rule {rule} is told behind {before}, of which one doesn't go before it"
        elif row.is_constant and not scan.is_behind(rule, before):
            yield f"rule {rule} hits where none of {before} does"
        elif row.masked.get(rule) and sorted(before) != row.masked[rule]:
            yield f"rule {rule} is told behind {before}, and {row.masked[rule]} is due"


def wrong_request(row: Row, finding: Finding) -> Iterator[str]:
    """Whether a witness is told as a request where it is one, and as unsure where the columns may hang together."""
    if not row.columns:
        return
    if ("sure" not in finding.line) != row.sure:
        yield f"{finding.line}: sure is {row.sure}"
    due = row.inputs_of(finding.witness) if row.sure else None
    if json.dumps(finding.line.get("inputs"), sort_keys=True) != json.dumps(due, sort_keys=True):
        yield f"{finding.line}: the inputs {due} are due"


def wrong(row: Row, told: Told) -> Iterator[str]:
    """What is wrong with what is told of a row's table."""
    fault = told.fault(len(row.columns))
    if fault:
        yield fault
        return
    scan = row.scan
    yield from (f"{it}: {told.line.get(it)}, and {due} is due" for it, due in zip(ANSWERS, row.told, strict=True) if not is_due(told.line.get(it), due))
    if ("unique" in told.line) != (row.hit in ("U", "A")):
        yield f"unique stands in {told.line}"
    never = sorted(it.rules[0] for it in told.of("never"))
    if row.is_constant and never != sorted(row.never) or not set(never) <= set(row.never):
        yield f"never: {never}"
    yield from wrong_gaps(row, scan, told)
    yield from wrong_overlaps(row, scan, told)
    yield from wrong_masked(row, scan, told)
    for it in [*told.of("gap"), *told.of("overlap")]:
        yield from wrong_request(row, it)


def told_of(program: Program, model: object) -> dict[str, Told]:
    """What is told of each table of a lawful model."""
    status, text = program.check(json.dumps(model), "--json", "--tables")
    if status:
        raise ValueError(f"status {status}: {text[:200]}")
    return tables_of([json.loads(line) for line in text.splitlines()])


def first_wrong(program: Program, row: Row) -> str | None:
    by_scan = next(wrong_row(row), None)
    if by_scan:
        return f"the row itself, by scan: {by_scan}"
    try:
        tables = told_of(program, row.model())
        if list(tables) != [row.pointer]:
            return f"the tables {list(tables)}"
        return next(wrong(row, tables[row.pointer]), None)
    except (ValueError, KeyError, TypeError, subprocess.SubprocessError) as error:
        return f"what is told can't be read: {error!r}"


def results_of(program: Program, rows: list[Row]) -> list[Result]:
    """Each row, by whether what is told is what is due; what is wrong is printed."""
    found = list[Result]()
    for row in rows:
        fault = first_wrong(program, row)
        if fault:
            print(f"{row.hit} {row.rules}: {fault}")
        found.append((row.why, fault is None))
    return found
