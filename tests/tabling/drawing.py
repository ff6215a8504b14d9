"""Tables drawn at random: such that take every value once, and others, with what a scan says of them."""

from __future__ import annotations

import itertools
import json
import random
from collections.abc import Callable

from .meaning import MOST
from .row import NO, OPEN, YES, Json, Row
from .scan import ASKED, EVERY, WORDS

POLICIES = ["U", "A", "P", "F", "O", "R", "C", "C+", "C<", "C>", "C#"]
NUMBERS = [-MOST, 1 - MOST, -7, -2, -1, 0, 1, 2, 3, 5, 8, MOST - 1, MOST]
TEXTS = ["", "a", "b", "ab", "a\0", "é", "Z", "\uffff", "\U0001f600"]
COLUMNS = ["a", "b", "c", "p.x", "p.y", "p.q.z"]
# Tests that take nothing, or the same as others, and such that a list, a name or a decision before decides.
ODD = ['["b".."a"]', '< ""', '("a".."a\0")', '("a".."b"]', 'not(< "b")', 'not(["a".."é"], "Z")', '> "ab", "a"', '< "\U0001f600"', '["a"..5]', "[7..3]", "(5..6)", "(2..2)", "> null", "[null..5]", "[0..true)", "not(< 1, >= 1)", '["b"..1]', "-0", "null", "not(null, 1)", "true, 3", 'not(["a".."b"], 1)']
UNDECIDED = ["[1, 2]", "not([1, 2])", "[]", "x", "not(x)", "< x", "[0..x]", "[x, 1]", "half", "a", "1 + 1"]
# The rules' entries in one column, of which each value of a kind meets just one.
Parts = Callable[[random.Random], list[str]]


def text(value: str) -> str:
    return json.dumps(value, ensure_ascii=False).replace("\\u0000", "\0")


def shuffled(draw: random.Random, parts: list[str]) -> list[str]:
    return draw.sample(parts, len(parts))


def run(draw: random.Random, low: int, high: int) -> str:
    """A test of the numbers from one to another, or of both where they are two, in one of its forms."""
    forms = [f"[{low}..{high}]"]
    if low == high:
        forms += [str(low), f"{low}, {low}"]
    if low == -MOST:
        forms += [f"<= {high}"] + ([f"< {high + 1}"] if high < MOST else [])
    if high == MOST:
        forms += [f">= {low}"] + ([f"> {low - 1}"] if low > -MOST else [])
    if low > -MOST and high < MOST:
        forms += [f"({low - 1}..{high + 1})", f"]{low - 1}..{high}]", f"[{low}..{high + 1})"]
    return draw.choice(forms)


def numbers(draw: random.Random) -> list[str]:
    """All numbers, cut into runs; two of them may be one entry, and of the last it may be said that it is none of the others."""
    starts = [-MOST, *sorted(set(draw.sample(NUMBERS[1:], draw.randrange(1, 4))))]
    runs = [run(draw, low, high) for low, high in zip(starts, [*(it - 1 for it in starts[1:]), MOST], strict=True)]
    if len(runs) > 2 and draw.randrange(3) == 0:
        return shuffled(draw, [", ".join(runs[::2]), *runs[1::2]])
    if draw.randrange(3) == 0:
        return shuffled(draw, [*runs[:-1], f"not({', '.join(runs[:-1])})"])
    return shuffled(draw, runs)


def words(draw: random.Random) -> list[str]:
    """Words, with or without a test of all others."""
    picked = [text(it) for it in draw.sample(TEXTS, draw.randrange(1, 4))]
    parts = [", ".join(picked[:2]), *picked[2:]] if draw.randrange(3) == 0 else picked
    return shuffled(draw, parts + ([f"not({', '.join(picked)})"] if draw.randrange(2) else []))


def ordered(draw: random.Random) -> list[str]:
    """All texts, by order."""
    cuts = [text(it) for it in sorted(draw.sample(TEXTS[1:], draw.randrange(1, 4)))]
    # Of each cut, whether it stands with what is below it, with what is above, or alone.
    sides = [draw.choice(["below", "above", "alone"]) for _ in cuts]
    opened, closed = ["[" if it == "above" else "(" for it in sides], ["]" if it == "below" else ")" for it in sides]
    between = [f"{opened[n]}{cuts[n]}..{cuts[n + 1]}{closed[n + 1]}" for n in range(len(cuts) - 1)]
    first, last = f"{'<=' if sides[0] == 'below' else '<'} {cuts[0]}", f"{'>=' if sides[-1] == 'above' else '>'} {cuts[-1]}"
    alone = [cut for cut, side in zip(cuts, sides, strict=True) if side == "alone"]
    parts = [first, *between, last, *alone]
    if draw.randrange(4) == 0:
        return shuffled(draw, [*parts[1:], draw.choice([f"not({', '.join(parts[1:])})", first])])
    return shuffled(draw, parts)


def truths(draw: random.Random) -> list[str]:
    return draw.choice([["true", "false"], ["false", "true"], ["true", "not(true)"], ["true, false"]])


def nulls(draw: random.Random) -> list[str]:
    return draw.choice([["null", "not(null)"], ["not(null)", "null"]])


KINDS: list[Parts] = [numbers, numbers, words, words, ordered, ordered, truths, nulls]


def split(draw: random.Random, kinds: list[Parts], most: int) -> list[list[str]]:
    """Rules of which just one hits, by cutting one of them in a column where it asks for nothing yet, again and again."""
    rules = [["-"] * len(kinds)]
    for _ in range(draw.randrange(2, 9)):
        place, column = draw.randrange(len(rules)), draw.randrange(len(kinds))
        if rules[place][column] != "-":
            continue
        cut = [rules[place][:column] + [part] + rules[place][column + 1 :] for part in kinds[column](draw)]
        if len(rules) + len(cut) <= most:
            rules[place : place + 1] = cut
    return draw.sample(rules, len(rules))


def changed(draw: random.Random, rules: list[list[str]], kinds: list[Parts]) -> None:
    """One change of the rules: one is left out, widened, made another, or added."""
    column = draw.randrange(len(kinds))
    entry = draw.choice(ODD) if draw.randrange(3) == 0 else draw.choice(kinds[column](draw))
    choice = draw.randrange(5)
    if choice == 0 and len(rules) > 1:
        rules.pop(draw.randrange(len(rules)))
    elif choice == 1:
        rules[draw.randrange(len(rules))][column] = "-"
    elif choice == 2:
        rules[draw.randrange(len(rules))][column] = entry
    elif choice == 3:
        rules.insert(draw.randrange(len(rules) + 1), [entry if it == column else "-" for it in range(len(kinds))])
    else:
        rules.insert(draw.randrange(len(rules) + 1), [draw.choice(it(draw)) for it in kinds])


def settle(row: Row) -> None:
    """What is due of a table, by scan; of one that lists or names decide every answer may be, and is tried by requests."""
    rules = range(1, len(row.rules) + 1)
    if not row.is_constant:
        row.told = ((YES, NO, OPEN),) * 4
        row.overlaps, row.never, row.masked = list(itertools.combinations(rules, 2)), list(rules), {it: [] for it in rules}
        return
    scan, pairs = row.scan, sorted(row.scan.overlaps())
    has_pairs, has_order = row.hit in ("U", "A"), row.hit in ("F", "P")
    row.told = (scan.is_complete(EVERY), scan.is_complete(ASKED), scan.is_complete(WORDS), not pairs if has_pairs else None)
    row.overlaps = [(i, j) for i, j in pairs if row.hit == "U" or row.hit == "A" and row.then[i - 1] != row.then[j - 1]]
    row.never = sorted(scan.never)
    row.masked = {it: [] for it in scan.masked(row.order())} if has_order else {}


def drawn_row(draw: random.Random, number: int) -> Row:
    """One table in eight has tests that lists, names or a decision decide."""
    columns = draw.sample(COLUMNS, draw.choice([1, 1, 2, 2, 3]))
    if draw.randrange(12) == 0:
        columns = draw.choice([["a", "a"], ["half"], ["a", "half"], ["count(p)"], ["p", "p.x"]])
    kinds = [draw.choice(KINDS) for _ in columns]
    rules = split(draw, kinds, 12)
    for _ in range(draw.choice([0, 0, 1, 1, 2, 4])):
        changed(draw, rules, kinds)
    if draw.randrange(8) == 0:
        rules[draw.randrange(len(rules))][draw.randrange(len(columns))] = draw.choice(UNDECIDED)
    hit = draw.choice(POLICIES + ["U", "F", "F", "P", "A"])
    column: Json = {"name": "r"} | ({"default": "0"} if draw.randrange(2) else {})
    if hit in ("P", "O"):
        column["values"] = draw.choice([["2", "1"], ["3", "1", "2"], ["1"]])
    then: list[str | list[str]] = [draw.choice("123") for _ in rules]
    needs = list(dict.fromkeys([*(it.removeprefix("count(").removesuffix(")").split(".")[0] for it in columns), "x", "half", "a"]))
    row = Row(f"table {number}", list(rules), (OPEN,) * 4, hit=hit, columns=columns, needs=needs, outputs=[column], then=then, names=dict.fromkeys(needs, 1))
    row.sure = all(it in COLUMNS for it in columns) and len(set(columns)) == len(columns)
    settle(row)
    return row
