"""Reads the texts of `desk explain --text` back, and says where one does not have all that the line of JSON says.

Nothing is skipped: a line that is none of those that are due, or a letter that stands nowhere in the JSON or the model, is told.
"""

from __future__ import annotations

import json
import re

from explaining.values import HIDDEN, MOST, Scanner, Unreadable, is_whole

Json = dict[str, object]
POLICIES = {
    "U": "UNIQUE", "A": "ANY", "P": "PRIORITY", "F": "FIRST", "R": "RULE ORDER", "O": "OUTPUT ORDER", "C": "COLLECT",
    "C+": "COLLECT SUM", "C<": "COLLECT MIN", "C>": "COLLECT MAX", "C#": "COLLECT COUNT",
}  # fmt: skip
KNOWN = {"\\": "\\\\", "\n": "\\n", "\r": "\\r", "\t": "\\t"}
STEP = 4
WIDEST = 40
MOST_RULES = 40


def escaped(source: str) -> str:
    """A text of FEEL as it stands in a line."""
    return "".join(KNOWN[it] if it in KNOWN else numbered(it) if HIDDEN.match(it) else it for it in source)


def numbered(letter: str) -> str:
    """The number of a letter as JSON has it, of one past 65,535 in two units."""
    units = letter.encode("utf-16-be").hex()
    return "".join(f"\\u{units[at : at + 4]}" for at in range(0, len(units), 4))


def expression(source: str) -> str:
    """A text of FEEL, cut behind 200 letters."""
    more = len(source) - MOST
    return escaped(source[:MOST]) + (f".. {more} more" if more > 0 else "")


def cell(source: str) -> str:
    """The cell of a text of FEEL."""
    return escaped(source) if len(source) <= WIDEST else escaped(source[: WIDEST - 2]) + ".."


class Reader:
    """The lines of a text that are left, and the models that were read."""

    def __init__(self, lines: list[str]) -> None:
        self.lines, self.at, self.models = lines, 0, {}

    def line(self) -> str:
        if self.at == len(self.lines):
            raise Unreadable("the text ends")
        self.at += 1
        return self.lines[self.at - 1]

    def expect(self, due: str) -> None:
        got = self.line()
        if got != due:
            raise Unreadable(f"{due!r} is due at {got[:120]!r}")

    def answer(self, told: Json) -> None:
        """Reads the text of an answer."""
        if "read" in told:
            self.models[told["sha256"]] = told["read"]
            self.expect(f"line {told['line']}: model {told['sha256']}")
            self.expect("")
        elif "decisions" in told or "explained" in told:
            self.explanation(told)
            self.expect("")
        else:
            got = self.line()
            if json.loads(got) != told:
                raise Unreadable(f"{told} is due at {got[:120]!r}")

    def explanation(self, told: Json) -> None:
        head = Scanner(self.line())
        head.expect(f"line {told['line']}: client ")
        if not is_whole(told["client"], head.value()):
            raise Unreadable(f"another client than {told['client']!r}")
        head.expect(f", ticket {told['ticket']}, asks for ")
        if head.name() != told["service"] or head.rest():
            raise Unreadable(f"another service than {told['service']!r}")
        self.expect(f"  model {told['model']}")
        for name in sorted(told["inputs"], key=str.encode):
            self.value(f"  input {name} = ", told["inputs"][name])
        if "explained" in told:
            self.expect("  the decisions take over 64 MiB, and are not told")
        else:
            self.decisions(told)
        if "result" in told:
            self.value("  result: ", told["result"])
        else:
            self.expect("  result: a limit is broken")

    def value(self, begin: str, value: object, end: str = "") -> None:
        """Reads a line that has a value."""
        line = Scanner(self.line())
        line.expect(begin)
        shown = line.value()
        if not is_whole(value, shown):
            raise Unreadable(f"{begin!r}: {str(shown)[:200]} is shown, and not {str(value)[:200]}")
        line.expect(end)
        if line.rest():
            raise Unreadable(f"{line.rest()[:120]!r} stands behind {begin!r}")

    def decisions(self, told: Json) -> None:
        logics = {it["name"]: it["expr"] for it in self.models[told["model"]]["decisions"]}
        for decision in told["decisions"]:
            if "given" in decision:
                self.value(f"  {decision['name']} is given: ", decision["given"])
            else:
                self.part(decision["name"], logics[decision["name"]], decision, 2)

    def part(self, label: str, logic: object, told: Json, indent: int) -> None:
        """Reads a decision or a part of one, with its own parts."""
        begin = " " * indent + label
        end = f", from {expression(logic)}" if isinstance(logic, str) else ""
        if "value" in told:
            self.value(f"{begin} = ", told["value"], end)
        else:
            self.expect(f"{begin} breaks a limit{end}")
        indent += STEP
        if "table" in told:
            Grid(self, logic["table"], told["table"], indent).read()
        for key, parts in (("members", logic.get("list")), ("entries", logic.get("context"))) if isinstance(logic, dict) else ():
            self.parts(told.get(key, []), parts, indent)
        if "result" in told:
            self.part("result", logic["result"], told["result"], indent)

    def parts(self, told: list[Json], logics: list[object], indent: int) -> None:
        """Reads the members of a list or the entries of a context: the first 200, and how many more there are."""
        for place, part in enumerate(told[:MOST]):
            logic = logics[place]
            label, logic = (part["name"], logic["expr"]) if "name" in part else (f"member {place + 1}", logic)
            self.part(label, logic, part, indent)
        if len(told) > MOST:
            self.expect(f"{' ' * indent}parts that are left out: {len(told) - MOST}")


class Grid:
    """The text of a table."""

    def __init__(self, reader: Reader, table: Json, told: Json, indent: int) -> None:
        self.reader, self.table, self.told, self.indent = reader, table, told, " " * indent
        # Where each column begins, as far as a row has told it.
        self.columns: list[int] = []
        self.decided = set(told.get("decided", []))

    def read(self) -> None:
        policy = self.told["policy"]
        if policy != self.table["hit"]:
            raise Unreadable(f"{policy} is told of a table under {self.table['hit']}")
        self.reader.expect(f"{self.indent}hit policy {policy} ({POLICIES[policy]}): {self.summary()}")
        for source, value in zip(self.table["inputs"], self.told.get("inputs", []), strict=False):
            self.reader.value(f"{self.indent}{expression(source)} = ", value)
        if "hits" in self.told:
            self.rows()

    def summary(self) -> str:
        """What is said of the hits."""
        if "hits" not in self.told:
            return f"an input {'entry' if 'inputs' in self.told else 'expression'} breaks a limit"
        hits = len(self.told["hits"])
        said = f"{hits} of {len(self.table['rules'])} rules hit"
        if self.told["defaults"]:
            return f"{said}, the defaults decided"
        if hits == 0:
            return said
        if "decided" not in self.told:
            return f"{said}, an output of these breaks a limit"
        return f"{said}, {len(self.told['decided'])} of these decided"

    def rows(self) -> None:
        hits = {it["rule"]: it for it in self.told["hits"]}
        misses = {it["rule"]: it["column"] for it in self.told.get("misses", [])}
        rules = self.table["rules"]
        shows_all = len(rules) <= MOST_RULES or "misses" in self.told
        outputs = [f"| {cell(it['name'])}" for it in self.table["outputs"]]
        if self.cells("", [cell(it) for it in self.table["inputs"]] + outputs).rest():
            raise Unreadable("something stands behind the heads")
        for number, rule in enumerate(rules, 1):
            if number in hits or shows_all:
                self.rule(number, rule, hits.get(number), misses.get(number))
        if not shows_all:
            self.reader.expect(f"{self.indent}rules that missed, and are left out: {len(rules) - len(hits)}")
        if self.told["defaults"]:
            fallbacks = [f"| {cell(it.get('default', 'null'))}" for it in self.table["outputs"]]
            if self.cells("> default", [""] * len(self.table["inputs"]) + fallbacks).rest():
                raise Unreadable("something stands behind the defaults")

    def rule(self, number: int, rule: Json, hit: Json | None, column: int | None) -> None:
        """Reads a rule: whether it hit and decided, its entries, and what it gave or at which column it missed."""
        mark = ">" if number in self.decided else "*" if hit else " "
        line = self.cells(f"{mark} {number}", [cell(it) for it in rule["when"]] + [f"| {cell(it)}" for it in rule["then"]])
        if hit is None and column is None:
            if line.rest():
                raise Unreadable(f"{line.rest()[:120]!r} stands behind rule {number}")
            return
        line.take(re.compile(" {2,}"))
        if hit is None:
            line.expect(f"misses at column {column}")
        elif "value" not in hit:
            line.expect("breaks a limit")
        else:
            line.expect("= ")
            if not is_whole(hit["value"], line.value()):
                raise Unreadable(f"rule {number} gives something else than {hit['value']}")
            if "places" in hit:
                line.expect(f" (place {', '.join('none' if it is None else str(it) for it in hit['places'])})")
        if line.rest():
            raise Unreadable(f"{line.rest()[:120]!r} stands behind rule {number}")

    def cells(self, head: str, cells: list[str]) -> Scanner:
        """Reads a row, whose cells begin where those of the rows before do; and gives what is left of it."""
        line = Scanner(self.reader.line())
        line.expect(self.indent + head)
        for place, due in enumerate(cells):
            if not due:
                continue
            line.take(re.compile(" {2,}"))
            if place < len(self.columns) and self.columns[place] not in (-1, line.at):
                raise Unreadable(f"column {place + 1} begins elsewhere: {line.text[:120]!r}")
            while len(self.columns) <= place:
                self.columns.append(-1)
            self.columns[place] = line.at
            line.expect(due)
        return line


def faults(told: list[bytes], text: list[bytes]) -> list[str]:
    """Where the text is not that of these lines of JSON."""
    lines = [it.decode() for it in text]
    hidden = [f"{it[:120]!r} has a letter that is hidden" for it in lines if HIDDEN.search(it)]
    reader = Reader(lines)
    for it in told:
        answer = json.loads(it)
        try:
            reader.answer(answer)
        except (Unreadable, ValueError) as fault:
            return [*hidden, f"line {answer.get('line')}, text line {reader.at}: {fault}"]
    return hidden if reader.at == len(lines) else [*hidden, f"{lines[reader.at][:120]!r} stands behind the last answer"]
