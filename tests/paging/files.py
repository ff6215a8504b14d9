"""Files of requests that the page counts over, in each form that `desk run` takes."""

from __future__ import annotations

import csv
import io
import json
import os
import random
import subprocess
from dataclasses import dataclass
from pathlib import Path

HERE = Path(__file__).resolve().parent.parent.parent
PARCEL = HERE / "examples" / "parcel.json"
TRAFFIC = HERE / "examples" / "dmn" / "traffic-violation.dmn"
WRITTEN = "weight;express;#note\n1;WAHR;\"ä \"\"x\"\"; y\"\n5,0;FALSCH;\"two\nlines\"\n;;\n#DIV/0!;WAHR;\n3;#N/A;\n1E+030;WAHR; a \n"
# A row of them has no value, and gives null; those without a result have a line and "row".
COUNTED = [("2", "900", ""), ("3", "950", ""), ("5", "null", ""), ("6", "", "row"), ("7", "", "row"), ("8", "", "row")]
TWO = [("2", "900", ""), ("3", "950", "")]


@dataclass(frozen=True)
class File:
    """A file, and what is due of its answers: line, result, problem."""

    name: str
    given: bytes
    due: list[tuple[str, str, str]]
    comma: bool = False


FILES = [
    File("commas.csv", b"weight,express\n1,true\n5,false\n", TWO),
    File("mark.csv", b"\xef\xbb\xbfweight,express\r\n1,true\r\n5,false", TWO),
    File("tabs.txt", b"weight\texpress\n1\ttrue\n5\tfalse\n", TWO),
    File("sep.csv", b"sep=|\r\nweight|express\r\n1|true\r\n5|false\r\n", [("3", "900", ""), ("4", "950", "")]),
    File("results.csv", b"weight,express,=price,#fault\n1,true,900,\n5,false,950,\n", TWO),
    File("sheet.csv", WRITTEN.encode(), COUNTED, True),
    File("sheet16.csv", WRITTEN.encode("utf-16"), COUNTED, True),
    File("sheet16be.csv", b"\xfe\xff" + WRITTEN.encode("utf-16-be"), COUNTED, True),
    File("unmarked16.csv", WRITTEN.encode("utf-16-le"), COUNTED, True),
    File("faults.csv", b'weight,express\n1\n1,true,2\n1,"true\n5,tr"ue\n5,false\n1;5,false\n"1","true"x\n1.5,true\n1,"true"\n', [
        ("2", "", "row"), ("3", "", "row"), ("4", "", "row"), ("5", "", "row"), ("6", "950", ""), ("7", "null", ""), ("8", "", "row"),
        ("9", "", "value"), ("10", "900", "")]),
    File("ansi.csv", "weight,express,#a\n1,true,ä\n5,false,b\n".encode("cp1252"), [("2", "", "row"), ("3", "950", "")]),
    File("lines.jsonl", b'{"weight":1,"express":true}\n\n{"weight":5,"express":false}\n', [("1", "900", ""), ("3", "950", "")]),
    File("marked.jsonl", b'\xef\xbb\xbf{"weight":1,"express":true,"=price":900,"#id":7}\n{"weight":5,"express":false}\n{"a":"=", "#b\n',
         [("1", "900", ""), ("2", "950", ""), ("3", "", "row")]),
    File("serve.jsonl", b'{"client":"c","service":"shipping","inputs":{"weight":1,"express":true},"result":900}\n', [("1", "900", "")]),
    File("list.json", b'[{"weight":1,\n"express":true}, {"weight":5,"express":false,"=price":"]"}\n, 7]\n',
         [("1", "900", ""), ("2", "950", ""), ("3", "", "shape")]),
    File("list16.json", '\ufeff[{"weight":1,"express":true}]'.encode("utf-16-le"), [("1", "900", "")]),
    File("open.json", b'[{"weight":1,"express":true}\n', [("2", "", "row")]),
    File("open2.json", b'[{"weight":1,"express":true},\n', [("1", "900", ""), ("2", "", "row")]),
    File("more.json", b'[{"weight":1,"express":true}]\n{}', [("1", "900", ""), ("2", "", "row")]),
]

REFUSED = {
    "empty.csv": (b"", "a header is due: the names of the columns"),
    "name.csv": (b"wieght,express\n1,true\n", 'line 1: column 1: the model has no input "wieght"; did you mean "weight"?'),
    "part.csv": (b"weight.x,weight\n1,2\n", 'line 1: column 2: another column has "weight", or a part of it'),
    "mac.csv": (b"weight,express\r1,true\r", "a carriage return without a line feed"),
    "ansi.csv": ("weight,Größe\n1,2\n".encode("cp1252"), "line 1: a byte is not UTF-8: save the file as UTF-8"),
    "half.csv": ("weight\n1".encode("utf-16") + b"\x00\xd8", "it is no valid UTF-16"),
}


class Files:
    """Rows about files of requests."""

    def __init__(self, suite) -> None:
        self.suite, self.browser = suite, suite.browser

    def count(self, file: File) -> None:
        """Takes a file, and waits for what is counted."""
        path = self.suite.folder / file.name
        path.write_bytes(file.given)
        self.browser.js("document.getElementById('comma').checked = arguments[0]; document.getElementById('counted').textContent = ''", file.comma)
        self.browser.file("coverage-file", path)
        self.browser.wait(lambda: " s. " in self.browser.text("counted"), f"the counts of {file.name}")

    def answers(self) -> list[tuple[str, str, str]]:
        """The few answers on the page: line, result, problem."""
        self.browser.drawn()
        shown = self.browser.js("""return [...document.querySelectorAll("#coverage .answers tbody tr")].map((row) =>
            [row.querySelector("th").textContent, row.querySelector("code").textContent])""")
        words = [(line, text, text.split(":")[0]) for line, text in shown]
        return [(line, "" if word in ("row", "value", "shape") else text, word if word in ("row", "value", "shape") else "")
                for line, text, word in words]

    def forms(self) -> str:
        """Each form is read as `desk run` reads it."""
        self.browser.open(self.suite.service("parcel.json"))
        for file in FILES:
            self.count(file)
            got = self.answers()
            assert got == file.due, f"{file.name}: {got}, and {file.due} is due"
        return f"{len(FILES)} files"

    def refused(self) -> str:
        """A file that can't be read is refused, and says why."""
        self.browser.open(self.suite.service("parcel.json"))
        for name, (given, due) in REFUSED.items():
            path = self.suite.folder / name
            path.write_bytes(given)
            self.browser.file("coverage-file", path)
            self.browser.wait(lambda due=due: due in self.browser.text("alert"), f"{name}: {due}")
        return ""

    def names(self) -> str:
        """Columns have the names of a file of DMN, and its types; a row is looked at."""
        self.browser.open(self.suite.service("dmn/traffic-violation.dmn"), name="Fine")
        self.browser.js("""const it = document.getElementById("service"); const own = [...it.options].find((o) => o.textContent === "Fine" || o.value === "Fine");
            it.value = own.value; it.dispatchEvent(new Event("change", {bubbles: true}));""")
        text = ("Driver.Name,Violation.Type,Violation.Speed Limit,Violation.Actual_Speed\n123,speed,100,130\nCy,walking,,\nCy,speed,x,1\n")
        self.count(File("names.csv", text.encode(), []))
        got = self.answers()
        due = [("2", '{"Amount":1000,"Points":7}', ""), ("3", "", "value"), ("4", "", "row")]
        assert got == due, f"{got}, and {due} is due"
        self.browser.js("document.querySelector('.answers [data-at=\"0\"]').click()")
        self.browser.wait(lambda: '"Speed_Limit": 100' in self.browser.js("return document.getElementById('json').value"), "its inputs")
        return ""

    def many(self) -> str:
        """Rows of several pieces, some of them on two lines or refused, are answered as `desk run` answers them."""
        pick = random.Random(82)
        odd = ["1,", "1.", ",5", ".5", "007", "-0", "+7", "-", "1.000,5", "1,5", "1.5", "#N/A", "#NV", "#x", "####", "1E+03", "1E3", "[1", "[1]", '"{""a"":1}"', "{", "Wahr",
               "null", "NULL", '"""x"""', '""', " 2 ", "2 %", "2026-11-29", "9223372036854775808", "1.2.3", "--1", "1,2,3", "Err:510"]
        rows = ["weight;express;#a"]
        while len(rows) < 60_000:
            note = pick.choice(["", "x", '"a;b"', '"a\nb"', '"a ""b"" ü"', '"', 'a"b'] if pick.random() < 0.05 else ["", "y"])
            rows.append(f"{pick.choice([1, 2, 3, '7', pick.choice(odd)])};{pick.choice(['true', 'WAHR', 'FALSCH', '', 'x'])};{note}")
        text = "\r\n".join(rows) + "\r\n"
        file = File("many.csv", text.encode(), [], True)
        self.browser.open(self.suite.service("parcel.json"))
        self.count(file)
        got = [(row["line"], row["result"], row["problem"]) for row in self.browser.saved("Answers as CSV")]
        ran = subprocess.run([self.suite.programs[0], "run", "--comma", PARCEL, self.suite.folder / file.name], capture_output=True,
                             env=os.environ | {"DESK_ENGINE": self.suite.programs[1]}, check=False)
        due = [(it["=price"] or "", bool(it["#fault"])) for it in csv.DictReader(io.StringIO(ran.stdout.decode(), newline=""), delimiter=";")]
        assert len(got) == len(due), f"{len(got)} rows, and {len(due)} are due"
        for (line, result, problem), (price, is_refused) in zip(got, due):
            assert (result, bool(problem)) == (price, is_refused), f"line {line}: {result} {problem}, and {price} is due"
        return f"{len(got)} rows, {sum(1 for it in due if it[1])} refused"


def run(suite) -> None:
    rows = Files(suite)
    suite.row("files of requests in each form", rows.forms)
    suite.row("files of requests that can't be read", rows.refused)
    suite.row("names of columns and types of a file of DMN", rows.names)
    suite.row("many rows of CSV are those of desk run", rows.many)
