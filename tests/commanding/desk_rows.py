"""Rows of the program `desk`: its words, help, statuses and messages."""

from __future__ import annotations

import contextlib
import gzip
import os
import json
import re
import resource
import shutil
import signal
import stat
import subprocess
import sys
import urllib.request
import zipfile
from collections.abc import Iterator
from pathlib import Path

from .row import EXAMPLES, TOP, Row, asked, helped, ignoring, refused

COMMANDS = ("replay", "serve", "check", "explain", "import", "export", "test", "http", "send", "partition", "receive",
            "completion", "help")
DISH = str(EXAMPLES / "dmn" / "dish.dmn")
PARCEL = str(EXAMPLES / "parcel.json")
JUEL = ('<definitions xmlns="https://www.omg.org/spec/DMN/20191111/MODEL/" name="m" namespace="n"><inputData name="a"/>'
        '<decision id="d" name="d"><literalExpression><text>${a}</text></literalExpression></decision></definitions>')


def helps() -> Iterator[Row]:
    yield helped("--help", *(f"\n  {it} " for it in COMMANDS), "Status:", "Licence")
    yield helped("help")
    yield helped("-h")
    for name in COMMANDS:
        yield helped(f"help {name}", f"Usage: desk {name}", "Print help")
        yield helped(f"{name} --help", f"Usage: desk {name}", "Print help")
    for name in ("http", "run", "test"):
        yield helped(f"{name} -h", "at most 64)")
    yield helped("serve --workers 2 --help", "--capacity")
    yield Row("help that can't be written", ("--help",), 0, is_full=True)


def wrong_words() -> Iterator[Row]:
    yield asked("no word", "", 2, output=None, faults=tuple(f"\n  {it} " for it in COMMANDS))
    yield refused("improt x", '"improt" is no command', "did you mean import?")
    yield refused("help improt", "did you mean import?")
    yield refused("xyz", '"xyz" is no command')
    yield refused("import --lien x.dmn", "no option --lien; did you mean --line?")
    yield refused("import", "at least one file is due")
    yield refused("export", "one model is due")
    yield refused("test one.dmn", "two files are due")
    yield refused("test - -", "standard input can be read once")
    yield refused("http", "a model is due")
    yield refused("check --strict", "--strict needs --tables", given=b"{}")
    yield refused("check a.json b.json", "one model is read")
    yield refused(f"check --requests {DISH}", "desk import --line")
    yield refused(f"explain {DISH}", "desk import --line")
    yield refused("send more", '"more" is no option')
    yield refused("partition --workers 9", "1 to 8")
    yield refused("partition --memory 1MiB", "at least 32MiB")
    yield refused("receive --from later", "first, next, a time as 2026-11-27T16:00:00Z, or an offset as 1000")
    yield refused("completion sh", "bash, zsh or fish")
    yield Row("a word that is not UTF-8", (b"replay\xff",), 2, None, ("is no command",))


def http_words() -> Iterator[Row]:
    yield refused(f"http --deadline 5 {PARCEL}", "a time has a unit, as 5s")
    yield refused(f"http --memory many {PARCEL}", "as 512MiB")
    yield refused(f"http --listen 0.0.0.0 {PARCEL}", "an address has a port")
    yield refused(f"http --listen 0.0.0.0:0 {PARCEL}", "--tokens FILE, or --open")
    yield refused(f"http --listen [::]:0 {PARCEL}", "--tokens FILE, or --open")
    yield refused(f"http --processes 65 {PARCEL}", "1 to 64")


def the_engine_s_own() -> Iterator[Row]:
    """replay and serve, whose words and lines are the engine's."""
    yield refused("serve FILE", "error: unexpected argument 'FILE' found")
    yield refused("replay FILE", "error: unexpected argument 'FILE' found")
    yield refused("serve --workers 9", "error:")
    yield refused("replay --version", "error:")
    first, answers = EXAMPLES / "first.jsonl", EXAMPLES / "first.answers.jsonl"
    yield asked("replay of a file", "replay", 0, output=(answers.read_text(),), faults=None, given=first.read_bytes())
    yield asked("replay of nothing", "replay", 0, output=None, faults=None)
    yield Row("a write past a limit", ("replay",), 1, (), ("write\n",), given=b'{"release":"a"}\n' * 2000, is_full=True)
    yield Row("a signal that was ignored stays so", ("replay",), 1, (), ("write\n",), given=b'{"release":"a"}\n' * 2000,
              before=lambda: (ignoring(signal.SIGXFSZ)(), resource.setrlimit(resource.RLIMIT_FSIZE, (0, 0)), into_file()))


def into_file() -> None:
    """Makes standard output a file."""
    os.dup2(os.open("/tmp", os.O_TMPFILE | os.O_RDWR), 1)


def files(room: Path) -> Iterator[Row]:
    """A file that is read, from a name or from standard input, and one that can't be opened."""
    parcel, dish = Path(PARCEL).read_bytes(), Path(DISH).read_bytes()
    for words in (f"check {PARCEL}", "check -", "check"):
        yield asked(words, words, 0, output=("shipping(",), given=parcel)
    yield asked("check of DMN", f"check {DISH}", 0, output=("dish(temperature, dayType)",))
    yield asked("check of tables", f"check --tables --strict {PARCEL}", 0, output=("table:",))
    yield asked("check of what is given", f"check --gives {PARCEL}", 0, output=("(table)\n", "shipping(weight, express): "))
    yield asked("check for null", f"check --strict-null {PARCEL}", 4, output=("shipping(weight, express): ",))
    clients = EXAMPLES / "clients.jsonl"
    for words in (f"explain {clients}", "explain -", "explain --text"):
        yield asked(words, words, 0, output=("price",) if "text" in words else ('"decisions"',), given=clients.read_bytes())
    yield asked("import -", "import -", 0, output=('"guestsWithChildren"',), given=dish)
    yield asked("export -", "export -", 0, output=("<definitions",), given=parcel)
    yield asked("test -", f"test - {EXAMPLES / 'dmn' / 'dish.cases.xml'}", 0, output=("0 failed",), given=dish)
    for name in ("with blanks", "grün"):
        there = room / f"{name}.dmn"
        there.write_bytes(dish)
        yield Row(f"a file {name}", ("import", str(there)), 0, ('"dish"',), None)
    for words in ("check", "explain", "import", "export", "http"):
        yield asked(f"{words} of a missing file", f"{words} none.json", 5, output=None, faults=("none.json: no such file",))
        yield asked(f"{words} of a folder", f"{words} /", 5, output=None, faults=("is a directory",))
    yield asked("test of a missing file", f"test none.dmn {DISH}", 5, output=None, faults=("none.dmn",))
    yield asked("test of missing cases", f"test {DISH} none.xml", 5, output=None, faults=("none.xml",))
    yield asked("a journal that can't be", f"http --listen 127.0.0.1:0 --journal /proc/none {PARCEL}", 5, output=None)
    yield asked("tokens that are missing", f"http --listen 127.0.0.1:0 --tokens none {PARCEL}", 5, output=None)


def faulty_files(room: Path) -> Iterator[Row]:
    """Files that are read, and have faults."""
    packed, archive, juel = room / "packed.dmn", room / "archive.dmn", room / "juel.dmn"
    packed.write_bytes(gzip.compress(b"<definitions/>"))
    with zipfile.ZipFile(archive, "w") as made:
        made.writestr("x.dmn", "<definitions/>")
    juel.write_text(JUEL)
    yield asked("gzip", f"import {packed}", 3, output=None, faults=("this is gzip",))
    yield asked("zip", f"import {archive}", 3, output=None, faults=("this is a zip archive",))
    yield asked("JUEL", f"import {juel}", 3, output=None, faults=("JUEL", "instead: a"))
    yield asked("cases that are none", f"test {DISH} {DISH}", 3, output=None, faults=("no test cases",))
    yield asked("a model with a fault", "check", 3, output=("shape",), given=b"{}")
    yield asked("an export with a fault", "export -", 3, output=None, given=b"{}")
    yield Row("a fault is said once", ("http", str(juel)), 3, None, ("JUEL",), fault_lines=1)
    yield asked("a model of JSON with a fault", "http -", 3, output=None, faults=("the model has a fault: shape",), given=b"{}")


def engines(room: Path, program: str, engine: str) -> Iterator[Row]:
    """An engine that is missing, is no program, or is another one."""
    locked, other = room / "locked", room / "other"
    locked.write_bytes(b"#!/bin/sh\n")
    other.write_text("#!/bin/sh\necho desk 0.0.1\n")
    other.chmod(other.stat().st_mode | stat.S_IXUSR)
    for words in ("replay", f"check {PARCEL}", f"http {PARCEL}", f"export {PARCEL}", "--version"):
        due = {"output": None} if words != "--version" else {"output": ("desk ",)}
        yield asked(f"{words} without engine", words, 5, faults=("DESK_ENGINE is /none: no such file",),
                    environment={"DESK_ENGINE": "/none"}, **due)
    yield asked("an engine that is no program", "serve", 5, output=None, faults=("not executable",),
                environment={"DESK_ENGINE": str(locked)})
    yield asked("an engine of another version", "--version", 0, output=("engine 0.0.1",), faults=("another one",),
                environment={"DESK_ENGINE": str(other)})
    alone = Path(shutil.copy(program, room / "desk"))
    yield asked("no engine beside the program", "replay", 5, output=None, copy=alone,
                faults=("libexec/colkuzai/desk: no such file", "set DESK_ENGINE"), environment={"DESK_ENGINE": ""})
    place = room / "libexec" / "colkuzai" / "desk"
    place.parent.mkdir(parents=True)
    place.symlink_to(engine)
    (room / "bin").mkdir()
    linked = room / "linked"
    linked.symlink_to(shutil.copy(program, room / "bin" / "desk"))
    yield asked("an installed program, by a link", "replay", 0, copy=linked, environment={"DESK_ENGINE": ""})


def streams() -> Iterator[Row]:
    """Streams that are closed, or take nothing."""
    for words in (f"import {DISH}", f"export {PARCEL}", f"test {DISH} {EXAMPLES / 'dmn' / 'dish.cases.xml'}"):
        yield asked(f"{words} to a full disk", words, 1, faults=("no space left",), is_full=True)
    yield asked("check to a full disk", f"check {PARCEL}", 1, faults=("write\n",), is_full=True)
    for words in ("check", "import -"):
        yield asked(f"{words}, standard input closed", words, 1, output=None, before=lambda: os.close(0))
    yield asked("a closed standard input that nobody reads", f"import {DISH}", 0, before=lambda: os.close(0))


def versions() -> Iterator[Row]:
    yield asked("the manual page", "manual", 0, output=((TOP / "docs" / "desk.1").read_text(),), faults=None)
    for words in ("--version", "-V"):
        yield asked(words, words, 0, output=("desk ", "\nengine ", "\nproved with ", "logic ", "\nsources "))


def completions() -> Iterator[Row]:
    for shell, text in (("bash", "__start_desk"), ("zsh", "#compdef"), ("fish", "complete -c desk")):
        yield asked(f"completion {shell}", f"completion {shell}", 0, output=(text,), faults=None)
    yield asked("a command is completed", "__complete im", 0, output=("import\t",))
    yield asked("an option is completed", "__complete check --ta", 0, output=("--tables",))


def rows(room: Path, program: str, engine: str) -> Iterator[Row]:
    yield from helps()
    yield from wrong_words()
    yield from http_words()
    yield from the_engine_s_own()
    yield from files(room)
    yield from faulty_files(room)
    yield from engines(room, program, engine)
    yield from streams()
    yield from versions()
    yield from completions()


def served(program: str, engine: str) -> list[str]:
    """What is wrong with a service that anyone may call, and with its list of services."""
    words = [program, "http", "--open", "--listen", "0.0.0.0:0", "--processes", "1", PARCEL]
    service = subprocess.Popen(words, stderr=subprocess.PIPE, env=os.environ | {"DESK_ENGINE": engine})
    try:
        port = re.search(rb"on http://\S+:(\d+) with", service.stderr.readline())
        with urllib.request.urlopen(f"http://127.0.0.1:{int(port[1])}/v1/services", timeout=60) as answer:
            listed = json.load(answer)["services"]
    finally:
        service.terminate()
        service.wait(60)
    due = [{"name": "shipping", "parameters": ["weight", "express"], "path": "/v1/services/shipping"}]
    found = [] if listed == due else [f"GET /v1/services: {listed}"]
    return found + ([] if service.returncode == 0 else [f"SIGTERM: status {service.returncode}"])


def on_terminal(words: list[str], engine: str, **environment: str) -> str:
    """What a program writes on a terminal, which is its standard error and, but for explain, its standard output."""
    terminal, end = os.openpty()
    out = subprocess.DEVNULL if "explain" in words else end
    ran = subprocess.Popen(words, stdin=subprocess.DEVNULL, stdout=out, stderr=end,
                           env=os.environ | {"DESK_ENGINE": engine, "TERM": "xterm"} | environment)
    os.close(end)
    said = b""
    with contextlib.suppress(OSError):
        # Reading fails once nobody has the other end.
        while piece := os.read(terminal, 1 << 16):
            said += piece
    os.close(terminal)
    ran.wait()
    return said.decode()


def shown(program: str, engine: str, room: Path) -> list[str]:
    """What is wrong with colours and progress, which terminals alone are shown."""
    cases = [program, "test", DISH, str(EXAMPLES / "dmn" / "dish.cases.xml")]
    painted, plain = on_terminal(cases, engine, NO_COLOR=""), on_terminal(cases, engine, NO_COLOR="1")
    wrong = [] if "\x1b[32mPASS\x1b[0m" in painted else [f"no colours: {painted[:200]!r}"]
    wrong += [] if "\x1b" not in plain and "PASS" in plain else [f"colours with NO_COLOR: {plain[:200]!r}"]
    many = room / "many.jsonl"
    model, *requests = (EXAMPLES / "shipping.jsonl").read_bytes().splitlines(keepends=True)
    many.write_bytes(model + b"".join(requests) * (160_000_000 // sum(map(len, requests))))
    progress = on_terminal([program, "explain", str(many)], engine)
    form = r"explain: [\d.]+ of [\d.]+ MB \(\d+ %\), [\d.]+ MB/s, \S+ left"
    wrong += [] if re.search(form, progress) else [f"no progress: {progress[:200]!r}"]
    return wrong + ([] if progress.endswith("\r\x1b[K") else [f"the progress stays: {progress[-200:]!r}"])


# How much more processor time ./desk may take than the engine it becomes; on a slow machine as much as a start of Python there.
MOST_MORE = 0.015


def cost(words: list[str], engine: str) -> float:
    """The least processor time of ten runs, in seconds."""
    least = 1.0
    for _ in range(10):
        with open(EXAMPLES / "first.jsonl", "rb") as given:
            begun = subprocess.Popen(words, stdin=given, stdout=subprocess.DEVNULL, env=os.environ | {"DESK_ENGINE": engine})
            _, status, used = os.wait4(begun.pid, 0)
            begun.returncode = os.waitstatus_to_exitcode(status)
        assert begun.returncode == 0, words
        least = min(least, used.ru_utime + used.ru_stime)
    return least


def dear(program: str, engine: str) -> list[str]:
    """What the way to the engine costs, where that is too much."""
    engine_alone = cost([engine, "replay"], engine)
    most = max(MOST_MORE, cost([sys.executable, "-c", "pass"], engine))
    through = cost([program, "replay"], engine)
    script = cost([str(TOP / "desk"), "replay"], engine)
    return [f"{words} takes {took - engine_alone:.4f} s more than the engine" for words, took in
            ((program, through), ("./desk", script)) if took - engine_alone > most]
