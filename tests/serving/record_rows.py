"""The journal as a record, and the log."""

from __future__ import annotations

import csv
import hashlib
import json
import os
import re
import signal
import subprocess
import time
from pathlib import Path

from serving.load import Recorded
from serving.models import Json, adding
from serving.service import PATIENCE, Service, Skipped, desk, journal_files, journal_lines


def told_again(programs: list[str], folder: Path) -> None:
    """Each answer is told again by `desk explain` from the journal, each file by itself, across a model and SIGHUP."""
    journal = folder / "journal"
    service = Service(programs, folder, adding(0), "--processes", 2, "--journal", journal)
    due: dict[str, object] = {}
    for n in range(30):
        if n == 10:
            assert service.ask(adding(100), path="/v1/model", method="PUT")[0] == 200
        if n == 20:
            os.kill(service.process.pid, signal.SIGHUP)
            time.sleep(0.3)
        on = service.connection()
        on.request("POST", "/v1/services/s", json.dumps({"a": n}), {"X-Request-Id": f"march-{n}"})
        due[f"march-{n}"] = json.loads(on.getresponse().read())["result"]
    assert service.end() == 0
    assert len(journal_files(journal)) == 3, journal_files(journal)
    told: dict[str, object] = {}
    for path in journal_files(journal):
        lines = [it for it in map(json.loads, path.read_text().splitlines()) if "close" not in it]
        names = [it.pop("client", None) for it in lines]
        asked = "".join(json.dumps(it if "model" in it else {"client": "x", **it}) + "\n" for it in lines)
        output = subprocess.run([programs[1], "explain"], input=asked.encode(), capture_output=True, check=True).stdout
        for line in map(json.loads, output.splitlines()):
            assert "refused" not in line, line
            if "result" in line:
                told[names[line["line"] - 1]] = line["result"]
    assert told == due, (told, due)


def recorded(programs: list[str], folder: Path) -> None:
    """Across kills of engines and gateway each answer is in the journal once, as it was given; the chain is whole, has each head
    that was logged, and a changed byte, a missing line and a missing file are found."""
    journal = folder / "journal"
    answers: dict[str, object] = {}
    for n in range(3):
        service = Service(programs, folder, adding(n), "--processes", 2, "--journal", journal, "--journal-size", "1MiB")
        load = Recorded(service, 8, answers)
        time.sleep(0.5)
        for pid in service.engines()[:1]:
            os.kill(pid, signal.SIGKILL)
        due, until = len(answers) + 200, time.monotonic() + PATIENCE
        while len(answers) < due and time.monotonic() < until:
            time.sleep(0.01)
        if n < 2:
            os.killpg(service.process.pid, signal.SIGKILL)
            service.process.wait(PATIENCE)
        else:
            assert service.end() == 0, service.said()
        load.wait()
    kept: list[tuple[str, object]] = []
    status, found = desk(programs, "journal", "find", journal)
    assert status == 0, found
    for line in map(json.loads, found.splitlines()):
        assert {"release", "program", "engine", "time", "request"} <= line.keys(), line
        kept.append((line["id"], (line["client"], line["inputs"]["a"], line.get("result"))))
    assert len(kept) == len(dict(kept)), "an id comes twice"
    assert len(answers) > 600 and answers.items() <= dict(kept).items(), set(answers.items()) - set(kept)
    status, said = desk(programs, "journal", "verify", journal)
    assert status == 0, said
    heads = re.findall(r"the head of the chain is ([0-9a-f]{64})", service.said())
    assert heads, service.said()
    for head in heads:
        assert desk(programs, "journal", "verify", "--head", head, journal)[0] == 0, head
    assert desk(programs, "journal", "verify", "--head", "0" * 64, journal)[0] == 1
    changes_are_found(programs, journal)


def changes_are_found(programs: list[str], journal: Path) -> None:
    path = journal_files(journal)[1]
    text = path.read_bytes()
    lines = text.splitlines(keepends=True)
    for changed in (text.replace(b'"result":', b'"result":1', 1), b"".join(lines[:4] + lines[6:]), text[:-20], None):
        path.unlink()
        if changed is not None:
            path.write_bytes(changed)
        status, said = desk(programs, "journal", "verify", journal)
        assert status == 1 and "not as it was recorded" in said, said
        path.write_bytes(text)
    assert desk(programs, "journal", "verify", journal)[0] == 0


def journal_gone(programs: list[str], folder: Path) -> None:
    """Without its journal the service gives no answers: deleted, replaced or cut while it is open."""
    def cut(path: Path) -> None:
        os.truncate(path, 100)

    def replace(path: Path) -> None:
        text = path.read_bytes()
        path.unlink()
        path.write_bytes(text)

    for n, change in enumerate((Path.unlink, replace, cut)):
        journal = folder / f"journal{n}"
        service = Service(programs, folder, adding(1), "--processes", 1, "--journal", journal)
        assert service.ask({"a": 1}) == (200, {"result": 2})
        assert journal.stat().st_mode & 0o777 == 0o700
        assert journal_files(journal)[0].stat().st_mode & 0o777 == 0o600
        change(journal_files(journal)[0])
        status, answer = service.ask({"a": 1})
        assert status == 503 and isinstance(answer, dict) and answer["type"] == "/problems/journal", (status, answer)
        assert service.ask("", path="/readyz", method="GET")[0] == 503
        assert service.end() == 0, service.said()


def pruned(programs: list[str], folder: Path) -> None:
    """Old files are removed whole, and the log and the chain say so."""
    journal = folder / "journal"
    service = Service(programs, folder, adding(1), "--processes", 1, "--journal", journal, "--journal-size", "1MiB",
                      "--journal-limit", "3MiB")
    for n in range(60):
        assert service.ask([{"a": n, "filler": "y" * 1000}] * 100)[0] == 200
    assert service.end() == 0
    assert "were removed, with the entries up to" in service.said()
    assert sum(path.stat().st_size for path in journal_files(journal)) < 5 << 20
    status, said = desk(programs, "journal", "verify", journal)
    assert status == 0 and "were removed by" in said, said
    journal_files(journal)[0].unlink()
    assert desk(programs, "journal", "verify", journal)[0] == 1


def full_disk(programs: list[str], folder: Path) -> None:
    """A disk that is full under the journal: 503 and no silence; with room again it goes on; each answer is in it once."""
    disk = folder / "disk"
    disk.mkdir()
    mounted = subprocess.run(["mount", "-t", "tmpfs", "-o", "size=1m", "none", str(disk)], capture_output=True)
    if mounted.returncode != 0:
        raise Skipped("a small disk cannot be mounted here: " + mounted.stderr.decode().strip())
    try:
        fill_disk(programs, folder, disk)
    finally:
        subprocess.run(["umount", str(disk)], check=True)


def fill_disk(programs: list[str], folder: Path, disk: Path) -> None:
    service = Service(programs, folder, adding(0), "--processes", 1, "--journal", disk / "journal")
    (disk / "stone").write_bytes(b"x" * (500 << 10))
    answered: list[int] = []
    for n in range(2000):
        status, answer = service.ask({"a": n, "filler": "y" * 2000})
        assert status in (200, 503), (status, answer)
        if status == 503:
            assert isinstance(answer, dict) and answer["type"] == "/problems/journal", answer
            break
        answered.append(n)
    assert len(answered) > 20 and len(answered) < 2000, len(answered)
    assert service.ask("", path="/readyz", method="GET")[0] == 503
    assert service.ask("", path="/healthz", method="GET")[0] == 200
    (disk / "stone").unlink()
    until = time.monotonic() + PATIENCE
    while service.ask({"a": 5000})[0] != 200:
        assert time.monotonic() < until, "it does not go on with room again"
        time.sleep(0.2)
    answered.append(5000)
    assert service.ask("", path="/readyz", method="GET")[0] == 200
    assert service.end() == 0
    kept = [line["inputs"]["a"] for line in journal_lines(disk / "journal") if "inputs" in line]
    assert sorted(kept) == sorted(answered), "the journal and the answers differ"


def log_lines(programs: list[str], folder: Path) -> None:
    """With --log json each line of the log is JSON; a call has its times, and nothing of its inputs."""
    service = Service(programs, folder, adding(1), "--processes", 1, "--log", "json")
    on = service.connection()
    on.request("POST", "/v1/services/s", json.dumps({"a": 765432}), {"X-Request-Id": "a7", "X-Client": "ann",
               "Traceparent": "00-0af7651916cd43dd8448eb211c80319c-b7ad6b7169203331-01"})
    answer = on.getresponse()
    assert answer.read() and (answer.getheader("Traceparent") or "").startswith("00-0af7651916cd43dd8448eb211c80319c-")
    assert service.ask(adding(2), path="/v1/model", method="PUT")[0] == 200
    assert service.end() == 0
    lines = [json.loads(line) for line in service.said().splitlines()]
    assert {"time", "level", "event"} <= set.intersection(*(set(line) for line in lines)), lines
    calls = [line for line in lines if line["event"] == "call"]
    assert len(calls) == 1 and (calls[0]["id"], calls[0]["client"], calls[0]["status"]) == ("a7", "ann", 200), calls
    assert calls[0]["allMicros"] > 0 and {"queueMicros", "engineMicros"} <= calls[0].keys()
    assert len([line for line in lines if line["event"] == "put"]) == 1 and "765432" not in service.said()


# A model as desk import writes it, with names, and what the file says of a rule.
NOTED: Json = {
    "model": {
        "inputs": ["a_b", "c"],
        "decisions": [{"name": "d_e", "needs": ["a_b"], "expr": {"table": {
            "hit": "U", "inputs": ["a_b"], "outputs": [{"name": "p"}],
            "rules": [{"when": ["< 5"], "then": ["1"]}, {"when": [">= 5"], "then": ["2"]}]}}}],
        "services": [{"name": "s_t", "outputs": ["d_e"], "encapsulated": [], "inputDecisions": [], "inputData": ["a_b", "c"]}]},
    "names": {"a_b": "a b", "d_e": "d e", "s_t": "s t"}, "locals": {},
    "types": {"a_b": {"type": ["integer", "null"]}, "c": {"type": ["string", "null"]}},
    "places": {"/decisions/0/expr/table/rules/1": {"id": "_two", "name": "", "annotations": ["from five on"]}}}


def kept(service: Service, inputs: Json, **headers: str) -> str:
    """Asks the service of NOTED, and gives the answer's own id."""
    on = service.connection()
    named = {name.replace("_", "-"): value for name, value in headers.items()}
    on.request("POST", "/v1/services/s%20t", json.dumps(inputs), {"Authorization": "Bearer secret", **named})
    answer = on.getresponse()
    answer.read()
    return answer.getheader("Desk-Record") or ""


def found(programs: list[str], folder: Path) -> None:
    """Cases are found by id, client, time, service and rule, shown as they were decided then and whether they are now, and written as
    CSV; one with a redacted input is shown, and not decided again."""
    journal, other = folder / "journal", folder / "other.json"
    (folder / "tokens").write_text(f"shop call {hashlib.sha256(b'secret').hexdigest()}\n")
    (folder / "key").write_text("0123456789abcdef")
    other.write_text(json.dumps(NOTED).replace('"then": ["2"]', '"then": ["3"]'))
    service = Service(programs, folder, NOTED, "--processes", 1, "--journal", journal, "--tokens", folder / "tokens", "--redact", "c",
                      "--redact-key", folder / "key")
    own = [kept(service, {"a b": 7}, X_Request_Id="a7", X_Client="ann"), kept(service, {"a b": 3}, X_Request_Id="a8"),
           kept(service, {"a b": 9, "c": "Meier"}), kept(service, {"a b": "x"})]
    assert service.end() == 0, service.said()
    day = time.strftime("%Y-%m-%d", time.gmtime())
    for words, due in (([own[0]], [0]), (["a7"], [0]), (["#3"], [1]), (["--client", "ann"], [0]), (["--client", "shop"], [0, 1, 2, 3]),
                       (["--rule", "d e:1"], [1]), (["--rule", "_two"], [0, 2]), (["--rule", "d e"], [0, 1, 2]), (["--from", "2999"], []),
                       (["--to", "2999"], [0, 1, 2, 3]), (["--to", "2020"], []), (["--service", "s t", "--from", "2020"], [0, 1, 2, 3]),
                       (["--service", "other"], []), (["--release", "0" * 12], [])):
        ids = [it for it in words if it.startswith("#") or it in ("a7", own[0])]
        status, said = desk(programs, "journal", "find", *[it for it in words if it not in ids], journal, *ids)
        cases = [json.loads(line)["id"] for line in said.splitlines() if line.startswith("{")]
        assert cases == [own[n] for n in due] and status == (0 if due else 1), (words, status, said)
    first = json.loads(desk(programs, "journal", "find", journal, own[0])[1])
    assert first["time"][:10] in (day, time.strftime("%Y-%m-%d", time.gmtime())) and first["inputs"] == {"a b": 7}, first
    sums = {part: hashlib.sha256(Path(program).read_bytes()).hexdigest() for part, program in zip(("program", "engine"), programs)}
    assert sums.items() <= first.items(), (sums, first)
    shown_cases(programs, journal, own, other)


def shown_cases(programs: list[str], journal: Path, own: list[str], other: Path) -> None:
    """How the cases of a journal are shown and exported."""
    for case, words, due in (
            (own[0], [], ["answer    2", "decided   d e: rule 2, id _two: from five on", "by the release of then: the same"]),
            (own[0], ["--model", other], ["by the release of then: the same", ": 3, another answer", "decided   d e: rule 2"]),
            (own[1], ["--model", other], ["request   a8", "token     shop", "by the release of then: the same", ": the same"]),
            (own[2], [], ["redacted  c", "answer    2", "not decided again"]),
            (own[3], [], ["answer    problem value /a b", "not decided again"])):
        status, said = desk(programs, "journal", "show", *words, journal, case)
        assert status == 0 and all(it in said for it in due) and "Meier" not in said, (status, said)
    status, said = desk(programs, "journal", "export", "--csv", journal)
    rows = list(csv.DictReader(said.splitlines()))
    assert status == 0 and [it["id"] for it in rows] == own, said
    assert [it["inputs.a b"] for it in rows] == ["7", "3", "9", "x"] and rows[2]["inputs.c"].startswith("hmac-sha256:"), said
    assert (rows[0]["request"], rows[0]["client"], rows[0]["token"], rows[0]["rules"]) == ("a7", "ann", "shop", "d e: rule 2"), said
    assert rows[3]["problem"] == "value /a b" and not any(b"Meier" in path.read_bytes() for path in journal_files(journal)), said
