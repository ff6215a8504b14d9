"""Releases, and what they would change."""

from __future__ import annotations

import json
import re
import time
from pathlib import Path

from serving.load import Load
from serving.models import Json, adding, number
from serving.service import PATIENCE, QUIET, Service, desk
from suite import TOP


def releases(programs: list[str], folder: Path) -> None:
    """Three services follow one folder under load: each serves a release within 2 s of its activation, answers never go back to
    the one before, and one call goes back; a faulty release changes nothing."""
    kept, model = folder / "releases", folder / "model.json"
    for n in range(1, 5):
        model.write_text(json.dumps(adding(n)))
        status, said = desk(programs, "release", "put", "--name", "adding", "--version", n, "--why", f"add {n}", kept, model)
        assert status == 0, said
    assert desk(programs, "release", "put", "--name", "adding", "--version", 1, kept, model)[0] == 1, "a release was changed"
    assert desk(programs, "release", "activate", kept, "adding 1")[0] == 0
    services, loads, least = [], [], [1]
    for n in range(3):
        (folder / str(n)).mkdir()
        services.append(Service(programs, folder / str(n), adding(0), "--processes", 1, "--releases", kept,
                                "--journal", folder / str(n) / "journal"))
        loads.append(Load(services[n], 4, lambda: least[0], number))
    for n in range(2, 5):
        for load in loads:
            load.added = lambda n=n: n - 1  # type: ignore[misc]
        assert desk(programs, "release", "activate", "--who", "ann", kept, f"adding {n}")[0] == 0
        begin = time.monotonic()
        for service in services:
            while service.ask({"a": 1}) != (200, {"result": n + 1}):
                assert time.monotonic() - begin < PATIENCE, service.said()
                time.sleep(0.02)
        took = time.monotonic() - begin
        print(f"releases: {took:.2f} s until three services serve release {n}", flush=True)
        assert took < 2 or not QUIET, took
    for load in loads:
        load.end()
        assert load.answered > 20 and load.refused == 0, (load.answered, load.refused)
    status, said = desk(programs, "release", "back", kept)
    assert status == 0 and "adding 3 is in force" in said, said
    sums: set[object] = set()
    for service in services:
        until = time.monotonic() + PATIENCE
        while service.ask({"a": 1}) != (200, {"result": 4}):
            assert time.monotonic() < until, service.said()
            time.sleep(0.02)
        _, page = service.ask("", path="/readyz", method="GET")
        assert isinstance(page, dict) and page["release"]["version"] == "3", page
        sums.add(page["release"]["sha256"])
        assert service.end() == 0, service.said()
        assert desk(programs, "journal", "verify", service.folder / "journal")[0] == 0
    assert len(sums) == 1
    status, said = desk(programs, "release", "list", kept)
    assert status == 0 and re.search(r"^\* adding 3 .*add 3$", said, re.M) and len(said.splitlines()) == 4, said


def tried(programs: list[str], folder: Path) -> None:
    """Recorded requests are asked of the release in force and of another: each that differs is counted and listed, by which rule,
    and activate may require that."""
    kept, journal, model = folder / "releases", folder / "journal", TOP / "examples" / "parcel.json"
    other = TOP / "examples" / "cases" / "parcel.new.json"
    assert desk(programs, "release", "put", "--name", "parcel", "--version", "1", kept, model)[0] == 0
    assert desk(programs, "release", "put", "--name", "parcel", "--version", "2", kept, other)[0] == 0
    assert desk(programs, "release", "activate", kept, "parcel 1")[0] == 0
    service = Service(programs, folder, model, "--processes", 1, "--releases", kept, "--journal", journal)
    asked = [{"weight": n, "express": express} for n in range(6) for express in (False, True)]
    status, before = service.ask(asked, path="/v1/services/shipping")
    assert status == 200 and service.end() == 0
    status, said = desk(programs, "release", "activate", "--require", "tried", kept, "parcel 2")
    assert status == 3 and "was not tried" in said, said
    status, said = desk(programs, "release", "try", "--over", journal, "--from", "2999", kept, "parcel 2")
    assert status == 0 and "0 requests asked, 0 get another answer" in said, said
    assert desk(programs, "release", "activate", "--require", "tried", kept, "parcel 2")[0] == 3, "nothing was asked"
    status, said = desk(programs, "release", "try", "--over", journal, "--over", journal, "--to", "2999", kept, "parcel 2")
    assert status == 1 and "24 requests asked, 8 get another answer" in said, said
    status, said = desk(programs, "release", "try", "--over", journal, "--csv", folder / "differing.csv", kept, "parcel 2")
    assert status == 1 and "12 requests asked, 4 get another answer" in said, said
    assert "changed cell rule 3, weight: > 2 -> > 3" in said and "1  price: rule 3 -> none" in said, said
    assert len((folder / "differing.csv").read_text().splitlines()) == 5
    assert desk(programs, "release", "activate", "--require", "tried", kept, "parcel 2")[0] == 0
    service = Service(programs, folder, model, "--processes", 1, "--releases", kept)
    status, after = service.ask(asked, path="/v1/services/shipping")
    assert isinstance(before, list) and isinstance(after, list) and status == 200
    assert sum(one != two for one, two in zip(before, after)) == 4, (before, after)
    assert service.end() == 0
    status, said = desk(programs, "journal", "show", "--model", other, journal, "#5")
    assert status == 0 and "by the release of then: the same" in said, said


def trial_lines(service: Service, query: str) -> list[Json]:
    """The lines of a trial over HTTP."""
    status, text = service.ask("", path="/v1/trial?" + query)
    assert status == 200, text
    return [json.loads(line) for line in str(text).splitlines()]


def tried_over_http(programs: list[str], folder: Path) -> None:
    """The same over HTTP, as lines while it goes on and as CSV: of a release, and of a model that was only checked."""
    kept, journal, model = folder / "releases", folder / "journal", TOP / "examples" / "parcel.json"
    other = TOP / "examples" / "cases" / "parcel.new.json"
    assert desk(programs, "release", "put", "--name", "parcel", "--version", "1", kept, model)[0] == 0
    assert desk(programs, "release", "activate", kept, "parcel 1")[0] == 0
    service = Service(programs, folder, model, "--processes", 2, "--releases", kept, "--journal", journal)
    asked = [{"weight": n % 6, "express": n % 2 == 0} for n in range(9000)]
    for _ in range(2):
        assert service.ask(asked, path="/v1/services/shipping")[0] == 200
    status, checked = service.ask(other.read_bytes(), path="/v1/check")
    assert status == 200 and isinstance(checked, dict)
    assert service.ask("", path="/v1/trial?model=" + "0" * 64)[0] == 404
    assert service.ask("", path="/v1/trial")[0] == 400
    found = trial_lines(service, f"model={checked['sha256']}&most=3")
    assert any(change["of"] == "price" and change["new"] == "> 3" for change in found[0]["changes"]), found[0]
    progress = [line["asked"] for line in found if list(line) == ["asked"]]
    assert progress[0] < 18000 and progress == sorted(progress) and progress[-1] == 18000, progress
    listed = [line["difference"] for line in found if "difference" in line]
    assert len(listed) == 3 and {"id", "time", "service", "inputs", "old", "new", "rules"} <= listed[0].keys(), listed
    last = found[-1]
    assert last["done"] and last["asked"] == 18000 and last["listed"] == 3, last
    assert last["differing"] == sum(it["count"] for it in last["by"]) > 0, last  # type: ignore[attr-defined]
    assert "price: rule 3 -> none" in [it["rules"] for it in last["by"]], last  # type: ignore[attr-defined]
    status, table = service.ask("", path=f"/v1/trial?csv=true&model={checked['sha256']}")
    assert status == 200 and len(str(table).splitlines()) == 1 + int(str(last["differing"])), status
    assert service.ask("", path="/v1/releases", method="GET")[1]["releases"][0]["active"] is True  # type: ignore[index]
    status, said = desk(programs, "release", "put", "--name", "parcel", "--version", "2", kept, other)
    assert status == 0, said
    assert desk(programs, "release", "activate", "--require", "tried", kept, "parcel 2")[0] == 3
    assert trial_lines(service, f"model={checked['sha256']}&from=2999")[-1]["asked"] == 0
    assert desk(programs, "release", "activate", "--require", "tried", kept, "parcel 2")[0] == 3, "nothing was asked"
    assert trial_lines(service, f"model={checked['sha256']}&to=2999")[-1]["asked"] == 18000
    assert desk(programs, "release", "activate", "--require", "tried", kept, "parcel 2")[0] == 0
    assert service.end() == 0, service.said()


def required(programs: list[str], folder: Path) -> None:
    """A release that was not checked, or not tried against the one in force, is not put in force where that is required."""
    kept, journal, model = folder / "releases", folder / "journal", TOP / "examples" / "parcel.json"
    dearer = folder / "dearer.json"
    dearer.write_text(model.read_text().replace("500", "600"))
    for version, file in enumerate((model, TOP / "examples" / "cases" / "parcel.new.json", dearer), 1):
        assert desk(programs, "release", "put", "--name", "parcel", "--version", version, kept, file)[0] == 0
    assert desk(programs, "release", "activate", kept, "parcel 1")[0] == 0
    service = Service(programs, folder, model, "--processes", 1, "--releases", kept, "--journal", journal)
    assert service.ask({"weight": 1, "express": False}, path="/v1/services/shipping") == (200, {"result": 500})
    status, said = desk(programs, "release", "activate", "--require", "checked", kept, "parcel 2")
    assert status == 3 and "check --tables --strict refuses it" in said and "no rule: weight 3" in said, (status, said)
    for version in (2, 3):
        assert desk(programs, "release", "try", "--over", journal, kept, f"parcel {version}")[0] == version - 2
    assert desk(programs, "release", "activate", "--require", "checked,tried", kept, "parcel 2")[0] == 3
    assert desk(programs, "release", "activate", "--require", "tried", kept, "parcel 2")[0] == 0
    # What was tried against another release than the one in force says nothing of what would change now.
    status, said = desk(programs, "release", "activate", "--require", "checked,tried", kept, "parcel 3")
    assert status == 3 and "was not tried against parcel 2" in said, (status, said)
    assert desk(programs, "release", "back", kept)[0] == 0
    assert desk(programs, "release", "activate", "--require", "checked,tried", kept, "parcel 3")[0] == 0
    until = time.monotonic() + PATIENCE
    while service.ask({"weight": 1, "express": False}, path="/v1/services/shipping") != (200, {"result": 600}):
        assert time.monotonic() < until, service.said()
        time.sleep(0.02)
    assert desk(programs, "release", "activate", "--require", "chekced", kept, "parcel 1")[0] == 2
    assert service.end() == 0, service.said()
