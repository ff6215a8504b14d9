"""A running `desk http`, and what its rows need: calls, commands, packages of Debian."""

from __future__ import annotations

import http.client
import json
import os
import re
import shutil
import signal
import subprocess
import time
from collections.abc import Iterator
from pathlib import Path

from serving.models import Json

# How many seconds something may take that comes at once, mostly: so long on a slow machine, too.
PATIENCE = 60

# Whether the machine does nothing else, so that times are held too: DESK_QUIET=1.
QUIET = os.environ.get("DESK_QUIET") == "1"


class Skipped(Exception):
    """Something that the test needs is not there."""


class Service:
    """A running `desk http`, in a process group of its own, as systemd starts it."""

    # All that were begun.
    begun: list[subprocess.Popen[bytes]] = []

    @classmethod
    def end_all(cls) -> None:
        """Ends those that a failed test left running."""
        for process in cls.begun:
            if process.poll() is None:
                os.killpg(process.pid, signal.SIGKILL)
                process.wait(PATIENCE)
        cls.begun.clear()

    def __init__(self, programs: list[str], folder: Path, model: Json | Path, *words: object) -> None:
        self.folder = folder
        path = model if isinstance(model, Path) else folder / "model.in.json"
        if not isinstance(model, Path):
            path.write_text(json.dumps(model))
        command = [programs[0], "http", str(path), "--listen", "127.0.0.1:0", *map(str, words)]
        environment = dict(os.environ, DESK_ENGINE=programs[1])
        self.log = open(folder / "log", "ab+")
        begin = self.log.tell()
        self.process = subprocess.Popen(command, stderr=self.log, env=environment, start_new_session=True)
        self.begun.append(self.process)
        self.port = self.wait_for_port(begin)

    def wait_for_port(self, begin: int) -> int:
        until = time.monotonic() + PATIENCE
        while time.monotonic() < until:
            found = re.search(rb"on https?://127\.0\.0\.1:(\d+)", (self.folder / "log").read_bytes()[begin:])
            if found:
                return int(found[1])
            if self.process.poll() is not None:
                break
            time.sleep(0.01)
        raise AssertionError("it does not begin: " + self.said())

    def said(self) -> str:
        return (self.folder / "log").read_text()

    def connection(self, patience: float = PATIENCE) -> http.client.HTTPConnection:
        return http.client.HTTPConnection("127.0.0.1", self.port, timeout=patience)

    def ask(self, body: object, client: str = "", path: str = "/v1/services/s", method: str = "POST") -> tuple[int, object]:
        return ask(self.connection(), body, client, path, method)

    def engines(self) -> list[int]:
        """The engines' processes: those that the service started."""
        task = Path(f"/proc/{self.process.pid}/task")
        found: list[int] = []
        for thread in task.iterdir():
            try:
                found += [int(pid) for pid in (thread / "children").read_text().split()]
            except OSError:
                pass
        return found

    def metric(self, name: str) -> float:
        _, text = self.ask("", path="/metrics", method="GET")
        for line in str(text).splitlines():
            if line.startswith(name + " "):
                return float(line.split()[1])
        raise AssertionError(f"there is no metric {name}")

    def end(self, patience: float = PATIENCE) -> int:
        """Sends SIGTERM to the process group, and gives the status."""
        if self.process.poll() is None:
            os.killpg(self.process.pid, signal.SIGTERM)
        return self.process.wait(patience)


def ask(on: http.client.HTTPConnection, body: object, client: str = "", path: str = "/v1/services/s",
        method: str = "POST") -> tuple[int, object]:
    """The status, and the body as JSON where it is some."""
    headers = {"X-Client": client} if client else {}
    on.request(method, path, body if isinstance(body, (str, bytes)) else json.dumps(body), headers)
    answer = on.getresponse()
    text = answer.read()
    kind = answer.getheader("Content-Type") or ""
    return answer.status, json.loads(text) if kind in ("application/json", "application/problem+json") else text.decode()


def desk(programs: list[str], *words: object, patience: float = PATIENCE) -> tuple[int, str]:
    """A command of the program: its status and what it writes."""
    ran = subprocess.run([programs[0], *map(str, words)], capture_output=True, text=True, timeout=patience,
                         env=dict(os.environ, DESK_ENGINE=programs[1]))
    return ran.returncode, ran.stdout + ran.stderr


def install(*packages: str) -> None:
    """Installs Debian's packages, where this may be done."""
    if os.geteuid() != 0 or not shutil.which("apt-get"):
        raise Skipped("Debian's " + " and ".join(packages) + " are not installed")
    get = ["apt-get", "install", "-y", "-q", "--no-install-recommends", "-o", "DPkg::Lock::Timeout=300", *packages]
    if subprocess.run(get, capture_output=True).returncode == 0:
        return
    subprocess.run(["apt-get", "update"], capture_output=True)
    if subprocess.run(get, capture_output=True).returncode != 0:
        raise Skipped("apt-get found no " + " and no ".join(packages))


def journal_files(folder: Path) -> list[Path]:
    return sorted(folder.glob("*.jsonl"))


def journal_lines(folder: Path) -> Iterator[Json]:
    for path in journal_files(folder):
        for line in path.read_text().splitlines():
            yield json.loads(line)
