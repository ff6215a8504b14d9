"""What each unit of the package does, on a machine that is booted for it. Each function returns what is wrong."""

from __future__ import annotations

import contextlib
import json
import os
import socket
import subprocess
import sys
import tempfile
import time
from collections.abc import Callable, Iterator
from pathlib import Path

from .machine import Machine

HERE = Path(__file__).resolve().parent
EXAMPLES = HERE.parent.parent / "examples"
PARCEL = json.loads((EXAMPLES / "parcel.json").read_text())
REQUEST = {"client": "shop", "service": "shipping", "inputs": {"weight": 5, "express": False}}
LINES = "".join(json.dumps(it) + "\n" for it in ({"model": PARCEL}, REQUEST)).encode()
DUE = b'{"line":1,"model":true}\n{"client":"shop","result":950,"ticket":0}\n'
DOCUMENTS = "/usr/share/doc/colkuzai"
PATIENCE = 60


def wait(until: Callable[[], object], what: str) -> None:
    end = time.monotonic() + PATIENCE
    while not until():
        if time.monotonic() > end:
            raise TimeoutError(f"{what}: not within {PATIENCE} s")
        time.sleep(0.1)


class Units:
    """The units on a machine."""

    def __init__(self, machine: Machine) -> None:
        self.machine = machine

    def must(self, *words: str) -> str:
        ran = self.machine.run(*words)
        if ran.returncode:
            raise AssertionError(f"{' '.join(words)}: status {ran.returncode}: {ran.stdout}{ran.stderr}")
        return ran.stdout

    def systemctl(self, *words: str) -> str:
        return self.must("systemctl", *words)

    def main_process(self, unit: str) -> int:
        return int(self.systemctl("show", "--value", "-p", "MainPID", unit))

    def is_active(self, unit: str) -> bool:
        return self.machine.run("systemctl", "is-active", "--quiet", unit).returncode == 0

    def journal(self, unit: str) -> str:
        return self.must("journalctl", "--no-pager", "-u", unit)

    def curl(self, path: str, *words: str, address: str = "127.0.0.1:8080") -> str:
        """The status and the body of a call."""
        ran = self.machine.run("curl", "-sS", "-m", "60", "-w", "\n%{http_code}", *words, f"http://{address}{path}")
        body, _, status = ran.stdout.rpartition("\n")
        return f"{status} {body.strip()}{ran.stderr.strip()}"

    def price(self, *words: str) -> str:
        return self.curl("/v1/services/shipping", "-d", '{"weight":5,"express":false}', *words)

    @contextlib.contextmanager
    def load(self, threads: int = 8) -> Iterator[dict[str, int]]:
        """Calls while the body runs, from each thread one before; then how many came to what."""
        came: dict[str, int] = {}
        with tempfile.TemporaryDirectory() as room:
            words = ["nsenter", "-t", str(self.machine.leader), "-n", "--", sys.executable, str(HERE / "machine_load.py")]
            caller = subprocess.Popen([*words, str(threads), room], stdout=subprocess.PIPE, text=True)
            try:
                wait((Path(room) / "begun").exists, "each thread of the load had an answer")
                yield came
            finally:
                (Path(room) / "end").touch()
                came.update(json.loads(caller.communicate(timeout=PATIENCE * 2)[0]))


def only_prices(came: dict[str, int]) -> list[str]:
    """What is wrong with the outcomes of a load: each has to be the price."""
    return [] if list(came) == ['200 {"result":950}'] else [f"the calls came to {came}"]


def connected(units: Units) -> socket.socket:
    """A connection to the socket of the units."""
    link = socket.socket(socket.AF_UNIX)
    link.settimeout(PATIENCE)
    link.connect(str(units.machine.path("/run/colkuzai.sock")))
    return link


def read(link: socket.socket, count: int) -> bytes:
    """So many bytes of a connection, or more, or all up to its end."""
    said = b""
    while len(said) < count and (more := link.recv(4096)):
        said += more
    return said


def the_socket(units: Units) -> list[str]:
    """A process for each connection, of the user colkuzai."""
    units.systemctl("start", "colkuzai.socket")
    wrong = []
    with connected(units) as one, connected(units) as two:
        for link in (one, two):
            link.sendall(LINES)
        for link in (one, two):
            if (said := read(link, len(DUE))) != DUE:
                wrong.append(f"the answers are {said!r}")
        services = units.systemctl("list-units", "--plain", "--no-legend", "colkuzai@*").splitlines()
        if len(services) != 2:
            wrong.append(f"there are the processes {services}")
        user = units.must("ps", "-o", "user=", "-p", str(units.main_process(services[0].split()[0]))).strip()
        if user != "colkuzai":
            wrong.append(f"a process is of {user}")
        units.systemctl("kill", "-s", "KILL", services[0].split()[0])
        after = [asked_again(link) for link in (one, two)]
        if sorted(map(bool, after)) != [False, True]:
            wrong.append(f"after kill -9 of one process the connections answer {after}")
    return wrong


def asked_again(link: socket.socket) -> bytes:
    """The answer to one more request; empty where the other end is gone."""
    try:
        link.sendall(json.dumps(REQUEST).encode() + b"\n")
        return link.recv(4096)
    except (BrokenPipeError, ConnectionResetError):
        return b""


def the_pipes(units: Units) -> list[str]:
    """One process between two pipes, that begins again for each sender."""
    units.systemctl("start", "colkuzai-pipes.service")
    wrong = []
    for turn in range(2):
        answers = subprocess.Popen(["cat", str(units.machine.path("/run/colkuzai/answers"))], stdout=subprocess.PIPE)
        with open(units.machine.path("/run/colkuzai/requests"), "wb") as requests:
            requests.write(LINES)
        said, _ = answers.communicate(timeout=PATIENCE)
        if said != DUE:
            wrong.append(f"turn {turn}: the answers are {said!r}")
    wait(lambda: units.is_active("colkuzai-pipes.service"), "the unit waits for the next sender")
    return wrong


def http(units: Units) -> list[str]:
    """An answer, the journal, reload, a model that is put, and one that is missing."""
    units.systemctl("start", "colkuzai-http.socket")
    missing = units.machine.run("systemctl", "start", "colkuzai-http.service").returncode
    wrong = [] if missing else ["it starts without a model"]
    # What a process says is in the journal a little later.
    wait(lambda: "/etc/colkuzai/model.json: no such file" in units.journal("colkuzai-http.service"),
         "its journal says that the model is missing")
    units.must("cp", f"{DOCUMENTS}/examples/parcel.json", "/etc/colkuzai/model.json")
    units.systemctl("reset-failed", "colkuzai-http.service")
    units.systemctl("restart", "colkuzai-http.socket")
    first = units.price()
    if first != '200 {"result":950}':
        wrong.append(f"the price is {first}")
    journals = units.machine.path("/var/lib/colkuzai/journal")
    before = set(journals.glob("*.jsonl"))
    if not any('"service":"shipping"' in it.read_text() for it in before):
        wrong.append("no journal has the request")
    units.systemctl("reload", "colkuzai-http.service")

    def begun_anew() -> bool:
        """Whether a request is in a new journal file: the first ones may be answered before the service has the signal."""
        if (price := units.price()) != '200 {"result":950}':
            raise AssertionError(f"after reload the price is {price}")
        return any('"service":"shipping"' in it.read_text() for it in set(journals.glob("*.jsonl")) - before)

    wait(begun_anew, "a new journal file after reload")
    dearer = json.dumps(PARCEL).replace('"500"', '"600"').replace("500 +", "600 +")
    put = units.curl("/v1/model", "-X", "PUT", "-d", dearer)
    if not put.startswith("200") or units.price() != '200 {"result":1050}':
        wrong.append(f"a model that is put: {put}, and then {units.price()}")
    units.systemctl("restart", "colkuzai-http.service")
    if units.price() != '200 {"result":1050}':
        wrong.append(f"after a restart the model that was put is gone: {units.price()}")
    units.curl("/v1/model", "-X", "PUT", "-d", json.dumps(PARCEL))
    return wrong


def http_under_load(units: Units) -> list[str]:
    """Restarts, and engines that are killed, while calls come: each is answered."""
    with units.load() as came:
        for _ in range(3):
            units.systemctl("restart", "colkuzai-http.service")
        units.must("sh", "-c", "kill -9 $(pidof -s /usr/libexec/colkuzai/desk)")
        units.price()
    wrong = only_prices(came)
    units.systemctl("kill", "-s", "KILL", "--kill-who=main", "colkuzai-http.service")
    if units.price() != '200 {"result":950}':
        wrong.append(f"after kill -9 of the service: {units.price()}")
    print(f"restarts under load: {came}")
    return wrong


def http_with_tokens(units: Units) -> list[str]:
    """A drop-in with tokens, as docs/OPERATIONS.md has it."""
    drop_in = units.machine.path("/etc/systemd/system/colkuzai-http.service.d")
    drop_in.mkdir(parents=True)
    (drop_in / "tokens.conf").write_text("[Service]\nLoadCredential=tokens:/etc/colkuzai/tokens\n"
                                         "Environment=\"OPTIONS=--tokens %d/tokens\"\n")
    units.must("sh", "-c", "umask 077; echo shop call $(printf secret | sha256sum | cut -c -64) > /etc/colkuzai/tokens")
    units.systemctl("daemon-reload")
    units.systemctl("restart", "colkuzai-http.service")
    without, with_one = units.price(), units.price("-H", "Authorization: Bearer secret")
    (drop_in / "tokens.conf").unlink()
    units.systemctl("daemon-reload")
    units.systemctl("restart", "colkuzai-http.service")
    wrong = [] if without.startswith("401") else [f"without a token: {without}"]
    return wrong + ([] if with_one == '200 {"result":950}' else [f"with one: {with_one}"])


def partitions(units: Units) -> list[str]:
    """Owners of partitions, which look for brokers that are not there."""
    drop_in = units.machine.path("/etc/systemd/system/colkuzai-partition@1.service.d")
    drop_in.mkdir(parents=True)
    (drop_in / "metrics.conf").write_text('[Service]\nEnvironment="OPTIONS=--metrics 127.0.0.1:9101"\n')
    units.machine.path("/etc/colkuzai/partition").write_text("DESK_BROKERS=amqp://127.0.0.1:1\nDESK_PARTITIONS=2\n")
    units.systemctl("daemon-reload")
    units.systemctl("start", "colkuzai-partition@1.service")
    wait(lambda: units.curl("/healthz", address="127.0.0.1:9101").startswith("200"), "an owner of a partition is alive")
    ready = units.curl("/readyz", address="127.0.0.1:9101")
    return [] if ready.startswith("503") else [f"without brokers /readyz says {ready}"]


def verified(units: Units) -> list[str]:
    """What systemd says of the files."""
    names = [f"/usr/lib/systemd/system/{it}" for it in os.listdir(units.machine.path("/usr/lib/systemd/system")) if "colkuzai" in it]
    said = units.machine.run("systemd-analyze", "verify", "--man=no", *[it.replace("@.", "@1.") for it in names])
    return [it for it in (said.stdout + said.stderr).splitlines() if "colkuzai" in it]


def upgraded(units: Units) -> list[str]:
    """Another version is installed while calls come and a connection is open."""
    with connected(units) as link:
        link.sendall(LINES)
        said = read(link, len(DUE))
        before = units.main_process("colkuzai-http.service")
        with units.load() as came:
            units.must("apt-get", "install", "-y", "/packages/upgrade.deb")
        wrong = only_prices(came)
        print(f"an upgrade under load: {came}")
        if said != DUE:
            wrong.append(f"before it the open connection answers {said!r}")
        if units.main_process("colkuzai-http.service") == before:
            wrong.append("the service runs the old program")
        if b'"ticket":1' not in (last := asked_again(link)):
            wrong.append(f"the open connection answers {last!r}")
    return wrong


def purged(units: Units) -> list[str]:
    """The package goes while its units run: they end, and what is the user's stays."""
    said = units.must("apt-get", "purge", "-y", "colkuzai")
    left = units.machine.run("systemctl", "list-units", "--plain", "--no-legend", "colkuzai*").stdout
    wrong = [f"these are left: {left}"] if left.strip() else []
    if "/etc/colkuzai is kept" not in said or not units.machine.path("/etc/colkuzai/model.json").exists():
        wrong.append(f"what is kept is not said: {said}")
    if units.machine.run("pidof", "/usr/bin/desk", "/usr/libexec/colkuzai/desk").stdout.strip():
        wrong.append("processes are left")
    return wrong


ROWS = (the_socket, the_pipes, http, http_under_load, http_with_tokens, partitions, verified, upgraded, purged)
