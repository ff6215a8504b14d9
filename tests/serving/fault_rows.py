"""Faults of engines, models and requests: each request is answered once or refused, a client's in order, none wrong."""

from __future__ import annotations

import http.client
import json
import os
import select
import signal
import socket
import subprocess
import threading
import time
from pathlib import Path

from serving.load import Load
from serving.models import adding, comparing, hungry, long, number, slow
from serving.service import PATIENCE, Service, journal_lines


def killed_engines(programs: list[str], folder: Path) -> None:
    """Engines are killed under load: all is answered, all right."""
    service = Service(programs, folder, adding(0), "--processes", 2)
    load = Load(service, 8, lambda: 0, number)
    for _ in range(6):
        time.sleep(0.3)
        for pid in service.engines()[:1]:
            os.kill(pid, signal.SIGKILL)
    time.sleep(0.5)
    load.wait_for(51)
    load.end()
    assert load.answered > 50, load.answered
    assert load.refused <= 2, f"{load.refused} requests were refused"
    assert service.metric("desk_http_engine_restarts_total") >= 3
    assert service.end() == 0


def ordered(programs: list[str], folder: Path) -> None:
    """A client's answers come in the order of its requests, each on a connection of its own, though its engine is killed."""
    service = Service(programs, folder, slow(5000), "--processes", 1, "--deadline", "60s")
    asked: list[socket.socket] = []
    for n in range(24):
        body = json.dumps(long(4990 if n == 0 else 50)).encode()
        on = socket.create_connection(("127.0.0.1", service.port))
        on.sendall(f"POST /v1/services/s HTTP/1.1\r\nHost: localhost\r\nX-Client: ann\r\nContent-Length: {len(body)}\r\n\r\n".encode()
                   + body)
        asked.append(on)
        while service.metric("desk_http_outstanding") + service.metric('desk_http_requests_total{outcome="result"}') <= n:
            time.sleep(0.002)
    os.kill(service.engines()[0], signal.SIGKILL)
    places = {on.fileno(): n for n, on in enumerate(asked)}
    watch = select.poll()
    for on in asked:
        watch.register(on, select.POLLIN)
    answered = 0
    while answered < len(asked):
        come = [places[descriptor] for descriptor, _ in watch.poll(60_000)]
        assert come, f"{answered} answers came"
        # What came before the last of these is here by now.
        here = {places[descriptor] for descriptor, _ in watch.poll(0)}
        assert here >= set(range(answered, max(come) + 1)), (answered, come, here)
        for n in range(answered, max(come) + 1):
            watch.unregister(asked[n])
        answered = max(come) + 1
    for on in asked:
        assert on.recv(100).startswith(b"HTTP/1.1 200 ")
        on.close()
    assert service.metric("desk_http_engine_restarts_total") == 1
    assert service.end() == 0


def poison(programs: list[str], folder: Path) -> None:
    """One request past the deadline among innocents: it alone gets 504."""
    service = Service(programs, folder, comparing(), "--processes", 1, "--deadline", "3s")
    answers: dict[int, int] = {}

    def one(n: int) -> None:
        answers[n] = service.ask({"b": ["x" * 90] * (9990 if n == 10 else 1)}, "ann" if n % 2 else "")[0]

    threads = [threading.Thread(target=one, args=(n,)) for n in range(30)]
    for thread in threads:
        thread.start()
        time.sleep(0.005)
    for thread in threads:
        thread.join(PATIENCE)
    due = {n: 504 if n == 10 else 200 for n in range(30)}
    assert answers == due, {n: s for n, s in answers.items() if s != due[n]}
    assert service.end() == 0


def memory(programs: list[str], folder: Path) -> None:
    """A request that needs more memory than an engine may have is given up; others are answered."""
    service = Service(programs, folder, hungry(3000), "--processes", 1, "--memory", "128MiB", "--deadline", "5s")
    status, _ = service.ask(long(4990))
    assert status in (500, 504), status
    assert service.ask(long(1)) == (200, {"result": 1})
    assert service.end() == 0


def stopped_under_load(programs: list[str], folder: Path) -> None:
    """SIGTERM to the process group under load: what was sent is answered, the engines end with 0, and so does it."""
    service = Service(programs, folder, adding(0), "--processes", 2, "--journal", folder / "journal")
    engines = service.engines()
    load = Load(service, 16, lambda: 0, number)
    time.sleep(1)
    load.wait_for(31)
    assert service.end() == 0, service.said()
    load.end()
    assert load.answered > 30 and load.refused == 0, (load.answered, load.refused)
    assert "all that was taken is answered" in service.said()
    assert "begun anew" not in service.said(), service.said()
    assert not any(Path(f"/proc/{pid}").exists() for pid in engines), "an engine is left"
    kept = sum(1 for line in journal_lines(folder / "journal") if "inputs" in line)
    assert kept >= load.answered, f"{kept} lines in the journal, {load.answered} answers"


def stopped_beside_new_connections(programs: list[str], folder: Path) -> None:
    """SIGTERM while callers open a connection for each request: each of them is answered or refused, none is cut off."""
    for _ in range(3):
        service = Service(programs, folder, adding(0), "--processes", 1)
        load = Load(service, 32, lambda: 0, number, fresh=True)
        time.sleep(0.7)
        load.wait_for(31)
        assert service.end() == 0, service.said()
        load.end()
        assert load.answered > 30 and load.refused == 0, (load.answered, load.refused)


def upgraded(programs: list[str], folder: Path) -> None:
    """One service ends and another takes its place at a socket that stays open, under load: nobody notices."""
    model = folder / "model.json"
    model.write_text(json.dumps(adding(0)))
    listener = socket.create_server(("127.0.0.1", 0), backlog=1024)
    os.dup2(listener.fileno(), 3, inheritable=True)

    def begin(log: Path) -> subprocess.Popen[bytes]:
        command = 'LISTEN_PID=$$ LISTEN_FDS=1 exec "$0" http "$1" --processes 2'
        with open(log, "wb") as errors:
            return subprocess.Popen(["sh", "-c", command, programs[0], str(model)], stderr=errors, pass_fds=(3,),
                                    env=dict(os.environ, DESK_ENGINE=programs[1]), start_new_session=True)

    class Place:
        """Where the load goes."""

        def connection(self) -> http.client.HTTPConnection:
            return http.client.HTTPConnection("127.0.0.1", listener.getsockname()[1], timeout=PATIENCE)

    first = begin(folder / "log")
    load = Load(Place(), 8, lambda: 0, number)  # type: ignore[arg-type]
    time.sleep(1)
    load.wait_for(21)
    os.killpg(first.pid, signal.SIGTERM)
    assert first.wait(PATIENCE) == 0
    before = load.answered
    second = begin(folder / "log2")
    time.sleep(1.5)
    load.wait_for(before + 21)
    load.end()
    assert before > 20 and load.answered > before + 20 and load.refused == 0, (before, load.answered, load.refused)
    os.killpg(second.pid, signal.SIGTERM)
    assert second.wait(PATIENCE) == 0


def killed_gateway(programs: list[str], folder: Path) -> None:
    """Without the gateway its engines end by themselves, and what was answered is in the journal."""
    service = Service(programs, folder, adding(0), "--processes", 2, "--journal", folder / "journal")
    engines = service.engines()
    answered = []
    for n in range(50):
        assert service.ask([{"a": n}])[0] == 200
        answered.append(n)
    service.process.kill()
    service.process.wait()
    until = time.monotonic() + PATIENCE
    while any(Path(f"/proc/{pid}").exists() for pid in engines) and time.monotonic() < until:
        time.sleep(0.05)
    assert not any(Path(f"/proc/{pid}").exists() for pid in engines), "an engine is left"
    kept = {line["inputs"]["a"] for line in journal_lines(folder / "journal") if "inputs" in line}
    assert kept == set(answered), set(answered) - kept
    again = Service(programs, folder, adding(0), "--processes", 1, "--journal", folder / "journal")
    assert again.ask({"a": 1}) == (200, {"result": 1})
    assert again.end() == 0


def models_under_load(programs: list[str], folder: Path) -> None:
    """Models are put under load, and engines killed meanwhile: none lost, and nobody goes back to an older model."""
    service = Service(programs, folder, adding(0), "--processes", 2, "--state", folder / "state.json")
    put = [0]
    load = Load(service, 8, lambda: put[0], number)
    for n in range(1, 9):
        status, answer = service.ask(adding(n), path="/v1/model", method="PUT")
        assert status == 200, answer
        put[0] = n
        if n % 3 == 0:
            os.kill(service.engines()[0], signal.SIGKILL)
        time.sleep(0.1)
    load.wait_for(21)
    load.end()
    assert load.answered > 20 and load.refused <= 2, (load.answered, load.refused)
    assert service.end() == 0
    again = Service(programs, folder, adding(0), "--processes", 1, "--state", folder / "state.json")
    assert again.ask({"a": 1}) == (200, {"result": 9}), "the model last put is not served"
    assert "serving the model last put" in again.said()
    assert again.end() == 0


def faulty_models(programs: list[str], folder: Path) -> None:
    """A model with a fault is told with its places, and the status is 3."""
    model = adding(1)
    model["decisions"][0]["expr"] = "a +"  # type: ignore[index]
    path = folder / "faulty.json"
    path.write_text(json.dumps(model))
    ran = subprocess.run([programs[0], "http", str(path), "--listen", "127.0.0.1:0"], capture_output=True, timeout=PATIENCE,
                         env=dict(os.environ, DESK_ENGINE=programs[1]))
    assert ran.returncode == 3 and b"/decisions/0/expr" in ran.stderr, ran
    for words, status in ((["--processes", "0"], 2), ([], 2), (["nothing.json"], 5)):
        ran = subprocess.run([programs[0], "http", *words], capture_output=True, timeout=PATIENCE,
                             env=dict(os.environ, DESK_ENGINE=programs[1]))
        assert ran.returncode == status, ran


def engines_by_processors(programs: list[str], folder: Path) -> None:
    """Where nothing says how many engines there are, there is one for each processor that it may use, at most 64."""
    usable = sorted(os.sched_getaffinity(0))
    for processors in sorted({1, len(usable)}):
        os.sched_setaffinity(0, usable[:processors])
        try:
            service = Service(programs, folder, adding(1))
        finally:
            os.sched_setaffinity(0, usable)
        assert service.metric("desk_http_engines") == min(processors, 64), f"{processors} processors: {service.said()}"
        assert service.end() == 0
