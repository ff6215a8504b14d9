"""Connections that are slow, silent, many or encrypted, and who may open them."""

from __future__ import annotations

import hashlib
import http.client
import json
import os
import re
import shutil
import signal
import socket
import ssl
import subprocess
import threading
import time
from pathlib import Path

from serving.models import adding, long, slow
from serving.service import PATIENCE, QUIET, Service, Skipped, ask, install


def stalled_reader(programs: list[str], folder: Path) -> None:
    """Callers that never read their long answers hold up nobody."""
    service = Service(programs, folder, slow(1), "--processes", 1)
    body = json.dumps(long(4990)).encode()
    head = f"POST /v1/services/s HTTP/1.1\r\nHost: localhost\r\nContent-Length: {len(body)}\r\n\r\n".encode()
    stalled = []
    for _ in range(20):
        on = socket.create_connection(("127.0.0.1", service.port))
        on.setsockopt(socket.SOL_SOCKET, socket.SO_RCVBUF, 4096)
        on.settimeout(1)
        try:
            for _ in range(100):
                on.sendall(head + body)
        except TimeoutError:
            pass
        stalled.append(on)
        if len(stalled) == 3:
            break
    # The service gives up after 30 seconds on those that do not read.
    for _ in range(20):
        begin = time.monotonic()
        answer = service.ask(long(1))
        assert answer == (200, {"result": [1]}), answer
        assert time.monotonic() - begin < 20, time.monotonic() - begin
    for on in stalled:
        on.close()
    assert service.end() == 0


def silent_connections(programs: list[str], folder: Path) -> None:
    """1,000 connections that say nothing: others are answered, and these are closed."""
    service = Service(programs, folder, adding(1), "--processes", 1)
    silent = [socket.create_connection(("127.0.0.1", service.port)) for _ in range(1000)]
    assert service.ask({"a": 1}) == (200, {"result": 2})
    until = time.monotonic() + PATIENCE
    while service.metric("desk_http_connections") > 10 and time.monotonic() < until:
        time.sleep(0.2)
    assert service.metric("desk_http_connections") <= 10, "silent connections stay open"
    for on in silent:
        on.close()
    assert service.end() == 0


def slow_and_cut_bodies(programs: list[str], folder: Path) -> None:
    """Bodies that come slowly, or not to their end, cost nobody else anything."""
    service = Service(programs, folder, adding(1), "--processes", 1)
    half = b"POST /v1/services/s HTTP/1.1\r\nHost: localhost\r\nContent-Length: 1000\r\n\r\n{\"a\":"
    slow_ones = [socket.create_connection(("127.0.0.1", service.port)) for _ in range(50)]
    for on in slow_ones:
        on.sendall(half)
    assert service.ask({"a": 1}) == (200, {"result": 2})
    for on in slow_ones[:25]:
        on.close()
    for on in slow_ones[25:]:
        on.shutdown(socket.SHUT_WR)
        assert on.recv(1000).startswith(b"HTTP/1.1 400 "), "half of a request was answered"
    until = time.monotonic() + PATIENCE
    while service.metric("desk_http_held_bytes") > 0 and time.monotonic() < until:
        time.sleep(0.1)
    assert service.metric("desk_http_held_bytes") == 0
    assert service.ask({"a": 1}) == (200, {"result": 2})
    assert service.end() == 0


def large_bodies(programs: list[str], folder: Path) -> None:
    """Bodies of 100 MB are refused, and are not kept in memory."""
    service = Service(programs, folder, adding(1), "--processes", 1)
    for chunked in (False, True):
        on = service.connection()
        on.putrequest("POST", "/v1/services/s")
        on.putheader(*(("Transfer-Encoding", "chunked") if chunked else ("Content-Length", str(100 << 20))))
        on.endheaders()
        piece = b"x" * (1 << 20)
        try:
            for _ in range(100):
                on.send(b"100000\r\n" + piece + b"\r\n" if chunked else piece)
        except OSError:
            pass
        try:
            assert on.getresponse().status == 413
        except OSError:
            pass
    greatest = re.search(r"VmHWM:\s+(\d+)", Path(f"/proc/{service.process.pid}/status").read_text())
    assert greatest and int(greatest[1]) < 300_000, greatest
    assert service.ask({"a": 1}) == (200, {"result": 2})
    assert service.end() == 0


def answers_in_time(service: Service, count: int, port: int = 0) -> list[float]:
    """How many seconds each of some small requests took, or probes where a port of theirs is given."""
    took: list[float] = []
    for n in range(count):
        begin = time.monotonic()
        if port:
            on = http.client.HTTPConnection("127.0.0.1", port, timeout=PATIENCE)
            assert ask(on, "", path="/healthz", method="GET")[0] == 200
        else:
            assert service.ask({"b": [{"x": n}]})[0] == 200
        took.append(time.monotonic() - begin)
    return sorted(took)


def quick(name: str, took: list[float]) -> None:
    """Prints within what time 99 of 100 come: 50 ms at most on a quiet machine."""
    late = took[len(took) * 99 // 100 - 1]
    print(f"{name}: 99 of 100 within {late * 1000:.1f} ms, load {os.getloadavg()[0]:.1f}", flush=True)
    assert late < 0.05 or not QUIET, took[-5:]


def quiet_connections(programs: list[str], folder: Path) -> None:
    """8,192 quiet connections, renewed as they end, shut out neither callers nor probes."""
    import resource
    most = resource.getrlimit(resource.RLIMIT_NOFILE)
    if most[1] < 20_000:
        raise Skipped("a process may have fewer than 20,000 open files")
    resource.setrlimit(resource.RLIMIT_NOFILE, (20_000, most[1]))
    with socket.socket() as free:
        free.bind(("127.0.0.1", 0))
        admin = free.getsockname()[1]
    service = Service(programs, folder, slow(10), "--processes", 2, "--admin", f"127.0.0.1:{admin}")
    over, count = threading.Event(), [0]

    def hold(number: int) -> None:
        quiet: list[socket.socket] = []
        while not over.is_set():
            try:
                # From four addresses, which have more than their places in all.
                on = socket.create_connection(("127.0.0.1", service.port), timeout=5, source_address=(f"127.0.0.{number + 2}", 0))
            except OSError:
                continue
            quiet.append(on)
            count[0] += 1
            if len(quiet) > 2100:
                quiet.pop(0).close()
                time.sleep(0.002)
        for on in quiet:
            on.close()

    holders = [threading.Thread(target=hold, args=(n,)) for n in range(4)]
    for holder in holders:
        holder.start()
    until = time.monotonic() + PATIENCE
    while count[0] < 8192 and time.monotonic() < until:
        time.sleep(0.1)
    assert count[0] >= 8192, count
    try:
        quick("callers", answers_in_time(service, 200))
        quick("probes", answers_in_time(service, 200, admin))
        quick("probes at the same port", answers_in_time(service, 200, service.port))
    finally:
        over.set()
        for holder in holders:
            holder.join()
    assert service.end() == 0, service.said()


def slow_callers(programs: list[str], folder: Path) -> None:
    """Six callers of one request that is too long hold no engine that others need, whether it is always the same or not."""
    plain = Service(programs, folder, slow(4000, 10), "--processes", 2)
    # Where the machine does other work, small requests and slow ones take longer alike; the small ones are to stay far within it.
    deadline = max(0.5, 10 * answers_in_time(plain, 20)[-1])
    assert plain.end() == 0
    for same in (True, False):
        # Callers are told apart by their tokens.
        tokens = {name: hashlib.sha256(name.encode()).hexdigest() for name in ("slow", "small")}
        (folder / "tokens").write_text("".join(f"{name} call {value}\n" for name, value in tokens.items()))
        # Some five seconds a request on a quiet machine, ten times the deadline, which is half a second there.
        service = Service(programs, folder, slow(4000, 10), "--processes", 2, "--deadline", f"{1000 * deadline:.0f}ms",
                          "--tokens", folder / "tokens")
        over, kinds = threading.Event(), set()

        def call(number: int) -> None:
            n = 0
            while not over.is_set():
                n += 1
                body = {"b": [{"x": 0 if same else 1000 * number + n}] * 4500}
                on = service.connection()
                on.request("POST", "/v1/services/s", json.dumps(body), {"Authorization": "Bearer slow"})
                answer = on.getresponse()
                kinds.add(json.loads(answer.read()).get("type"))
                time.sleep(0.01)

        callers = [threading.Thread(target=call, args=(n,)) for n in range(6)]
        for caller in callers:
            caller.start()
        took: list[float] = []
        begin = time.monotonic()
        while (past := time.monotonic() - begin) < 10 or len(took) <= 100 and past < 10 * PATIENCE:
            on, one = service.connection(), time.monotonic()
            on.request("POST", "/v1/services/s", json.dumps({"b": [{"x": len(took)}]}), {"Authorization": "Bearer small"})
            assert on.getresponse().status == 200
            took.append(time.monotonic() - one)
        over.set()
        for caller in callers:
            caller.join()
        assert "/problems/late" in kinds, kinds
        # Callers who had to wait for the engines that ended at the slow requests would be as few as these.
        ended = service.said().count("a request took longer than the deadline")
        assert 0 < 2 * ended < len(took) > 100, (ended, len(took))
        quick(f"beside six slow callers, {'one line' if same else 'each its own'}, {len(took)} answers", sorted(took))
        assert service.end() == 0, service.said()


def certificate(folder: Path, name: str, *words: str) -> None:
    command = ["openssl", "req", "-x509", "-newkey", "ec", "-pkeyopt", "ec_paramgen_curve:prime256v1", "-nodes", "-days", "2", "-subj",
               f"/CN={name}", "-addext", "subjectAltName=IP:127.0.0.1", "-keyout", folder / f"{name}.key", "-out", folder / f"{name}.pem"]
    subprocess.run([*command, *words], capture_output=True, check=True)


def encrypted(programs: list[str], folder: Path) -> None:
    """TLS, whose certificate is renewed by SIGHUP under callers; with --tls-client-ca callers need one of theirs. A unix socket."""
    if not shutil.which("openssl"):
        install("openssl")
    for name in ("one", "two", "caller"):
        certificate(folder, name)
    for part in ("pem", "key"):
        shutil.copy(folder / f"one.{part}", folder / f"now.{part}")
    words = ["--tls-cert", folder / "now.pem", "--tls-key", folder / "now.key"]

    def ask_over(port: int, trusted: str, own: str = "") -> object:
        context = ssl.create_default_context(cafile=folder / f"{trusted}.pem")
        if own:
            context.load_cert_chain(folder / f"{own}.pem", folder / f"{own}.key")
        on = http.client.HTTPSConnection("127.0.0.1", port, timeout=PATIENCE, context=context)
        try:
            return ask(on, {"a": 1})
        except OSError as fault:
            return type(fault)

    service = Service(programs, folder, adding(1), "--processes", 1, *words)
    assert ask_over(service.port, "one") == (200, {"result": 2})
    for part in ("pem", "key"):
        shutil.copy(folder / f"two.{part}", folder / f"now.{part}")
    service.process.send_signal(signal.SIGHUP)
    until = time.monotonic() + PATIENCE
    while ask_over(service.port, "two") != (200, {"result": 2}):
        assert time.monotonic() < until, service.said()
    (folder / "now.pem").write_text("no certificate")
    service.process.send_signal(signal.SIGHUP)
    while "the certificates stay as they were" not in service.said():
        assert time.monotonic() < until, service.said()
        time.sleep(0.01)
    assert ask_over(service.port, "two") == (200, {"result": 2})
    assert service.end() == 0, service.said()
    shutil.copy(folder / "two.pem", folder / "now.pem")
    service = Service(programs, folder, adding(1), "--processes", 1, *words, "--tls-client-ca", folder / "caller.pem")
    assert ask_over(service.port, "two", "caller") == (200, {"result": 2})
    for own in ("", "one"):
        assert isinstance(ask_over(service.port, "two", own), type), own
    assert service.end() == 0, service.said()
    path = folder / "socket"
    ran = subprocess.Popen([programs[0], "http", str(folder / "model.in.json"), "--listen", f"unix:{path}", "--processes", "1"],
                           stderr=subprocess.DEVNULL, env=dict(os.environ, DESK_ENGINE=programs[1]))
    until = time.monotonic() + PATIENCE
    while True:
        on = http.client.HTTPConnection("localhost", timeout=PATIENCE)
        on.sock = socket.socket(socket.AF_UNIX)
        try:
            on.sock.connect(str(path))
            break
        except OSError:
            assert time.monotonic() < until and ran.poll() is None
            time.sleep(0.05)
    assert ask(on, {"a": 1}) == (200, {"result": 2})
    on.close()
    ran.terminate()
    assert ran.wait(PATIENCE) == 0 and not path.exists()


def open_to_others(programs: list[str], folder: Path) -> None:
    """Where others reach the address, tokens, certificates of callers or --open are due; wrong words have status 2."""
    (folder / "model.json").write_text(json.dumps(adding(1)))
    for words, due in ((["--listen", "0.0.0.0:0"], 2), (["--listen", "[::]:0"], 2), (["--tls-cert", "x"], 2), (["--tls-client-ca", "x"], 2),
                       (["--address-limit", "0"], 2), (["--admin", "8081"], 2), (["--tls-cert", "none", "--tls-key", "none"], 5)):
        ran = subprocess.run([programs[0], "http", str(folder / "model.json"), *words], capture_output=True, timeout=PATIENCE,
                             env=dict(os.environ, DESK_ENGINE=programs[1]))
        assert ran.returncode == due, (words, ran)
