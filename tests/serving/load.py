"""Callers that ask until they are told to end, or the service takes no more."""

from __future__ import annotations

import http.client
import json
import threading
import time
from collections.abc import Callable

from serving.models import Json
from serving.service import PATIENCE, Service, ask

# How many seconds the service waits for the header of a new connection, and, once it ends, for another request of a kept one.
HEADER, KEPT = 5.0, 2.0


class Load:
    """Callers that ask one request after another, each on a connection of its own, or with fresh on one for each request,
    until they are told to end or the service takes no more. Those with even numbers have names."""

    def __init__(self, service: Service, callers: int, added: Callable[[], int], body: Callable[[int], Json],
                 fresh: bool = False) -> None:
        self.service, self.added, self.body, self.fresh = service, added, body, fresh
        self.over = threading.Event()
        self.lock = threading.Lock()
        self.answered, self.refused, self.late = 0, 0, 0
        self.complaints: list[str] = []
        self.threads = [threading.Thread(target=self.call, args=(n,)) for n in range(callers)]
        for thread in self.threads:
            thread.start()

    def call(self, number: int) -> None:
        client = f"c{number}" if number % 2 == 0 else ""
        on = self.service.connection()
        last, heard = 0, 0.0
        for n in range(1_000_000):
            if self.over.is_set():
                return
            if self.fresh:
                on.close()
            least, is_new = self.added(), on.sock is None
            silent_since = time.monotonic() if is_new else heard
            try:
                status, answer = ask(on, self.body(n), client)
            except ConnectionRefusedError:
                return
            except (OSError, http.client.HTTPException) as fault:
                silent = time.monotonic() - silent_since
                if not self.may_call_again(fault, silent, HEADER if is_new else KEPT):
                    self.complain(f"caller {number}, request {n}: {fault!r}, silent for {silent:.3f} s at most")
                    return
                on.close()
                continue
            heard = time.monotonic()
            last = self.judge(number, n, status, answer, max(least, last))

    def may_call_again(self, fault: Exception, silent: float, patience: float) -> bool:
        """Whether the service closed a connection that was silent for too long, as one is whose caller has to wait for a processor.
        It read nothing of the request then: header and body are written apart, and a body can't be written only where the
        connection was closed before its header came."""
        if not isinstance(fault, BrokenPipeError) or silent < patience:
            return False
        with self.lock:
            self.late += 1
        return True

    def judge(self, number: int, n: int, status: int, answer: object, least: int) -> int:
        """Counts an answer, and gives the number that its model adds."""
        with self.lock:
            self.answered += status == 200
            self.refused += status != 200
        if status in (500, 503):
            return least
        if status != 200:
            self.complain(f"caller {number}, request {n}: {status} {answer}")
            return least
        assert isinstance(answer, dict)
        added = answer["result"] - n
        if not least <= added <= self.added() + 1:
            self.complain(f"caller {number}, request {n}: {answer}, and at least {least} is to be added")
        return max(added, least)

    def wait_for(self, count: int) -> None:
        """Waits until so many were answered."""
        until = time.monotonic() + PATIENCE
        while self.answered < count and time.monotonic() < until:
            time.sleep(0.01)

    def complain(self, text: str) -> None:
        with self.lock:
            self.complaints.append(text)

    def end(self) -> None:
        self.over.set()
        for thread in self.threads:
            thread.join(120)
        assert not any(thread.is_alive() for thread in self.threads), "a caller has no answer"
        if self.late:
            print(f"{self.late} connections were closed before their callers came to write", flush=True)
        assert not self.complaints, self.complaints[:5]


class Recorded:
    """Callers whose answers are kept by the ids that the service gave them, until the service takes no more."""

    def __init__(self, service: Service, callers: int, answers: dict[str, object]) -> None:
        self.port, self.answers = service.port, answers
        self.lock = threading.Lock()
        self.threads = [threading.Thread(target=self.call, args=(n,)) for n in range(callers)]
        for thread in self.threads:
            thread.start()

    def call(self, number: int) -> None:
        on = http.client.HTTPConnection("127.0.0.1", self.port, timeout=PATIENCE)
        for n in range(1_000_000):
            try:
                on.request("POST", "/v1/services/s", json.dumps({"a": n}), {"X-Request-Id": f"r{number}", "X-Client": f"c{number}"})
                answer = on.getresponse()
                text = json.loads(answer.read())
            except (OSError, http.client.HTTPException):
                return
            if answer.status == 200:
                with self.lock:
                    self.answers[answer.getheader("Desk-Record") or ""] = (f"c{number}", n, text["result"])

    def wait(self) -> None:
        for thread in self.threads:
            thread.join(PATIENCE)
