"""Calls to a service from another network namespace, one after another, on threads: prints how many came to what.

python3 machine_load.py THREADS FOLDER makes FOLDER/begun once each thread had an answer, and calls until FOLDER/end is there.
"""

from __future__ import annotations

import collections
import http.client
import json
import sys
import threading
from pathlib import Path


def main() -> None:
    threads, folder = int(sys.argv[1]), Path(sys.argv[2])
    came: collections.Counter[str] = collections.Counter()
    lock, began = threading.Lock(), threading.Barrier(threads, (folder / "begun").touch)

    def ask() -> None:
        try:
            service = http.client.HTTPConnection("127.0.0.1", 8080, timeout=60)
            service.request("POST", "/v1/services/shipping", '{"weight":5,"express":false}')
            answer = service.getresponse()
            outcome = f"{answer.status} {answer.read().decode().strip()}"
            service.close()
        except (OSError, http.client.HTTPException) as why:
            outcome = repr(why)
        with lock:
            came[outcome] += 1

    def call() -> None:
        ask()
        began.wait()
        while not (folder / "end").exists():
            ask()

    running = [threading.Thread(target=call) for _ in range(threads)]
    for it in running:
        it.start()
    for it in running:
        it.join()
    print(json.dumps(came))


if __name__ == "__main__":
    main()
