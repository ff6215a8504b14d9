"""The greatest memory of `explain` and of `explain --text`, beside that of `serve`, where decisions take about 64 MiB."""

from __future__ import annotations

import json
import subprocess
import sys
import tempfile

# How many bytes each may take beside what `serve` does.
MOST_BESIDE = 150_000_000
MOST = 67_108_864

# Runs a program and tells its greatest memory in KiB. A small process starts it, since what a process has taken before it becomes
# another program counts as that program's.
STARTER = """
import os, sys
process = os.posix_spawn(sys.argv[1], sys.argv[1:], os.environ)
_, status, used = os.wait4(process, 0)
print(used.ru_maxrss, file=sys.stderr)
sys.exit(os.waitstatus_to_exitcode(status))
"""


def most_memory(program: str, *words: str, lines: bytes) -> int:
    """The most bytes that the program takes at once for these lines."""
    with tempfile.TemporaryFile() as source:
        source.write(lines)
        source.seek(0)
        command = [sys.executable, "-c", STARTER, program, *words]
        done = subprocess.run(command, stdin=source, stdout=subprocess.DEVNULL, stderr=subprocess.PIPE, check=True, timeout=600)
    return int(done.stderr) * 1024


def hits(value: object, rest: int) -> bytes:
    """A table whose rules all hit and give this value: as many as fit into 64 MiB, less so many; and a request to it."""
    each = len('{"rule":10000,"value":},') + len(json.dumps(value, ensure_ascii=False, separators=(",", ":")).encode())
    rules = [{"when": ["-"], "then": ["a"]} for _ in range((MOST - rest) // each)]
    table = {"hit": "F", "inputs": ["1"], "outputs": [{"name": "x"}], "rules": rules}
    service = {"name": "s", "outputs": ["d"], "encapsulated": [], "inputDecisions": [], "inputData": ["a"]}
    model = {"inputs": ["a"], "decisions": [{"name": "d", "needs": ["a"], "expr": {"table": table}}], "services": [service]}
    lines = ({"model": model}, {"client": "c", "service": "s", "inputs": {"a": value}})
    return "".join(json.dumps(it, ensure_ascii=False, separators=(",", ":")) + "\n" for it in lines).encode()


CASES = {
    "many numbers": ([1] * 9_999, 100_000),
    "many contexts": ([{"a": 1}] * 4_999, 200_000),
    "texts whose letters take six times as much in a text": (["\x7f" * 200] * 200, 200_000),
}


def faults(program: str) -> list[str]:
    """The cases in which an explanation or its text takes too much memory."""
    found = []
    for name, (value, rest) in CASES.items():
        lines = hits(value, rest)
        most = most_memory(program, "serve", "--workers", "1", lines=lines) + MOST_BESIDE
        for words in (["explain"], ["explain", "--text"]):
            took = most_memory(program, *words, lines=lines)
            if took > most:
                found.append(f"{name}: {' '.join(words)} takes {took / 1e6:.0f} MB, and at most {most / 1e6:.0f} are due")
    return found
