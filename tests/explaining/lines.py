"""The program, and the lines that it is asked."""

from __future__ import annotations

import json
import subprocess
from pathlib import Path

ROOT = Path(__file__).resolve().parent.parent.parent
EXAMPLES = ROOT / "examples"
EXPLAINED = EXAMPLES / "explain"
Json = dict[str, object]


def run(program: str, *words: str, lines: bytes) -> list[bytes]:
    """The lines that the program writes for these; it has to end with status 0."""
    done = subprocess.run([program, *words], input=lines, capture_output=True, check=False, timeout=600)
    if done.returncode != 0:
        raise SystemExit(f"{' '.join(words)}: status {done.returncode}, {done.stderr.decode()}")
    return done.stdout.split(b"\n")[:-1]


def unlike(got: list[bytes], due: list[bytes]) -> list[str]:
    """What is told otherwise than it is due."""
    if len(got) != len(due):
        return [f"{len(got)} lines, {len(due)} are due"]
    return [f"{one.decode()}\n  {other.decode()} is due" for one, other in zip(got, due, strict=True) if one != other]


def compact(value: object) -> str:
    """The JSON text of a value as `serve` writes it."""
    return json.dumps(value, separators=(",", ":"), sort_keys=True, ensure_ascii=False)


def client_of(name: object, known: dict[str, str]) -> object:
    """One of eight clients in the place of a lawful name: `serve` has no more than 64, and a script may have more."""
    if not isinstance(name, str) or not 1 <= len(name.encode()) <= 64:
        return name
    return known.setdefault(name, f"c{len(known) % 8}")


def asked(script: Path) -> bytes:
    """The models and the requests of a script, as lines of `serve`. Where a line was no JSON it stays as it is."""
    lines, known = [], {}
    for text in script.read_bytes().splitlines():
        try:
            line = json.loads(text)
        except ValueError:
            lines.append(text)
            continue
        if not isinstance(line, dict) or "submit" not in line:
            lines.append(text)
        elif set(line) == {"submit", "service", "inputs"}:
            request = {"client": client_of(line["submit"], known), "service": line["service"], "inputs": line["inputs"]}
            lines.append(json.dumps(request, ensure_ascii=False).encode())
    return b"\n".join(lines) + b"\n"


def scripts() -> list[Path]:
    """The program's stored run, and the examples."""
    found = [ROOT / "crates" / "desk" / "stdin", *sorted(EXAMPLES.glob("*.jsonl")), *sorted(EXPLAINED.glob("*.jsonl"))]
    return [it for it in found if not it.name.endswith(".answers.jsonl")]
