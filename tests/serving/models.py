"""Models that rows serve, and requests of them."""

from __future__ import annotations

Json = dict[str, object]


def adding(number: int) -> Json:
    """A model of the service `s`, which adds a number to its input `a`."""
    service = {"name": "s", "outputs": ["d"], "encapsulated": [], "inputDecisions": [], "inputData": ["a"]}
    decision = {"name": "d", "needs": ["a"], "expr": f"a + {number}"}
    return {"inputs": ["a"], "decisions": [decision], "services": [service]}


def slow(rules: int, lists: int = 1) -> Json:
    """A model of the service `s`, which takes the longer the longer the list `b` is: each rule forms so many as long."""
    then = "b.x" if lists == 1 else " + ".join(["count(b.x)"] * lists)
    table = {"hit": "F", "inputs": [], "outputs": [{"name": "o"}], "rules": [{"when": [], "then": [then]}] * rules}
    return about_b({"table": table})


def comparing() -> Json:
    """A model of the service `s`, which compares `b` with itself 216,000 times: some ten seconds for a long list of long texts."""
    parts = [f"d{n}" for n in range(24)]
    text = "count([" + ",".join(["b=b"] * 9000) + "])"
    decisions = [{"name": name, "needs": ["b"], "expr": text} for name in parts]
    decisions.append({"name": "d", "needs": parts, "expr": " + ".join(parts)})
    service = {"name": "s", "outputs": ["d"], "encapsulated": parts, "inputDecisions": [], "inputData": ["b"]}
    return {"inputs": ["b"], "decisions": decisions, "services": [service]}


def hungry(entries: int) -> Json:
    """A model of the service `s`, which keeps as many lists as long as `b` as it has entries."""
    context = [{"name": f"e{n}", "expr": "b.x"} for n in range(entries)]
    return about_b({"context": context, "result": "1"})


def about_b(expr: Json) -> Json:
    service = {"name": "s", "outputs": ["d"], "encapsulated": [], "inputDecisions": [], "inputData": ["b"]}
    return {"inputs": ["b"], "decisions": [{"name": "d", "needs": ["b"], "expr": expr}], "services": [service]}


def long(length: int) -> Json:
    return {"b": [{"x": 1}] * length}


def number(n: int) -> Json:
    return {"a": n}
