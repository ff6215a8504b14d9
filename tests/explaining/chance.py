"""Random lines of `serve`, mostly lawful: models, requests, closes, resizes, and what is none of these."""

from __future__ import annotations

from random import Random

from explaining.lines import Json, compact

# More clients than are served; the first of them ask more than the others.
NAMES = [*(f"c{at}" for at in range(6)), "a b", 'q"\\', "ü\u202e", "x" * 64, "one", "two", "three"]
UNLAWFUL_NAMES = ["", "x" * 65, 5, None]
VALUES = [None, True, 0, 1, 2, 3, -4, 7, 9223372036854775807, "HIGH", "x\n", [1, [2]], {"a": {"b": 1}}, 1.5, 10**19]


def table(hit: str, name: str) -> Json:
    """A decision that is a table over `a`."""
    rules = [{"when": [test], "then": [gives]} for test, gives in (("> 1", "2"), ("-", "1"), ("[2..7]", "a"), ('"HIGH"', '"H"'))]
    columns = [{"name": "x", "values": ["2", "1"], "default": "0"}]
    return {"name": name, "needs": ["a"], "expr": {"table": {"hit": hit, "inputs": ["a"], "outputs": columns, "rules": rules}}}


def model(extra: str) -> Json:
    """A model with an expression, a context, a list and tables, and services of one, several and given decisions."""
    tables = [table(hit, f"t{at}") for at, hit in enumerate(("U", "A", "P", "F", "R", "O", "C", "C+", "C<", "C>", "C#"))]
    decisions = [
        *tables,
        {"name": "sum", "needs": ["a", "b"], "expr": f"a + b{extra}"},
        {"name": "box", "needs": ["sum", "t2"], "expr": {"context": [{"name": "p", "expr": "sum"}, {"name": "q", "expr": {"list": ["p", "t2"]}}], "result": "q"}},
        {"name": "last", "needs": ["box", "t4", "sum"], "expr": {"list": ["box", "t4", "sum * 2"]}},
    ]
    names = [it["name"] for it in tables]
    services = [
        {"name": "all", "outputs": ["last", *names[:2]], "encapsulated": ["sum", "box", *names[2:]], "inputDecisions": [], "inputData": ["a", "b"]},
        {"name": "given", "outputs": ["last"], "encapsulated": ["box", "t4"], "inputDecisions": ["t2", "sum"], "inputData": ["a"]},
        {"name": "one", "outputs": ["sum"], "encapsulated": [], "inputDecisions": [], "inputData": ["a", "b"]},
    ]
    return {"inputs": ["a", "b"], "decisions": decisions, "services": services}


def name(random: Random) -> object:
    """A client's name."""
    chance = random.random()
    return random.choice(UNLAWFUL_NAMES if chance < 0.01 else NAMES if chance < 0.2 else NAMES[:8])


def request(random: Random) -> Json:
    """A request, mostly lawful."""
    service = random.choice(("all", "given", "one", "one", "one", "none" if random.random() < 0.2 else "one"))
    inputs = {name: random.choice(VALUES) for name in ("a", "b", "sum", "t2", "other") if random.random() < 0.7}
    return {"client": name(random), "service": service, "inputs": inputs}


def odd(random: Random) -> bytes:
    """A line that is blank, no JSON, of the wrong shape, or a faulty model."""
    lines = [b"", b" \t", b"{", b"[]", b"5", b'{"client":"c1"}', b'{"client":"c1","close":false}', b'{"client":"c1","service":"one","inputs":[]}',
             b'{"resize":"c1"}', b'{"client":"c1","close":true,"x":1}', b'"\xff"', b"\xef\xbb\xbf{}", b'{"model":{}}', b'{"model":5,"x":1}', b"[" * 200]  # fmt: skip
    return random.choice(lines)


def close(random: Random) -> Json:
    return {"client": name(random), "close": True}


def resize(random: Random) -> Json:
    return {"resize": name(random), "capacity": random.choice((0, 1, 3, 4096, 4097, -1, "x"))}


def line(random: Random) -> bytes:
    """One of the lines."""
    chance = random.random()
    if chance < 0.03:
        return odd(random)
    if chance < 0.06:
        return compact(resize(random)).encode()
    if chance < 0.06005:
        return compact(close(random)).encode()
    if chance < 0.0602:
        return compact({"model": model(random.choice(("", " + 1")))}).encode()
    return compact(request(random)).encode()
