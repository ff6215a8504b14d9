"""Values that are not the form of a model: a text of the lawful model, another in its place, and what is told. Worked out by hand."""

from __future__ import annotations

# A text of the lawful model, another in its place, and the places that are told.
SHAPES: list[tuple[str, str, list[str]]] = [
    ('"needs": ["age", "claims"], ', "", ["decisions[0]: the key needs is missing"]),
    (
        '"name": "prize"',
        '"nmae": "prize"',
        ['decisions[0]: "nmae" is no key of it; is it name?'],
    ),
    ('"hit": "P"', '"hit": "P", "note": 1', ['decisions[1].expr.table: "note" is no key of it']),
    ('"needs": ["age", "claims"]', '"needs": "age"', ["decisions[0].needs: a text, where a list of names is due"]),
    ('"needs": ["age", "claims"]', '"needs": ["age", 7]', ["decisions[0].needs[1]: a number, where a name, which is a text is due"]),
    ('[18..65)"', '", 18', ["decisions[1].expr.table.rules[0].when[2]: a number, where a text is due"]),
    (
        '"fee * 2"',
        "2",
        [
            "decisions[2].expr.context[1].expr.context[0].expr: a number, where a text, or an object with list, with table, with context, or with context and result is due",
        ],
    ),
    (
        '{"table":',
        '{"tabel":',
        [
            "decisions[1].expr: an object, where a text, or an object with list, with table, with context, or with context and result is due",
        ],
    ),
    ('{"list":', '{"context": [], "list":', ['decisions[2].expr.result: "context" is no key of it']),
    (
        '{"name": "half", "expr": "fee"}',
        "[]",
        ["decisions[2].expr.context[1].expr.context[1]: a list, where an object with name and expr is due"],
    ),
    ('"default": "\\"LOW\\""', '"default": null', ["decisions[1].expr.table.outputs[0].default: null, where a text is due"]),
    ('"encapsulated": ["prize", "rate"]', '"encapsulated": {}', ["services[0].encapsulated: an object, where a list of names is due"]),
]

# Values that are no models at all.
NO_MODELS: list[tuple[str, list[str]]] = [
    ("1", [": a number, where an object with inputs, decisions and services is due"]),
    ("null", [": null, where an object with inputs, decisions and services is due"]),
    ("[]", [": a list, where an object with inputs, decisions and services is due"]),
    ('"a"', [": a text, where an object with inputs, decisions and services is due"]),
    ("{}", [": the key inputs is missing", ": the key decisions is missing", ": the key services is missing"]),
]

# What is put in the place of each part of a model.
PARTS: list[str] = [
    "null",
    "true",
    "7",
    '"a"',
    "[]",
    '["a"]',
    "[1]",
    "{}",
    '{"list":[]}',
    '{"context":[]}',
    '{"context":[],"result":"a"}',
    '{"result":"a"}',
    '{"table":[]}',
    '{"name":"a","expr":"a"}',
    '{"name":"a"}',
]

# Keys that are put into each object, with a text under them.
KEYS: list[str] = [
    "result",
    "values",
    "default",
    "name",
    "expr",
    "table",
    "list",
    "spare",
]

# What is put into the innermost list.
INNERMOST: list[str] = [
    '"b"',
    "[]",
    '{"list":[]}',
    '{"table":[]}',
    '{"context":[]}',
]
