"""Mistakes in a small lawful model: a text of it, another in its place, and the places that are told. Worked out by hand."""

from __future__ import annotations

LAWFUL = r"""{
    "inputs": ["age", "city"],
    "decisions": [
        {"name": "base", "needs": ["age"], "expr": "age * 2"},
        {"name": "prize", "needs": ["base", "city"], "expr": {"table": {
            "hit": "F", "inputs": ["base", "city"],
            "outputs": [{"name": "amount", "values": ["1", "2"], "default": "2"}, {"name": "why"}],
            "rules": [
                {"when": ["< 5", "\"here\""], "then": ["1", "\"young\""]},
                {"when": ["-", "-"], "then": ["2", "\"old\""]}]}}},
        {"name": "both", "needs": ["base", "prize"], "expr": {"context": [
            {"name": "first", "expr": "base + 1"},
            {"name": "second", "expr": {"list": ["prize", {"context": [{"name": "inner", "expr": "3"}]}]}}],
            "result": {"list": ["first", "second"]}}}],
    "services": [
        {"name": "all", "outputs": ["both"], "encapsulated": ["prize", "base"], "inputDecisions": [], "inputData": ["age", "city"]}]}"""

Rows = list[tuple[str, str, list[str]]]

# Texts without a reading.
UNREAD: Rows = [
    ("age * 2", "age *", ["decisions[0].expr: no expression"]),
    (
        '"base", "city"],\n            "outputs"',
        '"base +", "1..2"],\n            "outputs"',
        ["decisions[1].expr.table.inputs[0]: no expression", "decisions[1].expr.table.inputs[1]: no expression"],
    ),
    (
        '["1", "2"]',
        '["1", "1 + 1", "2", "a"]',
        [
            "decisions[1].expr.table.outputs[0].values[1]: no literal",
            "decisions[1].expr.table.outputs[0].values[3]: no literal",
        ],
    ),
    ('"default": "2"', '"default": "two of them"', ["decisions[1].expr.table.outputs[0].default: no expression"]),
    ("< 5", ">= 5 and < 7", ["decisions[1].expr.table.rules[0].when[0]: no unary tests"]),
    ('["-", "-"]', '["-", "x <"]', ["decisions[1].expr.table.rules[1].when[1]: no unary tests"]),
    ('\\"old\\"', "old man", ["decisions[1].expr.table.rules[1].then[1]: no expression"]),
    ("base + 1", "", ["decisions[2].expr.context[0].expr: no expression"]),
    ('["prize",', '["1.5.2",', ["decisions[2].expr.context[1].expr.list[0]: no expression"]),
    ('"expr": "3"', '"expr": "(3"', ["decisions[2].expr.context[1].expr.list[1].context[0].expr: no expression"]),
    ('["first", "second"]', '["first", "second", ")"]', ["decisions[2].expr.result.list[2]: no expression"]),
]

# Tables that are refused.
REFUSED: Rows = [
    ('"F"', '"FIRST"', ["decisions[1].expr.table: the hit policy is none"]),
    (
        '{"name": "why"}',
        '{"name": "amount"}',
        [
            "decisions[1].expr.table: no output column, one name twice, or a rule whose entries are not as many as the columns",
        ],
    ),
    (
        '["< 5", "\\"here\\""]',
        '["< 5"]',
        [
            "decisions[1].expr.table: no output column, one name twice, or a rule whose entries are not as many as the columns",
        ],
    ),
    ('"F"', '"C+"', ["decisions[1].expr.table: C+, C<, C> and C# stand over one output column"]),
    (
        '"expr": "3"',
        '"expr": {"table": {"hit": "U", "inputs": [], "outputs": [], "rules": []}}',
        [
            "decisions[2].expr.context[1].expr.list[1].context[0].expr.table: no output column, one name twice, or a rule whose entries are not as many as the columns",
        ],
    ),
]

# Names that are not lawful.
UNLAWFUL: Rows = [
    (
        '"inputs": ["age", "city"],\n    "decisions"',
        '"inputs": ["age", "the city"],\n    "decisions"',
        ["inputs[1]: no name"],
    ),
    ('{"name": "base"', '{"name": "if"', ["decisions[0].name: no name"]),
    ('{"name": "all"', '{"name": ""', ["services[0].name: no name"]),
    ('["base", "prize"]', '["base", "prize", "1st"]', ["decisions[2].needs[2]: no name"]),
    ('{"name": "why"}', '{"name": "why not"}', ["decisions[1].expr.table.outputs[1].name: no name"]),
    ('{"name": "second"', '{"name": "2nd"', ["decisions[2].expr.context[1].name: no name"]),
    ('{"name": "inner"', '{"name": "then"', ["decisions[2].expr.context[1].expr.list[1].context[0].name: no name"]),
    ('["both"]', '["both?"]', ["services[0].outputs[0]: no name"]),
    (
        '["prize", "base"]',
        '["pr-ize", "b.ase"]',
        ["services[0].encapsulated[0]: no name", "services[0].encapsulated[1]: no name"],
    ),
    ('"inputDecisions": []', '"inputDecisions": ["a", "b c"]', ["services[0].inputDecisions[1]: no name"]),
    ('"inputData": ["age", "city"]', '"inputData": ["age", "city", "\\u00e9"]', ["services[0].inputData[2]: no name"]),
]

# Names that stand twice.
REPEATED: Rows = [
    (
        '"inputs": ["age", "city"],\n    "decisions"',
        '"inputs": ["age", "city", "age"],\n    "decisions"',
        ["inputs[2]: a name that stands before in its list"],
    ),
    ('{"name": "prize"', '{"name": "age"', ["decisions[1].name: a name that stands before in its list"]),
    ('{"name": "both"', '{"name": "base"', ["decisions[2].name: a name that stands before in its list"]),
    (
        '"services": [',
        '"services": [\n        {"name": "all", "outputs": [], "encapsulated": [], "inputDecisions": [], "inputData": []},',
        ["services[1].name: a name that stands before in its list"],
    ),
    (
        '["base", "prize"]',
        '["base", "prize", "base", "base"]',
        [
            "decisions[2].needs[2]: a name that stands before in its list",
            "decisions[2].needs[3]: a name that stands before in its list",
        ],
    ),
    (
        '{"name": "why"}',
        '{"name": "amount"}',
        ["decisions[1].expr.table.outputs[1].name: a name that stands before in its list"],
    ),
    (
        '{"name": "second"',
        '{"name": "first"',
        ["decisions[2].expr.context[1].name: a name that stands before in its list"],
    ),
    (
        '"inputData": ["age", "city"]',
        '"inputData": ["city", "city"]',
        ["services[0].inputData[1]: a name that stands before in its list"],
    ),
]

# Needed names that are unknown.
UNKNOWN: Rows = [
    ('"needs": ["age"]', '"needs": ["ages"]', ["decisions[0].needs[0]: neither an input nor a decision"]),
    (
        '["base", "prize"]',
        '["bass", "prize", "first"]',
        [
            "decisions[2].needs[0]: neither an input nor a decision",
            "decisions[2].needs[2]: neither an input nor a decision",
        ],
    ),
]

# Rules that do not fit.
UNFIT: Rows = [
    (
        '["< 5", "\\"here\\""]',
        '["< 5"]',
        ["decisions[1].expr.table.rules[0]: not as many entries as the table has columns"],
    ),
    (
        '["2", "\\"old\\""]',
        '["2", "\\"old\\"", "3"]',
        ["decisions[1].expr.table.rules[1]: not as many entries as the table has columns"],
    ),
]

# Decisions that need themselves.
CYCLES: Rows = [
    (
        '"needs": ["age"]',
        '"needs": ["age", "both"]',
        [
            "decisions[0]: needs itself, directly or through others",
            "decisions[1]: needs itself, directly or through others",
            "decisions[2]: needs itself, directly or through others",
        ],
    ),
    ('"needs": ["age"]', '"needs": ["age", "base"]', ["decisions[0]: needs itself, directly or through others"]),
    (
        '"needs": ["base", "city"]',
        '"needs": ["base", "both"]',
        [
            "decisions[1]: needs itself, directly or through others",
            "decisions[2]: needs itself, directly or through others",
        ],
    ),
]

# Services that do not fit.
SERVICES: Rows = [
    ('"outputs": ["both"]', '"outputs": []', ["services[0]: no output"]),
    (
        '"outputs": ["both"]',
        '"outputs": ["age"]',
        ["services[0]: a name that is no decision, or in inputData no input"],
    ),
    ('["prize", "base"]', '["prize"]', ["services[0]: it reaches a decision or an input that it doesn't list"]),
    (
        '"inputDecisions": []',
        '"inputDecisions": ["base"]',
        ["services[0]: an input decision that is also an output or encapsulated"],
    ),
    (
        '"inputData": ["age", "city"]',
        '"inputData": ["age"]',
        ["services[0]: it reaches a decision or an input that it doesn't list"],
    ),
    (
        '"services": [',
        '"services": [\n        {"name": "first", "outputs": ["base"], "encapsulated": [], "inputDecisions": [], "inputData": ["age"]},\n        {"name": "second", "outputs": ["prize"], "encapsulated": [], "inputDecisions": ["base"], "inputData": []},',
        ["services[1]: it reaches a decision or an input that it doesn't list"],
    ),
]
