"""Lawful models and what is odd in them: a text of the sound model, another in its place, and what is told. Worked out by hand."""

from __future__ import annotations

# A sound model, each text of which stands there once where a row replaces it.
SOUND = r"""{
    "inputs": ["age", "region", "claims"],
    "decisions": [
        {"name": "prize", "needs": ["age", "claims"], "expr": "max([0, 100 - claims.count * 5]) + age"},
        {"name": "rate", "needs": ["region", "age"], "expr": {"table": {
            "hit": "P", "inputs": ["region", "age"],
            "outputs": [{"name": "level", "values": ["\"HIGH\"", "\"LOW\""], "default": "\"LOW\""}],
            "rules": [
                {"when": ["\"flood\"", "[18..65)"], "then": ["\"HIGH\""]},
                {"when": ["not(\"hill\", \"plain\")", "< 18, >= 65"], "then": ["\"LOW\""]},
                {"when": ["\"storm\"", "0"], "then": ["\"LOW\""]}]}}},
        {"name": "offer", "needs": ["prize", "rate"], "expr": {"context": [
            {"name": "fee", "expr": "if rate = \"HIGH\" then 20 else 10"},
            {"name": "total", "expr": {"context": [
                {"name": "fee", "expr": "fee * 2"},
                {"name": "half", "expr": "fee"}]}}],
            "result": {"list": ["prize + total.half", "fee"]}}}],
    "services": [
        {"name": "all", "outputs": ["offer"], "encapsulated": ["prize", "rate"], "inputDecisions": [],
         "inputData": ["age", "region", "claims"]}]}"""

# The model of examples/loan.json, in short.
LOAN = r"""{"inputs":["applicant","instalment"],"decisions":[{"name":"risk","needs":["applicant"],"expr":{"table":{"hit":"P","inputs":["applicant.defaults","applicant.age"],"outputs":[{"name":"category","values":["\"DECLINE\"","\"HIGH\"","\"MEDIUM\"","\"LOW\""],"default":"\"HIGH\""}],"rules":[{"when":["> 2","-"],"then":["\"DECLINE\""]},{"when":["[1..2]","-"],"then":["\"HIGH\""]},{"when":["-","< 25"],"then":["\"MEDIUM\""]},{"when":["0","-"],"then":["\"LOW\""]}]}}},
{"name":"affordability","needs":["applicant","instalment"],"expr":{"context":[{"name":"income","expr":"applicant.income"},{"name":"outgoings","expr":"applicant.expenses + instalment"},{"name":"left","expr":"income - outgoings"}],"result":"if left >= 500 then \"good\" else if left >= 0 then \"tight\" else \"none\""}},{"name":"offer","needs":["risk","affordability"],"expr":{"table":{"hit":"F","inputs":["risk","affordability"],"outputs":[{"name":"answer","default":"\"refer\""},{"name":"rate"}],"rules":[{"when":["\"DECLINE\"","-"],"then":["\"decline\"","null"]},{"when":["-","\"none\""],"then":["\"decline\"","null"]},{"when":["\"LOW\"","\"good\""],"then":["\"accept\"","4"]},{"when":["\"MEDIUM\"","\"good\""],"then":["\"accept\"","6"]}]}}}],"services":[{"name":"loan","outputs":["offer"],"encapsulated":["risk","affordability"],"inputDecisions":[],"inputData":["applicant","instalment"]},{"name":"second_look","outputs":["offer"],"encapsulated":["affordability"],"inputDecisions":["risk"],"inputData":["applicant","instalment"]}]}"""

Rows = list[tuple[str, str, list[str]]]

# Names that nothing binds.
UNBOUND: Rows = [
    (
        '"\\"flood\\""',
        '"flood"',
        [
            'decisions[1].expr.table.rules[0].when[0]: unbound: "flood" is not needed here, so it is null; a text stands in quotes',
        ],
    ),
    (
        'not(\\"hill\\", \\"plain\\")',
        'not(regoin, \\"plain\\")',
        [
            'decisions[1].expr.table.rules[1].when[0]: unbound: "regoin" is not needed here, so it is null; is it region?; a text stands in quotes',
        ],
    ),
    (
        "prize + total.half",
        "price + prize + total.half + hill",
        [
            'decisions[2].expr.result.list[0]: unbound: "price" is not needed here, so it is null; is it prize?',
            'decisions[2].expr.result.list[0]: unbound: "hill" is not needed here, so it is null; a text stands in quotes',
        ],
    ),
    (
        "fee * 2",
        "fee * half + max + half",
        [
            'decisions[2].expr.context[1].expr.context[0].expr: unbound: "half" is not needed here, so it is null; a text stands in quotes',
            'decisions[2].expr.context[1].expr.context[0].expr: unbound: "max" is not needed here, so it is null; a text stands in quotes',
        ],
    ),
    (
        "prize + total.half",
        "prize + total.half + claim",
        ['decisions[2].expr.result.list[0]: unbound: "claim" is not needed here, so it is null; is it claims?'],
    ),
    (
        "prize + total.half",
        "prize + totals.half + total.half",
        ['decisions[2].expr.result.list[0]: unbound: "totals" is not needed here, so it is null; is it total?'],
    ),
    (
        "[18..65)",
        "[age.x..agee)",
        [
            'decisions[1].expr.table.rules[0].when[1]: unbound: "agee" is not needed here, so it is null; is it age?; a text stands in quotes',
        ],
    ),
    (
        '"default": "\\"LOW\\""',
        '"default": "LOW"',
        [
            'decisions[1].expr.table.outputs[0].default: unbound: "LOW" is not needed here, so it is null; a text stands in quotes',
        ],
    ),
]

# Names that nothing reaches.
UNREACHED: Rows = [
    (
        '"claims"],\n    "decisions"',
        '"claims", "spare"],\n    "decisions"',
        ["inputs[3]: unneeded: no decision needs it, and no service lists it"],
    ),
    (
        '"outputs": ["offer"], "encapsulated": ["prize", "rate"]',
        '"outputs": ["rate"], "encapsulated": ["prize"]',
        [
            "inputs[2]: unreached: no output of a service needs it",
            "decisions[0]: unreached: no output of a service needs it",
            "decisions[2]: unneeded: no decision needs it, and no service lists it",
        ],
    ),
    (
        '{"name": "all", "outputs": ["offer"], "encapsulated": ["prize", "rate"], "inputDecisions": [],\n         "inputData": ["age", "region", "claims"]}',
        "",
        ["decisions[2]: unneeded: no decision needs it, and no service lists it"],
    ),
]

# Names that are not used.
UNUSED: Rows = [
    (
        "- claims.count * 5",
        "- 5",
        ["decisions[0].needs[1]: unused need: it is needed, and no text of the decision uses it"],
    ),
    (
        "- claims.count * 5",
        "- age.claims * 5",
        ["decisions[0].needs[1]: unused need: it is needed, and no text of the decision uses it"],
    ),
    (
        "prize + total.half",
        "prize",
        ["decisions[2].expr.context[1]: unused entry: neither a later entry nor the result uses it"],
    ),
    (
        '{"name": "fee", "expr": "if rate = \\"HIGH\\" then 20 else 10"}',
        '{"name": "prize", "expr": "1"}, {"name": "fee", "expr": "if rate = \\"HIGH\\" then 20 else 10"}',
        ["decisions[2].needs[0]: unused need: it is needed, and no text of the decision uses it"],
    ),
]

# Values that are not given, or not listed.
VALUES: Rows = [
    (
        '"values": ["\\"HIGH\\"", ',
        '"values": ["\\"HIGH\\"", " \\"MIDDLE\\" ", ',
        ['decisions[1].expr.table.outputs[0].values[1]: ungiven value: no rule gives  "MIDDLE" '],
    ),
    (
        '"then": ["\\"HIGH\\""]',
        '"then": ["\\"HIHG\\""]',
        [
            'decisions[1].expr.table.rules[0].then[0]: unlisted value: "HIHG" is not among the listed values',
            'decisions[1].expr.table.outputs[0].values[0]: ungiven value: no rule gives "HIGH"',
            'decisions[2].expr.context[0].expr: never given: rate never is "HIGH"; is it "HIHG"?',
        ],
    ),
    (
        '"default": "\\"LOW\\""',
        '"default": "7"',
        ["decisions[1].expr.table.outputs[0].default: unlisted value: 7 is not among the listed values"],
    ),
    ('"default": "\\"LOW\\""', '"default": "null"', []),
    ('"then": ["\\"HIGH\\""]', '"then": ["region"]', []),
]

# Cells of another kind.
KINDS: Rows = [
    (
        "[18..65)",
        '\\"18\\"',
        [
            'decisions[1].expr.table.rules[0].when[1]: other kind: "18" is for a text, and the other rules are for a number',
        ],
    ),
    (
        '\\"storm\\"',
        "not(7, 8)",
        [
            "decisions[1].expr.table.rules[2].when[0]: other kind: not(7, 8) is for a number, and the other rules are for a text",
        ],
    ),
    (
        '\\"storm\\"',
        "true",
        [
            "decisions[1].expr.table.rules[2].when[0]: other kind: true is for a boolean, and the other rules are for a text",
        ],
    ),
    ('\\"storm\\"', '\\"storm\\", 7', []),
]

# Cells that no value meets, as FEEL.
UNMET: list[str] = [
    "[7..5]",
    "(5..5]",
    "]5..5[",
    "[5..5)",
    "(5..6)",
    "[-1 .. -2]",
    "< true",
    ">= null",
    "[null..5]",
    "[7..5], (1..1)",
    "> 9223372036854775807",
    "< -9223372036854775807",
    '< ""',
    '("a".."a"]',
    # Arithmetic of literals is reckoned.
    "[5..2 * 2]",
    "[5..(3)]",
    "> 9223372036854775806 + 1",
    "[2 - 4..-(1 + 2)]",
    # Each number meets a test, and of no other value is it known that it is less than a number or isn't.
    "not(< 5, >= 5)",
    "not(> 8, 8, <= 7)",
    "not([-5..5], < -5, (5..7), >= 6)",
    'not(< 5, >= 5, "a", null)',
]

# Cells that some value meets, as FEEL.
MET: list[str] = [
    "[5..5]",
    "(5..7)",
    "[7..5], 3",
    "not([7..5])",
    "-",
    "null",
    "[age..5]",
    "< 5, null",
    "not(> 5)",
    "-5",
    "[-2..-1]",
    "(4..6]",
    ">= 9223372036854775807",
    "<= -9223372036854775807",
    "> 9223372036854775806",
    "[5..2 * 3]",
    "[2 - 4..-(1 + 1)]",
    "not(< 5, > 5)",
    "not(< 5, (5..7), >= 6)",
    "not([7..5], > 5)",
    'not(< 5, > 6, "a")',
    # What a name stands for isn't known, nor what breaks a limit.
    "not(< age, >= age)",
    "[5..9223372036854775807 + 1]",
]

# A sound model whose tables go by several policies and look at each other, each text of which stands there first where a row replaces it.
TABLES = r"""{
    "inputs": ["age", "amount"],
    "decisions": [
        {"name": "risk", "needs": ["age"], "expr": {"table": {
            "hit": "F", "inputs": ["age"],
            "outputs": [{"name": "level", "default": "\"none\""}, {"name": "points"}],
            "rules": [
                {"when": ["< 18"], "then": ["\"High\"", "3"]},
                {"when": ["[18..65)"], "then": ["\"Low\"", "1"]}]}}},
        {"name": "parts", "needs": ["amount"], "expr": {"context": [
            {"name": "half", "expr": "amount"},
            {"name": "word", "expr": "\"x\""}]}},
        {"name": "fee", "needs": ["risk", "parts"], "expr": {"table": {
            "hit": "C+", "inputs": ["risk.level", "parts.half"],
            "outputs": [{"name": "fee"}],
            "rules": [
                {"when": ["\"High\"", "> 1000"], "then": ["50"]},
                {"when": ["not(\"none\", \"Low\")", "-"], "then": ["risk.points"]}]}}},
        {"name": "rank", "needs": ["amount"], "expr": {"table": {
            "hit": "U", "inputs": ["amount"],
            "outputs": [{"name": "rank"}],
            "rules": [
                {"when": ["<= 10"], "then": ["1"]},
                {"when": ["> 10"], "then": ["2"]}]}}},
        {"name": "all", "needs": ["fee", "rank"], "expr": "fee + rank"}],
    "services": [
        {"name": "s", "outputs": ["all"], "encapsulated": ["risk", "parts", "fee", "rank"], "inputDecisions": [],
         "inputData": ["age", "amount"]}]}"""

RISK = "decisions[0].expr.table"
FEE = "decisions[2].expr.table"
RANK = "decisions[3].expr.table"

# Rules that never decide, or that hit with others, and priorities that there are none of.
ORDER: Rows = [
    (
        '"hit": "U"',
        '"hit": "P"',
        [f"{RANK}.hit: no priority: under P the listed output values have priority, and no column lists any"],
    ),
    (
        '"hit": "U"',
        '"hit": "O"',
        [f"{RANK}.hit: no priority: under O the listed output values have priority, and no column lists any"],
    ),
    ('["[18..65)"]', '["-"]', []),
    ('["< 18"]', '[" - "]', [f"{RISK}.rules[1]: never decides: rule 1 takes everything, so this one never decides"]),
    (
        '["[18..65)"]',
        '[" < 18"]',
        [f"{RISK}.rules[1]: never decides: rule 1 has the same tests, so this one never decides"],
    ),
    (
        '["[18..65)"]',
        '["<18"]',
        [f"{RISK}.rules[1]: never decides: rule 1 has the same tests, so this one never decides"],
    ),
    ('["[18..65)"]', '["<= 18"]', []),
    (
        '["> 10"]',
        '["-"]',
        [f"{RANK}.rules[1]: two hits: it takes everything, so where another rule hits too the result is null"],
    ),
    (
        '["> 10"]',
        '["<= 10 "]',
        [f"{RANK}.rules[1]: two hits: rule 1 has the same tests, so where both hit the result is null"],
    ),
    (
        '["\\"High\\"", "> 1000"]',
        '["not(\\"none\\", \\"Low\\")", "-"]',
        [f"{FEE}.inputs[1]: unused column: each rule takes everything here, so it decides nothing"],
    ),
    (
        '["50"]',
        '["\\"50\\""]',
        [f'{FEE}.rules[0].then[0]: no number: "50" is no number, so where this rule hits the result is null'],
    ),
    (
        '["50"]',
        '["null"]',
        [f"{FEE}.rules[0].then[0]: no number: null is no number, so where this rule hits the result is null"],
    ),
]

# Under P the rule that takes everything goes before the others only where it has the highest of the listed values.
PRIORITY: Rows = [
    (
        '{"when": ["not(\\"hill\\", \\"plain\\")", "< 18, >= 65"], "then": ["\\"LOW\\""]}',
        '{"when": ["-", "-"], "then": ["\\"HIGH\\""]}',
        ["decisions[1].expr.table.rules[2]: never decides: rule 2 takes everything, so this one never decides"],
    ),
    (
        '{"when": ["not(\\"hill\\", \\"plain\\")", "< 18, >= 65"], "then": ["\\"LOW\\""]}',
        '{"when": ["-", "-"], "then": ["\\"LOW\\""]}',
        [],
    ),
]

# Cells and expressions that say another thing than they look like.
SLIPS: Rows = [
    (
        '["> 10"]',
        '["amount > 10"]',
        [
            f"{RANK}.rules[1].when[0]: truth in cell: amount > 10 is true or false, with which the input is compared; a test begins with its sign, as > 5",
        ],
    ),
    (
        '["> 10"]',
        '["11, (amount between 12 and 20)"]',
        [
            f"{RANK}.rules[1].when[0]: truth in cell: 11, (amount between 12 and 20) is true or false, with which the input is compared; a test begins with its sign, as > 5",
        ],
    ),
    ('["> 10"]', '["if amount > 10 then 1 else 2"]', []),
    ('"> 1000"', '"parts.half > 1000"', []),
    (
        '["< 18"]',
        '["[1,5]"]',
        [f"{RISK}.rules[0].when[0]: list for interval: [1,5] is a list of two numbers; an interval has two dots, as [1..5]"],
    ),
    (
        '["< 18"]',
        '["[-1, 5]"]',
        [f"{RISK}.rules[0].when[0]: list for interval: [-1, 5] is a list of two numbers; an interval has two dots, as [1..5]"],
    ),
    ('["> 10"]', '["[11, 12]"]', []),
    (
        '["> 10"]',
        '["> 1,000"]',
        [f"{RANK}.rules[1].when[0]: cut number: a comma parts two tests: > 1,000; a number has none"],
    ),
    ('["> 10"]', '["> 11, 000"]', []),
    ('["> 10"]', '["11,0000"]', []),
    (
        '["> 10"]',
        '["\\"1,000\\""]',
        [f'{RANK}.rules[1].when[0]: other kind: "1,000" is for a text, and the other rules are for a number'],
    ),
    (
        '{"name": "half", "expr": "amount"}',
        '{"name": "half", "expr": "amount + \\"1\\""}',
        ['decisions[1].expr.context[0].expr: added text: + adds numbers, and what it makes of a text is null: amount + "1"'],
    ),
    (
        '{"name": "half", "expr": "amount"}',
        '{"name": "half", "expr": "[(\\"1\\") + amount * 2]"}',
        ['decisions[1].expr.context[0].expr: added text: + adds numbers, and what it makes of a text is null: [("1") + amount * 2]'],
    ),
    ('{"name": "half", "expr": "amount"}', '{"name": "half", "expr": "[\\"1\\", amount + 1]"}', []),
]

# What is asked for and never comes.
NEVER: Rows = [
    (
        '["\\"High\\"", "> 1000"]',
        '["\\"HIGH\\"", "> 1000"]',
        [f'{FEE}.rules[0].when[0]: never given: risk never is "HIGH"; is it "High"?'],
    ),
    (
        'not(\\"none\\", \\"Low\\")',
        'not(\\"nine\\", 7)',
        [
            f'{FEE}.rules[1].when[0]: never given: risk never is "nine"; is it "none"?',
            f"{FEE}.rules[1].when[0]: never given: risk never is 7",
        ],
    ),
    (
        '{"name": "level", "default": "\\"none\\""}',
        '{"name": "level"}',
        [f'{FEE}.rules[1].when[0]: never given: risk never is "none"'],
    ),
    ('"default": "\\"none\\""', '"default": "age"', []),
    (
        '["risk.level", ',
        '["risk.levl", ',
        [f"{FEE}.inputs[0]: no entry: risk has no entry levl, so it is null; is it level?"],
    ),
    (
        '"parts.half"]',
        '"parts.hal"]',
        [f"{FEE}.inputs[1]: no entry: parts has no entry hal, so it is null; is it half?"],
    ),
    ('"fee + rank"', '"fee + rank.rank"', ["decisions[4].expr: no entry: rank has no entry rank, so it is null"]),
    ('"fee + rank"', '"fee.fee + rank"', ["decisions[4].expr: no entry: fee has no entry fee, so it is null"]),
    ('"fee + rank"', '"fee + (rank).rank"', ["decisions[4].expr: no entry: rank has no entry rank, so it is null"]),
    ('"fee + rank"', '"if rank = 3 then fee else 0"', ["decisions[4].expr: never given: rank never is 3"]),
    ('"fee + rank"', '"[fee, 2 + 2 != rank]"', ["decisions[4].expr: never given: rank never is 4"]),
    ('"fee + rank"', '"if rank = 1 + 1 then fee else 0"', []),
    ('"fee + rank"', '"if rank = null or rank = fee then fee else 0"', []),
]

# The same of an expression in the sound model: its literal is in other letters.
NEVER_IN_TEXT: Rows = [
    (
        'rate = \\"HIGH\\"',
        'rate = \\"high\\"',
        ['decisions[2].expr.context[0].expr: never given: rate never is "high"; is it "HIGH"?'],
    ),
    ('rate = \\"HIGH\\"', 'rate != \\"LOW\\"', []),
]

# Of a decision whose value a request may bring nothing is known.
BROUGHT = [
    ('"encapsulated": ["risk", "parts", "fee", "rank"], "inputDecisions": []', '"encapsulated": ["parts", "fee", "rank"], "inputDecisions": ["risk"]'),
    ('["\\"High\\"", "> 1000"]', '["\\"HIGH\\"", "> 1000"]'),
    ('["risk.points"]', '["risk.point"]'),
]
