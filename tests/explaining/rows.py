"""Explanations line by line, decision by decision and as a text for people. Worked out by hand."""

from __future__ import annotations

# Decisions of each form, each with a service of its own.
FORMS = r"""{"inputs":["a"],"decisions":[
{"name":"T","needs":["a"],"expr":{"table":{"hit":"R","inputs":["a"],"outputs":[{"name":"x"}],"rules":[
  {"when":["> 1"],"then":["a"]},{"when":["< 0"],"then":["0"]},{"when":["> 2"],"then":["a * 2"]}]}}},
{"name":"D","needs":["a"],"expr":{"table":{"hit":"U","inputs":["a"],"outputs":[{"name":"x","default":"7"},{"name":"y"}],"rules":[
  {"when":["< 0"],"then":["0","1"]}]}}},
{"name":"C","needs":["a"],"expr":{"context":[{"name":"p","expr":"a + 1"},{"name":"q","expr":{"list":["p"]}}],"result":"p * 3"}},
{"name":"M","needs":["a","G"],"expr":{"list":["G","9223372036854775807 + a","1"]}},
{"name":"N","needs":["M"],"expr":"M"},
{"name":"G","needs":["a"],"expr":"a"}],"services":[
{"name":"t","outputs":["T"],"encapsulated":[],"inputDecisions":[],"inputData":["a"]},
{"name":"d","outputs":["D"],"encapsulated":[],"inputDecisions":["G"],"inputData":["a"]},
{"name":"c","outputs":["C"],"encapsulated":[],"inputDecisions":[],"inputData":["a"]},
{"name":"n","outputs":["N"],"encapsulated":["M"],"inputDecisions":["G"],"inputData":["a"]}]}"""

# The inputs of a request to each of its services, and which of them and what of its decisions is told. G is given to the service d
# too, and no decision of that needs it.
FORMS_INPUTS = {"G": "\n", "a": 3, "other": 1}
FORMS_TOLD = [
    ("t", r"""{"a":3}""",
     r"""[{"name":"T","value":[3,6],"table":{"policy":"R","inputs":[3],"hits":[{"rule":1,"value":3},{"rule":3,"value":6}],"defaults":false,"decided":[1,3]}}]"""),
    ("d", r"""{"G":"\n","a":3}""",
     r"""[{"name":"D","value":{"x":7,"y":null},"table":{"policy":"U","inputs":[3],"hits":[],"defaults":true,"decided":[]}}]"""),
    ("c", r"""{"a":3}""",
     r"""[{"name":"C","value":12,"entries":[{"name":"p","value":4},{"name":"q","value":[4],"members":[{"value":4}]}],"result":{"value":12}}]"""),
    ("n", r"""{"G":"\n","a":3}""",
     r"""[{"name":"G","given":"\n"},{"name":"M","fault":"limit","members":[{"value":"\n"},{"fault":"limit"}]},{"name":"N","fault":"limit"}]"""),
]  # fmt: skip

# Tables over the input a, which is 3: the hit policy, the output columns, the rules, and what is told of the table and its value.
X = '{"name":"x"}'
ONE_OR_TWO = r"""{"name":"x","values":["1","2"]}"""
HITS = [("> 1", ["2"]), ("< 0", ["9"]), ("> 2", ["1"]), ("-", ["1"])]
GAVE = '[{"rule":1,"value":2},{"rule":3,"value":1},{"rule":4,"value":1}]'
TEXTS = [("> 1", ['"x"']), ("-", ["1"])]
TEXTS_GAVE = '[{"rule":1,"value":"x"},{"rule":2,"value":1}]'
PAIRS = [("> 1", ["2", "5"]), ("-", ["7", "5"]), ("> 2", ["2", "6"])]
POLICIES = [
    ("U", X, [("< 0", ["9"]), ("> 1", ["2"])], '[{"rule":2,"value":2}]', "[2]", "2"),
    ("U", X, HITS, GAVE, "[]", "null"),
    ("A", X, HITS, GAVE, "[]", "null"),
    ("A", X, HITS[1:], '[{"rule":2,"value":1},{"rule":3,"value":1}]', "[2,3]", "1"),
    ("P", ONE_OR_TWO, HITS, '[{"rule":1,"value":2,"places":[2]},{"rule":3,"value":1,"places":[1]},{"rule":4,"value":1,"places":[1]}]', "[3]", "1"),
    ("P", ONE_OR_TWO, [("-", ["3"]), ("-", ["2"])], '[{"rule":1,"value":3,"places":[null]},{"rule":2,"value":2,"places":[2]}]', "[2]", "2"),
    ("P", X, [("-", ["3"]), ("-", ["2"])], '[{"rule":1,"value":3,"places":[null]},{"rule":2,"value":2,"places":[null]}]', "[1]", "3"),
    ("P", ONE_OR_TWO + ',{"name":"y","values":["6","5"]}', PAIRS,
     '[{"rule":1,"value":{"x":2,"y":5},"places":[2,2]},{"rule":2,"value":{"x":7,"y":5},"places":[null,2]},{"rule":3,"value":{"x":2,"y":6},"places":[2,1]}]',
     "[3]", '{"x":2,"y":6}'),
    ("O", ONE_OR_TWO, HITS, '[{"rule":1,"value":2,"places":[2]},{"rule":3,"value":1,"places":[1]},{"rule":4,"value":1,"places":[1]}]', "[1,3,4]", "[1,1,2]"),
    ("F", X, HITS, GAVE, "[1]", "2"),
    ("R", X, HITS, GAVE, "[1,3,4]", "[2,1,1]"),
    ("C", X, HITS, GAVE, "[1,3,4]", "[2,1,1]"),
    ("C#", X, HITS, GAVE, "[1,3,4]", "3"),
    ("C+", X, HITS, GAVE, "[1,3,4]", "4"),
    ("C<", X, HITS, GAVE, "[3,4]", "1"),
    ("C>", X, HITS, GAVE, "[1]", "2"),
    ("C+", X, TEXTS, TEXTS_GAVE, "[]", "null"),
    ("C<", X, TEXTS, TEXTS_GAVE, "[]", "null"),
    ("C>", X, TEXTS, TEXTS_GAVE, "[]", "null"),
    ("C", X, TEXTS, TEXTS_GAVE, "[1,2]", '["x",1]'),
]  # fmt: skip

# A table of two input columns and three rules over the inputs 3 and 3: the second misses at its second column, the third at its first
# and its second.
MISSES = r"""{"inputs":["a"],"decisions":[{"name":"T","needs":["a"],"expr":{"table":{"hit":"F","inputs":["a","a"],"outputs":[{"name":"x"}],"rules":[
  {"when":["3","-"],"then":["1"]},{"when":["-","< 0"],"then":["2"]},{"when":["> 5","< 0"],"then":["3"]}]}}}],"services":[
{"name":"s","outputs":["T"],"encapsulated":[],"inputDecisions":[],"inputData":["a"]}]}"""
MISSES_TOLD = r""""table":{"policy":"F","inputs":[3,3],"hits":[{"rule":1,"value":1}],"defaults":false,"decided":[1],"misses":[{"rule":2,"column":2},{"rule":3,"column":1}]}"""

# Tables in which an input expression, an input entry and an output entry break a limit, and what is told of each.
LIMITS = [
    ("9223372036854775807 + a", [("-", "1")], r"""{"policy":"C"}"""),
    ("a", [("1 + 9223372036854775807", "1")], r"""{"policy":"C","inputs":[3]}"""),
    ("a", [("-", "1"), ("-", "a + 9223372036854775807")], r"""{"policy":"C","inputs":[3],"hits":[{"rule":1,"value":1},{"rule":2,"fault":"limit"}],"defaults":false}"""),
]

# Two decisions, of which the second needs the first, and services of both.
SUMS = r"""{"inputs":["a"],"decisions":[{"name":"twice","needs":["a"],"expr":"a * 2"},{"name":"sum","needs":["a","twice"],"expr":"a + twice"}],"services":[{"name":"total","outputs":["sum"],"encapsulated":["twice"],"inputDecisions":[],"inputData":["a"]},{"name":"rest","outputs":["sum"],"encapsulated":[],"inputDecisions":["twice"],"inputData":["a"]}]}"""

# Lines of a session of two clients, and what is answered to them. The model of sums stands in the place of MODEL, its text in byte
# order in that of READ, and the SHA-256 of this in that of SUM.
SESSION = r"""{"client":"ann","service":"total","inputs":{}}
{"model":MODEL}

{"client":"ann","service":"total","inputs":{"a":4}}
{"client":"bob","service":"rest","inputs":{"twice":5,"b":1}}
{"client":"ann","close":true}
{"capacity":3,"resize":"bob"}
{"client":"ann","service":"total","inputs":{"a":1}}
{"client":"cal","service":"total","inputs":{"a":1}}
{"client":"bob","service":"total","inputs":{"a":9223372036854775807}}
{"client":"cal","close":true}
"""

SESSION_ANSWERS = r"""{"client":"ann","line":1,"refused":"model"}
{"line":2,"model":true,"read":READ,"sha256":"SUM"}
{"client":"ann","line":4,"model":"SUM","service":"total","inputs":{"a":4},"decisions":[{"name":"twice","value":8},{"name":"sum","value":12}],"result":12,"ticket":0}
{"client":"bob","line":5,"model":"SUM","service":"rest","inputs":{"twice":5,"a":null},"decisions":[{"name":"twice","given":5},{"name":"sum","value":null}],"result":null,"ticket":0}
{"client":"ann","closed":true,"line":6}
{"client":"bob","line":7,"resized":3}
{"client":"ann","line":8,"refused":"closed"}
{"client":"cal","line":9,"refused":"clients"}
{"client":"bob","line":10,"model":"SUM","service":"total","inputs":{"a":9223372036854775807},"decisions":[{"name":"twice","fault":"limit"},{"name":"sum","fault":"limit"}],"fault":"limit","ticket":1}
{"client":"cal","line":11,"refused":"clients"}
"""

# Lines of which some are refused, and what is answered to them.
REFUSED = r"""{"model":MODEL}
{"model":{}}
{"model":
{"open":"ann","capacity":2}
{"client":"ann","service":"none","inputs":{}}
{"client":"ann","service":"total","inputs":{"a":1.5}}
{"client":"a \"b\"","service":"total","inputs":{"a":1}}
"""

REFUSED_ANSWERS = r"""{"line":1,"model":true,"read":READ,"sha256":"SUM"}
{"fault":"shape","line":2,"refused":"model"}
{"line":3,"refused":"syntax"}
{"line":4,"refused":"shape"}
{"client":"ann","line":5,"refused":"service"}
{"client":"ann","line":6,"refused":"value"}
{"client":"a \"b\"","line":7,"model":"SUM","service":"total","inputs":{"a":1},"decisions":[{"name":"twice","value":2},{"name":"sum","value":3}],"result":3,"ticket":0}
"""

# A model whose decision is a table, a request, and its explanation for people.
RISK = r"""{"inputs":["age"],"decisions":[{"name":"risk","needs":["age"],"expr":{"table":{"hit":"F","inputs":["age"],"outputs":[{"name":"risk","default":"\"LOW\""}],"rules":[{"when":["< 25"],"then":["\"HIGH\""]},{"when":["-"],"then":["\"MEDIUM\""]}]}}},{"name":"rate","needs":["risk"],"expr":{"context":[{"name":"base","expr":"4"}],"result":"base + 2"}}],"services":[{"name":"s","outputs":["rate"],"encapsulated":["risk"],"inputDecisions":[],"inputData":["age"]}]}"""
RISK_REQUEST = '{"client":"c","service":"s","inputs":{"age":22}}'
RISK_TEXT = """line 1: model SUM

line 2: client "c", ticket 0, asks for s
  model SUM
  input age = 22
  risk = "HIGH"
      hit policy F (FIRST): 2 of 2 rules hit, 1 of these decided
      age = 22
           age   | risk
      > 1  < 25  | "HIGH"    = "HIGH"
      * 2  -     | "MEDIUM"  = "MEDIUM"
  rate = 6
      base = 4, from 4
      result = 6, from base + 2
  result: 6

"""

# Names of clients that are lawful: some of them with what would be a line of the text, some that turn or hide what stands beside
# them on a terminal; then two that are as they look.
NAMES = [
    'a\n  result: "approved"\n\nline 9: client "b"',
    "a\r\n  result: 1\x1b[2K\x07\x00",
    'a", ticket 7, asks for s',
    "\\n\\",
    "\u202etnuocca\u202c \u2066x\u2069 \u200f\u200e\u061c",
    "x\u2028  result: 1\u2029\u0085\u009b2J\x7f",
    "\u200b\ufeff\u00ad\u2060\U000e0041\ufffb\u180e",
    "Müller & Söhne",
    "東京 🏦",
]
