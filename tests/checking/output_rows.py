"""What `desk check` writes for whole inputs. Worked out by hand."""

from __future__ import annotations

LAWFUL = r"""{
  "inputs": ["age", "score"],
  "decisions": [
    {"name": "risk", "needs": ["age"], "expr": {"table": {"hit": "U", "inputs": ["age"],
      "outputs": [{"name": "risk"}], "rules": [{"when": ["< 30"], "then": ["\"HIGH\""]}]}}},
    {"name": "limit", "needs": ["risk", "score"], "expr": "if risk = \"HIGH\" then 0 else score"}
  ],
  "services": [{"name": "limit_of", "outputs": ["limit"], "encapsulated": ["risk"], "inputDecisions": [],
    "inputData": ["age", "score"]}]
}"""

SUMMARY = """lawful
inputs: age, score
decisions:
  risk: table
  limit: expression
services:
  limit_of(age, score)
"""

JSON_SUMMARY = r"""{"lawful":true,"inputs":["age","score"],"decisions":[{"name":"risk","kind":"table"},{"name":"limit","kind":"expression"}],"services":[{"name":"limit_of","parameters":["age","score"]}]}
"""

# The same within domains, and what is wrong with other ones.
GIVES = """lawful
inputs: age, score
decisions:
  risk: "HIGH" or null (table)
  limit: 0 to 1000 (expression)
services:
  limit_of(age, score): 0 to 1000
"""

GIVES_ANY = """lawful
inputs: age, score
decisions:
  risk: "HIGH" or null (table)
  limit: any value (expression)
services:
  limit_of(age, score): any value
"""

DOMAINS = r"""{"domains":{"risk":"5","age":"[0..120","score":"< most"},"model":"""

DOMAINS_TOLD = """domain: a domain can't be taken
domain: 3 places
  line 1, column 30: domains, "age": no unary tests: "[0..120"
    stops at the end: "]" or ")" is due
  line 1, column 20: domains, "risk": a decision, and only inputs have domains
  line 1, column 48: domains, "score": constants alone are taken: "< most"
    "most" is a name: a text stands in quotes
"""

NO_JSON_LINES = r"""{"fault":"syntax"}
{"fault":"syntax","line":2,"column":1,"said":"a key in quotes or \"}\" is due"}
"""

# A model of two inputs, with these decisions and services.
MODEL = '{"inputs":["a","b"],"decisions":[%s],"services":[%s]}'

NO_KEYS_TOLD = r"""shape: not the form of a model
shape: 2 places
  line 1, column 1: the key decisions is missing
  line 1, column 1: the key services is missing
"""

WRONG_KEYS = r"""{"inputs":[],"decisions":[{"nmae":"d","needs":[],"expr":7}],"services":[]}"""

WRONG_KEYS_TOLD = r"""{"fault":"shape"}
{"fault":"shape","pointer":"/decisions/0","place":"decisions[0]","said":"\"nmae\" is no key of it; is it name?","line":1,"column":27}
{"fault":"shape","pointer":"/decisions/0/expr","place":"decisions[0], expr","said":"a number, where a text, or an object with list, with table, with context, or with context and result is due","line":1,"column":57}
"""

TABLE = r"""{"name":"d","needs":["a"],"expr":{"table":{"hit":"F","inputs":["a","a +"],"outputs":[{"name":"x","values":["\"u\"","v"],"default":"1 2"}],"rules":[{"when":["1","-"],"then":["1"]},{"when":[">= 5 and < 7","-"],"then":["2"]}]}}}"""

TABLE_TOLD = r"""expression: 4 places
  line 1, column 101: decisions[0] "d", input 2 "a +": no expression
    stops at the end: a value is due
  line 1, column 149: decisions[0] "d", output 1 "x", value 2: no literal: "v"
    stops at "v" (character 1): a literal is due
    a text stands in quotes: "v"
  line 1, column 164: decisions[0] "d", output 1 "x", default: no expression: "1 2"
    stops at "2" (character 3): the end is due
  line 1, column 222: decisions[0] "d", rule 2, input 1 "a": no unary tests: ">= 5 and < 7"
    stops at "and" (character 6): "," or the end is due
    write [5..7)
"""

TABLE_LINES = r"""{"fault":"expression"}
{"fault":"expression","pointer":"/decisions/0/expr/table/inputs/1","place":"decisions[0] \"d\", input 2 \"a +\"","said":"no expression","text":"a +","stop":3,"due":"a value","line":1,"column":101}
{"fault":"expression","pointer":"/decisions/0/expr/table/outputs/0/values/1","place":"decisions[0] \"d\", output 1 \"x\", value 2","said":"no literal","text":"v","stop":0,"due":"a literal","hint":"a text stands in quotes: \"v\"","line":1,"column":149}
{"fault":"expression","pointer":"/decisions/0/expr/table/outputs/0/default","place":"decisions[0] \"d\", output 1 \"x\", default","said":"no expression","text":"1 2","stop":2,"due":"the end","line":1,"column":164}
{"fault":"expression","pointer":"/decisions/0/expr/table/rules/1/when/0","place":"decisions[0] \"d\", rule 2, input 1 \"a\"","said":"no unary tests","text":">= 5 and < 7","stop":5,"due":"\",\" or the end","hint":"write [5..7)","line":1,"column":222}
"""

BOXES = r"""{"name":"d","needs":[],"expr":{"list":["1",{"context":[{"name":"p","expr":"1"},{"name":"q","expr":"("}],"result":"2 +"}]}}"""

BOXES_TOLD = r"""expression: 2 places
  line 1, column 132: decisions[0] "d", member 2, entry "q": no expression: "("
    stops at the end: a value is due
  line 1, column 147: decisions[0] "d", member 2, result: no expression: "2 +"
    stops at the end: a value is due
"""

LATER = r"""{"name":"d d","needs":["a","a","c"],"expr":"1 +"},{"name":"e","needs":[],"expr":{"table":{"hit":"X","inputs":[],"outputs":[{"name":"x"}],"rules":[]}}}"""

LATER_TOLD = r"""name: 1 place
  line 1, column 42: decisions[0] "d d": no name
    a name has letters, digits and _ alone: d_d
twice: 1 place
  line 1, column 61: decisions[0] "d d", need 2 "a": a name that stands before in its list
expression: 1 place
  line 1, column 77: decisions[0] "d d": no expression: "1 +"
    stops at the end: a value is due
table: 1 place
  line 1, column 123: decisions[1] "e", table: the hit policy is none
    "X" is none of U, A, P, F, R, O, C, C+, C<, C> and C#
unknown: 1 place
  line 1, column 65: decisions[0] "d d", need 3 "c": neither an input nor a decision
"""

RINGS = r"""{"name":"d","needs":["e"],"expr":"1"},{"name":"e","needs":["a","d"],"expr":{"table":{"hit":"U","inputs":["a"],"outputs":[{"name":"x"}],"rules":[{"when":["-","-"],"then":["1"]}]}}}"""

RINGS_SERVICE = r"""{"name":"s","outputs":["d"],"encapsulated":[],"inputDecisions":[],"inputData":[]}"""

RINGS_TOLD = r"""table: 1 place
  line 1, column 178: decisions[1] "e", rule 1: not as many entries as the table has columns
    it has 2 input entries for 1 columns, and 1 output entries for 1
cycle: 2 places
  line 1, column 34: decisions[0] "d": needs itself, directly or through others
    each needs the next: d, e, d
  line 1, column 72: decisions[1] "e": needs itself, directly or through others
    each needs the next: e, d, e
service: 1 place
  line 1, column 227: services[0] "s": it reaches a decision or an input that it doesn't list
    reached, and not listed: e, a
"""

NOTES_TOLD = r"""lawful
inputs: a, b
decisions:
  d: expression
services:
  s(a)
warning: line 1, column 16: inputs[1] "b": no decision needs it, and no service lists it
line 4: "x" is no parameter of s
line 4: what stands under a is no value: a number in it has a point or an exponent, and numbers are whole
"""

NOTE_LINES = r"""{"lawful":true,"inputs":["a","b"],"decisions":[],"services":[]}
{"warning":"unneeded","pointer":"/inputs/0","place":"inputs[0] \"a\"","said":"no decision needs it, and no service lists it","line":1,"column":12}
{"warning":"unneeded","pointer":"/inputs/1","place":"inputs[1] \"b\"","said":"no decision needs it, and no service lists it","line":1,"column":16}
{"line":2,"note":"service","name":"sum","said":"\"sum\" is no service"}
{"line":3,"note":"syntax","said":"no JSON text: column 1: a value is due"}
"""

# A model over several lines, with faults at the beginnings of values, and a key that stands twice, of which the last counts.
LINES = """{
  "inputs": ["a", "a"],
  "decisions": [
    {"name": "d", "needs": [], "expr": "1 +"}],
  "services": [ ],
  "decisions": [
    {"name": "\\u00e9", "needs": ["b"],
     "expr":
       "("},
\t{"n\\u0061me": "e", "needs": [], "expr": {"list": ["\\"é\\"",  "1 1", "2 2"]}}]
}
"""

LINES_TOLD = """name: 1 place
  line 7, column 14: decisions[0] "é": no name
    a name has the letters A-Z and a-z, digits and _ alone, and begins with no digit
twice: 1 place
  line 2, column 19: inputs[1] "a": a name that stands before in its list
expression: 3 places
  line 9, column 8: decisions[0] "é": no expression: "("
    stops at the end: a value is due
  line 10, column 63: decisions[1] "e", member 2: no expression: "1 1"
    stops at "1" (character 3): the end is due
  line 10, column 70: decisions[1] "e", member 3: no expression: "2 2"
    stops at "2" (character 3): the end is due
unknown: 1 place
  line 7, column 34: decisions[0] "é", need 1 "b": neither an input nor a decision
"""

# Texts that are no JSON, where their reading stops, why, and what helps. Columns count bytes.
NO_JSON: list[tuple[bytes, int, int, str, str]] = [
    (b"", 1, 0, "a value is due", ""),
    (b"{\n}}", 2, 2, "the end is due", ""),
    (b"{\n]", 2, 1, 'a key in quotes or "}" is due', ""),
    (b'{"inputs":[1,]}', 1, 14, "a value is due", ""),
    (b'{"inputs":[1 2]}', 1, 14, '"," or "]" is due', ""),
    (b'{"inputs":[]\n"decisions":[]}', 2, 1, '"," or "}" is due', ""),
    (b'{"inputs" []}', 1, 11, '":" is due', ""),
    (b'{"inputs":[],}', 1, 14, "a key in quotes is due", ""),
    (b'{"inputs":["a","\xc3\xa9" b', 1, 21, '"," or "]" is due', ""),
    (b'{"inputs":["a', 1, 12, "the quote that ends the string is due", ""),
    (b'["a\tb"]', 1, 2, 'a string has no line end and no control character, and behind \\ one of " \\ / b f n r t u', ""),
    (b"[01]", 1, 2, "a number has no sign but - and no 0 before its digits, and digits on both sides of a point", ""),
    (b"[1e400]", 1, 7, "the number before it is over 1.8e308", ""),
    (b"[" * 130 + b"]" * 130, 1, 129, "over 127 lists and objects stand in each other", ""),
    (b"<?xml version='1.0'?>", 1, 1, "a value is due", "this is XML: a file of DMN is read by desk import"),
    (b"\xef\xbb\xbf<a/>", 1, 1, "a value is due", "this is XML: a file of DMN is read by desk import"),
    (b"\xef\xbb\xbf{}", 1, 1, "a value is due", "it begins with a byte order mark: save it without one"),
    (b"\xff\xfe{\0}\0", 1, 1, "a value is due", "this is UTF-16: save it as UTF-8"),
    (b"\xfe\xff\0<\0a", 1, 1, "a value is due", "this is XML: a file of DMN is read by desk import"),
    (b"{\0}\0", 1, 2, 'a key in quotes or "}" is due', "this is UTF-16: save it as UTF-8"),
    (b'{"a":"\xe9"}', 1, 7, "it is no UTF-8 from here on", "save it as UTF-8"),
]

# A model of requests.
ASKED = r"""{"inputs":["requested","age"],"decisions":[{"name":"d","needs":["age"],"expr":"1"}], "services":[{"name":"limit","outputs":["d"],"encapsulated":[],"inputDecisions":[],"inputData":["requested","age"]}]}"""

# Lines behind that model, with what is said of each.
NOTES: list[tuple[str, list[str]]] = [
    ('{"client":"a","service":"limit","inputs":{"requested":1,"age":null}}', []),
    ('{"client":"a","close":true}', []),
    ('{"resize":"a","capacity":1}', []),
    (
        '{"client":"a","service":"limit","inputs":{"requsted":1,"age":2}}',
        [
            '"requsted" is no parameter of limit: requested?',
            "the parameter requested of limit is missing, so it is null",
        ],
    ),
    ('{"client":"a","service":"limits","inputs":{}}', ['"limits" is no service: limit?']),
    ('{"client":"a","service":"x","inputs":{}}', ['"x" is no service']),
    (
        '{"client":"a","service":"limit","inputs":{"requested":1.5,"age":9223372036854775808}}',
        [
            "what stands under requested is no value: a number in it has a point or an exponent, and numbers are whole",
            "what stands under age is no value: a number in it is not from -9223372036854775807 to 9223372036854775807",
        ],
    ),
    (
        '{"client":"a","service":"limit","inputs":{"requested":[{"x":1e2}],"age":1,"x":1.5}}',
        [
            '"x" is no parameter of limit',
            "what stands under requested is no value: a number in it has a point or an exponent, and numbers are whole",
        ],
    ),
    ("{", ['no JSON text: column 1: a key in quotes or "}" is due']),
    ('{"client":"a"} {}', ["no JSON text: column 16: the end is due"]),
    (" \t", []),
    ("[]", ["an object with client, service and inputs alone is due"]),
    ('{"client":"a","service":"limit","inputs":{},"x":1}', ['no line has the key "x"']),
    ('{"service":"limit","inputs":{}}', ["the key client is missing"]),
    ('{"client":"","service":"limit","inputs":{}}', ["under client a text of 1 to 64 bytes is due"]),
    (f'{{"client":"{"x" * 65}","service":"limit","inputs":{{}}}}', ["under client a text of 1 to 64 bytes is due"]),
    ('{"client":"a"}', ["the key service is missing"]),
    ('{"client":"a","service":"limit"}', ["the key inputs is missing"]),
    ('{"client":"a","service":1,"inputs":{}}', ["under service a text is due"]),
    ('{"client":"a","service":"limit","inputs":[]}', ["under inputs an object is due"]),
    ('{"client":"a","close":false}', ["under close true is due"]),
    ('{"client":"a","close":true,"capacity":1}', ["beside close stands client alone"]),
    ('{"resize":"a"}', ["beside resize stands capacity alone, a number from 1 to 4096"]),
    ('{"resize":5,"capacity":1}', ["under resize the name of a client is due, a text of 1 to 64 bytes"]),
    ('{"resize":"a","capacity":0}', ["a capacity is from 1 to 4096"]),
    ('{"resize":"a","capacity":4097}', ["a capacity is from 1 to 4096"]),
    ('{"model":{},"x":1}', ['no line has the key "x"']),
    ('{"client":"a","model":{}}', ["beside model stands no other key"]),
    ('{"model":{}}', ["a model with the fault shape; the one before stays in force"]),
]

# Lines behind that model, and what is said of them: closed clients, and a second model, which counts from its line on.
ASKED_IN_TURN: list[tuple[str, list[str]]] = [
    ('{"client":"a","service":"limit","inputs":{"requested":1,"age":2}}', []),
    ('{"client":"a","close":true}', []),
    ('{"client":"a","service":"limit","inputs":{"requested":1,"age":2}}', ["the client is closed"]),
    ('{"client":"a","service":"limit","inputs":{"requested":1}}', ["the client is closed"]),
    ('{"client":"a","service":"limits","inputs":{}}', ['"limits" is no service: limit?']),
    ('{"client":"a","close":true}', ["the client is closed"]),
    ('{"resize":"a","capacity":0}', ["the client is closed"]),
    ('{"client":"b","service":"limit","inputs":{"requested":1,"age":2}}', []),
    ('{"model":{"inputs":["x"],"decisions":[],"services":[]}}', []),
    ('{"client":"b","service":"limit","inputs":{"requested":1,"age":2}}', ['"limit" is no service']),
    ('{"model":{"inputs":["x","x"],"decisions":[],"services":[]}}', ["a model with the fault twice; the one before stays in force"]),
    ('{"client":"b","service":"limit","inputs":{"requested":1,"age":2}}', ['"limit" is no service']),
]

# A model of rings, and of services that do not fit.
HELPED = r"""{"inputs":["age","score"],"decisions":[
  {"name":"a","needs":["age","b"],"expr":"1"},
  {"name":"b","needs":["c","score"],"expr":"1"},
  {"name":"c","needs":["age","b","a"],"expr":"1"},
  {"name":"d","needs":["age"],"expr":"1"}],
 "services":[
  {"name":"s","outputs":["a"],"encapsulated":["b"],"inputDecisions":[],"inputData":["age"]},
  {"name":"t","outputs":["x","d"],"encapsulated":["age"],"inputDecisions":["y"],"inputData":["age","d"]},
  {"name":"u","outputs":["d"],"encapsulated":["a"],"inputDecisions":["a","d","c"],"inputData":["age"]}]}"""

# Texts that are no names, and what helps.
NAMES: list[tuple[str, str]] = [
    ("credit score", "a name has letters, digits and _ alone: credit_score"),
    ("d-7", "a name has letters, digits and _ alone: d_7"),
    ("", "a name has 1 to 64 bytes"),
    ("if", "it is a key word of FEEL"),
    ("1st", "a name has the letters A-Z and a-z, digits and _ alone, and begins with no digit"),
]

# Names that the model of rings has not, and what helps.
NEAR: list[tuple[str, str]] = [
    ("scroe", "is it score?"),
    ("price", ""),
]

# The decisions of that model, and the ring of each that is in one.
RING_HINTS: list[tuple[int, str]] = [
    (0, "each needs the next: a, b, c, a"),
    (1, "each needs the next: b, c, b"),
    (2, "each needs the next: c, b, c"),
    (3, ""),
]

# What is wrong with each of its services, and what helps.
SERVICE_HINTS: list[tuple[str, str]] = [
    ("it reaches a decision or an input that it doesn't list", "reached, and not listed: c, score"),
    (
        "a name that is no decision, or in inputData no input",
        "no decision of the model, or in inputData no input: x, age, y, d",
    ),
    (
        "an input decision that is also an output or encapsulated",
        "an input decision, and also an output or encapsulated: a, d",
    ),
]
