"""Several columns: combinations that alone have the gap, columns that hang together, paths, and what a witness is as a request."""

from __future__ import annotations

from .row import NO, NO_OR_OPEN, YES, YES_OR_OPEN, Json, Row

MOST = 9223372036854775807
HALF: Json = {"name": "half", "needs": ["a"], "expr": "a"}
# Each way in which three columns are true or false.
EIGHT = [[str(bool(n & bit)).lower() for bit in (4, 2, 1)] for n in range(8)]

ROWS = [
    Row(
        "each column alone is covered, two of four combinations are not",
        [["< 0", "true"], [">= 0", "false"]],
        (NO, NO, NO, YES),
        gaps=[(-1, False), (0, True), (None, True), (0, None)],
        taken=[(-1, True), (0, False)],
    ),
    Row("all four combinations", [["< 0", "true"], ["< 0", "false"], [">= 0", "true"], [">= 0", "false"]], (NO, YES, YES, YES),
        gaps=[(None, True), (0, None)], taken=[(-1, True), (-1, False), (0, True), (0, False)]),
    Row("seven of eight combinations of three truth values", EIGHT[:7], (NO, NO, NO, YES), gaps=[(True, True, True), (None, True, True)],
        taken=[(False, False, False), (True, True, False)]),
    Row("all eight", EIGHT, (NO, YES, YES, YES), gaps=[(True, True, None), ("a", True, True)], taken=[(True, True, True), (False, True, False)]),
    Row("two rules that each ask of one column: both hit in one corner, none in the other", [["> 10", "-"], ["-", "< 5"]], (NO, NO, NO, NO),
        gaps=[(10, 5), (None, None), (10, None), ("a", 5)], taken=[(11, 5), (10, 4), (11, 4), (11, None)], overlaps=[(1, 2)]),
    Row("a dash where nothing is asked: such a column asks for every value", [["true", "-"], ["false", "-"]], (NO, YES, YES, YES),
        gaps=[(None, 0)], taken=[(True, None), (False, [])]),
    Row("one value of each column has no rule", [[f"< {MOST}", "-"], ["-", f"< {MOST}"]], (NO, NO, NO, NO),
        gaps=[(MOST, MOST), (None, MOST), (MOST, None), (None, None)], taken=[(0, MOST), (MOST, 0), (None, 0)], overlaps=[(1, 2)]),
    Row("a rule that one of its columns makes never hit", [["5", "[7..3]"], ["-", "-"]], (YES, YES, YES, YES), taken=[(5, 5)], never=[1]),
    Row("two rules that are apart in the second column alone", [["[0..9]", "true"], ["[5..14]", "false"]], (NO, NO, NO, YES),
        gaps=[(3, False), (12, True), (-1, True), (15, False)], taken=[(3, True), (7, True), (7, False), (12, False)]),
    Row("a frame with its middle left out", [["< 0", "-"], ["> 9", "-"], ["[0..9]", "< 0"], ["[0..9]", "> 9"]], (NO, NO, NO, YES),
        gaps=[(0, 0), (9, 9), (5, 5), (None, 0), (5, None)], taken=[(-1, 5), (10, None), (5, -1), (5, 10)]),
    Row("the same with its middle", [["< 0", "-"], ["> 9", "-"], ["[0..9]", "< 0"], ["[0..9]", "> 9"], ["[0..9]", "[0..9]"]], (NO, YES, YES, YES),
        gaps=[(None, 0), (5, None)], taken=[(5, 5), (-1, 5)]),
    Row("words in two columns: each pair of words that are asked has a rule", [['"a"', '"x", "y"'], ['"b"', '"x"'], ['"b"', '"y"']], (NO, NO, YES, YES),
        gaps=[("c", "x"), ("a", "z"), (None, "x")], taken=[("a", "x"), ("b", "y")]),
    Row("words in two columns, and one pair without a rule", [['"a"', '"x", "y"'], ['"b"', '"x"']], (NO, NO, NO, YES), gaps=[("b", "y"), ("c", "x")],
        taken=[("a", "y"), ("b", "x")]),
    Row("numbers, texts and truth values", [["< 5", '"a"', "-"], ["< 5", 'not("a")', "true"], ["< 5", 'not("a")', "false"], [">= 5", "-", "-"]], (NO, YES, YES, YES),
        gaps=[(None, "a", True), (4, "b", None)], taken=[(4, "a", None), (4, None, True), (5, [], {})]),
    Row("every value of two columns", [["null", "-"], ["not(null)", "true"], ["not(null)", "not(true)"]], (YES, YES, YES, YES),
        taken=[(None, None), (0, True), ("", [])]),
    Row("three overlaps in one corner", [["> 0", "-"], ["-", "> 0"], ["> 5", "> 5"]], (NO, NO, NO, NO), gaps=[(0, 0), (None, None)],
        taken=[(1, 0), (0, 1), (6, 6)], overlaps=[(1, 2), (1, 3), (2, 3)]),
    # Columns that may not take their values together. What holds of all values holds of these too; a witness may be out of reach.
    Row("one input in two columns: -1 is no 0 or more, but nothing says that the columns are one", [[">= 0", "-"], ["< 0", "< 0"]], (NO, NO, NO, YES),
        columns=["a", "a"], sure=False, gaps=[(-1, 0), (None, 0)], taken=[(0, 0), (-1, -1)]),
    Row("one input in two columns, and each pair of values has a rule", [["< 3", "-"], [">= 3", "< 5"], [">= 3", ">= 5"]], (NO, YES, YES, YES),
        columns=["a", "a"], sure=False, gaps=[(None, 3)], taken=[(2, None), (3, 4), (3, 5)]),
    Row("an expression in a column", ["> 5", "< 5"], (NO, NO, NO, YES), columns=["a + b"], needs=["a", "b"], sure=False, gaps=[5, None], taken=[6, 4]),
    Row("a literal in a column", ["1"], (NO, NO, NO, YES), columns=["1"], needs=["a"], sure=False, gaps=[0, 2], taken=[1]),
    Row("a needed decision in a column", ["true"], (NO, NO, NO, YES), columns=["half"], needs=["half"], before=[HALF], sure=False, gaps=[False], taken=[True]),
    Row("an input beside a needed decision", [["true", "-"], ["-", "true"]], (NO, NO, NO, NO), columns=["a", "half"], needs=["a", "half"], before=[HALF], sure=False,
        gaps=[(False, False)], taken=[(True, False), (False, True)], overlaps=[(1, 2)]),
    Row("a function in a column", ["> 0", "0"], (NO, NO, NO, YES), columns=["count(a)"], needs=["a"], sure=False, gaps=[-1, None], taken=[0, 1]),
    Row("a path of an input", [">= 18"], (NO, NO, NO, YES), columns=["applicant.age"], gaps=[17, None], taken=[18]),
    Row("two paths of one input are columns of their own", [[">= 18", "-"], ["-", "true"]], (NO, NO, NO, NO), columns=["p.age", "p.member"],
        gaps=[(17, False), (None, None)], taken=[(18, None), (17, True)], overlaps=[(1, 2)]),
    Row("a path of three names beside one of two and an input", [["0", "true", "-"], ["not(0)", "-", "true"]], (NO, NO, NO, YES), columns=["p.q.r", "p.s", "a"],
        gaps=[(0, False, True), (1, True, False)], taken=[(0, True, None), (1, None, True)]),
    Row("an input and a path of it hang together", [["null", "-"], ["-", "5"]], (NO, NO, NO, NO), columns=["p", "p.x"], sure=False,
        gaps=[({}, 4), (0, None)], taken=[(None, 4), ({}, 5)], overlaps=[(1, 2)]),
    Row("one path in two columns", [["true", "-"], ["-", "false"]], (NO, NO, NO, NO), columns=["p.x", "p.x"], sure=False,
        gaps=[(False, True)], taken=[(True, True), (False, False)], overlaps=[(1, 2)]),
    Row("a name in a test that is an input and no column", [["x", "true"], ["-", "false"]], (NO, NO_OR_OPEN, NO_OR_OPEN, YES), names={"x": None},
        gaps=[(0, None), (None, 5)], taken=[(0, False)]),
    Row("a column's own name as its test: each request meets it, so no gap may be told", ["a"], (YES_OR_OPEN,) * 3 + (YES,), names={"a": None}),
    Row("the same by a decision before: whatever a request brings, it is what half is", ["half"], (YES_OR_OPEN,) * 3 + (YES,), needs=["a", "half"], before=[HALF],
        names={"half": None}),
]
