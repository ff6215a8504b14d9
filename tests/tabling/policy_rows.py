"""What each hit policy makes of gaps, overlaps and rules that stand behind others."""

from __future__ import annotations

from .row import NO, OPEN, YES, Json, Row

# Whether two rules overlap is asked under U and A alone.
RISING = ["> 0", "> 1"]
LISTED: Json = {"name": "r", "values": ['"HIGH"', '"LOW"']}
TURNED: Json = {"name": "r", "values": ['"LOW"', '"HIGH"']}
LEVELS = ['"LOW"', '"HIGH"']
BOTH_ABOVE = (NO, NO, NO, OPEN)
BEHIND = (NO, YES, YES, OPEN)


def rising(why: str, hit: str, **more: object) -> Row:
    """Two rules, above 0 and above 1, of which the second stands within the first."""
    settled = {"then": LEVELS, "gaps": [0, None], "taken": [1, 2], **more}
    return Row(why, list(RISING), BOTH_ABOVE, hit=hit, **settled)  # type: ignore[arg-type]


ROWS = [
    Row("U: two hits give null, so it is told", list(RISING), (NO, NO, NO, NO), then=LEVELS, gaps=[0], taken=[1, 2], overlaps=[(1, 2)]),
    Row("A: two hits of two outputs give null", list(RISING), (NO, NO, NO, NO), hit="A", then=LEVELS, gaps=[0], taken=[1, 2], overlaps=[(1, 2)]),
    Row("A: two hits of one output give that, so no pair is told", list(RISING), (NO, NO, NO, NO), hit="A", then=["7", "7"], gaps=[0], taken=[1, 2]),
    rising("F: the second never decides", "F", masked={2: [1]}),
    rising("P: by the listed values the second goes first", "P", outputs=[LISTED]),
    rising("P: with the values turned round it stands behind the first", "P", outputs=[TURNED], masked={2: [1]}),
    rising("P: without listed values the rules stand as they are", "P", masked={2: [1]}),
    rising("O: all hits are in the result", "O", outputs=[TURNED]),
    rising("R: all hits are in the result", "R"),
    rising("C: all hits are in the result", "C"),
    rising("C+: all hits are in the sum", "C+", then=["1", "2"]),
    rising("C<: all hits are compared", "C<", then=["1", "2"]),
    rising("C>: all hits are compared", "C>", then=["1", "2"]),
    rising("C#: all hits are counted", "C#", then=["1", "1"]),
    # Under A.
    Row("A: of three rules that all hit, two give one output", ["> 0", "> 1", "> 2"], (NO, NO, NO, NO), hit="A", then=["1", "2", "1"], gaps=[0], taken=[1, 3],
        overlaps=[(1, 2), (2, 3)]),
    Row("A: outputs of two columns differ where one of them does", ["-", "true"], (YES, YES, YES, NO), hit="A", outputs=[{"name": "r"}, {"name": "q"}],
        then=[["1", "2"], ["1", "3"]], taken=[True], overlaps=[(1, 2)]),
    Row("A: and are one where all are", ["-", "true"], (YES, YES, YES, NO), hit="A", outputs=[{"name": "r"}, {"name": "q"}], then=[["1", "2"], ["1", "2"]], taken=[True]),
    Row('A: 1 and "1" are not equal', ["-", "true"], (YES, YES, YES, NO), hit="A", then=["1", '"1"'], taken=[True], overlaps=[(1, 2)]),
    Row("A: null is equal to null", ["-", "true"], (YES, YES, YES, NO), hit="A", then=["null", "null"], taken=[True]),
    Row("A: a minus makes a literal of another value", ["-", "true"], (YES, YES, YES, NO), hit="A", then=["-1", "1"], taken=[True], overlaps=[(1, 2)]),
    Row("A: -1 and - 1 are equal", ["-", "true"], (YES, YES, YES, NO), hit="A", then=["-1", "- 1"], taken=[True]),
    Row("A: outputs of one text are the same, whatever the names stand for", ["-", "true"], (YES, YES, YES, NO), hit="A", then=["a", "a"], taken=[True]),
    Row("A: of other outputs it isn't known", ["-", "true"], (YES, YES, YES, NO), hit="A", then=["a", "b"], needs=["a", "b"], taken=[True]),
    # Under F: what stands before a rule, by one and by several.
    Row("F: behind a dash no rule decides", ["-", "5", "true"], (YES, YES, YES, OPEN), hit="F", taken=[5], masked={2: [1], 3: [1]}),
    Row("F: two rules stand before the third together, and neither alone", ["< 5", ">= 5", "[0..10]"], BEHIND, hit="F", gaps=[None], taken=[0, 5], masked={3: [1, 2]}),
    Row("F: at 5 the third decides", ["< 5", "> 5", "[0..10]"], BEHIND, hit="F", gaps=[None], taken=[5]),
    Row("F: a dash behind all numbers decides of null", ["< 5", ">= 5", "-"], (YES, YES, YES, OPEN), hit="F", taken=[None, 5]),
    Row("F: the first of two same rules decides", ["5", "5"], (NO, NO, NO, OPEN), hit="F", gaps=[4], taken=[5], masked={2: [1]}),
    Row("F: a wider rule behind a narrower one decides of the rest", ["[2..3]", "[1..4]"], (NO, NO, NO, OPEN), hit="F", gaps=[0], taken=[1, 2]),
    Row("F: true and false stand before a rule that asks for either, and for no more", ["true", "false", "true, false"], BEHIND, hit="F", gaps=[None], taken=[True],
        masked={3: [1, 2]}),
    Row("F: words stand before a list of them", ['"a"', '"b"', '"a", "b"'], (NO, NO, YES, OPEN), hit="F", gaps=["c"], taken=["a"], masked={3: [1, 2]}),
    Row("F: and not before one of more", ['"a"', '"b"', '"a", "b", "c"'], (NO, NO, YES, OPEN), hit="F", gaps=["d"], taken=["a", "c"]),
    Row("F: not of a word, and the word, stand before a dash", ['not("a")', '"a"', "-"], (YES, YES, YES, OPEN), hit="F", taken=["a", 1], masked={3: [1, 2]}),
    Row("F: two columns, in which two rules stand before the third together", [["< 5", "-"], ["-", "true"], ["4, 6", "true"]], (NO, NO, NO, OPEN), hit="F",
        gaps=[(5, False), (None, None)], taken=[(4, False), (6, True)], masked={3: []}),
    Row("F: three rules leave no corner to the fourth", [["< 5", "-"], [">= 5", "true"], [">= 5", "false"], ["[0..9]", "true, false"]], BEHIND, hit="F",
        gaps=[(5, None), (None, True)], taken=[(4, None), (5, True)], masked={4: [1, 2, 3]}),
    Row("F: they leave one", [["< 5", "-"], [">= 5", "true"], ["> 5", "false"], ["[0..9]", "true, false"]], BEHIND, hit="F", gaps=[(5, None)], taken=[(5, False)]),
    Row("F: a rule that never hits is told as that, and stands before none", ["[7..3]", "5"], (NO, NO, NO, OPEN), hit="F", gaps=[7], taken=[5], never=[1]),
    Row("U: a rule that stands behind is told as an overlap, not as masked", ["-", "5"], (YES, YES, YES, NO), taken=[5], overlaps=[(1, 2)]),
    # Under P: places, then rule order.
    Row("P: an output that isn't listed comes after all", ["5", "5"], (NO, NO, NO, OPEN), hit="P", outputs=[LISTED], then=['"X"', '"LOW"'], gaps=[4], taken=[5],
        masked={1: [2]}),
    Row("P: two that aren't listed stand in rule order", ["5", "5"], (NO, NO, NO, OPEN), hit="P", outputs=[LISTED], then=['"X"', '"Y"'], gaps=[4], taken=[5],
        masked={2: [1]}),
    Row("P: a number below 0 has its place among the listed values", ["5", "5"], (NO, NO, NO, OPEN), hit="P", outputs=[{"name": "r", "values": ["-1", "1"]}],
        then=["1", "-1"], gaps=[4], taken=[5], masked={1: [2]}),
    Row("P: the later rule goes first where it hits, and the earlier decides of the rest", ["-", "> 100"], (YES, YES, YES, OPEN), hit="P", outputs=[LISTED],
        then=['"LOW"', '"HIGH"'], taken=[100, 101]),
    Row("P: a dash that goes first leaves nothing to the others", ["< 5", ">= 5", "-"], (YES, YES, YES, OPEN), hit="P", outputs=[LISTED],
        then=['"LOW"', '"LOW"', '"HIGH"'], taken=[5], masked={1: [3], 2: [3]}),
    Row("P: two that go first leave nothing to a third that stands before them", ["[0..10]", "< 5", ">= 5"], BEHIND, hit="P", outputs=[LISTED],
        then=['"LOW"', '"HIGH"', '"HIGH"'], gaps=[None], taken=[5], masked={1: [2, 3]}),
    Row("P: the second column decides where the first has one place", ["5", "5"], (NO, NO, NO, OPEN), hit="P",
        outputs=[LISTED, {"name": "q", "values": ["1", "2"]}], then=[['"LOW"', "2"], ['"LOW"', "1"]], gaps=[4], taken=[5], masked={1: [2]}),
    Row("P: a column without listed values decides nothing", ["5", "5"], (NO, NO, NO, OPEN), hit="P",
        outputs=[{"name": "q"}, LISTED], then=[["1", '"LOW"'], ["2", '"HIGH"']], gaps=[4], taken=[5], masked={1: [2]}),
    # Not under the others: each hit is in the result.
    Row("C: the same two rules", ["5", "5"], (NO, NO, NO, OPEN), hit="C", gaps=[4], taken=[5]),
    Row("R: a rule behind a dash", ["-", "5"], (YES, YES, YES, OPEN), hit="R", taken=[5]),
    Row("O: a rule behind a dash, with listed values", ["-", "5"], (YES, YES, YES, OPEN), hit="O", outputs=[LISTED], then=['"HIGH"', '"LOW"'], taken=[5]),
    Row("C+: a rule behind two together", ["< 5", ">= 5", "[0..10]"], BEHIND, hit="C+", gaps=[None], taken=[5]),
    Row("C: a rule that never hits is told under every policy", ["(5..6)", "-"], (YES, YES, YES, OPEN), hit="C", taken=[5], never=[1]),
    # A gap is told under every policy, with a default and without one.
    Row("a default takes no gap away", ["5"], (NO, NO, NO, YES), outputs=[{"name": "r", "default": "0"}], gaps=[4], taken=[5]),
    Row("nor does it under C", ["5"], (NO, NO, NO, OPEN), hit="C", outputs=[{"name": "r", "default": "[]"}], gaps=[4], taken=[5]),
]
