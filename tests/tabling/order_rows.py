"""Tests that compare texts by order: what they leave open, share and stand before. Texts go by code points, the shorter one first."""

from __future__ import annotations

from .policy_rows import LEVELS, LISTED, TURNED
from .row import NO, OPEN, YES, Row

NUL = "\0"
# The last letter of two bytes fewer in UTF-16 than the next, which begins there with U+D800; and the last of all.
LAST_SHORT, FIRST_LONG, LAST = "\uffff", "\U00010000", "\U0010ffff"

ROWS = [
    Row('below "m", "m" and above it are all texts', ['< "m"', '"m"', '> "m"'], (NO, YES, YES, YES), gaps=[None, 1, True, ["m"]],
        taken=["", "l", "lz" + LAST, "m", "m" + NUL, "n", LAST]),
    Row("two texts and all between them have no rule", ['< "m"', '> "n"'], (NO, NO, NO, YES), gaps=["m", "m" + NUL, "mz", "n"], taken=["lz", "", "n" + NUL, "na"]),
    Row('from "a" on, cut at "k": what is below "a" is left', ['["a".."k"]', '> "k"'], (NO, NO, NO, YES), gaps=["", NUL, "A", "Z", None],
        taken=["a", "k", "k" + NUL, "l", "é"]),
    Row("ranges and a word that share texts", ['["a".."k")', '["g".."m"]', '"h"'], (NO, NO, NO, NO), gaps=["", "m" + NUL, "n"], taken=["a", "g", "h", "k", "m"],
        overlaps=[(1, 2), (1, 3), (2, 3)]),
    Row('nothing is above "a" and below the next text: the two share none, and leave none', ['> "a"', f'< "a{NUL}"'], (NO, YES, YES, YES), gaps=[None, 1],
        taken=["a", "", "a" + NUL, "b"]),
    Row("with the next text on both sides they share it", ['> "a"', f'<= "a{NUL}"'], (NO, YES, YES, NO), gaps=[None], taken=["a", "a" + NUL], overlaps=[(1, 2)]),
    Row("each of three texts is the next of the one before", [f'("".."{NUL}{NUL}")', f'<= ""', f'>= "{NUL}{NUL}"'], (NO, YES, YES, YES), gaps=[None],
        taken=["", NUL, NUL + NUL, "a"]),
    Row("nothing is below the empty text, beside a dash", ['< ""', "-"], (YES, YES, YES, YES), taken=["", None], never=[1]),
    Row("all texts are the empty one or above it", ['>= ""'], (NO, YES, YES, YES), gaps=[None, 0, False, {}], taken=["", NUL, "a", LAST]),
    Row("a range turned round, alone", ['["b".."a"]'], (NO, NO, NO, YES), gaps=["", "a", "ab", "b", "c"], never=[1]),
    Row("of an open range of one text", ['("a".."a")', '["a".."a"]'], (NO, NO, NO, YES), gaps=["", "b", "a" + NUL], taken=["a"], never=[1]),
    Row("not below is the text or above, of texts alone", ['not(< "m")', '< "m"'], (NO, YES, YES, YES), gaps=[None, 1, []], taken=["", "l", "m", "n"]),
    Row("not below, and above a lesser text", ['not(< "m")', '> "a"'], (NO, NO, NO, NO), gaps=["", "a", None], taken=["a" + NUL, "m", "z"], overlaps=[(1, 2)]),
    Row("neither below nor the text is above", ['not(< "m", "m")', '<= "m"'], (NO, YES, YES, YES), gaps=[1], taken=["m", "m" + NUL, ""]),
    Row('not "m" is of all kinds, and shares what is below', ['not("m")', '< "m"'], (NO, NO, NO, NO), gaps=["m"], taken=[None, 1, "l", "n"], overlaps=[(1, 2)]),
    Row("both sides have the text between them", ['<= "m"', '>= "m"'], (NO, YES, YES, NO), gaps=[None], taken=["m", "l", "n"], overlaps=[(1, 2)]),
    Row("texts that begin with the same letters stand together", ['["ab".."ac")'], (NO, NO, NO, YES), gaps=["a", "aa" + LAST, "ac", "b"], taken=["ab", "ab" + NUL, "abz", "ab" + LAST]),
    Row("U+10000 is the next letter behind U+FFFF", [f'< "{FIRST_LONG}"', f'>= "{FIRST_LONG}"'], (NO, YES, YES, YES), gaps=[None],
        taken=["", "\ue000", LAST_SHORT, LAST_SHORT + LAST, FIRST_LONG, LAST]),
    Row("by code points this range isn't turned round", [f'["{LAST_SHORT}".."{FIRST_LONG}"]'], (NO, NO, NO, YES), gaps=["\ue000", "\ufffe", FIRST_LONG + NUL, "\U00010001"],
        taken=[LAST_SHORT, LAST_SHORT + "a", FIRST_LONG]),
    Row("and this one is", [f'["{FIRST_LONG}".."\ue000"]'], (NO, NO, NO, YES), gaps=[FIRST_LONG, "\ue000", LAST_SHORT], never=[1]),
    Row("no text is the greatest", [f'> "{LAST}"', f'<= "{LAST}"'], (NO, YES, YES, YES), gaps=[None], taken=[LAST, LAST + NUL, LAST + LAST, ""]),
    Row("no text is in a range from a text to a number", ['["a"..5]', "-"], (YES, YES, YES, YES), taken=["b", 3, None], never=[1]),
    Row("numbers and texts by order in one column", ["< 5", ">= 5", '< "m"', '>= "m"'], (NO, YES, YES, YES), gaps=[None, True], taken=[4, 5, "l", "m"]),
    # What stands before what.
    Row("F: a wider range of texts stands before one within it", ['["a".."z"]', '["b".."c"]'], (NO, NO, NO, OPEN), hit="F", gaps=["", "za"], taken=["b", "z"], masked={2: [1]}),
    Row("F: two ranges of texts stand before a third together", ['< "m"', '>= "m"', '["a".."z"]'], (NO, YES, YES, OPEN), hit="F", gaps=[None], taken=["m"], masked={3: [1, 2]}),
    Row('F: at "m" the third decides', ['< "m"', '> "m"', '["a".."z"]'], (NO, YES, YES, OPEN), hit="F", gaps=[None], taken=["m"]),
    Row("F: a range stands before the words in it", ['["a".."c"]', '"a", "b" , "c"', '"c", "d"'], (NO, NO, NO, OPEN), hit="F", gaps=["", "e"], taken=["bz", "d"], masked={2: [1]}),
    Row("F: words stand before no range that has more", ['"a"', '"b"', '["a".."b"]'], (NO, NO, NO, OPEN), hit="F", gaps=["c"], taken=["a" + NUL]),
    Row("F: but before one that has nothing between them", ['"a"', f'"a{NUL}"', f'["a".."a{NUL}"]'], (NO, NO, NO, OPEN), hit="F", gaps=["", "aa"], taken=["a", "a" + NUL], masked={3: [1, 2]}),
    Row("P: a higher output goes before the one of a range within", ['["b".."c"]', '>= "a"'], (NO, NO, NO, OPEN), hit="P", then=LEVELS, outputs=[TURNED], gaps=["", "Z"], taken=["a", "b"]),
    Row("P: with the values turned round the range never decides", ['["b".."c"]', '>= "a"'], (NO, NO, NO, OPEN), hit="P", then=LEVELS, outputs=[LISTED], gaps=["", "Z"],
        taken=["a", "b"], masked={1: [2]}),
    # Several columns.
    Row("two columns, of which two combinations have no rule", [['< "m"', "true"], ['>= "m"', "false"]], (NO, NO, NO, YES), gaps=[("a", False), ("m", True), (None, True)],
        taken=[("", True), ("m", False)]),
    Row("two columns of texts, and their corners", [['< "m"', '< "g"'], ['>= "m"', '>= "g"']], (NO, NO, NO, YES), gaps=[("l", "g"), ("m", ""), ("m", "fz")],
        taken=[("l", "fz"), ("m", "g")]),
    Row("the same with their corners", [['< "m"', '< "g"'], ['>= "m"', '>= "g"'], ['< "m"', '>= "g"'], ['>= "m"', '< "g"']], (NO, YES, YES, YES), gaps=[(None, "a"), ("a", 1)],
        taken=[("l", "g"), ("m", "")]),
    Row("one text of one column, beside one of the other", [['not("m")', "-"], ["-", '< "g"'], ["-", '> "g"']], (NO, NO, NO, NO), gaps=[("m", "g"), ("m", None)],
        taken=[("m", "f"), ("l", None)], overlaps=[(1, 2), (1, 3)]),
    Row("ranges that are apart in the second column alone", [['["a".."m"]', '< "k"'], ['["g".."z"]', '>= "k"']], (NO, NO, NO, YES), gaps=[("h", None), ("", "a"), ("a", "k"), ("z", "a")],
        taken=[("h", "a"), ("h", "k")]),
    Row("texts by order in one column, words in the other: there the words asked are complete", [['< "m"', '"x"'], ['>= "m"', '"x"']], (NO, NO, YES, YES),
        gaps=[("a", "y"), (None, "x")], taken=[("a", "x"), ("m", "x")]),
]
