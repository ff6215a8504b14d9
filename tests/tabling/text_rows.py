"""Tests of texts: words, order by code points, the least text, and the text with U+0000 behind, between which and the text nothing is."""

from __future__ import annotations

from .row import NO, YES, Row

NUL = "\0"

ROWS = [
    Row("two words: each word asked has a rule, another text has none", ['"a"', '"b"'], (NO, NO, YES, YES), gaps=["c", "", "A", None, 1], taken=["a", "b"]),
    Row("the same whatever their order", ['"c"', '"a", "b"'], (NO, NO, YES, YES), gaps=["d"], taken=["a", "b", "c"]),
    Row("a list of words, and not of it: all values", ['"a", "b"', 'not("a", "b")'], (YES, YES, YES, YES), taken=["a", "b", "c", "", None, 1, ["a"]]),
    Row('not("a") alone leaves just "a"', ['not("a")'], (NO, NO, NO, YES), gaps=["a"], taken=["b", "", "A", None, 1, ["a"]]),
    Row("two lists that share a word", ['"a", "b"', '"b", "c"'], (NO, NO, YES, NO), gaps=["d"], taken=["a", "b", "c"], overlaps=[(1, 2)]),
    Row("a word, and not of another: they share the first", ['"a"', 'not("b")'], (NO, NO, NO, NO), gaps=["b"], taken=["a", "c", 1], overlaps=[(1, 2)]),
    Row("every text, by order", ['< "m"', '>= "m"'], (NO, YES, YES, YES), gaps=[None, 1, True, []], taken=["", "a", "m", "z", "M", "é"]),
    Row(
        "one text between two comparisons: where texts are compared by order the words asked are all texts",
        ['< "m"', '> "m"'],
        (NO, NO, NO, YES),
        gaps=["m"],
        taken=["l", "lz", "m" + NUL, "ma", "n"],
    ),
    Row("an interval of texts", ['["a".."c"]'], (NO, NO, NO, YES), gaps=["", "A", "c" + NUL, "ca", "d"], taken=["a", "az", "b", "bzzz", "c"]),
    Row("half open intervals of texts", ['< "a"', '["a".."c")', '>= "c"'], (NO, YES, YES, YES), gaps=[None], taken=["", "A", "a", "bz", "c", "d"]),
    Row("an open interval of texts", ['("a".."c")'], (NO, NO, NO, YES), gaps=["a", "c", ""], taken=["a" + NUL, "aa", "b", "bz"]),
    Row("no text is below the empty one", ['< ""', '>= ""'], (NO, YES, YES, YES), gaps=[None, 0], taken=["", NUL, "a"], never=[1]),
    Row("at most the empty text is the empty text", ['<= ""', '> ""'], (NO, YES, YES, YES), gaps=[None], taken=["", NUL, "a"]),
    Row("above the empty text are all others", ['> ""'], (NO, NO, NO, YES), gaps=["", None], taken=[NUL, "a"]),
    Row("the empty text as a word", ['""', 'not("")'], (YES, YES, YES, YES), taken=["", "a", NUL, None, 0]),
    Row(
        "nothing lies between a text and the same with U+0000 behind",
        [f'("a".."a{NUL}")', '"a"', f'"a{NUL}"'],
        (NO, NO, NO, YES),
        gaps=["", "aa", "a" + NUL + NUL],
        taken=["a", "a" + NUL],
        never=[1],
    ),
    Row("so these two leave no text", ['<= "a"', f'>= "a{NUL}"'], (NO, YES, YES, YES), gaps=[None], taken=["a", "a" + NUL, ""]),
    Row("and these leave one", ['<= "a"', f'> "a{NUL}"'], (NO, NO, NO, YES), gaps=["a" + NUL], taken=["a", "a" + NUL + NUL, "aa"]),
    Row("below U+0000 is the empty text alone", [f'< "{NUL}"', f'>= "{NUL}"'], (NO, YES, YES, YES), gaps=[None], taken=["", NUL, "a"]),
    Row("nothing lies between the empty text and U+0000", [f'("".."{NUL}")', f'"", "{NUL}"'], (NO, NO, NO, YES), gaps=["a", NUL + NUL], taken=["", NUL], never=[1]),
    Row("U+0000 is a letter like others in a word", [f'"a{NUL}"', '"a"'], (NO, NO, YES, YES), gaps=["a" + NUL + NUL, "aa"], taken=["a", "a" + NUL]),
    Row("a word and both sides of it", ['< "a"', '"a"', '> "a"'], (NO, YES, YES, YES), gaps=[None], taken=["", "a", "a" + NUL, "b"]),
    Row("a word beside order: the words asked are all texts", ['"m"', '< "m"'], (NO, NO, NO, YES), gaps=["n", "m" + NUL], taken=["m", "l"]),
    Row("capitals stand before small letters", ['< "a"', '"B"'], (NO, NO, NO, NO), gaps=["a", "b"], taken=["B", "Z"], overlaps=[(1, 2)]),
    Row(
        "by code points U+1F600 stands behind U+FFFF, though its first unit in UTF-16 is less",
        ['<= "\uffff"', '"\U0001f600"'],
        (NO, NO, NO, YES),
        gaps=["\U0001f601", "\uffff" + NUL],
        taken=["\ud7ff", "\uffff", "\U0001f600"],
    ),
    Row("letters beyond ASCII by order", ['< "é"', '>= "é"'], (NO, YES, YES, YES), gaps=[1], taken=["e", "z", "é", "ê", "\U0001f600"]),
    Row("a quote and a backslash in a text", [r'"a\"b"', r'"a\\b"'], (NO, NO, YES, YES), gaps=["ab", "a"], taken=['a"b', "a\\b"]),
    Row("an escape and the letter that it stands for are one text", [r'"\n"', '"\n"'], (NO, NO, YES, NO), gaps=["n", ""], taken=["\n"], overlaps=[(1, 2)]),
    Row("a text beside numbers: words asked are complete, another text isn't", ["< 3", ">= 3", '"n/a"'], (NO, NO, YES, YES), gaps=["x", None], taken=[2, 3, "n/a"]),
    Row("a digit in quotes is a text", ['"5"', "5"], (NO, NO, NO, YES), gaps=[6, "6"], taken=[5, "5"]),
    Row("a turned interval of texts", ['["c".."a"]', "-"], (YES, YES, YES, YES), taken=["b", None], never=[1]),
    Row("overlapping intervals of texts", ['["a".."m"]', '["g".."z"]'], (NO, NO, NO, NO), gaps=["", "za"], taken=["a", "h", "z"], overlaps=[(1, 2)]),
    Row(
        "intervals of texts that share one text",
        ['["a".."m"]', '["m".."z"]', '< "a"', '> "z"'],
        (NO, YES, YES, NO),
        gaps=[None],
        taken=["m", "z", "za"],
        overlaps=[(1, 2)],
    ),
    Row("not of an interval of texts doesn't hold of numbers", ['["a".."c"]', 'not(["a".."c"])'], (NO, YES, YES, YES), gaps=[1, None], taken=["a", "d", ""]),
]
