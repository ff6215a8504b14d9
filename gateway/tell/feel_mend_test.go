package tell

import (
	"strings"
	"testing"

	"gateway/feel/strict"
)

// mendRows are texts without a reading, the hint, and the mended text. Worked out by hand.
var mendRows = []struct {
	kind                strict.Kind
	text, hint, applied string
}{
	{strict.UnaryTests, "not 5", "write not(5)", "not(5)"},
	{strict.UnaryTests, "not null", "write not(null)", "not(null)"},
	{strict.UnaryTests, "not < 5", "write not(< 5)", "not(< 5)"},
	{strict.UnaryTests, `not "a", "b"`, `write not("a", "b")`, `not("a", "b")`},
	{strict.UnaryTests, "<> 5", "write not(5)", "not(5)"},
	{strict.UnaryTests, "<>5, 6", "write not(5, 6)", "not(5, 6)"},
	{strict.UnaryTests, ">5 && <7", "write (5..7)", "(5..7)"},
	{strict.UnaryTests, "1|2", "write 1, 2", "1, 2"},
	{strict.UnaryTests, `"a" || "b"`, `write "a", "b"`, `"a", "b"`},
	{strict.UnaryTests, "in [1..3]", "write [1..3]", "[1..3]"},
	{strict.UnaryTests, "in (1, 2)", "write 1, 2", "1, 2"},
	{strict.UnaryTests, "(5,7)", "write (5..7)", "(5..7)"},
	{strict.UnaryTests, "[5, 7)", "write [5..7)", "[5..7)"},
	{strict.UnaryTests, "5 to 7", "write [5..7]", "[5..7]"},
	{strict.UnaryTests, "5..7", "write [5..7]", "[5..7]"},
	{strict.UnaryTests, "between 1 and 3", "write [1..3]", "[1..3]"},
	{strict.UnaryTests, "= < 5", "write <= 5", "<= 5"},
	{strict.UnaryTests, "> = 5", "write >= 5", ">= 5"},
	{strict.UnaryTests, ">= 5 and < 7", "write [5..7)", "[5..7)"},
	{strict.Expression, `not risk = "x"`, `write not(risk = "x")`, `not(risk = "x")`},
	{strict.Expression, `not a = 1 and b`, `write not(a = 1) and b`, `not(a = 1) and b`},
	{strict.Expression, `c or not a between 1 and 2 or b`, `write c or not(a between 1 and 2) or b`, `c or not(a between 1 and 2) or b`},
	{strict.Expression, `"x" & "y"`, "texts can't be joined", ""},
	{strict.Expression, `name & "y"`, "texts can't be joined", ""},
	{strict.Expression, "a & b", "write and in place of &", "a and b"},
	{strict.Expression, "a | b", "write or in place of |", "a or b"},
	{strict.Expression, "a % 2", "write modulo(a, 2)", "modulo(a, 2)"},
	{strict.Expression, "a mod 2", "write modulo(a, 2)", "modulo(a, 2)"},
	{strict.Expression, "b + a.c % 2 = 0", "write b + modulo(a.c, 2) = 0", "b + modulo(a.c, 2) = 0"},
	{strict.Expression, "(a + 1) % (b + 2)", "write modulo((a + 1), (b + 2))", "modulo((a + 1), (b + 2))"},
	{strict.Expression, "a is null", "write a = null", "a = null"},
	{strict.Expression, "a is not null", "write a != null", "a != null"},
	{strict.Expression, "a >= 5 and <= 7", "write a >= 5 and a <= 7", "a >= 5 and a <= 7"},
	{strict.Expression, "if a + 1 < 5 or > 7 then 1 else 2", "write if a + 1 < 5 or a + 1 > 7 then 1 else 2", "if a + 1 < 5 or a + 1 > 7 then 1 else 2"},
	{strict.Expression, "a = < 5", "write a <= 5", "a <= 5"},
	{strict.Expression, "a =< 5", "write a <= 5", "a <= 5"},
	{strict.Expression, "a > = 5", "write a >= 5", "a >= 5"},
	{strict.Expression, "a == 5", "write = in place of ==", "a = 5"},
	{strict.Expression, "a <> 5", "write != in place of <>", "a != 5"},
	{strict.Expression, "a && b", "write and in place of &&", "a and b"},
	{strict.Expression, "a || b", "write or in place of ||", "a or b"},
	{strict.Expression, "1 < a < 3", hintChain, "1 < a and a < 3"},
	{strict.Expression, "10%", hintDecimal, ""},
	{strict.Expression, "a % ", hintDecimal, ""},
	{strict.UnaryTests, "not", "", ""},
	{strict.Expression, "a and <", "", ""},
}

// TestHintsThatMend compares each hint with the expected one, and reads the mended text.
func TestHintsThatMend(t *testing.T) {
	for _, row := range mendRows {
		stop := strict.StopOf(row.kind, row.text)
		if hint := hintOf(row.kind, row.text, stop); hint != row.hint {
			t.Errorf("%q: %q, and %q is due", row.text, hint, row.hint)
		}
		if reads(row.kind, row.text) || row.applied != "" && !reads(row.kind, row.applied) {
			t.Errorf("%q has a reading, or %q has none", row.text, row.applied)
		}
		if _, instead, ok := strings.Cut(row.hint, "write "); ok && !strings.Contains(instead, " in place of ") && !strings.Contains(instead, " for ") && instead != row.applied {
			t.Errorf("%q: the hint leads to %q, and %q is due", row.text, instead, row.applied)
		}
	}
}

// TestMendsAreRead applies the mends found for random changes of valid texts: the result always has a reading.
func TestMendsAreRead(t *testing.T) {
	words := []string{"a", "5", "not", "<", "=", ">", "and", "or", "%", "mod", "is", "null", "|", "&", "(", ")", "[", "]", ",", "..", "to", "in", "between", `"x"`}
	for _, kind := range []strict.Kind{strict.Expression, strict.UnaryTests} {
		for number := 0; number < len(words)*len(words)*len(words); number++ {
			var parts []string
			for rest := number; rest > 0; rest /= len(words) {
				parts = append(parts, words[rest%len(words)])
			}
			text := strings.Join(parts, " ")
			if reads(kind, text) {
				continue
			}
			if mended := mend(kind, text, strict.StopOf(kind, text)); mended != "" && !reads(kind, mended) {
				t.Fatalf("%q: %q has no reading", text, mended)
			}
		}
	}
}
