package profile_test

import (
	"strings"
	"testing"
)

// TestHintsMeanTheSame follows the hint of each refusal that names a form. For each value the suggested form gives what
// the refused expression gives by the standard. The answers are worked out by hand.
func TestHintsMeanTheSame(t *testing.T) {
	listed := `<itemDefinition name="tPart"><itemComponent name="price"><typeRef>number</typeRef></itemComponent></itemDefinition>` +
		`<itemDefinition name="tParts" isCollection="true"><typeRef>tPart</typeRef></itemDefinition>`
	for _, c := range []struct {
		text, of, hint string
		due            [][2]string
	}{
		{"is defined(x)", "", "x != null", [][2]string{{"null", "false"}, {"1", "true"}, {`"a"`, "true"}, {"[]", "true"}, {"false", "true"}}},
		{"get or else(x, 5)", "", "if x = null then 5 else x", [][2]string{{"null", "5"}, {"1", "1"}, {`"a"`, `"a"`}, {"false", "false"}}},
		{"odd(x)", "number", "modulo(x, 2) > 0", [][2]string{{"-3", "true"}, {"-2", "false"}, {"0", "false"}, {"7", "true"}, {"null", "null"}}},
		{"even(x)", "number", "modulo(x, 2) < 1", [][2]string{{"-3", "false"}, {"-2", "true"}, {"0", "true"}, {"7", "false"}, {"null", "null"}}},
		{"even(x + 1)", "number", "modulo((x + 1), 2) < 1", [][2]string{{"-3", "true"}, {"-2", "false"}, {"null", "null"}}},
		{`starts with(x, "AB")`, "string", `x >= "AB" and x < "AC"`, [][2]string{{`"AB"`, "true"}, {`"ABC"`, "true"}, {`"AC"`, "false"},
			{`"A"`, "false"}, {`"AAZ"`, "false"}, {`"AB\u00e9"`, "true"}, {`"AB\ud83d\ude00"`, "true"}, {`""`, "false"}, {`"B"`, "false"}, {"null", "null"}}},
		{`starts with(x, "")`, "string", `x >= ""`, [][2]string{{`""`, "true"}, {`"a"`, "true"}, {"null", "null"}}},
		{`starts with(x, "a` + "\uD7FF" + `")`, "string", "x >= \"a\uD7FF\" and x < \"a\uE000\"",
			[][2]string{{"\"a\uD7FF\"", "true"}, {"\"a\uD7FFz\"", "true"}, {"\"a\uE000\"", "false"}, {`"a"`, "false"}}},
		{`starts with(x, "a` + "\U0010FFFF" + `")`, "string", "x >= \"a\U0010FFFF\" and x < \"b\"",
			[][2]string{{"\"a\U0010FFFFz\"", "true"}, {`"az"`, "false"}, {`"b"`, "false"}}},
		{"for p in x return p.price", "tParts", "x.price", [][2]string{{`[{"price":1},{"price":2}]`, "[1,2]"}, {"[]", "[]"},
			{"null", "null"}, {`[{"price":null}]`, "[null]"}}},
	} {
		t.Run(c.text, func(t *testing.T) {
			refused := refusedWith(t, definitions(listed, input("x", c.of), decision("d", "", literal(c.text), "x")), "")
			if !strings.HasPrefix(refused.Instead, c.hint) {
				t.Errorf("instead: %s", refused.Instead)
			}
			for i := range c.due {
				c.due[i][0] = `{"x":` + c.due[i][0] + `}`
			}
			answers(t, definitions(listed, input("x", c.of), decision("d", "", literal(c.hint), "x")), "d", c.due)
		})
	}
}

// TestHintsOfMeans follows the hints of means, which are compared or rounded as the hint says.
func TestHintsOfMeans(t *testing.T) {
	list := `<itemDefinition name="tNumbers" isCollection="true"><typeRef>number</typeRef></itemDefinition>`
	for _, c := range []struct {
		text, hint, written string
		due                 [][2]string
	}{
		{"mean(x) > 2", "sum(x) / count(x)", "sum(x) / count(x) > 2", [][2]string{{"[100,301]", "true"}, {"[100,300]", "false"}, {"[]", "null"},
			{"null", "null"}, {"[500,null]", "null"}}},
		{"decimal(mean(x), 2)", "sum(x) / count(x)", "decimal(sum(x) / count(x), 2)", [][2]string{{"[100,101]", "100"}, {"[100,103]", "102"},
			{"[100,100,101]", "100"}, {"[]", "null"}, {"[null]", "null"}}},
		{"mean(count(x), 4) > 2", "sum(count(x), 4) / 2", "sum(count(x), 4) / 2 > 2", [][2]string{{"[1]", "true"}, {"[]", "false"}, {"null", "null"}}},
	} {
		parts := []string{list, input("x", "tNumbers")}
		refused := refusedWith(t, definitions(append(parts, decision("d", "", literal(c.text), "x"))...), "no function mean")
		if refused.Instead != c.hint+", compared or rounded" {
			t.Errorf("%s: instead: %s", c.text, refused.Instead)
		}
		for i := range c.due {
			c.due[i][0] = `{"x":` + c.due[i][0] + `}`
		}
		answers(t, definitions(append(parts, decision("d", "", literal(c.written), "x"))...), "d", c.due)
	}
}

// TestHintsThatNameNoForm tests refusals for which no form of the same meaning is known: their hints name none.
func TestHintsThatNameNoForm(t *testing.T) {
	for text, hint := range map[string]string{
		"for p in x return p * 2":  "let the request bring the list that it gives",
		`starts with(x, x)`:        "let the request bring whether it does so",
		`starts with("AB", x)`:     "let the request bring whether it does so",
		`starts with("A")`:         "",
		"for p in 1..x return p.a": "let the request bring the list that it gives",
	} {
		refused := refusedWith(t, definitions(input("x", ""), decision("d", "", literal(text), "x")), "")
		if hint != "" && refused.Instead != hint {
			t.Errorf("%s: instead: %s", text, refused.Instead)
		}
	}
}
