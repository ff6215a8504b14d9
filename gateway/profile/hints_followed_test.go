package profile_test

import (
	"fmt"
	"strings"
	"testing"

	"gateway/profile"
)

// A followedHint is a text that is refused, words of its hint, the text that follows it, and requests with the answers,
// which are what the refused text means by the standard. The answers are worked out by hand.
type followedHint struct {
	// inputs are "name:type", or "name:"; meant are those of the text that follows the hint.
	inputs, text, hint, meant, follows string
	due                                [][2]string
}

var hintTypes = `<itemDefinition name="tList" isCollection="true"><typeRef>number</typeRef></itemDefinition>` +
	`<itemDefinition name="tTexts" isCollection="true"><typeRef>string</typeRef></itemDefinition>`

// hintFile returns a file with a decision q over inputs.
func hintFile(inputs, text string) string {
	parts, needs := []string{hintTypes}, strings.Fields(inputs)
	for i, it := range needs {
		name, of, _ := strings.Cut(it, ":")
		of = strings.ReplaceAll(of, "_", " ")
		parts, needs[i] = append(parts, input(name, of)), name
	}
	return definitions(append(parts, decision("q", "", literal(text), needs...))...)
}

// holdHints follows hints.
func holdHints(t *testing.T, hints []followedHint) {
	d := startDesk(t)
	for _, c := range hints {
		_, came := dateAnswer(t, d, hintFile(c.inputs, c.text), `{}`, profile.Options{})
		if !strings.HasPrefix(came, "refused: ") || !strings.Contains(came, "; instead: "+c.hint) {
			t.Errorf("%s: %q is due, and it is %s", c.text, c.hint, came)
		}
		if c.meant == "" {
			c.meant = c.inputs
		}
		for _, pair := range c.due {
			if _, came := dateAnswer(t, d, hintFile(c.meant, c.follows), pair[0], profile.Options{}); came != pair[1] {
				t.Errorf("%s for %s, of %s: %s is due, and %s came", c.follows, c.text, pair[0], pair[1], came)
			}
		}
	}
}

// ofX returns values of one input x with the expected answers.
func ofX(of ...string) (due [][2]string) {
	for i := 0; i < len(of); i += 2 {
		due = append(due, [2]string{fmt.Sprintf(`{"x":%s}`, of[i]), of[i+1]})
	}
	return due
}

// TestHintsOfNumbersAreFollowed follows the hints of quotients, powers, roundings and functions of numbers.
func TestHintsOfNumbersAreFollowed(t *testing.T) {
	const quotient = "the products first and the division last, as x * 0.05 / 12, or a rounding round the quotient: decimal(x / 3, 2)"
	holdHints(t, []followedHint{
		{"x:number", "x / 12 * 0.05", quotient, "", "x * 0.05 / 12", ofX("12", "0.05", "-600", "-2.5", "100.2", "0.4175", "null", "null")},
		{"x:number", "decimal(x / 3 + 1, 2)", quotient, "", "decimal((x + 3) / 3, 2)", ofX("10", "4.33", "-4", "-0.33", "null", "null")},
		{"x:number", "sum([x / 4, x / 3])", quotient, "", "sum([decimal(x / 4, 2), decimal(x / 3, 2)])", ofX("12", "7", "0", "0", "null", "null")},
		{"x:number", "x ** -1 > 0.3", "a * a for a ** 2; a / b for a power below 0", "", "1 / x > 0.3", ofX("3", "true", "4", "false", "0", "null", "null", "null")},
		{"x:number", "x ** 9", "a * a for a ** 2", "", "x * x * x * x * x * x * x * x * x", ofX("2", "512", "-1", "-1", "null", "null")},
		{"x:number", "x ** -2 < 0.25", "a * a for a ** 2; a / b for a power below 0", "", "1 / (x * x) < 0.25", ofX("2", "false", "-3", "true", "0", "null")},
		{"x:number n:number", "decimal(x, n)", "a literal: decimal(x, 2)", "x:number", "decimal(x, 2)", ofX("1.5", "1.5", "null", "null")},
		{"x", "min(x, 3)", "the type number for what it is taken of", "x:number", "min(x, 3)", ofX("2", "2", "4", "3", "null", "null")},
		{"x", "max(x)", "the type number for what it is taken of", "x:tList", "max(x)", ofX("[1,3]", "3", "[]", "null")},
		{"x", "count(x)", "a list type for it", "x:tList", "count(x)", ofX("[1,3]", "2", "[]", "0")},
		{"x y", "x + y", "the type number for one of them", "x:number y", "x + y", [][2]string{{`{"x":1,"y":2}`, "3"}, {`{"x":1,"y":"a"}`, "null"}}},
		{"x y:number", "x / y = x", "the type number for it", "x:number y:number", "x / y = x",
			[][2]string{{`{"x":1,"y":2}`, "false"}, {`{"x":-2,"y":1}`, "true"}, {`{"x":1,"y":0}`, "false"}}},
	})
}

// TestHintsOfTestsAreFollowed follows the hints of ranges, lists and tests.
func TestHintsOfTestsAreFollowed(t *testing.T) {
	holdHints(t, []followedHint{
		{"x:number", "x = [1..5]", "x between low and high", "", "x between 1 and 5", ofX("1", "true", "5", "true", "6", "false", "null", "null")},
		{"x:number", "x in ([1, [5..7]])", "the tests without brackets round them, as 1, [5..7]", "", "x in (1, [5..7])",
			ofX("1", "true", "6", "true", "2", "false")},
		{"x:string", "x instance of Any", "number, string, boolean or list", "", "x instance of string", ofX(`"a"`, "true", "null", "false")},
		{"x", "list contains(x, 1)", "a list of numbers, texts or booleans by its declared type, and a value of theirs", "x:tList", "list contains(x, 1)",
			ofX("[1,2]", "true", "[2]", "false", "[]", "false")},
		{"x", "list contains(x, \"a\")", "a list of numbers, texts or booleans by its declared type, and a value of theirs", "x:tTexts",
			`list contains(x, "a")`, ofX(`["a"]`, "true", `["b"]`, "false", "[]", "false")},
		{"x:string", "x = Ready", "a text stands in quotes", "", `x = "Ready"`, ofX(`"Ready"`, "true", `"a"`, "false", "null", "false")},
	})
}

// TestHintsOfTimesAreFollowed follows the hints of dates, times and durations, and of their parts.
func TestHintsOfTimesAreFollowed(t *testing.T) {
	const pointed, years, days = "x:date", "x:years_and_months_duration", "x:days_and_time_duration"
	holdHints(t, []followedHint{
		{pointed, "day of week(x) = \"Monday\"", "d.weekday, which is 1 for Monday", "", "x.weekday = 1", ofX(`"2026-11-30"`, "true", `"2026-11-29"`, "false")},
		{pointed, "month of year(x) = \"November\"", "d.month", "", "x.month = 11", ofX(`"2026-11-30"`, "true", `"2026-12-01"`, "false")},
		{pointed, "x.hour", "year, month, day or weekday", "", "x.year + x.month + x.day + x.weekday", ofX(`"2026-11-30"`, "2068", "null", "null")},
		{years, "x.days", "years or months", "", "x.years * 12 + x.months", ofX(`"P1Y6M"`, "18", `"-P1Y6M"`, "-18")},
		{years, "-x", "a duration times -1", "", "x * -1", ofX(`"P1Y6M"`, `"-P1Y6M"`, "null", "null")},
		{days, "-x", "a duration times -1", "", "x * -1", ofX(`"P1DT1S"`, `"-P1DT1S"`, `"-P2D"`, `"P2D"`)},
		{days, "x * 1.5", "a whole number: floor(n)", "", "x * floor(1.5)", ofX(`"P2D"`, `"P2D"`)},
		{days, "x.months", "years and months duration(a, b).months of two dates", "a:date b:date", "years and months duration(a, b).months",
			[][2]string{{`{"a":"2026-01-31","b":"2026-04-30"}`, "2"}, {`{"a":"2026-01-30","b":"2026-04-30"}`, "3"}}},
		{pointed + " y:date_and_time", "x < y", "date(x) of the date and time", "", "x < date(y)",
			[][2]string{{`{"x":"2026-01-31","y":"2026-01-31T23:59:59"}`, "false"}, {`{"x":"2026-01-31","y":"2026-02-01T00:00:00"}`, "true"}}},
		{pointed + " y:date_and_time", "x = y", `date(x) of the date and time, date and time(d, time("00:00:00")) of the date`, "",
			`date and time(x, time("00:00:00")) = y`,
			[][2]string{{`{"x":"2026-01-31","y":"2026-01-31T00:00:00"}`, "true"}, {`{"x":"2026-01-31","y":"2026-01-31T00:00:01"}`, "false"}}},
		{pointed, "x = 31", `date("2026-01-31") for a date; of a date its parts: d.year, d.month, d.day`, "", "x.day = 31",
			ofX(`"2026-01-31"`, "true", `"2026-01-30"`, "false")},
		{"n:number", "date(n, 1, 31)", "date(2026, 1, 31), or an input of the type date", "n:number", "date(2026, 1, 31)",
			[][2]string{{`{"n":2026}`, `"2026-01-31"`}}},
		{"n:number", "time(n, 30, 0)", "time(12, 30, 0), or an input of the type time", "n:number", "time(12, 30, 0)", [][2]string{{`{"n":12}`, `"12:30:00"`}}},
		{"x:date y:date", "x + y", `a duration for one of them, as d + duration("P30D")`, "x:date y:days_and_time_duration", "x + y",
			[][2]string{{`{"x":"2026-01-31","y":"P30D"}`, `"2026-03-02"`}}},
		{"x:date y:date", "sum([x, y])", "a number", "", "sum([x.year, y.year])", [][2]string{{`{"x":"2026-01-31","y":"2025-01-01"}`, "4051"}}},
		{"x:date y", "x = y", "the type date for the other one, declared", "x:date y:date", "x = y",
			[][2]string{{`{"x":"2026-01-31","y":"2026-01-31"}`, "true"}, {`{"x":"2026-01-31","y":"2025-01-01"}`, "false"}}},
	})
}

// TestHintsOfTablesAreFollowed follows the hints of tables: the whole logic is written as they say.
func TestHintsOfTablesAreFollowed(t *testing.T) {
	d := startDesk(t)
	rows := func(attributes, values, fallback string, cells ...string) string {
		all := make([][]string, len(cells))
		for i, cell := range cells {
			all[i] = []string{"-", cell}
		}
		return table(attributes, []column{{text: "x"}}, []column{{text: "r", of: "number", values: values, fallback: fallback}}, all...)
	}
	for _, c := range []struct{ name, refused, hint, written, inputs, due string }{
		{"a sum of quotients", rows(`hitPolicy="COLLECT" aggregation="SUM"`, "", "", "x / 3", "x / 7"), "a rounding in each output entry",
			rows(`hitPolicy="COLLECT" aggregation="SUM"`, "", "", "decimal(x / 3, 2)", "decimal(x / 7, 2)"), `{"x":1}`, "0.47"},
		{"a quotient under output values", rows(`hitPolicy="FIRST"`, "0.25,0.33", "", "1 / x"), "the products first and the division last",
			rows(`hitPolicy="FIRST"`, "0.25,0.33", "", "decimal(1 / x, 2)"), `{"x":3}`, "0.33"},
		{"a default of a count", rows(`hitPolicy="COLLECT" aggregation="COUNT"`, "", "0.5", "x"), "a whole number",
			rows(`hitPolicy="COLLECT" aggregation="COUNT"`, "", "1", "x"), `{"x":3}`, "1"},
	} {
		of := func(logic string) string { return definitions(input("x", "number"), decision("q", "", logic, "x")) }
		_, came := dateAnswer(t, d, of(c.refused), `{}`, profile.Options{})
		if !strings.HasPrefix(came, "refused: ") || !strings.Contains(came, "; instead: "+c.hint) {
			t.Errorf("%s: %q is due, and it is %s", c.name, c.hint, came)
		}
		if _, came := dateAnswer(t, d, of(c.written), c.inputs, profile.Options{}); came != c.due {
			t.Errorf("%s: %s is due, and %s came", c.name, c.due, came)
		}
	}
}
