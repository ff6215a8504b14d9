package profile_test

import (
	"strings"
	"testing"

	"gateway/profile"
	"gateway/types"
)

// seasons returns a table over d, whose entries give their numbers from 1.
func seasons(attributes, of string, entries ...string) string {
	var rows [][]string
	for i, entry := range entries {
		rows = append(rows, []string{entry, string(rune('1' + i))})
	}
	return table(attributes, []column{{text: "d", of: of}}, []column{{text: "season", of: "number"}}, rows...)
}

// outcomes returns a table over b that gives one of two values.
func outcomes(attributes string, out column, yes, no string) string {
	return table(attributes, []column{{text: "b", of: "boolean"}}, []column{out}, []string{"true", yes}, []string{"false", no})
}

// dateTables are a file's logic, the type of its decision, a request, and the expected answer.
var dateTables = []struct{ logic, of, inputs, due string }{
	{seasons("", "date", `< date("2026-03-01")`, `[date("2026-03-01")..date("2026-06-01"))`, `>= @"2026-06-01"`), "", `{"d":"2026-02-28"}`, "1"},
	{seasons("", "date", `< date("2026-03-01")`, `[date("2026-03-01")..date("2026-06-01"))`, `>= @"2026-06-01"`), "", `{"d":"2026-05-31"}`, "2"},
	{seasons("", "date", `< date("2026-03-01")`, `[date("2026-03-01")..date("2026-06-01"))`, `>= @"2026-06-01"`), "", `{"d":"2026-06-01"}`, "3"},
	{seasons("", "date", `< date("2026-03-01")`), "", `{}`, "null"},
	{seasons("", "date", `null`, `-`), "", `{}`, "null"},
	{seasons(`hitPolicy="FIRST"`, "date", `null`, `-`), "", `{}`, "1"},
	{seasons("", "date", `date("2026-12-24"), date("2026-12-25")`), "", `{"d":"2026-12-25"}`, "1"},
	{seasons("", "date", `not(date("2026-12-24"), date("2026-12-25"))`), "", `{"d":"2026-12-25"}`, "null"},
	{seasons("", "date", `not(date("2026-12-24"), > date("2027-01-01"))`), "", `{"d":"2026-12-25"}`, "1"},
	{seasons("", "date", `e`), "", `{"d":"2026-12-25","e":"2026-12-25"}`, "1"},
	{seasons("", "date", `[e..f]`, `l`), "", `{}`, "refused: not written out"},
	{seasons("", "date", `[e..f]`), "", `{"d":"2026-12-25","e":"2026-12-25","f":"2026-12-25"}`, "1"},
	{seasons("", "date", `< e + duration("P1M")`), "", `{"d":"2026-02-28","e":"2026-01-31"}`, "null"},
	{seasons("", "date", `<= e + duration("P1M")`), "", `{"d":"2026-02-28","e":"2026-01-31"}`, "1"},
	{seasons("", "date", `?.month in [6..8]`, `?.weekday > 5`), "", `{"d":"2026-08-31"}`, "1"},
	{seasons("", "date", `?.month in [6..8]`, `?.weekday > 5`), "", `{"d":"2026-11-29"}`, "2"},
	{seasons("", "date", `? + duration("P1D") > e`), "", `{"d":"2026-11-29","e":"2026-11-29"}`, "1"},
	{seasons("", "date", `5`), "", `{}`, "refused: date meets one of the type number"},
	{seasons("", "date", `< 20260101`), "", `{}`, "refused: date meets one of the type number"},
	{seasons("", "date", `[1..5]`), "", `{}`, "refused: date meets one of the type number"},
	{seasons("", "date", `not(5)`), "", `{}`, "refused: date meets one of the type number"},
	{seasons("", "date", `"2026-01-01"`), "", `{}`, "refused: date meets one of the type string"},
	{seasons("", "date", `n`), "", `{}`, "refused: date meets one of the type number"},
	{seasons("", "date", `u`), "", `{}`, "refused: may be a condition or a list"},
	{seasons("", "date", `> u`), "", `{}`, "refused: date meets one of the type Any"},
	{seasons("", "date", `? = n`), "", `{}`, "refused: date meets one of the type number"},
	{seasons("", "number", `5`), "", `{}`, "refused: of the type date, where number is declared"},
	{table("", []column{{text: "n", of: "number"}}, []column{{text: "r"}}, []string{`date("2026-01-01")`, "1"}), "", `{}`, "refused: date meets one of the type number"},
	{table("", []column{{text: "n", of: "number"}}, []column{{text: "r"}}, []string{`> d`, "1"}), "", `{}`, "refused: date meets one of the type number"},
	{table("", []column{{text: "u", of: "date"}}, []column{{text: "r"}}, []string{`> date("2026-01-01")`, "1"}), "", `{"u":"2026-01-02"}`, "1"},
	{table("", []column{{text: "u"}}, []column{{text: "r"}}, []string{`> date("2026-01-01")`, "1"}), "", `{}`, "refused: date meets one of the type Any"},
	{table("", []column{{text: "t"}}, []column{{text: "r"}}, []string{`> duration("PT30M")`, "1"}, []string{`<= @"PT30M"`, "2"}), "", `{"t":"PT30M"}`, "2"},
	{table("", []column{{text: "d - e"}}, []column{{text: "r"}}, []string{`> duration("P30D")`, "1"}, []string{"-", "2"}), "", `{"d":"2026-03-04","e":"2026-02-01"}`, "null"},
	{table("", []column{{text: "d - e"}}, []column{{text: "r"}}, []string{`> duration("P30D")`, "1"}, []string{"<= @\"P30D\"", "2"}), "", `{"d":"2026-03-04","e":"2026-02-01"}`, "1"},
	{table("", []column{{text: "years and months duration(d, e)"}}, []column{{text: "r"}}, []string{`>= duration("P18Y")`, "1"}), "", `{"d":"2008-02-29","e":"2026-03-01"}`, "1"},
	// Outputs.
	{outcomes("", column{text: "day", of: "date"}, `date("2026-01-31")`, `d + duration("P1D")`), "date", `{"b":false,"d":"2026-02-28"}`, `"2026-03-01"`},
	{outcomes("", column{text: "day", of: "date"}, `date("2026-01-31")`, `d + duration("P1D")`), "date", `{"b":true,"d":"9999-12-31"}`, `"2026-01-31"`},
	{outcomes("", column{text: "day", of: "date"}, `date("2026-01-31")`, `d + duration("P1D")`), "date", `{"b":false,"d":"9999-12-31"}`, "limit"},
	{outcomes("", column{text: "day", of: "date", fallback: "e"}, `d`, `null`), "date", `{"e":"2026-02-28"}`, `"2026-02-28"`},
	{outcomes("", column{text: "day", of: "date"}, `date("2026-01-31")`, `5`), "", `{}`, "refused: of the type number, where date is declared"},
	{outcomes("", column{text: "day"}, `date("2026-01-31")`, `5`), "", `{}`, "refused: date meets one of the type number"},
	{outcomes("", column{text: "day"}, `d`, `u`), "", `{}`, "refused: date meets one of the type Any"},
	{outcomes("", column{text: "day", fallback: "5"}, `d`, `e`), "", `{}`, "refused: date meets one of the type number"},
	{outcomes("", column{text: "day"}, `d`, `e`), "number", `{}`, "refused: of the type date, where number is declared"},
	{outcomes(`hitPolicy="COLLECT"`, column{text: "day"}, `d`, `e`), "tDates", `{"b":false,"e":"2026-02-28"}`, `["2026-02-28"]`},
	{outcomes(`hitPolicy="COLLECT" aggregation="SUM"`, column{text: "day"}, `d`, `e`), "", `{}`, "refused: a sum of dates"},
	{outcomes(`hitPolicy="COLLECT" aggregation="MAX"`, column{text: "day"}, `d`, `e`), "", `{"b":false,"e":"2026-02-28"}`, `"2026-02-28"`},
	{outcomes(`hitPolicy="COLLECT" aggregation="COUNT"`, column{text: "day"}, `d`, `e`), "", `{"b":false,"e":"2026-02-28"}`, `1`},
	{table("", []column{{text: "b"}}, []column{{text: "day"}, {text: "count"}}, []string{"true", "d", "n"}, []string{"false", "e", "3"}), "", `{"b":false,"e":"2026-02-28"}`, `{"count":3,"day":"2026-02-28"}`},
	{outcomes("", column{text: "day", values: `date("2026-01-31"), date("2026-02-28")`}, `d`, `e`), "", `{"b":true,"d":"2026-02-28"}`, `"2026-02-28"`},
	{outcomes("", column{text: "day", values: `date("2026-01-31"), date("2026-02-28")`}, `d`, `e`), "", `{"b":true,"d":"2026-02-27"}`, "null"},
	{outcomes("", column{text: "day", values: `[date("2026-01-31")..date("2026-02-28")]`}, `d`, `e`), "", `{"b":true,"d":"2026-03-01"}`, "null"},
	// Declared types.
	{literal("d"), "number", `{}`, "refused: of the type date, where number is declared"},
	{literal("n"), "date", `{}`, "refused: of the type number, where date is declared"},
	{literal("u"), "date", `{"u":"2026-02-28"}`, `"2026-02-28"`},
	{literal("if b then u else null"), "date", `{"b":true,"u":"2026-02-28"}`, `"2026-02-28"`},
	{literal("if b then u else n"), "date", `{}`, "refused: another type than date"},
	{literal("d"), "Any", `{"d":"2026-02-28"}`, `"2026-02-28"`},
	{literal("d"), "string", `{}`, "refused: of the type date, where string is declared"},
	{literal("[d, e]"), "list", `{"d":"2026-02-28","e":"2026-03-01"}`, `["2026-02-28","2026-03-01"]`},
	{literal("{day: d}"), "tLoose", `{"d":"2026-02-28"}`, `{"day":"2026-02-28"}`},
	{literal("{day: d, x: n}"), "tCase", `{"d":"2026-02-28","n":2}`, `{"day":"2026-02-28","x":2}`},
	{literal("{day: n, x: n}"), "tCase", `{}`, "refused: of the type number, where date is declared"},
	{literal("{day: d, x: n, more: e}"), "tCase", `{"d":"2026-02-28","n":2,"e":"2026-03-01"}`, `{"day":"2026-02-28","more":"2026-03-01","x":2}`},
	{boxedContext("x", literal("d + duration(\"P1M\")"), "y", literal("x.month")), "", `{"d":"2026-12-31"}`, `{"x":"2027-01-31","y":1}`},
	{"<list>" + literal("d") + literal("n") + "</list>", "", `{}`, "refused: date meets one of the type number"},
	{"<list>" + literal("d") + literal("e") + "</list>", "", `{"d":"2026-02-28"}`, `["2026-02-28",null]`},
	{relation([]string{"p", "q"}, []string{"d", "1"}, []string{`date("2026-01-01")`, "2"}), "", `{"d":"2026-02-28"}`, `[{"p":"2026-02-28","q":1},{"p":"2026-01-01","q":2}]`},
	{relation([]string{"p"}, []string{"d"}, []string{"2"}), "", `{}`, "refused: date meets one of the type number"},
	{"<conditional><if>" + literal("b") + "</if><then>" + literal("d") + "</then><else>" + literal("n") + "</else></conditional>", "", `{}`, "refused: date meets one of the type number"},
	{"<conditional><if>" + literal("b") + "</if><then>" + literal("d + duration(\"P1Y\")") + "</then><else>" + literal("d") + "</else></conditional>", "", `{"d":"9999-01-01"}`, `"9999-01-01"`},
	// An untyped value hides a number, but {day: d} of tLoose is still known to have a date.
	{boxedContext("x", strings.Replace(literal("{day: d}"), "<literalExpression>", `<literalExpression typeRef="tLoose">`, 1), "y", literal("x.day = 5")), "", `{}`, "refused: date meets one of the type number"},
	{boxedContext("x", strings.Replace(literal("[d]"), "<literalExpression>", `<literalExpression typeRef="list">`, 1), "y", literal("x = [5]")), "", `{}`, "refused: date meets one of the type number"},
	{boxedContext("x", strings.Replace(literal("d"), "<literalExpression>", `<literalExpression typeRef="Any">`, 1), "y", literal("x + 5")), "", `{}`, "refused: the sum of values of the types date and number"},
	{boxedContext("x", literal("if b then [d] else []"), "y", literal("x = [5]")), "", `{}`, "refused: date meets one of the type number"},
	{boxedContext("x", literal("if b then {day: d} else null"), "y", literal("x.day < 5")), "", `{}`, "refused: date meets one of the type number"},
	{boxedContext("x", literal("if b then {day: d} else {a: 1}"), "y", literal("x")), "", `{}`, "refused: context meets one of the type context"},
	{boxedContext("x", literal("[{day: d}].day"), "y", literal("x = [5]")), "", `{}`, "refused: date meets one of the type number"},
}

// TestDateTables checks the answers of tables and boxed expressions.
func TestDateTables(t *testing.T) {
	d := startDesk(t)
	for _, row := range dateTables {
		file := definitions(append(dateParts(), decision("q", row.of, row.logic, dateNeeds...))...)
		result, came := dateAnswer(t, d, file, row.inputs, profile.Options{})
		if why := strings.TrimPrefix(row.due, "refused: "); why != row.due {
			if !strings.HasPrefix(came, "refused: ") || !strings.Contains(came, why) {
				t.Errorf("%s of %s: %s is due, and it is %s", row.logic, row.inputs, row.due, came)
			}
		} else if came != row.due {
			t.Errorf("%s of %s: %s is due, and %s came", row.logic, row.inputs, row.due, came)
			if result != nil {
				t.Log(logicOf(t, result, "q"))
			}
		}
	}
}

// TestDateSchemas tests the schemas of dates and durations with allowed values, and what they accept.
func TestDateSchemas(t *testing.T) {
	for _, c := range []struct{ of, allowed, schema, takes, refuses, why string }{
		{"date", "", `{"format":"date","type":["string","null"]}`, "2024-02-29", "2023-02-29", "February 2023 has 28 days"},
		{"date", `date("2026-01-31"), @"2026-02-28", null`, `{"enum":["2026-01-31","2026-02-28",null],"format":"date","type":["string","null"]}`, "2026-02-28", "2026-03-31", "allowed values"},
		{"date", `[date("2026-01-31")..date("2026-02-28")]`, `{"format":"date","formatMaximum":"2026-02-28","formatMinimum":"2026-01-31","type":["string","null"]}`,
			"2026-01-31", "2026-03-01", "at most 2026-02-28"},
		{"date", `(date("2026-01-31")..date("2026-02-28"))`, `{"format":"date","formatExclusiveMaximum":"2026-02-28","formatExclusiveMinimum":"2026-01-31","type":["string","null"]}`,
			"2026-02-01", "2026-01-31", "more than 2026-01-31"},
		{"days and time duration", "", `{"format":"duration","type":["string","null"],"unit":"second"}`, "P1DT2H", "P1Y", "is no days and time duration"},
		{"yearMonthDuration", `duration("P12M"), duration("P2Y")`, `{"enum":["P1Y","P2Y",null],"format":"duration","type":["string","null"],"unit":"month"}`, "P24M", "P3Y", "allowed values"},
		{"dayTimeDuration", `[duration("PT0S")..duration("P1D")]`, `{"format":"duration","formatMaximum":"P1D","formatMinimum":"PT0S","type":["string","null"],"unit":"second"}`,
			"PT24H", "PT24H1S", "at most P1D"},
	} {
		allowed := ""
		if c.allowed != "" {
			allowed = "<allowedValues><text>" + escaper.Replace(c.allowed) + "</text></allowedValues>"
		}
		file := definitions(`<itemDefinition name="tIt"><typeRef>`+c.of+`</typeRef>`+allowed+`</itemDefinition>`, input("i", "tIt"), decision("q", "", literal("i"), "i"))
		result := taken(t, file)
		if string(result.Types["i"]) != c.schema {
			t.Errorf("%s of %s: the schema is %s, and due is %s", c.allowed, c.of, result.Types["i"], c.schema)
		}
		of, err := types.Read(result.Types["i"])
		if err != nil {
			t.Fatal(err)
		}
		if units, fault := of.Units(c.takes); fault != nil {
			t.Errorf("%s of %s: %v", c.takes, c.of, fault)
		} else if of.Decimals(units) == units {
			t.Errorf("%s of %s has no text", units, c.of)
		}
		if _, fault := of.Units(c.refuses); fault == nil || !strings.Contains(fault.Reason, c.why) {
			t.Errorf("%s of %s: %s is due, and %v came", c.refuses, c.of, c.why, fault)
		}
	}
}

// TestUndeclaredDates tests an input that is a date by its column only, with decimals for numbers.
func TestUndeclaredDates(t *testing.T) {
	d := startDesk(t)
	for _, logic := range []string{
		table("", []column{{text: "u", of: "date"}, {text: "x", of: "number"}}, []column{{text: "r"}}, []string{`[date("2026-01-01")..date("2026-12-31")]`, "> 0.5", "x * 0.5"}),
		table("", []column{{text: "u", of: "date"}, {text: "x", of: "number"}}, []column{{text: "r"}}, []string{`?.year = 2026 and ? + duration("P1D") > date("2026-01-01")`, "-", "x * 0.5"}),
	} {
		for _, file := range []string{definitions(input("u", ""), input("x", ""), decision("q", "", logic, "u", "x")), definitions(decision("q", "", logic))} {
			options := profile.Options{FreeInputs: true, Decimals: &profile.Decimals{All: 2}}
			if _, came := dateAnswer(t, d, file, `{"u":"2026-12-31","x":1.5}`, options); came != "0.75" {
				t.Errorf("0.75 is due, and %s came: %s", came, logic)
			}
		}
	}
}
