package profile_test

import (
	"strings"
	"testing"

	"gateway/profile"
)

// timedFile returns a file with a decision q over dates and times.
func timedFile(text string) string {
	return hintFile("a:date_and_time b:date_and_time d:date t:time n:number", text)
}

func offset(names ...string) profile.Options { return profile.Options{Offsets: names} }

// TestHintsOfOffsetsAreFollowed follows the hints of times with an offset, and of what may not be added to times.
func TestHintsOfOffsetsAreFollowed(t *testing.T) {
	const noon, utc = `date and time("2026-01-31T12:00:00")`, `date and time("2026-01-31T12:00:00Z")`
	const both = "both with an offset, an input by --offset NAME, or both without one"
	alone := [][2]string{{`{"a":"2026-01-31T11:59:59"}`, "true"}, {`{"a":"2026-01-31T12:00:00"}`, "false"}}
	zoned := [][2]string{{`{"a":"2026-01-31T13:59:59+02:00"}`, "true"}, {`{"a":"2026-01-31T11:59:59-00:30"}`, "false"}}
	days := [][2]string{{`{"a":"2026-02-03T13:00:00+01:00"}`, `"P3D"`}, {`{"a":"2026-01-31T12:00:00Z"}`, `"PT0S"`}}
	holdFiledHints(t, []filedHint{
		{name: "a literal with an offset", refused: timedFile("a < " + noon), asked: offset("a"), hint: both, written: timedFile("a < " + utc), said: offset("a"), due: zoned},
		{name: "neither has one", refused: timedFile("a < " + noon), asked: offset("a"), hint: both, written: timedFile("a < " + noon), due: alone},
		{name: "two literals", refused: timedFile(`@"2026-01-31T12:00:00Z" = ` + noon), hint: both, written: timedFile(`@"2026-01-31T12:00:00Z" = date and time("2026-01-31T14:00:00+02:00")`),
			due: [][2]string{{"{}", "true"}}},
		{name: "times of day", refused: timedFile(`t < time("12:00:00")`), asked: offset("t"), hint: both, written: timedFile(`t < time("12:00:00Z")`), said: offset("t"),
			due: [][2]string{{`{"t":"13:30:00+02:00"}`, "true"}, {`{"t":"12:30:00Z"}`, "false"}}},
		{name: "an offset of no input", refused: timedFile("a < b"), asked: offset("c"), hint: "the name of an input", written: timedFile("a < b"), said: offset("a"),
			due: [][2]string{{`{"a":"2026-01-31T12:00:00+02:00","b":"2026-01-31T11:00:00Z"}`, "true"}}},
		{name: "as a value, compared", refused: timedFile("a"), asked: offset("a"), hint: "a comparison, a duration, or times without an offset", written: timedFile("a < " + utc),
			said: offset("a"), due: zoned},
		{name: "as a value, a duration", refused: timedFile("a"), asked: offset("a"), hint: "a comparison, a duration, or times without an offset", written: timedFile("a - " + utc),
			said: offset("a"), due: days},
		{name: "as a value, without", refused: timedFile("a"), asked: offset("a"), hint: "a comparison, a duration, or times without an offset", written: timedFile("a"),
			due: [][2]string{{`{"a":"2026-01-31T12:00:00"}`, `"2026-01-31T12:00:00"`}}},
		{name: "a month later", refused: timedFile(`a + duration("P1M") > ` + utc), hint: "a days and time duration, or a date and time without an offset",
			written: timedFile(`a + duration("P31D") > ` + utc), due: [][2]string{{`{"a":"2025-12-31T13:00:01+01:00"}`, "true"}, {`{"a":"2025-12-31T13:00:00+01:00"}`, "false"}}},
		{name: "a month later, without", refused: timedFile(`a + duration("P1M") > ` + utc), hint: "a days and time duration, or a date and time without an offset",
			written: timedFile(`a + duration("P1M") > ` + noon), due: [][2]string{{`{"a":"2025-12-31T12:00:01"}`, "true"}, {`{"a":"2025-12-31T12:00:00"}`, "false"}}},
		{name: "an hour of it", refused: timedFile("a.hour > 5 and a > " + utc), hint: "a date and time without an offset", written: timedFile("b.hour > 5 and a > " + utc),
			due: [][2]string{{`{"a":"2026-01-31T13:00:01+01:00","b":"2026-01-31T06:00:00"}`, "true"}, {`{"a":"2026-01-31T13:00:01+01:00","b":"2026-01-31T05:59:59"}`, "false"}}},
		{name: "a date of it", refused: timedFile("date(a) = d and a > " + utc), hint: `date("2026-01-31"), or an input of the type date`, written: timedFile(`date("2026-01-31") = d and a > ` + utc),
			due: [][2]string{{`{"a":"2026-01-31T13:00:01+01:00","d":"2026-01-31"}`, "true"}, {`{"a":"2026-01-31T13:00:01+01:00","d":"2026-02-01"}`, "false"}}},
		{name: "hours by a number", refused: timedFile("t + 2"), hint: `t + 2 * duration("PT1H"), of whole numbers`, written: timedFile(`t + 2 * duration("PT1H")`),
			due: [][2]string{{`{"t":"12:30:00"}`, `"14:30:00"`}, {`{"t":"23:30:00"}`, `"01:30:00"`}, {`{"t":null}`, "null"}}},
		{name: "days by a number", refused: timedFile("a - n"), hint: `a - n * duration("P1D"), of whole numbers`, written: timedFile(`a - n * duration("P1D")`),
			due: [][2]string{{`{"a":"2026-03-01T08:00:00","n":1}`, `"2026-02-28T08:00:00"`}, {`{"a":"2026-03-01T08:00:00","n":null}`, "null"}}},
		{name: "months of a time", refused: hintFile("x:years_and_months_duration t:time", "t + x"), hint: "a days and time duration",
			written: hintFile("x:days_and_time_duration t:time", "t + x"), due: [][2]string{{`{"x":"PT90M","t":"23:00:00"}`, `"00:30:00"`}}},
		{name: "a duration of either kind", refused: hintFile("x:years_and_months_duration y:days_and_time_duration", "x + y"), hint: "durations of one type",
			written: hintFile("x:years_and_months_duration y:years_and_months_duration", "x + y"), due: [][2]string{{`{"x":"P11M","y":"P1Y2M"}`, `"P2Y1M"`}}},
		{name: "what has no type", refused: hintFile("x:date y", "x + y"), hint: "a declared type for what has none", written: hintFile("x:date y:days_and_time_duration", "x + y"),
			due: [][2]string{{`{"x":"2026-01-31","y":"P1D"}`, `"2026-02-01"`}}},
		{name: "a date in a text", refused: hintFile("x:date", `"until " + x`), hint: "a context of the parts, which the caller joins",
			written: hintFile("x:date", `{text: "until ", day: x}`), due: ofX(`"2026-01-31"`, `{"day":"2026-01-31","text":"until "}`)},
		{name: "weeks between dates", refused: hintFile("x:date y:date", `(x - y) / duration("P7D")`), hint: "its parts, as (a - b).days / 7",
			written: hintFile("x:date y:date", "(x - y).days / 7"), due: [][2]string{{`{"x":"2026-01-31","y":"2026-01-17"}`, "2"}, {`{"x":"2026-01-17","y":"2026-01-31"}`, "-2"}}},
	})
}

// TestHintsOfOptionsAreFollowed follows the hints that name an option of the import: --free-inputs, --clock,
// --decimals.
func TestHintsOfOptionsAreFollowed(t *testing.T) {
	const drawn = "a text stands in quotes; a decision or an input needs its requirement drawn, and is called by its name"
	columned := func(of string) string { // a table with one undeclared column
		return table(`hitPolicy="FIRST"`, []column{{text: "speed", of: of}}, []column{{text: "r"}}, []string{"<= 3", "0"}, []string{"> 3.5", "30"})
	}
	speeds := [][2]string{{`{"speed":3}`, "0"}, {`{"speed":3.5}`, "null"}, {`{"speed":3.75}`, "30"}, {`{"speed":null}`, "null"}}
	lone, typeless := definitions(decision("q", "", columned("number"))), definitions(decision("q", "", columned("")))
	declared := definitions(input("speed", "number"), decision("q", "", columned("number"), "speed"))
	contrary := func(of string) string {
		return decision("e", "", table("", []column{{text: "speed", of: of}}, []column{{text: "r"}}, []string{"-", "1"}))
	}
	three := func(logic string) string {
		return definitions(input("x", "number"), decision("e", "number", literal(logic), "x"), decision("q", "", literal("e > 1"), "d:e"))
	}
	counted := func(decimals int) profile.Options {
		return profile.Options{Decimals: &profile.Decimals{All: -1, Named: map[string]int{"x": 2, "e": decimals}}}
	}
	const clocked = "--clock ZONE, as --clock Europe/Berlin; or an input of the type date"
	either := hintFile("x:tList y:tList f:boolean", "if f then x else y")
	holdFiledHints(t, []filedHint{
		{name: "lists counted otherwise", refused: either, asked: profile.Options{Decimals: &profile.Decimals{All: -1, Named: map[string]int{"x": 2, "y": 1}}},
			hint: "as many decimals for all of them, as by --decimals", written: either, said: profile.Options{Decimals: &profile.Decimals{All: 2}},
			due: [][2]string{{`{"x":[0.25],"y":[1.5],"f":false}`, "[1.5]"}, {`{"x":[0.25],"y":[1.5],"f":true}`, "[0.25]"}}},
		{name: "a column that nothing declares", refused: lone, hint: drawn + "; or --free-inputs, which makes an input of it, with the type of its column", written: lone, said: free,
			due: speeds},
		{name: "the same, drawn", refused: lone, hint: drawn, written: declared, due: speeds},
		{name: "without a type", refused: typeless, asked: free, hint: drawn, written: declared, due: speeds},
		{name: "of two types", refused: definitions(decision("q", "", columned("number")), contrary("string")), asked: free,
			hint: "one type for it, or an input of this name, drawn and required", written: definitions(decision("q", "", columned("number")), contrary("number")), said: free, due: speeds},
		{name: "of two types, drawn", refused: definitions(decision("q", "", columned("number")), contrary("string")), asked: free,
			hint:    "one type for it, or an input of this name, drawn and required",
			written: definitions(input("speed", "number"), decision("q", "", columned("number"), "speed"), decision("e", "", columned("number"), "speed")), due: speeds},
		{name: "the day, by a clock", refused: hintFile("x:date", "x < today()"), hint: clocked, written: hintFile("x:date", "x < today()"), said: profile.Options{Clock: "UTC"},
			due: [][2]string{{`{"x":"2026-01-30","today":"2026-01-31"}`, "true"}, {`{"x":"2026-01-31","today":"2026-01-31"}`, "false"}}},
		{name: "the day, by an input", refused: hintFile("x:date", "x < today()"), hint: clocked, written: hintFile("x:date y:date", "x < y"),
			due: [][2]string{{`{"x":"2026-01-30","y":"2026-01-31"}`, "true"}, {`{"x":"2026-01-31","y":"2026-01-31"}`, "false"}}},
		{name: "more decimals than are said", refused: three("x * 0.5"), asked: counted(2), hint: `--decimals "e=3", or a rounding in it`, written: three("x * 0.5"), said: counted(3),
			due: ofX("2", "false", "2.01", "true")},
		{name: "a rounding to those that are said", refused: three("x * 0.5"), asked: counted(2), hint: `--decimals "e=3", or a rounding in it`, written: three("decimal(x * 0.5, 2)"),
			said: counted(2), due: ofX("2.01", "false", "2.02", "true")},
		{name: "half a day", refused: hintFile("x:days_and_time_duration n:number", "x * n"), asked: profile.Options{Decimals: &profile.Decimals{All: 1}},
			hint: "a whole number: floor(n), or an input of the type number, by --decimals NAME=0", written: hintFile("x:days_and_time_duration n:number", "x * n"),
			said: profile.Options{Decimals: &profile.Decimals{All: 1, Named: map[string]int{"n": 0}}}, due: [][2]string{{`{"x":"PT1H","n":3}`, `"PT3H"`}, {`{"x":"PT1H","n":-1}`, `"-PT1H"`}}},
		{name: "half a day, rounded", refused: hintFile("x:days_and_time_duration n:number", "x * n"), asked: profile.Options{Decimals: &profile.Decimals{All: 1}},
			hint: "a whole number: floor(n), or an input of the type number, by --decimals NAME=0", written: hintFile("x:days_and_time_duration n:number", "x * floor(n)"),
			said: profile.Options{Decimals: &profile.Decimals{All: 1}}, due: [][2]string{{`{"x":"PT1H","n":3.5}`, `"PT3H"`}, {`{"x":"PT1H","n":-0.5}`, `"-PT1H"`}}},
	})
}

// TestRoundingsOfLaterVersionsAreNoted tests the roundings that version 1.3 of the standard lacks.
func TestRoundingsOfLaterVersionsAreNoted(t *testing.T) {
	for name, later := range map[string]bool{"decimal": false, "floor": false, "ceiling": false, "round up": true, "round down": true, "round half up": true,
		"round half down": true} {
		report := run(t, profile.Options{}, overNumber(literal("k(a) + "+name+"(a / 3, 2)"), knowledge("k", []string{"p"}, literal(name+"(p, 1)")), "k:k"))
		want := 0
		if later {
			want = 2
		}
		if report.Result == nil {
			t.Errorf("%s: %s", name, said(report.Refusals))
		} else if got := said(report.Result.Notes); strings.Count(got, name+" is of DMN 1.4 and rounds as there") != want {
			t.Errorf("%s: the notes are %s", name, got)
		}
	}
}
