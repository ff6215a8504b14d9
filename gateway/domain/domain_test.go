package domain

import (
	"fmt"
	"strings"
	"testing"

	"gateway/lines"
)

func tree(t *testing.T, text string) any {
	t.Helper()
	value, err := lines.Tree([]byte(text))
	if err != nil {
		t.Fatal(err)
	}
	return value
}

// TestHas are worked out by hand: of a domain, values in it and values outside, in JSON, each with a blank around it.
func TestHas(t *testing.T) {
	for _, it := range []struct{ domain, in, out string }{
		{"-", `null true 0 "" [] {} [null]`, ``},
		{" - ", `null 5`, ``},
		{">= 0", `0 1 9223372036854775807`, `-1 null "0" true [] [1] {}`},
		{"> 0", `1`, `0 null`},
		{"<= 7", `7 -9223372036854775807`, `8`},
		{"<7", `6 -0`, `7`},
		{"[0..120]", `0 60 120`, `-1 121 "60" null [60]`},
		{"(0..120)", `1 119`, `0 120`},
		{"]0..120[", `1 119`, `0 120`},
		{"[0..120)", `0 119`, `-1 120`},
		{"(0..120]", `1 120`, `0 121`},
		{"[5..1]", ``, `1 3 5`},
		{"[0..9], [20..29]", `0 9 20 29`, `-1 10 19 30`},
		{"[0..9], null", `0 null`, `10 false`},
		{"< 5, > 70", `4 71`, `5 70`},
		{"-5", `-5`, `5 -4`},
		{"[-5..-3]", `-5 -3`, `-6 -2`},
		{"007, 9223372036854775807", `7 9223372036854775807`, `8 -9223372036854775807`},
		{`"ja", "nein"`, `"ja" "nein"`, `"Ja" "" null ["ja"]`},
		{`"a\"b\\\n\r\t"`, `"a\"b\\\n\r\t"`, `"a" "a\"b"`},
		{`"ä", null`, `"ä" "\u00e4" null`, `"a"`},
		{`>= ""`, `"" "a"`, `5 null`},
		{`["a".."m"]`, `"a" "lz" "m"`, `"A" "ma" 5`},
		{`> "` + "\uffff" + `"`, `"𝄞"`, `"` + "\uffff" + `"`},
		{"true", `true`, `false null "true"`},
		{"true, false", `true false`, `null 1`},
		{"null", `null`, `0 [] {}`},
		{"not(null)", `0 "" [] {} [null] false`, `null`},
		{"not(< 3)", `3 4`, `2 null "a" []`},
		{`not("a")`, `1 null "b" [] ["a"]`, `"a"`},
		{"not(< 3, > 7)", `3 7`, `2 8 null`},
		{"not([1..5])", `0 6`, `1 5 null`},
		{"not(null, 5)", `4`, `null 5`},
		{"not(not(true))", `true null 1`, `false`},
		{"not(true), 2", `false 2`, `true 1`},
		{"[1, 5]", `1 5 [1,5]`, `2 [1] [5,1] [1,5,5]`},
		{"[[1], null]", `null [1] [[1],null]`, `1 [] [null]`},
		{"[]", `[]`, `null 0`},
		{"not([1, 5])", `2 [1]`, `1 5 [1,5]`},
		{"60 * 24", `1440`, `24 60`},
		{"< 60 * 24 - 1", `1438`, `1439`},
		{"(5)", `5`, `4`},
		{"((1) .. (3))", `2`, `1 3`},
		{"1 = 1", `true`, `1`},
		{"1 = null", `false`, `null`},
		{`1 = "a"`, `null`, `false`},
		{`1 != "a", 2 != 1`, `null true`, `false`},
		{"1 < 2 and 3 > 2", `true`, `false`},
		{"null or true, null and true", `true null`, `false`},
		{"2 between 1 and 3", `true`, `2`},
		{"if 1 > 2 then 9223372036854775807 + 1 else 4", `4`, `0`},
		{"if null then 3 else 4", `4`, `3`},
		{"modulo(-7, 3), modulo(7, -3), modulo(1, 0)", `2 -2 null`, `1 -1`},
		{"abs(-5), abs(null)", `5 null`, `-5`},
		{"sum([1, 2]), min([4, 3, 5]), max([4, 6, 5]), count([7, 7])", `3 6 2`, `4 5 7`},
		{"sum([]), count(5)", `null`, `0`},
		{"sum([9223372036854775807, 1, -2])", `9223372036854775806`, `1`},
		{`-"a", 1 + "a"`, `null`, `"a" 1`},
		{"[1, 2].a", `[null,null] null`, `1 []`},
		{"5.a", `null`, `5`},
		{"not(1 = 1)", `false null`, `true`},
		// Each is worked out, and one breaks a limit.
		{"1, < 9223372036854775807 + 1", ``, `1 0 null`},
		{"not(9223372036854775807 + 1)", ``, `1 null`},
		{"9223372036854775807 * 2 - 9223372036854775807", ``, `9223372036854775807`},
		{"if true then 1 else 9223372036854775807 + 1", `1`, `2`},
		{"sum([9223372036854775807, 1])", ``, `0`},
	} {
		d, is := Read(it.domain)
		if !is {
			t.Errorf("%s can't be read", it.domain)
			continue
		}
		for _, text := range strings.Fields(it.in) {
			if !d.Has(tree(t, text)) && text != "-0" {
				t.Errorf("%s: %s is outside", it.domain, text)
			}
		}
		for _, text := range strings.Fields(it.out) {
			if d.Has(tree(t, text)) {
				t.Errorf("%s: %s is inside", it.domain, text)
			}
		}
		for _, text := range []string{"1.5", "1e2", "-0", "9223372036854775808", `[1.0]`, `{"a":1.5}`} {
			if d.Has(tree(t, text)) && !d.isAny {
				t.Errorf("%s: %s is no number of the engine", it.domain, text)
			}
		}
	}
}

// TestRefused are texts that are no domain.
func TestRefused(t *testing.T) {
	for _, text := range []string{"", " ", "q", "< q", "[1..q]", "1, q", "not(q)", "if true then 1 else q", "[1..", "= 5", "1.5", "1e2", `"a`, `"\u0061"`,
		"9223372036854775808", "'a'", "1,", ",1", "- , 1", "not()", "date(1)", "sum(1, 2)", "abs(q)", "[q].a", "[1..2", "{a: 1}", "?", "? > 5",
		strings.Repeat("(", 64) + "1" + strings.Repeat(")", 64)} {
		if _, is := Read(text); is {
			t.Errorf("%q is read", text)
		}
	}
}

// TestWords are worked out by hand.
func TestWords(t *testing.T) {
	for _, it := range [][2]string{
		{"-", "any value"},
		{">= 0", "at least 0"},
		{"> 0, < -5", "more than 0 or less than -5"},
		{"<= 9", "at most 9"},
		{"[0..120]", "from 0 to 120"},
		{"(0..120)", "more than 0 and less than 120"},
		{"]0..120]", "more than 0 and at most 120"},
		{"[0..120[", "at least 0 and less than 120"},
		{"[0..9], [20..29], null", "from 0 to 9, from 20 to 29 or null"},
		{`"ja", "ne\"in"`, `"ja" or "ne\"in"`},
		{"true, false, null", "true, false or null"},
		{">= -9223372036854775807", "a number"},
		{`>= "", null`, "a text or null"},
		{`["a".."m"]`, `from "a" to "m"`},
		{"60 * 24", "1440"},
		{"[1, 5]", "1, 5 or [1,5]"},
		{"not(null)", "anything but null"},
		{`not("a", "b", null)`, `anything but "a", "b" or null`},
		{"not(< 3)", "at least 3"},
		{"not(< 3, > 7)", "at least 3, and at most 7"},
		{"not([1..5])", "less than 1 or more than 5"},
		{"not((1..5), 7)", "at most 1 or at least 5, and not 7"},
		{"< 9223372036854775807 + 1", "a value of its domain, which has none: a test breaks a limit"},
	} {
		d, is := Read(it[0])
		if !is {
			t.Errorf("%s can't be read", it[0])
			continue
		}
		if got := d.Words(func(tree any) any { return tree }); got != it[1] {
			t.Errorf("%s: %s, and %s is due", it[0], got, it[1])
		}
	}
	d, _ := Read("[737425..737456), null")
	if got := d.Words(func(tree any) any { return fmt.Sprintf("the day %v", tree) }); got != `at least "the day 737425" and less than "the day 737456" or "the day <nil>"` {
		t.Errorf("as callers write them: %s", got)
	}
}

// TestExample has a value of each domain.
func TestExample(t *testing.T) {
	for _, it := range [][2]string{{"-", "1"}, {"[5..9]", "5"}, {"(5..9)", "6"}, {"< 5", "4"}, {"5, 6", "5"}, {"null", "null"}, {`> "b"`, `"ba"`}, {`"x"`, `"x"`},
		{"not(1)", `"text"`}, {"not(< 3)", "3"}, {"true, false", "true"}, {"[[1]]", "[1]"}, {"(5..6)", ""}, {"[9..1]", ""}, {"9223372036854775807 + 1", ""},
		{"< -9223372036854775807", ""}, {"> 9223372036854775807", ""}} {
		d, _ := Read(it[0])
		example, isFound := d.Example()
		if got := string(lines.Compact(nil, example)); isFound != (it[1] != "") || isFound && got != it[1] {
			t.Errorf("%s: %s, and %s is due", it[0], got, it[1])
		}
	}
}

// TestOutside are worked out by hand: of domains and an input x, the path to what lies outside, its value and its domain.
func TestOutside(t *testing.T) {
	const one, two = `x >= 0`, `x not(null); x.a [0..9]; x.b.c "u", "v"; x.b.d -`
	for _, it := range []struct{ domains, value, due string }{
		{one, `0`, ""},
		{one, ` 7 `, ""},
		{one, `-1`, "/ -1 at least 0"},
		{one, `null`, ""},
		{one, `"a"`, `/ "a" at least 0`},
		{one, `[1]`, `/ [1] at least 0`},
		{one, `9223372036854775807`, ""},
		{one, `-9223372036854775807`, "/ -9223372036854775807 at least 0"},
		{two, `{}`, ""},
		{two, `null`, ""},
		{two, `5`, ""},
		{two, `{"a":9,"b":{"c":"u"},"e":[1,{"a":10}]}`, ""},
		{two, `{"a":null,"b":{"c":null}}`, ""},
		{two, `{"a":10}`, "/a 10 from 0 to 9"},
		{two, `{"a":"x"}`, `/a "x" from 0 to 9`},
		{two, `{"b":{"c":"w"}}`, `/b/c "w" "u" or "v"`},
		{two, `{"b":{"c":"w"},"a":10}`, `/a 10 from 0 to 9`},
		{two, `{"b":7}`, ""},
		{two, `{"a":10,"a":9}`, ""},
		{two, `{"a":9,"a":10}`, `/a 10 from 0 to 9`},
		{two, `{"b":{"c":"w"},"b":{"c":"u"}}`, ""},
		{two, `{"\u0061":10}`, `/a 10 from 0 to 9`},
		{two, `{"\u0061":9,"b":{"c":"\u0075"}}`, ""},
		{two, `{"b":{"c":"\u0077"}}`, `/b/c "w" "u" or "v"`},
		{two, `[]`, `/ [] from 0 to 9`},
		{two, `[{"a":10}]`, `/ [10] from 0 to 9`},
		{two, `{"a":1,"b":[{"c":"u"}]}`, `/b ["u"] "u" or "v"`},
		{`x.a not(null)`, `[{"a":1},{"a":null}]`, ""},
		{`x.a [7, null]`, `[{"a":7},{}]`, ""},
		{`x.a [7, null]`, `[{"a":8},{}]`, "/ [8,null] 7, null or [7,null]"},
	} {
		domains := map[string]string{}
		for _, part := range strings.Split(it.domains, "; ") {
			path, domain, _ := strings.Cut(part, " ")
			domains[path] = domain
		}
		places, unread := Places(domains)
		if unread != nil || len(places) != 1 {
			t.Fatalf("%s: %v", it.domains, unread)
		}
		text, got := []byte(strings.TrimSpace(it.value)), ""
		if found := places["x"].Outside(tree(t, it.value)); found != nil {
			got = fmt.Sprintf("/%s %s %s", strings.Join(found.Path, "/"), lines.Compact(nil, found.Value), found.Domain.Words(func(tree any) any { return tree }))
		}
		if got != it.due || got != "" && places["x"].Holds(text) {
			t.Errorf("%s of %s: %q, and %q is due", it.value, it.domains, got, it.due)
		}
	}
	if places, unread := Places(map[string]string{"x": "q", "x.a": "1", "b": "[1..", "x.b": "2", "x..a": "3", "c.": "4", ".d": "5"}); fmt.Sprint(unread) != "[.d b c. x x..a]" ||
		len(places) != 1 {
		t.Errorf("a name, no end, and empty keys: %v", unread)
	}
}

// TestHoldsMost sees what most requests bring without reading it into a tree.
func TestHoldsMost(t *testing.T) {
	places, unread := Places(map[string]string{"x": "not(null)", "x.a": "[0..99], null", "x.b": `"u", "v"`, "x.c": "not(null)", "y": ">= 0", "z": "true, false"})
	if unread != nil {
		t.Fatal(unread)
	}
	for _, it := range [][2]string{
		{"x", `{"a":5,"b":"u","c":[{"a":100}],"d":{"b":"w"}}`}, {"x", `{}`}, {"x", `{ "a" : 5 , "b" : "v" }`}, {"y", `123456789012345678`},
		{"y", "null"}, {"z", "false"},
	} {
		if !places[it[0]].Holds([]byte(it[1])) {
			t.Errorf("%s isn't seen", it[1])
		}
	}
}

// TestLongLists finds a value among thousands.
func TestLongLists(t *testing.T) {
	texts := make([]string, 50_000)
	for at := range texts {
		texts[at] = fmt.Sprintf(`"t%d"`, at)
	}
	d, is := Read(strings.Join(texts, ", "))
	if !is {
		t.Fatal("it can't be read")
	}
	for at := 0; at < 60_000; at++ {
		if d.Has(fmt.Sprintf("t%d", at)) != (at < len(texts)) {
			t.Fatalf("t%d", at)
		}
	}
	long := "[" + strings.Repeat("1, ", lines.MaxNodes-2) + "1]"
	if d, is := Read(long); !is || !d.Has(tree(t, "1")) {
		t.Error("the longest list")
	}
	if d, is := Read("7, [1, " + long[1:]); !is || d.Has(tree(t, "7")) {
		t.Error("a list that is too long has no value")
	}
}

func BenchmarkHolds(b *testing.B) {
	places, unread := Places(map[string]string{"x": "not(null)", "x.a": "[0..99]", "x.b": `"u", "v"`, "y": ">= 0"})
	if unread != nil {
		b.Fatal(unread)
	}
	object, number := []byte(`{"a":5,"b":"u"}`), []byte("17")
	b.Run("object", func(b *testing.B) {
		for n := 0; n < b.N; n++ {
			places["x"].Holds(object)
		}
	})
	b.Run("number", func(b *testing.B) {
		for n := 0; n < b.N; n++ {
			places["y"].Holds(number)
		}
	})
}
