package lines

import "testing"

// TestStops compares stops with those worked out by hand.
func TestStops(t *testing.T) {
	for _, row := range []struct {
		text         string
		line, column int
		due          Due
	}{
		{`{"a":1], "b":2}`, 1, 7, DueCommaOrBrace},
		{`{"a":1]`, 1, 7, DueCommaOrBrace},
		{`[1}, 2]`, 1, 3, DueCommaOrBracket},
		{`{1:2}`, 1, 2, DueKeyOrBrace},
		{`{"k":"v",{`, 1, 10, DueKey},
		{`]`, 1, 1, DueValue},
		{"][1]", 1, 1, DueValue},
		{"", 1, 0, DueValue},
		{"{\n}}", 2, 2, DueEnd},
		{"[1,\n", 2, 0, DueValue},
		{`{"a"`, 1, 4, DueColon},
		{`{"a":`, 1, 5, DueValue},
		{`["a`, 1, 2, DueQuote},
		{`["a\`, 1, 2, DueQuote},
		{`["a\u12`, 1, 2, DueQuote},
		{`["a\u12"]`, 1, 2, WrongString},
		{`["a\ud800"]`, 1, 2, WrongString},
		{"[\"a\tb\"]", 1, 2, WrongString},
		{"[01]", 1, 2, WrongNumber},
		{"[1.]", 1, 2, WrongNumber},
		{"[-x]", 1, 2, WrongNumber},
		{"[1a]", 1, 2, WrongNumber},
		{"[tru", 1, 2, DueValueOrBracket},
		{"[trues]", 1, 2, DueValueOrBracket},
		{"[1e400]", 1, 7, LargeNumber},
		{"{\"a\":\"\xe9\"}", 1, 7, NoUTF8},
	} {
		stop := StopOf([]byte(row.text))
		if stop == nil || *stop != (Stop{row.line, row.column, row.due}) {
			t.Errorf("%q: %+v, and line %d, column %d, %q is due", row.text, stop, row.line, row.column, row.due)
		}
	}
	for _, text := range []string{"1", ` {"a":[1,{"b":"\ud83d\ude00"}]} `, "[]", "-0", "1e308"} {
		if stop := StopOf([]byte(text)); stop != nil {
			t.Errorf("%q stops: %+v", text, stop)
		}
	}
}

// TestDocument finds values by place, also for repeated keys and keys with escapes.
func TestDocument(t *testing.T) {
	d := NewDocument([]byte("{\"a\":[1,\n {\"b\":2}],\"c\":3, \"\\u0061\":[true,null]}"))
	if d == nil {
		t.Fatal("it is no JSON")
	}
	a, ok := d.Member(d.Whole, "a")
	item, is := d.Item(a, 1)
	if !ok || !is || d.Kind(item) != 'n' {
		t.Errorf("%v, %v: %s", ok, is, d.Raw(item))
	}
	if line, column := d.Position(a); line != 2 || column != 27 {
		t.Errorf("line %d, column %d", line, column)
	}
	if _, repeated := d.InOrder(d.Whole); len(repeated) != 1 || repeated[0].Key != "a" {
		t.Errorf("repeated: %v", repeated)
	}
	if members := d.Members(d.Whole); len(members) != 2 || members[0].Key != "a" || string(d.Raw(members[0].Value)) != "[true,null]" {
		t.Errorf("members: %v", members)
	}
	if NewDocument([]byte("[1")) != nil {
		t.Error("half a list is read")
	}
}

// TestParts splits lists and objects one level deep.
func TestParts(t *testing.T) {
	for text, due := range map[string]int{`[]`: 0, `{}`: 0, `[1]`: 1, `[1,[2,3],"a,\"]"]`: 3, `{"a":1,"b":{"c":[1,2]}}`: 4} {
		if parts := Parts([]byte(text)); len(parts) != due {
			t.Errorf("%s: %q", text, parts)
		}
	}
}
