package tell

import (
	"encoding/json"
	"fmt"
	"strings"
	"testing"
)

// TestTextForNumber warns of a text where all tests of a parameter, or of its entry, ask for numbers.
func TestTextForNumber(t *testing.T) {
	const (
		isText = "line 2: p is a text, and all its tests ask for numbers"
		// Two columns of p, in one table; "n" is a decision that is a parameter too.
		form = `{"inputs":["p","q"],"decisions":[{"name":"d","needs":["p","q"],"expr":{"table":{"hit":"F","inputs":[%s,%s],` +
			`"outputs":[{"name":"x"}],"rules":[{"when":[%s,%s],"then":["1"]},{"when":[%s,%s],"then":[%s]}]}}}],` +
			`"services":[{"name":"s","outputs":["d"],"encapsulated":[],"inputDecisions":[],"inputData":["p","q"]}]}`
	)
	for _, row := range []struct {
		// columns, the tests of two rules, and what the last rule gives
		columns, one, other [2]string
		gives, inputs, due  string
	}{
		{[2]string{"p", "q"}, [2]string{"< 5", "-"}, [2]string{"[5..7]", "-"}, "2", `{"p":"6","q":1}`, isText + ": 6?\n"},
		{[2]string{"p", "q"}, [2]string{"< 5", "-"}, [2]string{"-", "-"}, "2", `{"p":"six","q":1}`, isText + "\n"},
		{[2]string{"p", "q"}, [2]string{"< 5", "-"}, [2]string{"-", "-"}, "2", `{"p":"06","q":1}`, isText + "\n"},
		{[2]string{"p", "q"}, [2]string{"< 5", "-"}, [2]string{"-", "-"}, "2", `{"p":6,"q":"1"}`, ""},
		{[2]string{"p", "q"}, [2]string{"< 5", "-"}, [2]string{"-", "-"}, "2", `{"p":null,"q":1}`, ""},
		{[2]string{"p", "q"}, [2]string{"-3", "-"}, [2]string{"1, 2", "-"}, "2", `{"p":"-3","q":1}`, isText + ": -3?\n"},
		// An entry of a parameter.
		{[2]string{"p.age", "q"}, [2]string{"< 5", "-"}, [2]string{">= 5", "-"}, "2", `{"p":{"age":"6"},"q":1}`,
			"line 2: p.age is a text, and all its tests ask for numbers: 6?\n"},
		{[2]string{"p.age", "q"}, [2]string{"< 5", "-"}, [2]string{">= 5", "-"}, "2", `{"p":{"age":6,"name":"x"},"q":1}`, ""},
		// Tests that a text may meet, or that a name decides.
		{[2]string{"p", "q"}, [2]string{"< 5", "-"}, [2]string{`"none"`, "-"}, "2", `{"p":"6","q":1}`, ""},
		{[2]string{"p", "q"}, [2]string{"< 5", "-"}, [2]string{"not(7)", "-"}, "2", `{"p":"6","q":1}`, ""},
		{[2]string{"p", "q"}, [2]string{"< 5", "-"}, [2]string{"q", "-"}, "2", `{"p":"6","q":1}`, ""},
		{[2]string{"p", "q"}, [2]string{"-", "-"}, [2]string{"-", "-"}, "2", `{"p":"6","q":1}`, ""},
		{[2]string{"p", "p"}, [2]string{"< 5", "-"}, [2]string{"-", `"none"`}, "2", `{"p":"6","q":1}`, ""},
		{[2]string{"p", "p"}, [2]string{"< 5", "-"}, [2]string{"-", "6"}, "2", `{"p":"6","q":1}`, isText + ": 6?\n"},
		// It is compared with a text elsewhere.
		{[2]string{"p", "q"}, [2]string{"< 5", "-"}, [2]string{"-", "-"}, `if p = "none" then 1 else 2`, `{"p":"6","q":1}`, ""},
		{[2]string{"p", "q"}, [2]string{"< 5", "-"}, [2]string{"-", "-"}, "if p = 7 then 1 else 2", `{"p":"6","q":1}`, isText + ": 6?\n"},
		{[2]string{"p", "q"}, [2]string{"< 5", "-"}, [2]string{"-", "-"}, "p + 1", `{"p":"6","q":1}`, isText + ": 6?\n"},
	} {
		text := func(s string) string { b, _ := json.Marshal(s); return string(b) }
		model := fmt.Sprintf(form, text(row.columns[0]), text(row.columns[1]), text(row.one[0]), text(row.one[1]), text(row.other[0]),
			text(row.other[1]), text(row.gives))
		input := model + "\n" + `{"client":"c","service":"s","inputs":` + row.inputs + "}\n"
		reported, err := Told(CheckOptions{Requests: true}, []byte(input), []byte(`{"lawful":true}`))
		var found string
		for _, line := range strings.SplitAfter(string(reported), "\n") {
			if strings.HasPrefix(line, "line 2: ") {
				found += line
			}
		}
		if err != nil || found != row.due {
			t.Errorf("%+v: %v, %q, and %q is due", row, err, found, row.due)
		}
	}
}

// TestManyTexts counts the notes past the first 1,000.
func TestManyTexts(t *testing.T) {
	const model = `{"inputs":["p","q"],"decisions":[{"name":"d","needs":["p"],"expr":` +
		`{"table":{"hit":"F","inputs":["p"],"outputs":[{"name":"x"}],"rules":[{"when":["> 5"],"then":["1"]}]}}}],` +
		`"services":[{"name":"s","outputs":["d"],"encapsulated":[],"inputDecisions":[],"inputData":["p"]}]}`
	const lines = 1500
	// On each line q is not a parameter, and p is a text.
	input := model + "\n" + strings.Repeat(`{"client":"c","service":"s","inputs":{"p":"6","q":1}}`+"\n", lines)
	reported, err := Told(CheckOptions{Requests: true}, []byte(input), []byte(`{"lawful":true}`))
	if count := strings.Count(string(reported), "\nline "); err != nil || count != mostNotes || !strings.HasSuffix(string(reported), "\nand 2000 notes more\n") {
		t.Errorf("%v: %d notes, and %q", err, count, reported[len(reported)-40:])
	}
}

// TestTextForHiddenNumber has no note on a parameter whose name a context entry has too.
func TestTextForHiddenNumber(t *testing.T) {
	const model = `{"inputs":["p"],"decisions":[{"name":"d","needs":["p"],"expr":{"context":[{"name":"p","expr":"1"}],"result":` +
		`{"table":{"hit":"F","inputs":["p"],"outputs":[{"name":"x"}],"rules":[{"when":["> 5"],"then":["1"]}]}}}}],` +
		`"services":[{"name":"s","outputs":["d"],"encapsulated":[],"inputDecisions":[],"inputData":["p"]}]}`
	input := model + "\n" + `{"client":"c","service":"s","inputs":{"p":"6"}}` + "\n"
	reported, err := Told(CheckOptions{Requests: true}, []byte(input), []byte(`{"lawful":true}`))
	if err != nil || strings.Contains(string(reported), "line 2: ") {
		t.Errorf("%v: %s", err, reported)
	}
}
