package tell

import (
	"encoding/json"
	"strings"
	"testing"
)

// comingTable returns a model with a table over an age and a kind, and the engine's first line about it.
func comingTable(output string) (model, first string) {
	return `{"model":{"inputs":["age","kind"],"decisions":[{"name":"fee","needs":["age","kind"],"expr":{"table":{"hit":"U","inputs":["age","kind"],` +
			`"outputs":[` + output + `],"rules":[{"when":["< 65","\"new\""],"then":["1"]},{"when":["> 70","-"],"then":["2"]},` +
			`{"when":["< 65","\"new\", \"used\""],"then":["3"]}]}}}],"services":[{"name":"s","outputs":["fee"],"encapsulated":[],` +
			`"inputDecisions":[],"inputData":["age","kind"]}]},"domains":{"age":"[0..120]","kind":"\"new\", \"used\""}}`,
		`{"lawful":true,"inputs":["age","kind"],"decisions":[{"name":"fee","kind":"table"}],"services":[{"name":"s","parameters":["age","kind"]}]}`
}

const (
	comingPlace = `"table":"/decisions/0/expr/table"`
	comingLine  = `{` + comingPlace + `,"comes":true,`
	comingGap   = `{"finding":"gap","rules":[],"witness":[65,"new"],"cells":[{"from":65,"to":70},{"texts":["new","used"]}],"asked":true}`
	nullGap     = `{"finding":"gap","rules":[],"witness":[null,"new"],"cells":[{"null":true},{"texts":["new","used"]}],"asked":true}`
	comingTwo   = `{"finding":"overlap","rules":[0,2],"witness":[0,"new"],"cells":[{"from":0,"to":64},{"texts":["new"]}]}`
)

// comingAnswers are the answers about a table: the same for each scope.
func comingAnswers(complete, unique string) string {
	return comingLine + `"complete":` + complete + `,"asked":` + complete + `,"words":` + complete + `,"unique":` + unique + `,"steps":9}`
}

// TestComing words a table that was looked at for what can come.
func TestComing(t *testing.T) {
	const table = `table: line 1, column 101: decisions[0] "fee": 3 rules, U: `
	for name, it := range map[string]struct {
		output string
		lines  []string
		due    string
	}{
		"complete": {`{"name":"r"}`, []string{comingAnswers("true", "true")},
			table + "complete for what can come, no two rules overlap\n"},
		"a gap": {`{"name":"r"}`, []string{comingAnswers("false", "true"), comingGap},
			table + "not complete for what can come, no two rules overlap\n" +
				`  no rule: age [65..70], kind "new" or "used"    e.g. 65, "new"    null` + "\n"},
		"two gaps, and more": {`{"name":"r","default":"0"}`, []string{comingAnswers("false", "true"), comingGap, nullGap, `{"finding":"gap","more":7}`},
			table + "not complete for what can come, no two rules overlap\n" +
				`  no rule: age [65..70], kind "new" or "used"    e.g. 65, "new"    the default` + "\n" +
				`  no rule: age null, kind "new" or "used"    e.g. null, "new"    the default` + "\n" +
				"  and 7 more gaps\n"},
		"an overlap": {`{"name":"r"}`, []string{comingAnswers("true", "false"), comingTwo},
			table + "complete for what can come, rules overlap\n" +
				`  rules 1 and 3 both apply: age [0..64], kind "new"    U gives null` + "\n"},
		"undecided": {`{"name":"r"}`, []string{strings.Replace(comingAnswers("null", "true"), "}", `,"undecided":{"rules":[1]}}`, 1)},
			table + "not decided, no two rules overlap for what can come\n" +
				"  not decided: rule 2 has tests that names or lists decide, or that break a limit\n"},
	} {
		model, first := comingTable(it.output)
		got := checked(t, CheckOptions{Tables: true}, 0, model, append([]string{first}, it.lines...)...)
		if _, tables, _ := strings.Cut(got, "  s(age, kind)\n"); tables != it.due {
			t.Errorf("%s: %s, and %s is due", name, tables, it.due)
		}
	}
}

// TestComingInJSON has the scope in the table's line, and gaps as they are of other tables.
func TestComingInJSON(t *testing.T) {
	model, first := comingTable(`{"name":"r"}`)
	const place = comingPlace + `,"line":1,"column":101,`
	const due = `{` + place + `"comes":true,"complete":false,"asked":false,"words":false,"unique":true,"steps":9}` + "\n" +
		`{"finding":"gap",` + place + `"rules":[],"witness":[65,"new"],"inputs":{"age":65,"kind":"new"},"cells":[[{"from":65,"to":70}],` +
		`[{"text":"new"},{"text":"used"}]],"asked":true}` + "\n"
	lines := []string{comingAnswers("false", "true"), comingGap}
	got := checked(t, CheckOptions{Tables: true, Format: JSON}, 0, model, append([]string{first}, lines...)...)
	if _, tables, _ := strings.Cut(got, "\n"); tables != due {
		t.Errorf("%s, and %s is due", tables, due)
	}
	reported, err := TableLines([]byte(model), []json.RawMessage{json.RawMessage(lines[0]), json.RawMessage(lines[1])})
	if err != nil || len(reported) != 2 || string(reported[0])+"\n"+string(reported[1])+"\n" != due {
		t.Errorf("%v: %s, and %s is due", err, reported, due)
	}
}

// TestComingAsNotices has a notice for a gap, an error under --strict, and none for other kinds of values.
func TestComingAsNotices(t *testing.T) {
	model, first := comingTable(`{"name":"r"}`)
	options := CheckOptions{Tables: true, Strict: true, Format: GitHub}
	got := checked(t, options, 4, model, first, comingAnswers("false", "true"), comingGap, nullGap)
	if strings.Count(got, "::error title=table-gap::") != 2 || strings.Contains(got, otherKinds) {
		t.Error(got)
	}
}

// TestComingDefaults warns of no default that other values take, but of one that none does.
func TestComingDefaults(t *testing.T) {
	for rules, due := range map[string]bool{
		`{"when":["< 65"],"then":["1"]},{"when":[">= 65"],"then":["2"]}`: false,
		`{"when":["< 65"],"then":["1"]},{"when":["-"],"then":["2"]}`:     true,
	} {
		model := `{"inputs":["age"],"decisions":[{"name":"fee","needs":["age"],"expr":{"table":{"hit":"F","inputs":["age"],` +
			`"outputs":[{"name":"r","default":"0"}],"rules":[` + rules + `]}}}],"services":[]}`
		first := `{"lawful":true,"inputs":["age"],"decisions":[{"name":"fee","kind":"table"}],"services":[]}`
		got := checked(t, CheckOptions{Tables: true}, 0, model, first, comingLine+`"complete":true,"asked":true,"words":true,"steps":2}`)
		if strings.Contains(got, "the default is never taken") != due {
			t.Errorf("%s: %s", rules, got)
		}
	}
}
