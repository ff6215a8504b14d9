package tell

import (
	"strings"
	"testing"
)

// twoRules returns a model with one table, whose rules have these tests.
func twoRules(hit, first, second, fallback string) string {
	return `{"inputs":["a"],"decisions":[{"name":"d","needs":["a"],"expr":{"table":{"hit":"` + hit + `","inputs":["a"],"outputs":[{"name":"x"` + fallback + `}],` +
		`"rules":[{"when":["` + first + `"],"then":["1"]},{"when":["` + second + `"],"then":["2"]}]}}}],` +
		`"services":[{"name":"s","outputs":["d"],"encapsulated":[],"inputDecisions":[],"inputData":["a"]}]}`
}

// TestReportedOnce leaves out warnings that table findings repeat, and warns of defaults that are never taken.
func TestReportedOnce(t *testing.T) {
	const table = `{"table":"/decisions/0/expr/table","complete":`
	for name, row := range map[string]struct {
		model, facts string
		due          []string
	}{
		"an overlap, without the tables": {twoRules("U", "> 5", ">5", ""), "", []string{"rule 1 has the same tests"}},
		"an overlap": {twoRules("U", "> 5", ">5", ""),
			table + `false,"unique":false}` + "\n" + `{"finding":"overlap","rules":[0,1],"witness":[6],"cells":[{"from":6,"to":9}]}`, nil},
		"a rule that never hits": {twoRules("C", "[65..18)", "-", ""),
			table + `true}` + "\n" + `{"finding":"never","rules":[0]}`, nil},
		"another rule that never hits": {twoRules("C", "-", "[65..18)", ""),
			table + `true}` + "\n" + `{"finding":"never","rules":[0]}`, []string{"no value meets [65..18)"}},
		"a masked rule": {twoRules("F", "-", "5", ""),
			table + `true}` + "\n" + `{"finding":"masked","rules":[1],"before":[0]}`, nil},
		"a default":               {twoRules("C", "-", "5", `,"default":"0"`), table + `true}`, []string{`output 1 "x", default: some rule hits in each case`}},
		"a default that is taken": {twoRules("C", "4", "5", `,"default":"0"`), table + `false}`, nil},
	} {
		reported, err := Told(CheckOptions{Tables: true}, []byte(row.model), []byte(`{"lawful":true}`+"\n"+row.facts+"\n"))
		if err != nil {
			t.Errorf("%s: %v", name, err)
		}
		var warnings []string
		for _, line := range strings.Split(string(reported), "\n") {
			if strings.HasPrefix(line, "warning: ") {
				warnings = append(warnings, line)
			}
		}
		if len(warnings) != len(row.due) || len(warnings) == 1 && !strings.Contains(warnings[0], row.due[0]) {
			t.Errorf("%s: %q, and %q is due", name, warnings, row.due)
		}
	}
}
