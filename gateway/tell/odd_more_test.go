package tell

import (
	"os"
	"path/filepath"
	"strings"
	"testing"

	"gateway/model"
)

// A sound model. Each row below changes one text of it.
const sound = `{"inputs":["region","a","risk"],"decisions":[
 {"name":"band","needs":["a"],"expr":{"table":{"hit":"U","inputs":["a"],"outputs":[{"name":"x","default":"\"none\""}],"rules":[{"when":["> 5"],"then":["\"high\""]},{"when":["[1..5]"],"then":["\"low\""]}]}}},
 {"name":"fees","needs":["a"],"expr":{"table":{"hit":"C+","inputs":["a"],"outputs":[{"name":"x"}],"rules":[{"when":["> 5"],"then":["3"]},{"when":["> 7"],"then":["3"]}]}}},
 {"name":"d","needs":["region","risk","band","fees","a"],"expr":{"list":["region","risk","band","fees","a","EXPR"]}}],
 "services":[{"name":"s","outputs":["d"],"encapsulated":["band","fees"],"inputDecisions":[],"inputData":["region","a","risk"]}]}`

// warnedOf returns the warnings about a model, each after its kind.
func warnedOf(t *testing.T, text string) []string {
	t.Helper()
	m, err := model.Parse([]byte(text))
	if err != nil {
		t.Fatalf("%s: %v", text, err)
	}
	found, _ := oddities(m)
	reported := []string{}
	for _, it := range found {
		reported = append(reported, it.kind+": "+it.said)
	}
	return reported
}

// slipRows are changes of the sound model and the expected warnings: new replaces EXPR or old. By hand.
var slipRows = []struct{ old, new, due string }{
	{`"EXPR"`, `"1"`, ""},
	{`"EXPR"`, `"if region = \"north\" or \"south\" then 1 else 2"`, `no condition: "south" is neither true nor false; is it region = "south"?`},
	{`"EXPR"`, `"a = 5 or 6"`, "no condition: 6 is neither true nor false; is it a = 6?"},
	{`"EXPR"`, `"a = 5 or a = 6"`, ""},
	{`"EXPR"`, `"a = 5 or true"`, ""},
	{`"EXPR"`, `"risk = \"low\" and risk = \"high\""`, `settled condition: risk = "low" and risk = "high" is never true`},
	{`"EXPR"`, `"risk = \"low\" or risk = \"high\""`, ""},
	{`"EXPR"`, `"risk != \"x\" or risk != \"y\""`, `settled condition: risk != "x" or risk != "y" is never false`},
	{`"EXPR"`, `"risk != \"x\" and risk != \"y\""`, ""},
	{`"EXPR"`, `"region > 5 and region = \"north\""`, `settled condition: region > 5 and region = "north" is never true`},
	{`"EXPR"`, `"a > 5 and a < 3"`, "settled condition: a > 5 and a < 3 is never true"},
	{`"EXPR"`, `"a > 3 and a < 5"`, ""},
	{`"EXPR"`, `"if true then 1 else 2"`, "settled condition: the condition true doesn't depend on anything"},
	{`"EXPR"`, `"if a >= a then 1 else 2"`, "settled condition: the condition a >= a doesn't depend on anything"},
	{`"EXPR"`, `"if a > 1000 then 1 else if a > 5000 then 2 else 3"`, "dead branch: a > 5000 is never true here: a > 1000 comes before it"},
	{`"EXPR"`, `"if a > 5000 then 1 else if a > 1000 then 2 else 3"`, ""},
	{`"EXPR"`, `"sum(fees)"`, "always null: fees never is a list, so sum(fees) is null"},
	{`"EXPR"`, `"sum([fees, 1])"`, ""},
	{`"EXPR"`, `"band * 2"`, "always null: band never is a number, so band * 2 is null"},
	{`"EXPR"`, `"fees * 2"`, ""},
	{`"EXPR"`, `"fees.total"`, "no entry: fees has no entry total, so it is null"},
	{`"EXPR"`, `"risk = TRUE"`, `unbound: "TRUE" is not needed here, so it is null; write true`},
	{`"> 5"],"then":["\"high`, `"< 2026-01-31"],"then":["\"high`, "counted cell: 2026-01-31 is the number 1994; a day is one number, as 20260131"},
	{`"> 5"],"then":["\"high`, `"5-7"],"then":["\"high`, "counted cell: 5-7 is the number -2; an interval has two dots, as [5..7]"},
	{`"> 5"],"then":["\"high`, `"> 7 - a"],"then":["\"high`, ""},
	{`"> 7"],"then":["3"]`, `">5"],"then":["03"]`, "same rule: rule 1 has the same tests and gives the same, so it counts twice"},
	{`"> 7"],"then":["3"]`, `">5"],"then":["4"]`, ""},
	{`"inputs":["a"],"outputs":[{"name":"x"}],"rules":[{"when":["> 5"],"then":["3"]},{"when":["> 7"],"then":["3"]}]`,
		`"inputs":["a","a"],"outputs":[{"name":"x"}],"rules":[{"when":["> 5","-"],"then":["3"]},{"when":["> 7"," - "],"then":["3"]}]`,
		"unused column: each rule takes everything here, so it decides nothing"},
	{`"services":[`, `"services":[{"name":"t","outputs":["band"],"encapsulated":[],"inputDecisions":["fees"],"inputData":["a"]},`,
		"unreached input decision: no output of the service needs it"},
}

// TestSlips changes a sound model and checks the warnings.
func TestSlips(t *testing.T) {
	for _, row := range slipRows {
		text := strings.Replace(sound, row.old, row.new, 1)
		if text == sound {
			t.Errorf("%s is no part of the model", row.old)
		}
		if reported := strings.Join(warnedOf(t, strings.Replace(text, "EXPR", "1", 1)), "\n"); reported != row.due {
			t.Errorf("%s: %q, and %q is due", row.new, reported, row.due)
		}
	}
}

// TestExamplesHaveNoSlips finds none of the newer warnings in any example.
func TestExamplesHaveNoSlips(t *testing.T) {
	folder := filepath.Join("..", "..", "examples")
	found := 0
	if err := filepath.Walk(folder, func(path string, info os.FileInfo, err error) error {
		if err != nil || info.IsDir() || !strings.Contains(path, ".json") {
			return err
		}
		data, err := os.ReadFile(path)
		if err != nil {
			return err
		}
		for _, line := range append(strings.Split(string(data), "\n"), string(data)) {
			f := newFile([]byte(line))
			if f == nil || f.model == nil {
				continue
			}
			found++
			_, counts := oddities(f.model)
			for _, kind := range []string{oddCondition, oddSettled, oddDead, oddNull, oddCounted, oddSame, oddColumn, oddService} {
				if counts[kind] > 0 {
					t.Errorf("%s: %d of %s", path, counts[kind], kind)
				}
			}
		}
		return nil
	}); err != nil || found < 10 {
		t.Fatalf("%d models were looked at: %v", found, err)
	}
}
