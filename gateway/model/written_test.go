package model

import (
	"encoding/json"
	"reflect"
	"testing"
)

// TestWritten writes models as in their files: the expected ones were made by hand.
func TestWritten(t *testing.T) {
	table := func(input, when, then string) string {
		return `{"table":{"hit":"U","inputs":[` + input + `],"outputs":[{"name":"o"}],"rules":[{"when":[` + when + `],"then":["` + then + `"]}]}}`
	}
	for name, row := range map[string]struct{ expr, places, due string }{
		"a model that counts nothing": {`{"context":[{"name":"value_1","expr":"a"}],"result":"if value_1 < 3 then value_1 else null"}`, `{}`,
			`{"context":[{"name":"value_1","expr":"A a"}],"result":"if value_1 < 3 then value_1 else null"}`},
		"names in a text":    {`"a + 1"`, `{}`, `"A a + 1"`},
		"a text of the file": {`"a * 19"`, `{"/decisions/0/expr":{"text":"A a * 0.19"}}`, `"A a * 0.19"`},
		"what only the translation has": {`{"context":[{"name":"part_1","expr":"a * 19"}],"result":"part_1"}`,
			`{"/decisions/0/expr":{"text":"decimal(A a * 0.19, 2)"}}`, `"decimal(A a * 0.19, 2)"`},
		"an entry of the file": {`{"context":[{"name":"part_1","expr":"a * 19"},{"name":"o","expr":"part_1"}]}`,
			`{"/decisions/0/expr/context/1/expr":{"text":"A a * 0.19"}}`, `{"context":[{"name":"O","expr":"A a * 0.19"}]}`},
		"cells": {table(`"a"`, `"<= 36"`, `150`), `{"/decisions/0/expr/table/rules/0/when/0":{"text":"<= 0.36"},` +
			`"/decisions/0/expr/table/rules/0/then/0":{"text":"1.5"}}`, `{"table":{"hit":"U","inputs":["A a"],"outputs":[{"name":"O"}],` +
			`"rules":[{"when":["<= 0.36"],"then":["1.5"]}]}}`},
		"a column of conditions": {`{"context":[{"name":"numerator_1","expr":"a"}],"result":` + table(`"numerator_1","true"`, `"-","numerator_1 < 3"`, `1`) + `}`,
			`{"/decisions/0/expr/result/table/inputs/0":{"text":"A a / 3"},"/decisions/0/expr/result/table/rules/0/when/0":{"text":"< 1"}}`,
			`{"table":{"hit":"U","inputs":["A a / 3"],"outputs":[{"name":"O"}],"rules":[{"when":["< 1"],"then":["1"]}]}}`},
		"a column of the file that is true": {table(`"a","true"`, `"1","a < 3"`, `1`), `{"/decisions/0/expr/table/rules/0/when/1":{"text":"A a < 0.3"}}`,
			`{"table":{"hit":"U","inputs":["A a","true"],"outputs":[{"name":"O"}],"rules":[{"when":["1","A a < 0.3"],"then":["1"]}]}}`},
		"a table that is counted otherwise": {`{"context":[{"name":"value_1","expr":` + table(`"a"`, `"1"`, `15`) + `}],"result":"value_1 * 10"}`,
			`{"/decisions/0/expr/context/0/expr/table/rules/0/then/0":{"text":"1.5"}}`,
			`{"table":{"hit":"U","inputs":["A a"],"outputs":[{"name":"O"}],"rules":[{"when":["1"],"then":["1.5"]}]}}`},
	} {
		parsed, err := Parse([]byte(`{"inputs":["a"],"decisions":[{"name":"d","needs":["a"],"expr":` + row.expr + `}],"services":[]}`))
		if err != nil {
			t.Fatalf("%s: %v", name, err)
		}
		spelling, err := ReadSpelling(map[string]string{"d": "D d", "a": "A a", "o": "O"}, nil, json.RawMessage(row.places))
		if err != nil {
			t.Fatalf("%s: %v", name, err)
		}
		due, err := Parse([]byte(`{"inputs":["A a"],"decisions":[{"name":"D d","needs":["A a"],"expr":` + row.due + `}],"services":[]}`))
		if err != nil {
			t.Fatalf("%s: %v", name, err)
		}
		if got := spelling.Written(parsed).Model.Decisions; !reflect.DeepEqual(got, due.Decisions) {
			t.Errorf("%s: %+v, and %+v is due", name, got, due.Decisions)
		}
	}
}
