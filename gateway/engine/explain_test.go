package engine

import "testing"

// Decisions that are too long, or for which there is no room, are left out.
func TestReadExplanation(t *testing.T) {
	for _, it := range []struct {
		text, decisions, result string
		kind                    Kind
		cut, room, long         bool
	}{
		{`{"client":"x","line":2,"service":"s","decisions":[{"name":"d","value":5}],"result":5}`,
			`[{"name":"d","value":5}]`, `5`, Result, false, true, false},
		{`{"client":"x","ticket":0,"line":2,"model":"ab","service":"s","inputs":{"a":4},"decisions":[{"name":"d","value":5}],` +
			`"result":null}`, `[{"name":"d","value":5}]`, `null`, Result, false, true, false},
		{`{"client":"x","line":2,"service":"s","decisions":[],"fault":"limit"}`, `[]`, ``, Limit, false, true, false},
		{`{"client":"x","line":2,"service":"s","decisions":[],"result":5}`, ``, `5`, Result, false, false, true},
		{`{"client":"x","line":2,"service":"s","explained":"long","result":5}`, ``, `5`, Result, false, true, true},
		{`{"client":"x","line":2,"service":"s","decisions":[{"na`, ``, ``, Huge, true, true, true},
		{`{"client":"x","line":2,"refused":"value"}`, ``, ``, Refused, false, true, false},
	} {
		got, err := readExplanation([]byte(it.text), it.cut, func(int) bool { return it.room })
		if err != nil || got.IsLong != it.long || string(got.Decisions) != it.decisions || got.Outcome.Kind != it.kind ||
			string(got.Outcome.Value) != it.result {
			t.Errorf("%s: %+v, %v", it.text, got, err)
		}
	}
	if _, err := readExplanation([]byte(`{"client"`), false, func(int) bool { return true }); err == nil {
		t.Error("half a line is read")
	}
}
