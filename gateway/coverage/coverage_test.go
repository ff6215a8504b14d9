package coverage

import (
	"encoding/json"
	"testing"
)

// Lines in the form of docs/LINES.md, with the expected counts.
func TestCounts(t *testing.T) {
	counts := New()
	for _, it := range []struct{ line, result, fault, refused string }{
		{`{"client":"b","ticket":0,"line":2,"model":"ab","service":"s","inputs":{"t":"a\"}]","l":[{}]},"decisions":[` +
			`{"name":"i","given":{"table":1}},` +
			`{"name":"d","value":1,"table":{"policy":"F","inputs":["}",1],"hits":[{"rule":2,"value":[1,{"rule":9}]},` +
			`{"rule":4,"value":2}],"defaults":false,"decided":[2]}}],"result":{"a":"x"}}`, `{"a":"x"}`, "", ""},
		{`{"client":"b","line":3,"service":"s","decisions":[{"name":"d","value":null,"table":{"policy":"U","inputs":[],"hits":[],` +
			`"defaults":false,"decided":[],"misses":[{"rule":1,"column":1}]}},{"name":"c","value":1,"entries":[{"name":"e","value":1},` +
			`{"name":"f","value":2,"members":[{"value":1},{"value":2,"table":{"policy":"U","inputs":[],"hits":[],"defaults":true,` +
			`"decided":[]}}]}],"result":{"value":1,"table":{"policy":"U","inputs":[],"hits":[{"rule":1,"value":1}],"defaults":false,` +
			`"decided":[1]}}}],"result":null}`, `null`, "", ""},
		{`{"client":"b","line":4,"service":"s","decisions":[{"name":"d","fault":"limit","table":{"policy":"F"}}],"fault":"limit"}`,
			``, "limit", ""},
		{`{"client":"b","line":5,"refused":"value"}`, ``, "", "value"},
		{`{"client":"b","line":6,"service":"s","explained":"long","result":-5}`, `-5`, "", ""},
	} {
		answer, err := counts.Add([]byte(it.line))
		if err != nil || string(answer.Result) != it.result || answer.Fault != it.fault || answer.Refused != it.refused {
			t.Errorf("%s: %+v, %v", it.line, answer, err)
		}
	}
	text, err := json.Marshal(counts.Tables([]string{"c", "d"}))
	due := `{"/decisions/0/expr/context/1/expr/list/1/table":{"asked":1,"defaults":1,"none":0,"hits":[],"decided":[]},` +
		`"/decisions/0/expr/result/table":{"asked":1,"defaults":0,"none":0,"hits":[1],"decided":[1]},` +
		`"/decisions/1/expr/table":{"asked":2,"defaults":0,"none":1,"hits":[0,1,0,1],"decided":[0,1]}}`
	if err != nil || string(text) != due {
		t.Errorf("%s, and due is\n%s", text, due)
	}
}

// Several counts merge to the count of all lines, also with another order of keys and decisions.
func TestMerge(t *testing.T) {
	lines := []string{
		`{"decisions":[{"name":"d","value":1,"table":{"hits":[{"rule":2,"value":1}],"defaults":false,"decided":[2]}}],"result":1}`,
		`{"decisions":[{"name":"d","value":1,"table":{"hits":[{"rule":3,"value":1,"places":[1]},{"value":1,"rule":1}],"defaults":false}}]}`,
		`{"decisions":[{"name":"e","entries":[{"name":"d","table":{"hits":[],"defaults":true,"decided":[]}}],"value":"\\"},` +
			`{"name":"d","table":{"policy":"F","hits":[],"decided":[]}}],"result":1}`,
		`{"result":1,"decisions":[{"name":"e","value":{"name":"d","table":{"hits":[{"rule":1}]}},"result":{"table":{"hits":[]}},` +
			`"members":[{"value":1},{"table":{"decided":[4],"hits":[{"rule":4}]}}],"entries":[{},{"table":{"hits":[]}}]}]}`,
		`{"decisions":[],"result":1}`,
	}
	for split := 0; split <= len(lines); split++ {
		whole, one, other := New(), New(), New()
		for at, line := range lines {
			half := one
			if at >= split {
				half = other
			}
			for _, counts := range []*Counts{whole, half} {
				if _, err := counts.Add([]byte(line)); err != nil {
					t.Fatalf("%s: %v", line, err)
				}
			}
		}
		one.Merge(other)
		names := []string{"d", "e"}
		due, _ := json.Marshal(whole.Tables(names))
		if text, err := json.Marshal(one.Tables(names)); err != nil || string(text) != string(due) {
			t.Errorf("%d lines and the others: %s, and due is\n%s", split, text, due)
		}
	}
	all := New()
	for _, line := range lines {
		_, _ = all.Add([]byte(line))
	}
	text, _ := json.Marshal(all.Tables([]string{"d", "e"}))
	due := `{"/decisions/0/expr/table":{"asked":3,"defaults":0,"none":1,"hits":[1,1,1],"decided":[0,1]},` +
		`"/decisions/1/expr/context/0/expr/table":{"asked":1,"defaults":1,"none":0,"hits":[],"decided":[]},` +
		`"/decisions/1/expr/context/1/expr/table":{"asked":1,"defaults":0,"none":1,"hits":[],"decided":null},` +
		`"/decisions/1/expr/list/1/table":{"asked":1,"defaults":0,"none":0,"hits":[0,0,0,1],"decided":[0,0,0,1]},` +
		`"/decisions/1/expr/result/table":{"asked":1,"defaults":0,"none":1,"hits":[],"decided":null}}`
	if string(text) != due {
		t.Errorf("%s, and due is\n%s", text, due)
	}
}

// A line that is cut anywhere is refused, without a panic.
func TestHalfLines(t *testing.T) {
	line := `{"client":"b","decisions":[{"name":"d","value":"\"","table":{"hits":[{"rule":2}],"decided":[2]}}],"result":5}`
	for end := range line {
		if _, err := New().Add([]byte(line[:end])); err == nil {
			t.Errorf("%s is read", line[:end])
		}
	}
}
