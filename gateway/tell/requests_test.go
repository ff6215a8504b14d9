package tell

import (
	"strings"
	"testing"
)

// persons is a model whose texts take entries of one input and hide another.
const persons = `{"inputs":["p","q"],"decisions":[{"name":"d","needs":["p"],"expr":{"table":{"hit":"F","inputs":["p.age"],"outputs":[{"name":"x"}],"rules":[{"when":["> p.least"],"then":["1"]}]}}},` +
	`{"name":"e","needs":["q"],"expr":{"context":[{"name":"q","expr":"q"}],"result":"q.age"}}],` +
	`"services":[{"name":"s","outputs":["d","e"],"encapsulated":[],"inputDecisions":[],"inputData":["p","q"]}]}`

// TestMisspeltEntries notes entries of inputs that are close to one that the model takes.
func TestMisspeltEntries(t *testing.T) {
	for _, row := range []struct{ inputs, due string }{
		{`{"p":{"age":1,"least":2},"q":1}`, ""},
		{`{"p":{"agee":1,"least":2},"q":1}`, "line 2: \"agee\" is an entry of p that no text takes: age?\n"},
		{`{"p":{"agee":1,"age":1,"least":2},"q":1}`, ""},
		{`{"p":{"name":1,"age":1,"least":2},"q":1}`, ""},
		{`{"p":{"age":1,"laest":2},"q":{"agee":1}}`, "line 2: \"laest\" is an entry of p that no text takes: least?\n"},
		{`{"p":7,"q":1}`, ""},
	} {
		input := persons + "\n" + `{"client":"c","service":"s","inputs":` + row.inputs + "}\n"
		reported, err := Told(CheckOptions{Requests: true}, []byte(input), []byte(`{"lawful":true}`))
		_, after, _ := strings.Cut(string(reported), "s(p, q)\n")
		if err != nil || after != row.due {
			t.Errorf("%s: %v, %q, and %q is due", row.inputs, err, after, row.due)
		}
	}
}
