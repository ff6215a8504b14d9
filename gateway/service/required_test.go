package service

import (
	"encoding/json"
	"strings"
	"testing"
)

// Inputs that a file requires have to be there, and not null, if a caller asks for a decision. Trials may leave them
// out.
func TestRequiredInputs(t *testing.T) {
	model := strings.Replace(strings.Replace(noted, `"inputData":["a_b"]`, `"inputData":["a_b","c"]`, 1),
		`"locals":{}`, `"locals":{},"required":["a_b"]`, 1)
	source, err := ReadSource([]byte(model))
	other, _ := ReadSource([]byte(strings.Replace(model, `"required":["a_b"],`, "", 1)))
	if err != nil || source.Sum() == other.Sum() {
		t.Errorf("%v: what is required decides too", err)
	}
	r := serve(t, model, Options{})
	for _, it := range []struct {
		path, body string
		status     int
		due        string
	}{
		{"/v1/services/s_t", `{"a b":1}`, 200, `{"result":1}`},
		{"/v1/services/s_t", `{"c":1}`, 422, `"detail":"\"a b\" is missing, and the file declares its type;`},
		{"/v1/services/s_t", `{"a b":null}`, 422, `"detail":"\"a b\" is null, and the file declares its type;`},
		{"/v1/services/s_t", `{"a b":null,"a b":1}`, 200, `{"result":1}`},
		{"/v1/services/s_t", `{"a_b": null }`, 422, `"pointer":"/a b"`},
		{"/v1/services/s_t", `[{"a b":1},{}]`, 200, `[{"result":1},{"type":"/problems/value"`},
		{"/v1/explain/s_t", `{}`, 200, `{"result":null`},
		{"/v1/explain/s_t", `{"a b":null}`, 200, `{"result":null`},
	} {
		if status, text, _ := send(t, "POST", r.url+it.path, it.body); status != it.status || !strings.Contains(text, it.due) {
			t.Errorf("%s %s: %d %s, and %s is due", it.path, it.body, status, text, it.due)
		}
	}
	var page struct {
		Components struct {
			Schemas map[string]struct{ Required []string }
		}
	}
	_, text, _ := send(t, "GET", r.url+"/openapi.json", "")
	if json.Unmarshal([]byte(text), &page) != nil {
		t.Fatal(text)
	}
	isThere := false
	for name, schema := range page.Components.Schemas {
		isThere = isThere || strings.HasSuffix(name, "Inputs") && len(schema.Required) == 1 && schema.Required[0] == "a b"
	}
	if !isThere {
		t.Errorf("no schema requires it: %s", text)
	}
	r.stop(t)
	r = serve(t, model, Options{Lenient: true})
	defer r.stop(t)
	if status, text, _ := send(t, "POST", r.url+"/v1/services/s_t", `{}`); status != 200 {
		t.Errorf("leniently: %d %s", status, text)
	}
}
