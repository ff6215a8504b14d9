package openapi

import (
	"encoding/json"
	"reflect"
	"strings"
	"testing"
)

func TestSchema(t *testing.T) {
	text := `{"type":["object","null"],"properties":{"age":{"type":["integer","null"],"exclusiveMinimum":0},` +
		`"kinds":{"type":["array","null"],"items":{"enum":["a",null],"type":["string","null"]}}}}`
	due := map[string]any{"type": "object", "nullable": true, "properties": map[string]any{
		"age": map[string]any{"type": "integer", "format": "int64", "nullable": true, "exclusiveMinimum": true, "minimum": json.Number("0")},
		"kinds": map[string]any{"type": "array", "nullable": true,
			"items": map[string]any{"type": "string", "nullable": true, "enum": []any{"a", nil}}}}}
	got := Schema(json.RawMessage(text))
	if !reflect.DeepEqual(got, due) {
		t.Errorf("it is %v, and %v is due", got, due)
	}
	example := Example(got)
	if !reflect.DeepEqual(example, any(map[string]any{"age": json.Number("1"), "kinds": []any{"a"}})) {
		t.Errorf("the example is %#v", example)
	}
}

func TestPageNamesEachService(t *testing.T) {
	text, err := Page("0123456789abcdef", "0.9.0", true, []Service{{Name: "Drivers part", Inputs: []Input{{Name: "Age"}}}})
	if err != nil {
		t.Fatal(err)
	}
	var page struct {
		Paths    map[string]json.RawMessage
		Security []map[string]any
	}
	if err := json.Unmarshal(text, &page); err != nil {
		t.Fatal(err)
	}
	if page.Paths["/v1/services/Drivers%20part"] == nil || len(page.Security) != 1 {
		t.Errorf("%s", text)
	}
}

// An input that can't be null has a schema without null.
func TestInputsThatMayNotBeNull(t *testing.T) {
	text, err := Page("0123456789abcdef", "0.9.0", false, []Service{{Name: "s", Strict: true, Inputs: []Input{
		{Name: "a", Required: true, NotNull: true, Schema: json.RawMessage(`{"type":["string","null"],"enum":["x",null]}`)}}}})
	if err != nil {
		t.Fatal(err)
	}
	var page struct {
		Components struct{ Schemas map[string]json.RawMessage }
	}
	if err := json.Unmarshal(text, &page); err != nil {
		t.Fatal(err)
	}
	var got struct {
		Properties map[string]map[string]any
		Required   []string
	}
	if err := json.Unmarshal(page.Components.Schemas["sInputs"], &got); err != nil {
		t.Fatal(err)
	}
	due := map[string]any{"type": "string", "enum": []any{"x"}}
	if !reflect.DeepEqual(got.Properties["a"], due) || len(got.Required) != 1 {
		t.Errorf("%+v, and %v is due", got, due)
	}
}

// Components that are required are so in the schema, and not null; names that it doesn't have are left out.
func TestNeeds(t *testing.T) {
	const part = `{"type":["object","null"],"properties":{"x":{"type":["integer","null"]},"y":{"type":["string","null"],"enum":["a",null]},"z":{}}}`
	page := described(t, []Service{{Name: "s", Inputs: []Input{{Name: "i", NotNull: true, Required: true,
		Schema: json.RawMessage(`{"type":["object","null"],"properties":{"p":` + part + `,"q":` + part + `}}`),
		Needs:  []Need{{Name: "none"}, {Name: "p", Within: []Need{{Name: "y"}, {Name: "x", Within: []Need{{Name: "none"}}}}}}}}}})
	text, _ := json.Marshal(page["components"].(map[string]any)["schemas"].(map[string]any)["sInputs"])
	const due = `"properties":{"i":{"properties":{` +
		`"p":{"properties":{"x":{"format":"int64","type":"integer"},"y":{"enum":["a"],"type":"string"},"z":{}},"required":["y","x"],"type":"object"},` +
		`"q":{"nullable":true,"properties":{"x":{"format":"int64","nullable":true,"type":"integer"},"y":{"enum":["a",null],"nullable":true,"type":"string"},"z":{}},` +
		`"type":"object"}},"required":["p"],"type":"object"}},"required":["i"],"type":"object"}`
	if !strings.Contains(string(text), due) {
		t.Errorf("%s, and %s is due", text, due)
	}
}
