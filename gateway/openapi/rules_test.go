package openapi

import (
	"encoding/json"
	"fmt"
	"reflect"
	"regexp"
	"strings"
	"testing"

	"gateway/domain"
	"gateway/lines"
	"gateway/types"
)

// many are services with similar names, or names of other operations.
var many = []Service{
	{Name: "shipping", Strict: true, Inputs: []Input{
		{Name: "weight", Schema: json.RawMessage(`{"type":"integer","minimum":0}`), Required: true},
		{Name: "express", Schema: json.RawMessage(`{"type":["boolean","null"]}`)}, {Name: "any"}},
		Result: json.RawMessage(`{"type":["array","null"],"items":{"type":["object","null"],"properties":{"a b":{"type":["integer","null"]}}}}`)},
	{Name: "Drivers part"}, {Name: "Drivers_part"}, {Name: "Drivers+part"}, {Name: "getModel"}, {Name: "Problem"}, {Name: "Größe"},
	{Name: "7"}, {Name: "shipping_explained"}, {Name: "a/b"}, {Name: "{x}"}, {Name: "restricted", Inputs: restricted()},
}

// restricted are inputs with domains, whose schemas have each keyword that a restriction adds.
func restricted() (inputs []Input) {
	for at, it := range [][2]string{{"{}", "not(null)"}, {"{}", `not("a", null)`}, {"{}", "< 5, (7..9], 11"}, {"{}", "[5..1]"}, {"{}", "null"}, {"{}", `> "b"`},
		{`{"type":["integer","null"],"minimum":0}`, "< 5, 7, null"}, {`{"type":["integer","string","null"]}`, `1, "a"`}, {"{}", "[1, [2]]"},
		{`{"anyOf":[{"minimum":0}]}`, "not(5)"}} {
		places, _ := domain.Places(map[string]string{"x": it[1], "x.a": "-"})
		of, _ := types.Read(json.RawMessage(it[0]))
		for _, isLenient := range []bool{false, true} {
			var schema map[string]any
			_ = json.Unmarshal([]byte(it[0]), &schema)
			Restriction{Name: func(word string) string { return word }, Lenient: isLenient}.Add(schema, places["x"], of)
			inputs = append(inputs, Input{Name: fmt.Sprint("x", at, isLenient), Schema: lines.Compact(nil, schema), Required: !isLenient})
		}
	}
	return inputs
}

// described returns the document of some services.
func described(t *testing.T, services []Service) map[string]any {
	t.Helper()
	text, err := Page("0123456789abcdef", "0.9.0", true, services)
	if err != nil {
		t.Fatal(err)
	}
	var page map[string]any
	if err := json.Unmarshal(text, &page); err != nil {
		t.Fatal(err)
	}
	return page
}

// schemaKeys are the OpenAPI 3.0 schema keywords that documents use.
var schemaKeys = map[string]string{"type": "string", "format": "string", "nullable": "bool", "enum": "[]interface {}", "minimum": "float64",
	"maximum": "float64", "exclusiveMinimum": "bool", "exclusiveMaximum": "bool", "multipleOf": "float64", "items": "map[string]interface {}",
	"properties": "map[string]interface {}", "required": "[]interface {}", "description": "string", "minLength": "float64",
	"maxLength": "float64", "maxItems": "float64", "oneOf": "[]interface {}", "anyOf": "[]interface {}", "allOf": "[]interface {}",
	"not": "map[string]interface {}", "additionalProperties": "bool"}

// A rules collects violations of OpenAPI 3.0's rules.
type rules struct {
	page   map[string]any
	faults []string
	ids    map[string]bool
}

func (r *rules) fault(form string, words ...any) {
	r.faults = append(r.faults, fmt.Sprintf(form, words...))
}

func (r *rules) schema(at string, value any) {
	schema, is := value.(map[string]any)
	if !is {
		r.fault("%s is no schema", at)
		return
	}
	if to, is := schema["$ref"].(string); is {
		components := r.page["components"].(map[string]any)["schemas"].(map[string]any)
		name := strings.TrimPrefix(to, "#/components/schemas/")
		if len(schema) != 1 || components[name] == nil {
			r.fault("%s: %s refers to nothing, or has other keys beside", at, to)
		}
		return
	}
	for key, part := range schema {
		if kind := schemaKeys[key]; key != "example" && (kind == "" || kind != reflect.TypeOf(part).String()) {
			r.fault("%s has the key %s: %v", at, key, part)
		}
	}
	r.parts(at, schema)
}

// parts checks the schemas within a schema.
func (r *rules) parts(at string, schema map[string]any) {
	properties, _ := schema["properties"].(map[string]any)
	for name, part := range properties {
		r.schema(at+"/"+name, part)
	}
	required, _ := schema["required"].([]any)
	for _, name := range required {
		if properties[name.(string)] == nil {
			r.fault("%s requires %s, which it has not", at, name)
		}
	}
	if schema["type"] == "array" {
		r.schema(at+"/items", schema["items"])
	}
	if schema["type"] == "integer" && schema["format"] != "int64" {
		r.fault("%s: an integer has no format", at)
	}
	if schema["nullable"] == true && schema["type"] == nil && len(schema) > 2 {
		r.fault("%s: nullable has no type beside", at)
	}
	if part, is := schema["not"]; is {
		r.schema(at+"/not", part)
	}
	for _, key := range []string{"oneOf", "anyOf", "allOf"} {
		several, _ := schema[key].([]any)
		for n, part := range several {
			r.schema(fmt.Sprintf("%s/%s/%d", at, key, n), part)
		}
	}
}

func (r *rules) contents(at string, value any) {
	contents, _ := value.(map[string]any)
	for kind, content := range contents {
		r.schema(at+" "+kind, content.(map[string]any)["schema"])
	}
}

var template = regexp.MustCompile(`\{([^}]*)\}`)

func (r *rules) operation(path, method string, it map[string]any) {
	at := method + " " + path
	id, _ := it["operationId"].(string)
	if id == "" || r.ids[id] {
		r.fault("%s: the operationId %q is none, or another's", at, id)
	}
	r.ids[id] = true
	inPath := map[string]bool{}
	parameters, _ := it["parameters"].([]any)
	for _, parameter := range parameters {
		parameter := parameter.(map[string]any)
		if inPath[parameter["name"].(string)] = parameter["in"] == "path"; parameter["in"] == "path" && parameter["required"] != true {
			r.fault("%s: a parameter of the path is not required", at)
		}
		r.schema(at, parameter["schema"])
	}
	for _, word := range template.FindAllStringSubmatch(path, -1) {
		if !inPath[word[1]] {
			r.fault("%s: nothing says what %s is", at, word[0])
		}
	}
	if body, is := it["requestBody"].(map[string]any); is {
		r.contents(at, body["content"])
	}
	responses, _ := it["responses"].(map[string]any)
	if len(responses) == 0 {
		r.fault("%s has no responses", at)
	}
	for status, response := range responses {
		response := response.(map[string]any)
		if response["description"] == nil {
			r.fault("%s: %s has no description", at, status)
		}
		r.contents(at+" "+status, response["content"])
	}
}

var component = regexp.MustCompile(`^[A-Za-z0-9._-]+$`)

// The document follows OpenAPI 3.0: known keywords of the right kinds, resolvable references, unique ids, and parameters for
// each part of a path.
func TestPageKeepsTheRules(t *testing.T) {
	r := &rules{page: described(t, many), ids: map[string]bool{}}
	for path, item := range r.page["paths"].(map[string]any) {
		if !strings.HasPrefix(path, "/") {
			r.fault("the path %s has no slash", path)
		}
		for method, it := range item.(map[string]any) {
			r.operation(path, method, it.(map[string]any))
		}
	}
	for name, schema := range r.page["components"].(map[string]any)["schemas"].(map[string]any) {
		if !component.MatchString(name) {
			r.fault("the component %q has another name than OpenAPI takes", name)
		}
		r.schema(name, schema)
	}
	for _, fault := range r.faults {
		t.Error(fault)
	}
}

func operationsOf(page map[string]any) map[string]any {
	ids := map[string]any{}
	for path, item := range page["paths"].(map[string]any) {
		for method, it := range item.(map[string]any) {
			ids[method+" "+path] = it.(map[string]any)["operationId"]
		}
	}
	return ids
}

// The names of operations stay when services are added before and after.
func TestOperationsStay(t *testing.T) {
	all := operationsOf(described(t, many))
	for at, service := range many {
		for operation, id := range operationsOf(described(t, []Service{service})) {
			if all[operation] != id {
				t.Errorf("service %d: %s is %v alone, and %v among others", at, operation, id, all[operation])
			}
		}
	}
	if id := all["post /v1/services/shipping"]; id != "shipping" {
		t.Errorf("the service shipping is %v", id)
	}
}

// A service's inputs and results have named schemas with all that is known.
func TestNamedSchemas(t *testing.T) {
	text, _ := json.Marshal(described(t, many)["components"].(map[string]any)["schemas"])
	for _, due := range []string{
		`"shippingInputs":{"additionalProperties":false,"description":"An input that is missing is null. Inputs of other services are ignored.",` +
			`"properties":{"any":{"description":"Any value","nullable":true},"express":{"nullable":true,"type":"boolean"},` +
			`"weight":{"format":"int64","minimum":0,"type":"integer"}},"required":["weight"],"type":"object"}`,
		`"result":{"items":{"nullable":true,"properties":{"a b":{"format":"int64","nullable":true,"type":"integer"}},"type":"object"},` +
			`"nullable":true,"type":"array"}`,
	} {
		if !strings.Contains(string(text), due) {
			t.Errorf("%s is due", due)
		}
	}
}
