package service

import (
	"bytes"
	"context"
	"encoding/json"
	"fmt"
	"math/big"
	"reflect"
	"strings"
	"testing"
	"time"

	"gateway/domain"
	"gateway/domain/domaintest"
	"gateway/engine"
)

// A validator says which values the schemas of OpenAPI take, as far as documents of services use them.
type validator struct{ t *testing.T }

func rationalOf(value any) *big.Rat {
	number, is := value.(json.Number)
	if !is {
		return nil
	}
	made, _ := new(big.Rat).SetString(number.String())
	return made
}

// isKind reports whether a value is of a kind.
func isKind(name string, value any) bool {
	switch value := value.(type) {
	case bool:
		return name == "boolean"
	case string:
		return name == "string"
	case json.Number:
		return name == "number" || name == "integer" && rationalOf(value).IsInt()
	case []any:
		return name == "array"
	case map[string]any:
		return name == "object"
	}
	return false
}

func isSame(a, b any) bool {
	x, y := rationalOf(a), rationalOf(b)
	if x != nil && y != nil {
		return x.Cmp(y) == 0
	}
	some, is := a.([]any)
	others, isToo := b.([]any)
	if !is || !isToo || len(some) != len(others) {
		return reflect.DeepEqual(a, b)
	}
	for at := range some {
		if !isSame(some[at], others[at]) {
			return false
		}
	}
	return true
}

// takes reports whether a schema takes a value.
func (v validator) takes(schema map[string]any, value any) bool {
	for key, of := range schema {
		if !v.holds(schema, key, of, value) {
			return false
		}
	}
	return true
}

// holds reports whether one keyword takes a value.
func (v validator) holds(schema map[string]any, key string, of, value any) bool {
	number, limit := rationalOf(value), rationalOf(of)
	switch key {
	case "description", "format", "nullable", "exclusiveMinimum", "exclusiveMaximum", "example":
		return true
	case "type":
		return isKind(of.(string), value) || value == nil && schema["nullable"] == true
	case "enum", "anyOf":
		for _, one := range of.([]any) {
			if key == "enum" && isSame(one, value) || key == "anyOf" && v.takes(one.(map[string]any), value) {
				return true
			}
		}
		return false
	case "allOf":
		for _, one := range of.([]any) {
			if !v.takes(one.(map[string]any), value) {
				return false
			}
		}
		return true
	case "not":
		return !v.takes(of.(map[string]any), value)
	case "minimum":
		return number == nil || number.Cmp(limit) > 0 || number.Cmp(limit) == 0 && schema["exclusiveMinimum"] != true
	case "maximum":
		return number == nil || number.Cmp(limit) < 0 || number.Cmp(limit) == 0 && schema["exclusiveMaximum"] != true
	case "multipleOf":
		return number == nil || new(big.Rat).Quo(number, limit).IsInt()
	case "items":
		items, _ := value.([]any)
		for _, item := range items {
			if !v.takes(of.(map[string]any), item) {
				return false
			}
		}
		return true
	}
	return v.holdsMembers(schema, key, of, value)
}

func (v validator) holdsMembers(schema map[string]any, key string, of, value any) bool {
	members, is := value.(map[string]any)
	switch key {
	case "properties":
		for name, part := range of.(map[string]any) {
			if member, has := members[name]; has && !v.takes(part.(map[string]any), member) {
				return false
			}
		}
	case "required":
		for _, name := range of.([]any) {
			if _, has := members[name.(string)]; is && !has {
				return false
			}
		}
	case "additionalProperties":
		for name := range members {
			if _, has := schema["properties"].(map[string]any)[name]; !has {
				return false
			}
		}
	default:
		v.t.Fatalf("no document has the keyword %s", key)
	}
	return true
}

// treeOf reads JSON with its numbers as they are written.
func treeOf(t *testing.T, text []byte) (tree any) {
	t.Helper()
	decoder := json.NewDecoder(bytes.NewReader(text))
	decoder.UseNumber()
	if err := decoder.Decode(&tree); err != nil {
		t.Fatalf("%v: %s", err, text)
	}
	return tree
}

// documented reads a model, and returns it with the schemas of its document.
func documented(t *testing.T, text string, isLenient bool) (*served, map[string]any) {
	t.Helper()
	source, err := ReadSource([]byte(text))
	if err != nil {
		t.Fatal(err)
	}
	s := &Service{options: Options{Engine: desk(), Lenient: isLenient}}
	model, err := s.read(context.Background(), source, "")
	if err != nil {
		t.Fatal(err)
	}
	page, err := model.openAPI("0.0.0", false)
	if err != nil {
		t.Fatal(err)
	}
	return model, treeOf(t, page).(map[string]any)["components"].(map[string]any)["schemas"].(map[string]any)
}

// TestSchemasOfDomains are worked out by hand: domains with types, and what the document says of the input. What is required has a sign.
func TestSchemasOfDomains(t *testing.T) {
	const number, whole = `{"type":["number","null"],"multipleOf":0.01}`, `"format":"int64","type":"integer"`
	rows := []struct{ of, domains, due string }{
		{``, `"x":"-"`, `{"description":"Any value","nullable":true}`},
		{``, `"x":">= -9223372036854775807"`, `! {` + whole + `}`},
		{``, `"x":"[0..120]"`, `! {"format":"int64","maximum":120,"minimum":0,"type":"integer"}`},
		{``, `"x":"(0..120)"`, `! {"exclusiveMaximum":true,"exclusiveMinimum":true,"format":"int64","maximum":120,"minimum":0,"type":"integer"}`},
		{``, `"x":"]0..120], null"`, `{"exclusiveMinimum":true,"format":"int64","maximum":120,"minimum":0,"nullable":true,"type":"integer"}`},
		{``, `"x":"<= 9223372036854775806"`, `! {"format":"int64","maximum":9223372036854775806,"type":"integer"}`},
		{``, `"x":"> -9223372036854775807"`, `! {"exclusiveMinimum":true,"format":"int64","minimum":-9223372036854775807,"type":"integer"}`},
		{``, `"x":"< 5, 7, >= 10, null"`, `{"anyOf":[{"exclusiveMaximum":true,"maximum":5},{"minimum":10},{"enum":[7]}],"format":"int64","nullable":true,"type":"integer"}`},
		{``, `"x":"3, 1, 2"`, `! {"enum":[1,2,3],"format":"int64","type":"integer"}`},
		{``, `"x":"3, null"`, `{"enum":[3,null],"format":"int64","nullable":true,"type":"integer"}`},
		{``, `"x":"\"b\", \"a\""`, `! {"enum":["a","b"],"type":"string"}`},
		{``, `"x":">= \"\", null"`, `{"nullable":true,"type":"string"}`},
		{``, `"x":"> \"\""`, `! {"not":{"enum":[""]},"type":"string"}`},
		{``, `"x":"[\"a\"..\"m\"]"`, `! {"description":"It has to be from \"a\" to \"m\"","example":"a","type":"string"}`},
		{``, `"x":"true, false"`, `! {"type":"boolean"}`},
		{``, `"x":"true, null"`, `{"enum":[true,null],"nullable":true,"type":"boolean"}`},
		{``, `"x":"null"`, `{"enum":[null],"nullable":true}`},
		{``, `"x":"[5..1]"`, `! {"not":{}}`},
		{``, `"x":"1, < 9223372036854775807 + 1"`, `! {"not":{}}`},
		{``, `"x":"not(null)"`, `! {"anyOf":[{"type":"object"},{` + whole + `},{"type":"string"},{"type":"boolean"},{"items":{},"type":"array"}]}`},
		{``, `"x":"not(\"a\")"`, `{"anyOf":[{"nullable":true,"type":"object"},{` + whole + `},{"not":{"enum":["a"]},"type":"string"},{"type":"boolean"},` +
			`{"items":{},"type":"array"}]}`},
		{``, `"x":"[1, 5]"`, `! {"anyOf":[{"enum":[1,5],"format":"int64","type":"integer"},{"enum":[[1,5]],"items":{},"type":"array"}]}`},
		{``, `"x":"< 3, \"a\""`, `! {"anyOf":[{"exclusiveMaximum":true,"format":"int64","maximum":3,"type":"integer"},{"enum":["a"],"type":"string"}]}`},
		{``, `"x.a":"[0..9]"`, `! {"properties":{"a":{"format":"int64","maximum":9,"minimum":0,"type":"integer"}},"required":["a"],"type":"object"}`},
		{``, `"x.a":"[0..9], null"`, `{"properties":{"a":{"format":"int64","maximum":9,"minimum":0,"nullable":true,"type":"integer"}}}`},
		{``, `"x.a.b":"[0..9]"`, `! {"properties":{"a":{"properties":{"b":{"format":"int64","maximum":9,"minimum":0,"type":"integer"}},"required":["b"],"type":"object"}},` +
			`"required":["a"],"type":"object"}`},
		{``, `"x.a":"not(null)"`, `! {"anyOf":[{"properties":{"a":{"anyOf":[{"type":"object"},{` + whole + `},{"type":"string"},{"type":"boolean"},` +
			`{"items":{},"type":"array"}]}},"required":["a"],"type":"object"},{"items":{},"type":"array"}]}`},
		{number, `"x":"[1000..1250), null"`, `{"exclusiveMaximum":true,"maximum":12.5,"minimum":10,"multipleOf":0.01,"nullable":true,"type":"number"}`},
		{number, `"x":"1050, 1100"`, `! {"enum":[10.5,11],"multipleOf":0.01,"type":"number"}`},
		{`{"type":["integer","null"],"minimum":5,"exclusiveMaximum":9}`, `"x":"(5..9], null"`,
			`{"exclusiveMaximum":true,"exclusiveMinimum":true,"format":"int64","maximum":9,"minimum":5,"nullable":true,"type":"integer"}`},
		{`{"type":["string","null"],"enum":["a","b","c",null]}`, `"x":"\"c\", \"a\""`, `! {"enum":["a","c"],"type":"string"}`},
		{`{"type":["string","null"],"enum":["a",null]}`, `"x":"\"c\""`, `! {"not":{},"type":"string"}`},
		{`{"type":["string","null"],"format":"date"}`, `"x":"[1..3652059], null"`, `{"format":"date","nullable":true,"type":"string"}`},
		{`{"type":["string","null"],"format":"date"}`, `"x":"[737425..737456)"`,
			`! {"description":"It has to be at least \"2020-01-01\" and less than \"2020-02-01\"","example":"2020-01-01","format":"date","type":"string"}`},
		{`{"type":["string","null"],"format":"duration","unit":"month","enum":["P1Y",null]}`, `"x":"12, null"`,
			`{"description":"A years and months duration, one of [\"P1Y\",null]","example":"P1Y","format":"duration","nullable":true,"type":"string"}`},
		{`{"type":["integer","string","null"]}`, `"x":"< 5, \"a\", null"`,
			`{"anyOf":[{"exclusiveMaximum":true,"format":"int64","maximum":5,"nullable":true,"type":"integer"},{"enum":["a"],"type":"string"}]}`},
		{`{"type":["object","null"],"properties":{"pay":{"type":["number","null"],"multipleOf":0.01}}}`, `"x":"not(null)","x.pay":"> 150"`,
			`! {"properties":{"the pay":{"exclusiveMinimum":true,"minimum":1.5,"multipleOf":0.01,"type":"number"}},"required":["the pay"],"type":"object"}`},
	}
	inputs, types, domains := make([]string, len(rows)), []string{}, make([]string, len(rows))
	for at, it := range rows {
		inputs[at] = fmt.Sprintf(`"x%d"`, at)
		domains[at] = strings.ReplaceAll(it.domains, `"x`, fmt.Sprintf(`"x%d`, at))
		if it.of != "" {
			types = append(types, inputs[at]+":"+it.of)
		}
	}
	all := strings.Join(inputs, ",")
	text := `{"model":{"inputs":[` + all + `],"decisions":[{"name":"s","needs":[],"expr":"1"}],"services":[{"name":"s","outputs":["s"],"encapsulated":[],` +
		`"inputDecisions":[],"inputData":[` + all + `]}]},"names":{"pay":"the pay"},"types":{` + strings.Join(types, ",") + `},"domains":{` + strings.Join(domains, ",") + `}}`
	_, schemas := documented(t, text, false)
	_, lenient := documented(t, text, true)
	called, tried := schemas["sInputs"].(map[string]any), schemas["sTrial"].(map[string]any)
	if own := lenient["sInputs"].(map[string]any); lenient["sTrial"] != nil || own["required"] != nil || !reflect.DeepEqual(own["properties"], tried["properties"]) {
		t.Errorf("lenient calls are described by %v, and trials by %v", own, tried)
	}
	for at, it := range rows {
		name := fmt.Sprintf("x%d", at)
		made, _ := plainJSON(called["properties"].(map[string]any)[name])
		for _, required := range called["required"].([]any) {
			if required == name {
				made = append([]byte("! "), made...)
			}
		}
		if string(made) != it.due {
			t.Errorf("%s%s: %s, and %s is due", it.of, it.domains, made, it.due)
		}
		if !(validator{t}).takes(tried["properties"].(map[string]any)[name].(map[string]any), nil) && it.of == "" {
			t.Errorf("%s%s: trials refuse null", it.of, it.domains)
		}
	}
}

// someType draws a type, or none.
func someType(draw *domaintest.Drawing, depth int) string {
	kind := draw.One(`{"type":["integer","null"]`, `{"type":["number","null"],"multipleOf":0.1`, `{"type":["string","null"]`, `{"type":["boolean","null"]`,
		`{"type":["object","null"]`, `{"type":["array","null"]`, `{"type":["string","null"],"format":"date"`, `{"type":["string","null"],"format":"duration","unit":"month"`,
		`{"type":["integer","string","null"]`, `{"type":"integer"`, `{`)
	more := ""
	switch kind {
	case `{"type":["integer","null"]`, `{"type":"integer"`:
		more = draw.One("", `,"minimum":1`, `,"exclusiveMinimum":2,"maximum":15`, `,"enum":[1,2,7,null]`)
	case `{"type":["object","null"]`:
		if depth > 0 {
			more = `,"properties":{"a":` + someType(draw, depth-1) + `,"b":` + someType(draw, depth-1) + `}`
		}
	case `{"type":["string","null"]`:
		more = draw.One("", `,"enum":["a","m","ab",null]`)
	}
	return kind + more + "}"
}

// TestDrawnSchemas compares the document with what the service takes: its schemas take that, and no more where no words say so. Each input x
// of a service has drawn domains, and perhaps a type.
func TestDrawnSchemas(t *testing.T) {
	seed := time.Now().UnixNano()
	draw := domaintest.New(seed)
	taken, exact, wide := 0, 0, 0
	for _, isTyped := range []bool{false, true} {
		for _, isLenient := range []bool{false, true} {
			text, domains, values := drawnModel(draw, isTyped)
			model, schemas := documented(t, text, isLenient)
			for at, some := range values {
				called := schemas[fmt.Sprintf("s%dInputs", at)].(map[string]any)
				tried, is := schemas[fmt.Sprintf("s%dTrial", at)].(map[string]any)
				if !is {
					tried = called
				}
				inputs, _ := plainJSON(called)
				isWide := bytes.Contains(inputs, []byte(`"description":"It has to be`)) || strings.Contains(domains[at], ".") || isTyped
				for _, value := range append(some, "") {
					body := fmt.Sprintf(`{"x%d":%s}`, at, value)
					if value == "" {
						body = "{}"
					}
					service, tree := model.services[fmt.Sprintf("s%d", at)], treeOf(t, []byte(body))
					isTaken, isTried := takesRequest(model, service.ofCallers(), body), takesRequest(model, service, body)
					isIn, isInTrial := (validator{t}).takes(called, tree), (validator{t}).takes(tried, tree)
					if isTaken && !isIn || isTried && !isInTrial {
						t.Fatalf("seed %d: %s with %s is taken, and the document refuses it: %s", seed, body, domains[at], inputs)
					}
					if !isTaken && isIn && !isWide {
						t.Fatalf("seed %d: %s with %s is refused, and the document takes it: %s", seed, body, domains[at], inputs)
					}
					switch {
					case isTaken:
						taken++
					case !isIn:
						exact++
					default:
						wide++
					}
				}
			}
		}
	}
	t.Logf("seed %d: %d are taken, %d refused by both, %d by the service alone", seed, taken, exact, wide)
	if taken < 3_000 || exact < 3_000 || wide > (taken+exact)/4 {
		t.Errorf("seed %d: %d are taken, %d refused by both, %d by the service alone", seed, taken, exact, wide)
	}
}

func takesRequest(model *served, service *decisionService, body string) bool {
	var job engine.Job
	_, p := model.request(service, []byte(body), &job, nil)
	return p == nil
}

// drawnModel draws a model with the inputs x0, x1 .., each of a service of its own; it returns their domains as texts, and values for each.
func drawnModel(draw *domaintest.Drawing, isTyped bool) (text string, of []string, values [][]string) {
	type object = map[string]any
	var inputs []string
	var decisions, services []object
	domains, types := object{}, object{}
	for len(inputs) < drawnDomains/2 {
		input, service := fmt.Sprintf("x%d", len(inputs)), fmt.Sprintf("s%d", len(inputs))
		own, some := map[string]string{}, []string{}
		for path := draw.One("", "", ".a", ".a.b"); len(own) == 0 || draw.Intn(4) == 0; path = draw.One("", ".a", ".b") {
			if text := draw.Domain(); isDomain(text) {
				own[input+path] = text
			}
			for len(some) < drawnValues {
				some = append(some, draw.One(draw.Value(2), draw.Within(2)))
			}
		}
		for path, text := range own {
			domains[path] = text
		}
		if isTyped {
			types[input] = json.RawMessage(someType(draw, 2))
		}
		inputs, of, values = append(inputs, input), append(of, fmt.Sprint(own)), append(values, some)
		decisions = append(decisions, object{"name": service, "needs": []string{input}, "expr": "1"})
		services = append(services, object{"name": service, "outputs": []string{service}, "encapsulated": []string{}, "inputDecisions": []string{},
			"inputData": []string{input}})
	}
	made, _ := plainJSON(object{"model": object{"inputs": inputs, "decisions": decisions, "services": services}, "domains": domains, "types": types})
	return string(made), of, values
}

func isDomain(text string) bool {
	_, is := domain.Read(text)
	return is
}
