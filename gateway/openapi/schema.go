package openapi

import (
	"bytes"
	"encoding/json"
	"fmt"
	"math/big"
	"strings"

	"gateway/lines"
)

// Schema returns a JSON Schema in OpenAPI 3.0's form: "nullable" instead of the type null. An input without a type takes any
// value.
func Schema(raw json.RawMessage) map[string]any {
	var schema map[string]any
	decoder := json.NewDecoder(bytes.NewReader(raw))
	decoder.UseNumber()
	if decoder.Decode(&schema) != nil || len(schema) == 0 {
		return object{"nullable": true, "description": "Any value"}
	}
	translate(schema)
	return schema
}

func translate(schema map[string]any) {
	delete(schema, "$schema")
	translateKinds(schema)
	if schema["type"] == "integer" {
		schema["format"] = "int64"
	}
	translateMoment(schema)
	if _, is := schema["per"]; is {
		delete(schema, "per")
		describe(schema, "A quotient, to 34 significant digits")
	}
	if value, is := schema["const"]; is {
		delete(schema, "const")
		schema["enum"] = []any{value}
	}
	for _, key := range []string{"exclusiveMinimum", "exclusiveMaximum"} {
		if limit, is := schema[key].(json.Number); is {
			schema[key] = true
			schema[map[string]string{"exclusiveMinimum": "minimum", "exclusiveMaximum": "maximum"}[key]] = limit
		}
	}
	for _, part := range partsOf(schema) {
		translate(part)
	}
}

// translateKinds writes the kinds of values: one with "nullable", or several schemas.
func translateKinds(schema map[string]any) {
	types, is := schema["type"].([]any)
	if !is {
		return
	}
	delete(schema, "type")
	var several []any
	for _, name := range types {
		if name == "null" {
			schema["nullable"] = true
		} else {
			schema["type"], several = name, append(several, map[string]any{"type": name})
		}
	}
	if len(several) < 2 {
		return
	}
	delete(schema, "type")
	if schema["nullable"] == true {
		delete(schema, "nullable")
		several[0].(map[string]any)["nullable"] = true
	}
	all, _ := schema["allOf"].([]any)
	schema["allOf"] = append(all, map[string]any{"anyOf": several})
}

// describe puts words before those of a schema.
func describe(schema map[string]any, words string) {
	if said, is := schema["description"].(string); is {
		words += ". " + said
	}
	schema["description"] = words
}

// unitNames are descriptions and examples of the units of durations.
var unitNames = map[any][2]string{"second": {"A days and time duration", "P1DT12H"}, "month": {"A years and months duration", "P1Y6M"}}

// localTimes are descriptions of times without an offset.
var localTimes = map[any]string{"time": "A time without an offset, as 12:30:00",
	"date-time": "A date and time without an offset, as 2026-01-31T12:30:00"}

// translateMoment words what OpenAPI has no keywords for: the kind of a duration, and the bounds of dates and durations.
func translateMoment(schema map[string]any) {
	var said []string
	// A time or a duration is written in several ways, so a list of them would refuse some.
	isSpeltInWays := schema["format"] == "time" || schema["format"] == "date-time" || schema["format"] == "duration"
	if hasOffset, is := schema["offset"].(bool); is {
		if !hasOffset {
			// RFC 3339's formats have an offset.
			said = append(said, localTimes[schema["format"]])
			delete(schema, "format")
		}
		delete(schema, "offset")
	}
	if name, is := unitNames[schema["unit"]]; is {
		said = append(said, name[0])
	}
	for _, bound := range [][2]string{{"formatMinimum", "at least"}, {"formatExclusiveMinimum", "after"}, {"formatMaximum", "at most"},
		{"formatExclusiveMaximum", "before"}} {
		if limit, is := schema[bound[0]].(string); is {
			said = append(said, bound[1]+" "+limit)
		}
		delete(schema, bound[0])
	}
	if listed, is := schema["enum"].([]any); is && isSpeltInWays && len(listed) > 0 {
		said = append(said, "one of "+lines.Brief(lines.Compact(nil, listed), mostWords))
		schema["example"] = listed[0]
		delete(schema, "enum")
	}
	delete(schema, "unit")
	delete(schema, "clock")
	if decimals, is := schema["decimals"].(json.Number); is {
		said = append(said, fmt.Sprintf("with up to %v decimals of a second", decimals))
		delete(schema, "decimals")
	}
	if len(said) > 0 {
		text := strings.Join(said, ", ")
		describe(schema, strings.ToUpper(text[:1])+text[1:])
	}
}

// partsOf returns the schemas within a schema.
func partsOf(schema map[string]any) (parts []map[string]any) {
	add := func(part any) {
		if part, is := part.(map[string]any); is {
			parts = append(parts, part)
		}
	}
	for _, key := range []string{"items", "not", "additionalProperties"} {
		add(schema[key])
	}
	for _, key := range []string{"oneOf", "anyOf", "allOf"} {
		several, _ := schema[key].([]any)
		for _, part := range several {
			add(part)
		}
	}
	properties, _ := schema["properties"].(map[string]any)
	for _, part := range properties {
		add(part)
	}
	return parts
}

// Example returns a value that a schema takes, as far as its main keywords say.
func Example(schema map[string]any) any {
	if value, is := schema["example"]; is {
		return value
	}
	if values, is := schema["enum"].([]any); is && len(values) > 0 {
		return values[0]
	}
	if least, is := schema["minimum"].(json.Number); is {
		if schema["exclusiveMinimum"] == true {
			return after(least)
		}
		return least
	}
	if text := exampleMoment(schema); text != "" {
		return text
	}
	if several, is := schema["anyOf"].([]any); is && len(several) > 0 {
		return exampleOf(schema, several[0])
	}
	switch schema["type"] {
	case "string":
		return "text"
	case "boolean":
		return true
	case "array":
		items, _ := schema["items"].(map[string]any)
		return []any{Example(items)}
	case "object":
		all := map[string]any{}
		parts, _ := schema["properties"].(map[string]any)
		for name, part := range parts {
			part, _ := part.(map[string]any)
			all[name] = Example(part)
		}
		return all
	case "integer", "number":
		return json.Number("1")
	}
	return nil
}

// after returns a number that is 1 more.
func after(number json.Number) json.Number {
	made := rational(number)
	made.Add(made, big.NewRat(1, 1))
	_, decimals, _ := strings.Cut(number.String(), ".")
	return json.Number(made.FloatString(len(decimals)))
}

// exampleOf returns a value that a schema and one of its alternatives take.
func exampleOf(schema map[string]any, alternative any) any {
	one, is := alternative.(map[string]any)
	if !is {
		return nil
	}
	both := object{"type": schema["type"]}
	for key, value := range one {
		both[key] = value
	}
	return Example(both)
}

// withoutNull removes null from a schema's values.
func withoutNull(schema map[string]any) {
	delete(schema, "nullable")
	values, is := schema["enum"].([]any)
	if !is {
		return
	}
	kept := make([]any, 0, len(values))
	for _, value := range values {
		if value != nil {
			kept = append(kept, value)
		}
	}
	schema["enum"] = kept
}

// require says in a schema which components are required, and not null.
func require(schema map[string]any, needs []Need) {
	properties, _ := schema["properties"].(map[string]any)
	names, _ := schema["required"].([]any)
	for _, need := range needs {
		part, is := properties[need.Name].(map[string]any)
		if !is {
			continue
		}
		withoutNull(part)
		require(part, need.Within)
		if !hasName(names, need.Name) {
			names = append(names, need.Name)
		}
	}
	if len(names) > 0 {
		schema["required"] = names
	}
}

func hasName(names []any, name string) bool {
	for _, other := range names {
		if other == name {
			return true
		}
	}
	return false
}

// exampleMoment returns an example of a date, time or duration, or "".
func exampleMoment(schema map[string]any) string {
	said, _ := schema["description"].(string)
	for _, text := range localTimes {
		if strings.HasPrefix(said, text) {
			return text[strings.LastIndexByte(text, ' ')+1:]
		}
	}
	for _, unit := range unitNames {
		if strings.HasPrefix(said, unit[0]) {
			return unit[1]
		}
	}
	format, _ := schema["format"].(string)
	return map[string]string{"date": "2026-01-31", "time": "12:30:00+02:00", "date-time": "2026-01-31T12:30:00+02:00"}[format]
}
