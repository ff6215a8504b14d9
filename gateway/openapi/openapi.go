// Package openapi describes services in OpenAPI 3.0.3.
package openapi

import (
	"encoding/json"
	"fmt"
	"net/url"
	"reflect"
)

// A Service is a decision service and its inputs.
type Service struct {
	Name   string
	Inputs []Input
	// Result is the JSON Schema of its results, or nil.
	Result json.RawMessage
	// Strict means that unknown inputs are refused.
	Strict bool
}

// An Input is a parameter of a service.
type Input struct {
	Name string
	// Schema is the JSON Schema of its values, or nil. Trial is that of explanations, for which null may be given, and what is required
	// left out; nil if it is the same.
	Schema, Trial json.RawMessage
	// Required means that requests without it are refused, NotNull that requests with null are, whatever the schema says.
	Required, NotNull bool
	// Needs are its components that are required likewise.
	Needs []Need
}

// A Need is a component that requests must have, and not as null, with those of its own.
type Need struct {
	Name   string
	Within []Need
}

type object map[string]any

const digits = "Whole numbers from -9223372036854775807 to 9223372036854775807. Beyond 9007199254740991 " +
	"(2^53 - 1) they lose digits where numbers are floats, as in browsers and in most JavaScript."

// Page returns the description of these services under a model with this SHA-256, from an engine of this version. guarded means
// that callers need tokens.
func Page(sum, version string, guarded bool, services []Service) ([]byte, error) {
	parts := components(guarded)
	schemas, paths := parts["schemas"].(object), fixedPaths()
	for at, name := range operations(services) {
		service := services[at]
		paths["/v1/services/"+url.PathEscape(service.Name)] = object{"post": call(service, name, schemas)}
		paths["/v1/explain/"+url.PathEscape(service.Name)] = object{"post": explaining(service, name, schemas)}
	}
	page := object{
		"openapi": "3.0.3",
		"info": object{
			"title":       "Decision services",
			"version":     sum[:12],
			"description": "Desk " + version + ", under the model with the SHA-256 " + sum + ". " + digits,
		},
		"paths":      paths,
		"components": parts,
	}
	if guarded {
		page["security"] = []object{{"token": []string{}}}
	}
	text, err := json.MarshalIndent(page, "", "  ")
	if err != nil {
		return nil, fmt.Errorf("describing the services: %w", err)
	}
	return append(text, '\n'), nil
}

// inputs describes a service's inputs, and gives an example.
func (service Service) inputs() (inputs, example object) {
	properties, required := object{}, []string{}
	example = object{}
	for _, input := range service.Inputs {
		schema := Schema(input.Schema)
		if input.NotNull {
			withoutNull(schema)
		}
		require(schema, input.Needs)
		properties[input.Name] = schema
		example[input.Name] = Example(schema)
		if input.Required {
			required = append(required, input.Name)
		}
	}
	inputs = object{"type": "object", "properties": properties, "description": "An input that is missing is null. Inputs of other services are ignored."}
	if len(required) > 0 {
		inputs["required"] = required
	}
	if service.Strict {
		inputs["additionalProperties"] = false
	}
	return inputs, example
}

// trial returns the service as explanations take it.
func (service Service) trial() Service {
	made := service
	made.Inputs = make([]Input, len(service.Inputs))
	for at, input := range service.Inputs {
		made.Inputs[at] = Input{Name: input.Name, Schema: input.Schema}
		if input.Trial != nil {
			made.Inputs[at].Schema = input.Trial
		}
	}
	return made
}

// call describes a service's calls, and adds its named schemas.
func call(service Service, name string, schemas object) object {
	inputs, example := service.inputs()
	schemas[name+"Inputs"] = inputs
	if tried, _ := service.trial().inputs(); !reflect.DeepEqual(tried, inputs) {
		schemas[name+"Trial"] = tried
	}
	schemas[name+"Answer"] = object{"type": "object", "required": []string{"result"}, "properties": object{
		"result": Schema(service.Result), "decisions": decisions, "explained": explained}}
	one := object{"$ref": "#/components/schemas/" + name + "Inputs"}
	return object{
		"operationId": name,
		"summary":     "Asks the decision service " + service.Name,
		"parameters":  callHeaders(),
		"requestBody": object{"required": true, "content": object{"application/json": object{
			"schema": object{"oneOf": []object{one, {"type": "array", "maxItems": 10000, "items": one}}},
			"examples": object{
				"one":  object{"summary": "One request", "value": example},
				"list": object{"summary": "A list of requests", "value": []object{example, example}},
			},
		}}},
		"responses": responses(object{"$ref": "#/components/schemas/" + name + "Answer"}),
	}
}

// The explanation of a result or a problem, if requested: one of these.
var (
	decisions = object{"type": "array", "items": object{"type": "object"}, "description": "How it came about"}
	explained = object{"type": "string", "enum": []string{"long"},
		"description": "In the place of decisions that are too long to be told"}
)

func callHeaders() []object {
	return []object{
		{"name": "X-Client", "in": "header", "schema": object{"type": "string", "minLength": 1, "maxLength": 64},
			"description": "A name whose requests are answered in their order"},
		{"name": "X-Request-Id", "in": "header", "schema": object{"type": "string", "maxLength": 57},
			"description": "The request's id; one is made where it is missing"},
		{"name": "explain", "in": "query", "schema": object{"type": "boolean"},
			"description": "Adds how the result came about, as decisions; where these are too long, explained in their place"},
	}
}

// responses returns the responses to a call whose single answers have this schema.
func responses(result object) object {
	problem := object{"$ref": "#/components/schemas/Problem"}
	all := object{"200": object{
		"description": "The result; of a list, each request's result or problem in order",
		"headers": object{
			"Desk-Model":   header("The SHA-256 of all that decided"),
			"Desk-Record":  header("The answer's own id, where a journal is kept"),
			"Traceparent":  header("The same trace as the request's"),
			"Desk-Engine":  header("The engine's version"),
			"X-Request-Id": header("The request's id"),
		},
		"content": object{"application/json": object{"schema": object{"oneOf": []object{
			result, {"type": "array", "items": object{"anyOf": []object{result, problem}}}}}}},
	}}
	for status, said := range map[string]string{
		"400": "The body is no JSON, with line and column; or a header is not taken",
		"401": "A token is asked for", "403": "The token may not do this",
		"404": "There is no such service; services lists those that there are",
		"413": "The request is too long",
		"422": "A value is not taken, with its JSON Pointer; or a value breaks a limit on the way",
		"429": "The client has too many requests out",
		"500": "An engine ended at the request, or the result is too long",
		"503": "There is too much to do, the journal cannot be written, or the service is about to end",
		"504": "The request takes longer than the deadline",
	} {
		response := object{"description": said, "content": object{"application/problem+json": object{"schema": problem}}}
		if status == "429" || status == "503" {
			response["headers"] = object{"Retry-After": header("Seconds")}
		}
		all[status] = response
	}
	return all
}

func header(said string) object {
	return object{"description": said, "schema": object{"type": "string"}}
}

func components(guarded bool) object {
	text, number := object{"type": "string"}, object{"type": "integer", "format": "int64"}
	all := object{"schemas": object{"Problem": object{
		"type": "object", "required": []string{"type", "title", "status"},
		"properties": object{
			"type": text, "title": text, "status": number, "detail": text, "request": text, "pointer": text,
			"line": number, "column": number, "fault": text,
			"services":  object{"type": "array", "items": text},
			"errors":    object{"type": "array", "items": object{"type": "object"}},
			"decisions": decisions, "explained": explained,
		},
	}}}
	if guarded {
		all["securitySchemes"] = object{"token": object{"type": "http", "scheme": "bearer"}}
	}
	return all
}
