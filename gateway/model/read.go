package model

import (
	"bytes"
	"encoding/json"
	"errors"
	"fmt"
	"io"
	"strconv"
)

// A ShapeError says where a JSON value doesn't have the form of a model.
type ShapeError struct {
	// Pointer is the place, as a JSON Pointer (RFC 6901) into the model.
	Pointer string
	// Due is what must be there.
	Due string
}

func (e *ShapeError) Error() string {
	return fmt.Sprintf("%q: %s", e.Pointer, e.Due)
}

// deepest limits the nesting of lists and objects in a model.
const deepest = 127

// Parse reads a model from JSON. It returns a *ShapeError if the JSON doesn't have the form of a model: a missing or unknown
// key, a value of the wrong kind, or nesting over 127.
func Parse(data []byte) (*Model, error) {
	decoder := json.NewDecoder(bytes.NewReader(data))
	decoder.UseNumber()
	var value any
	if err := decoder.Decode(&value); err != nil {
		return nil, fmt.Errorf("reading the model: %w", err)
	}
	if _, err := decoder.Token(); !errors.Is(err, io.EOF) {
		return nil, errors.New("reading the model: something stands behind it")
	}
	return Of(value)
}

// Of returns the model in a JSON value, as encoding/json decodes it.
func Of(value any) (*Model, error) {
	r := reader{}
	m := r.model(value)
	if r.fault != nil {
		return nil, r.fault
	}
	return m, nil
}

// A reader keeps the first place that doesn't have the due form.
type reader struct {
	fault *ShapeError
}

func (r *reader) fail(pointer, due string) {
	if r.fault == nil {
		r.fault = &ShapeError{pointer, due}
	}
}

// object returns the members of an object with these keys, some optional, and no others.
func (r *reader) object(pointer string, value any, keys []string, optional ...string) map[string]any {
	members, ok := value.(map[string]any)
	if !ok {
		r.fail(pointer, "an object is due")
		return nil
	}
	known := len(keys)
	for _, key := range keys {
		if _, ok := members[key]; !ok {
			r.fail(pointer, "the key "+strconv.Quote(key)+" is missing")
		}
	}
	for _, key := range optional {
		if _, ok := members[key]; ok {
			known++
		}
	}
	if len(members) > known {
		r.fail(pointer, "a key is not known")
	}
	return members
}

func (r *reader) list(pointer string, value any) []any {
	list, ok := value.([]any)
	if !ok {
		r.fail(pointer, "a list is due")
	}
	return list
}

func (r *reader) text(pointer string, value any) string {
	text, ok := value.(string)
	if !ok {
		r.fail(pointer, "a text is due")
	}
	return text
}

func (r *reader) texts(pointer string, value any) []string {
	texts := []string{}
	for i, member := range r.list(pointer, value) {
		texts = append(texts, r.text(at(pointer, i), member))
	}
	return texts
}

func at(pointer string, index int) string {
	return pointer + "/" + strconv.Itoa(index)
}

func (r *reader) model(value any) *Model {
	members := r.object("", value, []string{"inputs", "decisions", "services"})
	m := &Model{Inputs: r.texts("/inputs", members["inputs"])}
	for i, d := range r.list("/decisions", members["decisions"]) {
		m.Decisions = append(m.Decisions, r.decision(at("/decisions", i), d))
	}
	for i, s := range r.list("/services", members["services"]) {
		m.Services = append(m.Services, r.service(at("/services", i), s))
	}
	return m
}

func (r *reader) decision(pointer string, value any) Decision {
	members := r.object(pointer, value, []string{"name", "needs", "expr"})
	return Decision{
		Name:  r.text(pointer+"/name", members["name"]),
		Needs: r.texts(pointer+"/needs", members["needs"]),
		Expr:  r.expression(pointer+"/expr", members["expr"], 1),
	}
}

func (r *reader) service(pointer string, value any) Service {
	members := r.object(pointer, value, []string{"name", "outputs", "encapsulated", "inputDecisions", "inputData"})
	return Service{
		Name:           r.text(pointer+"/name", members["name"]),
		Outputs:        r.texts(pointer+"/outputs", members["outputs"]),
		Encapsulated:   r.texts(pointer+"/encapsulated", members["encapsulated"]),
		InputDecisions: r.texts(pointer+"/inputDecisions", members["inputDecisions"]),
		InputData:      r.texts(pointer+"/inputData", members["inputData"]),
	}
}

func (r *reader) expression(pointer string, value any, depth int) Expression {
	if depth > deepest {
		r.fail(pointer, "lists and objects nest too deep")
	}
	if text, ok := value.(string); ok {
		return Literal(text)
	}
	members, ok := value.(map[string]any)
	if !ok || r.fault != nil {
		r.fail(pointer, "a text or an object is due")
		return nil
	}
	if _, ok := members["list"]; ok {
		r.object(pointer, value, []string{"list"})
		return r.members(pointer+"/list", members["list"], depth)
	}
	if _, ok := members["table"]; ok {
		r.object(pointer, value, []string{"table"})
		return r.table(pointer+"/table", members["table"])
	}
	r.object(pointer, value, []string{"context"}, "result")
	return r.context(pointer, members, depth)
}

func (r *reader) members(pointer string, value any, depth int) List {
	list := List{}
	for i, member := range r.list(pointer, value) {
		list = append(list, r.expression(at(pointer, i), member, depth+2))
	}
	return list
}

func (r *reader) context(pointer string, members map[string]any, depth int) Context {
	var c Context
	for i, value := range r.list(pointer+"/context", members["context"]) {
		place := at(pointer+"/context", i)
		entry := r.object(place, value, []string{"name", "expr"})
		name := r.text(place+"/name", entry["name"])
		c.Entries = append(c.Entries, Entry{name, r.expression(place+"/expr", entry["expr"], depth+3)})
	}
	if result, ok := members["result"]; ok {
		c.Result = r.expression(pointer+"/result", result, depth+1)
	}
	return c
}

func (r *reader) table(pointer string, value any) *Table {
	members := r.object(pointer, value, []string{"hit", "inputs", "outputs", "rules"})
	t := &Table{Hit: r.text(pointer+"/hit", members["hit"]), Inputs: r.texts(pointer+"/inputs", members["inputs"])}
	for i, value := range r.list(pointer+"/outputs", members["outputs"]) {
		t.Outputs = append(t.Outputs, r.output(at(pointer+"/outputs", i), value))
	}
	for i, value := range r.list(pointer+"/rules", members["rules"]) {
		place := at(pointer+"/rules", i)
		rule := r.object(place, value, []string{"when", "then"})
		t.Rules = append(t.Rules, Rule{r.texts(place+"/when", rule["when"]), r.texts(place+"/then", rule["then"])})
	}
	return t
}

func (r *reader) output(pointer string, value any) Output {
	members := r.object(pointer, value, []string{"name"}, "values", "default")
	o := Output{Name: r.text(pointer+"/name", members["name"])}
	if values, ok := members["values"]; ok {
		o.Values = r.texts(pointer+"/values", values)
	}
	if value, ok := members["default"]; ok {
		text := r.text(pointer+"/default", value)
		o.Default = &text
	}
	return o
}
