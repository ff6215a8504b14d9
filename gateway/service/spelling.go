package service

import (
	"bytes"
	"encoding/json"
	"fmt"

	"gateway/lines"
	"gateway/types"
)

// A modelForm has what is needed from a model to know the keys of its results.
type modelForm struct {
	Decisions []struct {
		Name string          `json:"name"`
		Expr json.RawMessage `json:"expr"`
	} `json:"decisions"`
	Services []struct {
		Name    string   `json:"name"`
		Outputs []string `json:"outputs"`
	} `json:"services"`
}

// A boxedForm has what is needed from a boxed expression: the entries of a context, the outputs of a table, the members
// of a list.
type boxedForm struct {
	Context []struct {
		Name string          `json:"name"`
		Expr json.RawMessage `json:"expr"`
	} `json:"context"`
	Result json.RawMessage `json:"result"`
	Table  struct {
		Outputs []struct {
			Name string `json:"name"`
		} `json:"outputs"`
	} `json:"table"`
	List []json.RawMessage `json:"list"`
}

// membersOf returns the members of the contexts that a boxed expression makes.
func membersOf(expr json.RawMessage) map[string]*types.Type {
	var form boxedForm
	if len(expr) == 0 || expr[0] != '{' || json.Unmarshal(expr, &form) != nil {
		return nil
	}
	members := map[string]*types.Type{}
	switch {
	case form.Result != nil:
		return membersOf(form.Result)
	case len(form.Table.Outputs) > 1:
		for _, output := range form.Table.Outputs {
			members[output.Name] = types.Any
		}
	default:
		for _, entry := range form.Context {
			members[entry.Name] = types.Any.Widened(membersOf(entry.Expr))
		}
		for _, item := range form.List {
			for name, of := range membersOf(item) {
				members[name] = of
			}
		}
	}
	return members
}

// typeOf returns the type of an input or a decision.
func (m *served) typeOf(word string) *types.Type {
	if of := m.types[word]; of != nil {
		return of
	}
	return types.Any
}

// describe finds what is known about the inputs and results of the services.
func (m *served) describe() error {
	var form modelForm
	if err := json.Unmarshal(m.source.Text, &form); err != nil {
		return fmt.Errorf("%w: %v", ErrNoModel, err)
	}
	values := map[string]*types.Type{}
	m.toNames, m.isKnown = map[string]*types.Keys{}, map[string]bool{}
	for _, form := range m.lawful.Services {
		for _, parameter := range form.Parameters {
			m.isKnown[parameter] = true
		}
	}
	for _, input := range m.lawful.Inputs {
		m.isKnown[input] = true
		values[input] = m.typeOf(input)
		m.toNames[input] = types.ToNames(values[input], m.source.Names)
	}
	for _, decision := range form.Decisions {
		values[decision.Name] = m.typeOf(decision.Name).Widened(membersOf(decision.Expr))
		m.toNames[decision.Name] = types.ToNames(values[decision.Name], m.source.Names)
	}
	for _, service := range form.Services {
		if known := m.services[service.Name]; known != nil {
			known.describe(m, service.Outputs, values)
		}
	}
	return nil
}

// describe finds what is known about the inputs and results of a service.
func (d *decisionService) describe(m *served, outputs []string, values map[string]*types.Type) {
	d.outputs = outputs
	of, named := m.typeOf(outputs[0]), values[outputs[0]]
	if len(outputs) > 1 {
		of, named = types.Object(m.typesOf(outputs)), types.Object(some(values, outputs))
	}
	if of.IsCounted() {
		d.result = of
	}
	for _, input := range d.inputs {
		if !m.typeOf(input).TakesNull() {
			d.required = append(d.required, input)
		}
	}
	defer d.restrict(m)
	d.toWords = types.ToWords(types.Object(m.typesOf(append(append([]string(nil), d.clocks...), d.inputs...))), m.source.Names)
	d.toNames = types.ToNames(named, m.source.Names)
}

// restrict makes the service as callers see it.
func (d *decisionService) restrict(m *served) {
	if m.isLenient {
		return
	}
	own := *d
	own.required, own.notNull = append([]string(nil), d.required...), map[string]bool{}
	for _, word := range m.required {
		if m.isStrict && d.parameters[word] && !isOneOf(word, d.required) {
			own.required, own.notNull[word] = append(own.required, word), true
		}
	}
	for _, word := range d.inputs {
		if _, is := m.needed[word]; is {
			own.needed = append(own.needed, word)
		}
	}
	if len(own.notNull) > 0 || m.isStrict && len(m.needs) > 0 || len(own.needed) > 0 {
		own.isStrict, d.strict = true, &own
	}
}

// ofCallers returns the service as callers see it.
func (d *decisionService) ofCallers() *decisionService {
	if d.strict != nil {
		return d.strict
	}
	return d
}

func some(values map[string]*types.Type, words []string) map[string]*types.Type {
	found := make(map[string]*types.Type, len(words))
	for _, word := range words {
		found[word] = values[word]
	}
	return found
}

func (m *served) typesOf(words []string) map[string]*types.Type {
	of := make(map[string]*types.Type, len(words))
	for _, word := range words {
		of[word] = m.typeOf(word)
	}
	return of
}

// worded returns inputs the model's words.
func (d *decisionService) worded(text []byte) ([]byte, *problem) {
	tree, err := lines.Tree(text)
	if err != nil {
		return nil, problemInside.with(err.Error())
	}
	written, fault := d.toWords.Unique(tree)
	if fault != nil {
		return nil, problemTwice.at(fault.Pointer, fault.Reason)
	}
	return lines.Compact(make([]byte, 0, len(text)), written), nil
}

// shown returns a result in the file's terms: with decimals, and with the file's names.
func (d *decisionService) shown(value []byte) []byte {
	if d.result == nil && (d.toNames == nil || bytes.IndexByte(value, '{') < 0) {
		return value
	}
	if c := lines.Begins(value); d.result != nil && (c == '-' || c >= '0' && c <= '9') {
		return lines.Compact(make([]byte, 0, len(value)+1), d.result.Decimals(json.Number(value)))
	}
	tree, err := lines.Tree(value)
	if err != nil {
		return value
	}
	if d.result != nil {
		tree = d.result.Decimals(tree)
	}
	return lines.Compact(make([]byte, 0, len(value)), d.toNames.Write(tree))
}
