package model

import (
	"bytes"
	"encoding/json"
	"fmt"
)

// The JSON forms of a model, with keys in writing order.
type (
	modelForm struct {
		Inputs    []string       `json:"inputs"`
		Decisions []decisionForm `json:"decisions"`
		Services  []Service      `json:"services"`
	}
	decisionForm struct {
		Name  string   `json:"name"`
		Needs []string `json:"needs"`
		Expr  any      `json:"expr"`
	}
	listForm struct {
		List []any `json:"list"`
	}
	contextForm struct {
		Context []entryForm `json:"context"`
		Result  any         `json:"result,omitempty"`
	}
	entryForm struct {
		Name string `json:"name"`
		Expr any    `json:"expr"`
	}
	boxedTableForm struct {
		Table tableForm `json:"table"`
	}
	tableForm struct {
		Hit     string       `json:"hit"`
		Inputs  []string     `json:"inputs"`
		Outputs []outputForm `json:"outputs"`
		Rules   []ruleForm   `json:"rules"`
	}
	outputForm struct {
		Name    string   `json:"name"`
		Values  []string `json:"values,omitempty"`
		Default *string  `json:"default,omitempty"`
	}
	ruleForm struct {
		When []string `json:"when"`
		Then []string `json:"then"`
	}
)

// JSON returns the model as one line of compact JSON without a newline. Signs such as < are not escaped.
func (m Model) JSON() ([]byte, error) {
	var line bytes.Buffer
	encoder := json.NewEncoder(&line)
	encoder.SetEscapeHTML(false)
	if err := encoder.Encode(m.form()); err != nil {
		return nil, fmt.Errorf("writing the model: %w", err)
	}
	return bytes.TrimSuffix(line.Bytes(), []byte("\n")), nil
}

// MarshalJSON returns JSON, so that a model may be inside other values.
func (m Model) MarshalJSON() ([]byte, error) {
	return m.JSON()
}

func (m Model) form() modelForm {
	form := modelForm{Inputs: texts(m.Inputs), Decisions: []decisionForm{}, Services: []Service{}}
	for _, d := range m.Decisions {
		form.Decisions = append(form.Decisions, decisionForm{d.Name, texts(d.Needs), formOf(d.Expr)})
	}
	for _, s := range m.Services {
		form.Services = append(form.Services,
			Service{s.Name, texts(s.Outputs), texts(s.Encapsulated), texts(s.InputDecisions), texts(s.InputData)})
	}
	return form
}

func formOf(e Expression) any {
	switch e := e.(type) {
	case Literal:
		return string(e)
	case List:
		return listForm{formsOf(e)}
	case Context:
		form := contextForm{Context: []entryForm{}}
		for _, entry := range e.Entries {
			form.Context = append(form.Context, entryForm{entry.Name, formOf(entry.Expr)})
		}
		if e.Result != nil {
			form.Result = formOf(e.Result)
		}
		return form
	case *Table:
		return boxedTableForm{e.form()}
	default:
		return nil
	}
}

func formsOf(list List) []any {
	forms := []any{}
	for _, member := range list {
		forms = append(forms, formOf(member))
	}
	return forms
}

func (t *Table) form() tableForm {
	form := tableForm{Hit: t.Hit, Inputs: texts(t.Inputs), Outputs: []outputForm{}, Rules: []ruleForm{}}
	for _, o := range t.Outputs {
		form.Outputs = append(form.Outputs, outputForm(o))
	}
	for _, r := range t.Rules {
		form.Rules = append(form.Rules, ruleForm{texts(r.When), texts(r.Then)})
	}
	return form
}

// texts returns the same list, which is never null in JSON.
func texts(list []string) []string {
	if list == nil {
		return []string{}
	}
	return list
}
