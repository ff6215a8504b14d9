package tell

import (
	"errors"
	"fmt"
	"strings"

	"gateway/lines"
	"gateway/model"
)

var errNoModel = errors.New("the engine reads a model where this program reads none")

// valid reports a model without a fault.
func (r *report) valid() error {
	if r.file == nil || r.file.model == nil {
		return errNoModel
	}
	r.put(func() string { return summary(r.file.model, r.facts.gives) }, func() string { return jsonSummary(r.file.model) })
	r.gives()
	r.warnings()
	if err := r.tables(); err != nil {
		return err
	}
	r.notes()
	return nil
}

func kindOfLogic(logic model.Expression) string {
	switch logic := logic.(type) {
	case *model.Table:
		return "table"
	case model.List:
		return "list"
	case model.Context:
		if logic.Result != nil {
			return "context with a result"
		}
		return "context"
	}
	return "expression"
}

// parameters returns the names that a request to a service may bring.
func parameters(service *model.Service) []string {
	return append(append([]string(nil), service.InputDecisions...), service.InputData...)
}

// summary returns the first part of the report about a valid model.
func summary(m *model.Model, gives *givesFacts) string {
	var text strings.Builder
	fmt.Fprintf(&text, "lawful\ninputs: %s\ndecisions:\n", strings.Join(m.Inputs, ", "))
	for _, decision := range m.Decisions {
		fmt.Fprintf(&text, "  %s: %s\n", decision.Name, gives.decision(decision.Name, kindOfLogic(decision.Expr)))
	}
	text.WriteString("services:\n")
	for at := range m.Services {
		service := &m.Services[at]
		fmt.Fprintf(&text, "  %s(%s)%s\n", service.Name, strings.Join(parameters(service), ", "), gives.service(service.Name))
	}
	return text.String()
}

// jsonSummary returns the same as a line of JSON.
func jsonSummary(m *model.Model) string {
	decisions, services := []string{}, []string{}
	for _, decision := range m.Decisions {
		o := object(nil).text("name", decision.Name).text("kind", kindOfLogic(decision.Expr))
		decisions = append(decisions, strings.TrimSuffix(o.line(), "\n"))
	}
	for at := range m.Services {
		o := object(nil).text("name", m.Services[at].Name).raw("parameters", listOf(parameters(&m.Services[at])))
		services = append(services, strings.TrimSuffix(o.line(), "\n"))
	}
	return object(nil).raw("lawful", "true").raw("inputs", listOf(m.Inputs)).raw("decisions", "["+strings.Join(decisions, ",")+"]").
		raw("services", "["+strings.Join(services, ",")+"]").line()
}

// listOf returns a JSON list of texts.
func listOf(texts []string) string {
	list := []byte{'['}
	for at, text := range texts {
		if at > 0 {
			list = append(list, ',')
		}
		list = lines.AppendQuoted(list, text)
	}
	return string(append(list, ']'))
}
