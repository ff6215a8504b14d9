package export

import (
	"fmt"
	"reflect"

	"gateway/model"
)

// ids has the ids of elements that others refer to. A word after its kind is a valid id.
type ids struct{ nodes map[string]string }

func newIDs(m *model.Model) ids {
	nodes := map[string]string{}
	for _, input := range m.Inputs {
		nodes[input] = "input_" + input
	}
	for _, d := range m.Decisions {
		nodes[d.Name] = "decision_" + d.Name
	}
	return ids{nodes}
}

// node returns the id of an input or decision.
func (i ids) node(word string) string { return i.nodes[word] }

// of returns the id of another element.
func (i ids) of(kind, word string) string { return kind + "_" + word }

// keywords are keywords of FEEL that are valid names here.
var keywords = map[string]bool{
	"for": true, "in": true, "return": true, "some": true, "every": true, "satisfies": true, "instance": true,
	"function": true, "external": true,
}

// checkNames refuses names that the standard doesn't allow. Two words with one spelling would be one name there.
func (p *page) checkNames() {
	words := map[string]string{}
	check := func(pointer, word string) {
		name := p.spell(word)
		if keywords[name] {
			p.refuse(pointer, name, "it is a keyword of FEEL", "another name")
		}
		if other, found := words[name]; found && other != word {
			p.refuse(pointer, name, fmt.Sprintf("%s and %s have one name", other, word), "another name for one of them")
		}
		words[name] = word
	}
	for i, input := range p.Model.Inputs {
		check(fmt.Sprintf("/inputs/%d", i), input)
	}
	for i, d := range p.Model.Decisions {
		check(fmt.Sprintf("/decisions/%d/name", i), d.Name)
		p.checkBoxed(fmt.Sprintf("/decisions/%d/expr", i), d.Expr, check)
	}
}

func (p *page) checkBoxed(pointer string, e model.Expression, check func(pointer, word string)) {
	switch e := e.(type) {
	case model.List:
		for i, member := range e {
			p.checkBoxed(fmt.Sprintf("%s/list/%d", pointer, i), member, check)
		}
	case model.Context:
		for i, entry := range e.Entries {
			place := fmt.Sprintf("%s/context/%d", pointer, i)
			check(place+"/name", entry.Name)
			p.checkBoxed(place+"/expr", entry.Expr, check)
		}
		p.checkBoxed(pointer+"/result", e.Result, check)
	case *model.Table:
		for i, output := range e.Outputs {
			check(fmt.Sprintf("%s/table/outputs/%d/name", pointer, i), output.Name)
		}
	}
}

// servesByDefault reports whether the services are those that an import makes for a file without any: one for each decision,
// first those that no other decision needs.
func (p *page) servesByDefault() bool {
	var made []model.Service
	needed := map[string]bool{}
	for _, d := range p.Model.Decisions {
		for _, need := range d.Needs {
			needed[need] = true
		}
	}
	for _, inner := range []bool{false, true} {
		for _, d := range p.Model.Decisions {
			if needed[d.Name] == inner {
				made = append(made, p.serviceOf(d.Name))
			}
		}
	}
	return len(made) > 0 && reflect.DeepEqual(made, p.services)
}

// serviceOf returns the service for a decision: what it needs, and what that needs, nearest first.
func (p *page) serviceOf(word string) model.Service {
	s := model.Service{Name: word, Outputs: []string{word}, Encapsulated: []string{}, InputDecisions: []string{},
		InputData: []string{}}
	seen := map[string]bool{}
	open := []string{word}
	for len(open) > 0 {
		next := open[0]
		open = open[1:]
		if seen[next] {
			continue
		}
		seen[next] = true
		d := p.decisions[next]
		switch {
		case d == nil:
			s.InputData = append(s.InputData, next)
			continue
		case next != word:
			s.Encapsulated = append(s.Encapsulated, next)
		}
		open = append(open, d.Needs...)
	}
	return s
}
