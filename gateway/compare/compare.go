// Package compare says what of a model is new, gone or changed in another: inputs, decisions, services, and the columns, rules
// and cells of decision tables, in the words of their files. It knows no meaning: two texts that differ are a change.
package compare

import (
	"encoding/json"
	"fmt"
	"strings"

	"gateway/model"
	"gateway/service"
)

// A Kind is what became of a part.
type Kind string

// What becomes of a part of a model.
const (
	New     Kind = "new"
	Gone    Kind = "gone"
	Changed Kind = "changed"
)

// A Change is one part that differs.
type Change struct {
	Kind Kind `json:"change"`
	// What is the kind of the part: input, decision, service, column, rule, cell and so on.
	What string `json:"what"`
	// Of is the decision or the service that has the part; of one itself it is empty.
	Of string `json:"of,omitempty"`
	// Name is that of the part, of a rule its numbers in both models, of a cell that of its column too.
	Name string `json:"name"`
	// Rules are the numbers of a rule in the old and the new model, from 1; 0 where it is not there.
	Rules [2]int `json:"-"`
	Old   string `json:"old,omitempty"`
	New   string `json:"new,omitempty"`
}

func (c Change) String() string {
	text := strings.TrimSpace(fmt.Sprintf("%s %s %s", c.Kind, c.What, c.Name))
	if c.Of != "" {
		text = fmt.Sprintf("%s: %s", c.Of, text)
	}
	switch {
	case c.Old != "" && c.New != "":
		return fmt.Sprintf("%s: %s -> %s", text, c.Old, c.New)
	case c.Old+c.New != "":
		return fmt.Sprintf("%s: %s", text, c.Old+c.New)
	}
	return text
}

// A side is one of the models, as its file has it.
type side struct {
	*model.Model
	written *model.Written
	// places has the names of input columns, by their pointers.
	places map[string]struct{ Name string }
}

func read(source *service.Source) (*side, error) {
	parsed, err := model.Parse(source.Text)
	if err != nil {
		return nil, fmt.Errorf("%w: %v", service.ErrNoModel, err)
	}
	spelling, err := model.ReadSpelling(source.Names, source.Locals, source.Places)
	if err != nil {
		return nil, err
	}
	s := &side{written: spelling.Written(parsed)}
	s.Model = s.written.Model
	if source.Places != nil {
		if err := json.Unmarshal(source.Places, &s.places); err != nil {
			return nil, fmt.Errorf("reading the places of the file: %w", err)
		}
	}
	return s, nil
}

// A comparison gathers changes.
type comparison struct {
	old, new *side
	changes  []Change
	// of is the decision whose parts are compared.
	of string
}

// Models compares two models.
func Models(old, new *service.Source) ([]Change, error) {
	before, err := read(old)
	if err != nil {
		return nil, err
	}
	after, err := read(new)
	if err != nil {
		return nil, err
	}
	c := &comparison{old: before, new: after}
	c.names("input", before.Inputs, after.Inputs)
	c.decisions()
	c.services()
	return c.changes, nil
}

func (c *comparison) add(kind Kind, what, name, old, new string) {
	c.changes = append(c.changes, Change{Kind: kind, What: what, Of: c.of, Name: name, Old: old, New: new})
}

// names compares lists of names, whose order doesn't matter.
func (c *comparison) names(what string, old, new []string) {
	before, after := places(old), places(new)
	for _, name := range old {
		if _, is := after[name]; !is {
			c.add(Gone, what, name, "", "")
		}
	}
	for _, name := range new {
		if _, is := before[name]; !is {
			c.add(New, what, name, "", "")
		}
	}
}

func places(names []string) map[string]int {
	all := make(map[string]int, len(names))
	for at, name := range names {
		all[name] = at
	}
	return all
}

func (c *comparison) decisions() {
	old, new := make([]string, len(c.old.Decisions)), make([]string, len(c.new.Decisions))
	for at, it := range c.old.Decisions {
		old[at] = it.Name
	}
	for at, it := range c.new.Decisions {
		new[at] = it.Name
	}
	c.names("decision", old, new)
	after := places(new)
	for at, name := range old {
		if other, is := after[name]; is {
			c.decision(&c.old.Decisions[at], &c.new.Decisions[other])
		}
	}
}

// decision compares a decision that both models have.
func (c *comparison) decision(old, new *model.Decision) {
	c.of = old.Name
	defer func() { c.of = "" }()
	c.names("need", old.Needs, new.Needs)
	before, isOld := old.Expr.(*model.Table)
	after, isNew := new.Expr.(*model.Table)
	if isOld && isNew {
		c.tables(before, after)
		return
	}
	if one, two := textOf(old.Expr), textOf(new.Expr); one != two {
		c.add(Changed, "logic", "", one, two)
	}
}

func (c *comparison) services() {
	old, before := servicesOf(c.old.Model)
	new, after := servicesOf(c.new.Model)
	c.names("service", old, new)
	for _, name := range old {
		if other, is := after[name]; is {
			c.service(before[name], other)
		}
	}
}

func servicesOf(m *model.Model) (names []string, byName map[string]model.Service) {
	byName = map[string]model.Service{}
	for _, it := range m.Services {
		names, byName[it.Name] = append(names, it.Name), it
	}
	return names, byName
}

// service compares a service that both models have.
func (c *comparison) service(old, new model.Service) {
	c.of = old.Name
	defer func() { c.of = "" }()
	c.names("output", old.Outputs, new.Outputs)
	c.names("encapsulated decision", old.Encapsulated, new.Encapsulated)
	c.names("input decision", old.InputDecisions, new.InputDecisions)
	c.names("input", old.InputData, new.InputData)
}

// textOf is an expression as text.
func textOf(e model.Expression) string {
	switch e := e.(type) {
	case model.Literal:
		return string(e)
	case model.List:
		var all []string
		for _, it := range e {
			all = append(all, textOf(it))
		}
		return "[" + strings.Join(all, ", ") + "]"
	case model.Context:
		return textOfContext(e)
	case *model.Table:
		return textOfTable(e)
	}
	return ""
}

func textOfContext(c model.Context) string {
	var all []string
	for _, it := range c.Entries {
		all = append(all, it.Name+": "+textOf(it.Expr))
	}
	if c.Result != nil {
		all = append(all, textOf(c.Result))
	}
	return "{" + strings.Join(all, ", ") + "}"
}

// textOfTable is a table within another expression.
func textOfTable(t *model.Table) string {
	var all []string
	for _, rule := range t.Rules {
		all = append(all, strings.Join(rule.When, " | ")+" => "+strings.Join(rule.Then, " | "))
	}
	return fmt.Sprintf("table %s over %s: %s", t.Hit, strings.Join(t.Inputs, ", "), strings.Join(all, "; "))
}
