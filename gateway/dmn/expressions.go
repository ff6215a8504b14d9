package dmn

import (
	"fmt"
	"strings"
)

// expressions returns the readers of all boxed expressions by tag.
func (r *reader) expressions(take func(Expression)) map[string]part {
	unread := func(e *Element) { take(&Unread{e}) }
	return map[string]part{
		"literalExpression":  func(e *Element) { take(r.text(e)) },
		"decisionTable":      func(e *Element) { take(r.table(e)) },
		"context":            func(e *Element) { take(r.context(e)) },
		"list":               func(e *Element) { take(r.list(e)) },
		"relation":           func(e *Element) { take(r.relation(e)) },
		"invocation":         func(e *Element) { take(r.invocation(e)) },
		"functionDefinition": func(e *Element) { take(r.function(e)) },
		"conditional":        func(e *Element) { take(r.conditional(e)) },
		"filter":             unread, "for": unread, "every": unread, "some": unread,
	}
}

// text reads an element with text.
func (r *reader) text(e *Element) *Text {
	t := &Text{Element: e, Language: e.Attribute("expressionLanguage"), TypeRef: e.Type()}
	if t.Language == "" {
		t.Language = r.file.Root.Attribute("expressionLanguage")
	}
	r.parts(e, map[string]part{
		"text": func(c *Element) {
			t.Text = c.Text
			r.alone(c)
		},
		"importedValues": func(c *Element) {
			r.fault(c, c.Attribute("locationURI"), "values of another file are not read", "write the values here")
		},
	})
	return t
}

// alone reports an element within a text as a fault.
func (r *reader) alone(e *Element) {
	for _, child := range e.Children {
		r.fault(child, child.Tag, fmt.Sprintf("an element stands in %s, where characters alone are due", e.Tag),
			"the characters without it; < as &lt;")
	}
}

func (r *reader) table(e *Element) *Table {
	t := &Table{Element: e, HitPolicy: e.Attribute("hitPolicy"), Aggregation: e.Attribute("aggregation")}
	if t.HitPolicy == "" {
		t.HitPolicy = "UNIQUE"
	}
	r.parts(e, map[string]part{
		"input":      func(c *Element) { t.Inputs = append(t.Inputs, r.inputClause(c)) },
		"output":     func(c *Element) { t.Outputs = append(t.Outputs, r.outputClause(c)) },
		"rule":       func(c *Element) { t.Rules = append(t.Rules, r.rule(c)) },
		"annotation": nil,
	})
	return t
}

func (r *reader) inputClause(e *Element) *InputClause {
	clause := &InputClause{Element: e}
	r.parts(e, map[string]part{
		"inputExpression": func(c *Element) { clause.Expression = r.text(c) },
		"inputValues":     func(c *Element) { clause.Values = r.text(c) },
	})
	return clause
}

func (r *reader) outputClause(e *Element) *OutputClause {
	clause := &OutputClause{Element: e}
	r.parts(e, map[string]part{
		"outputValues":       func(c *Element) { clause.Values = r.text(c) },
		"defaultOutputEntry": func(c *Element) { clause.Default = r.text(c) },
	})
	return clause
}

func (r *reader) rule(e *Element) *Rule {
	rule := &Rule{Element: e}
	r.parts(e, map[string]part{
		"inputEntry":      func(c *Element) { rule.When = append(rule.When, r.text(c)) },
		"outputEntry":     func(c *Element) { rule.Then = append(rule.Then, r.text(c)) },
		"annotationEntry": nil,
	})
	return rule
}

func (r *reader) context(e *Element) *Context {
	c := &Context{Element: e}
	r.parts(e, map[string]part{"contextEntry": func(child *Element) { c.Entries = append(c.Entries, r.entry(child)) }})
	return c
}

func (r *reader) entry(e *Element) *ContextEntry {
	entry := &ContextEntry{Element: e}
	known := r.expressions(func(x Expression) { entry.Value = r.only(e, entry.Value, x) })
	known["variable"] = func(c *Element) { entry.Variable = variable(c) }
	r.parts(e, known)
	return entry
}

func (r *reader) list(e *Element) *List {
	l := &List{Element: e}
	r.parts(e, r.expressions(func(x Expression) { l.Members = append(l.Members, x) }))
	return l
}

func (r *reader) relation(e *Element) *Relation {
	relation := &Relation{Element: e}
	r.parts(e, map[string]part{
		"column": func(c *Element) { relation.Columns = append(relation.Columns, variable(c)) },
		"row":    func(c *Element) { relation.Rows = append(relation.Rows, r.list(c)) },
	})
	return relation
}

func (r *reader) invocation(e *Element) *Invocation {
	i := &Invocation{Element: e}
	r.parts(e, map[string]part{
		"literalExpression": func(c *Element) {
			if i.Function != nil {
				r.fault(c, c.Tag, fmt.Sprintf("a second expression in %s", e.Tag), "")
			}
			i.Function = r.text(c)
		},
		"binding": func(c *Element) { i.Bindings = append(i.Bindings, r.binding(c)) },
	})
	return i
}

func (r *reader) binding(e *Element) *Binding {
	b := &Binding{Element: e}
	known := r.expressions(func(x Expression) { b.Value = r.only(e, b.Value, x) })
	known["parameter"] = func(c *Element) { b.Parameter = variable(c) }
	r.parts(e, known)
	return b
}

func (r *reader) function(e *Element) *FunctionDefinition {
	f := &FunctionDefinition{Element: e, Kind: e.Attribute("kind")}
	if f.Kind == "" || strings.EqualFold(f.Kind, "feel") {
		f.Kind = "FEEL"
	}
	known := r.expressions(func(x Expression) { f.Body = r.only(e, f.Body, x) })
	known["formalParameter"] = func(c *Element) { f.Parameters = append(f.Parameters, variable(c)) }
	r.parts(e, known)
	return f
}

func (r *reader) conditional(e *Element) *Conditional {
	c := &Conditional{Element: e}
	r.parts(e, map[string]part{
		"if":   func(child *Element) { c.If = r.branch(child) },
		"then": func(child *Element) { c.Then = r.branch(child) },
		"else": func(child *Element) { c.Else = r.branch(child) },
	})
	return c
}

// branch reads the one expression in an element.
func (r *reader) branch(e *Element) Expression {
	var value Expression
	r.parts(e, r.expressions(func(x Expression) { value = r.only(e, value, x) }))
	if value == nil {
		r.fault(e, "", fmt.Sprintf("no expression stands in %s", e.Tag), "")
	}
	return value
}
