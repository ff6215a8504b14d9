package profile

import (
	"fmt"
	"strings"

	"gateway/dmn"
)

// where returns a place as an editor shows it: decision "Discount", rule 2, output "Discount".
func (r *refusals) where(e *dmn.Element) string {
	var steps []string
	for ; e != nil && e.Tag != "definitions"; e = r.homes[e].parent {
		if step := r.step(e); step != "" {
			steps = append(steps, step)
		}
	}
	for i, j := 0, len(steps)-1; i < j; i, j = i+1, j-1 {
		steps[i], steps[j] = steps[j], steps[i]
	}
	return strings.Join(steps, ", ")
}

// namedSteps are the tags shown with their names, and the word for each.
var namedSteps = map[string]string{"decision": "decision", "inputData": "input", "decisionService": "decision service",
	"businessKnowledgeModel": "business knowledge", "itemDefinition": "type", "itemComponent": "component",
	"formalParameter": "parameter", "column": "column"}

// plainSteps are the tags shown as a word alone.
var plainSteps = map[string]string{"inputValues": "input values", "outputValues": "output values",
	"defaultOutputEntry": "default", "allowedValues": "allowed values", "typeConstraint": "allowed values", "if": "if",
	"then": "then", "else": "else", "informationRequirement": "requirement", "knowledgeRequirement": "requirement",
	"outputDecision": "output decision", "encapsulatedDecision": "encapsulated decision", "inputDecision": "input decision",
	"import": "import"}

// step returns one element of a place; empty if an editor doesn't show it.
func (r *refusals) step(e *dmn.Element) string {
	if word := namedSteps[e.Tag]; word != "" && (e.Tag != "inputData" || r.isPart(e)) {
		return withName(word, e.Name())
	}
	switch e.Tag {
	case "rule":
		return fmt.Sprintf("rule %d", r.homes[e].index+1)
	case "input", "inputEntry":
		return r.columnStep(e, "input")
	case "output", "outputEntry":
		return r.columnStep(e, "output")
	case "contextEntry":
		return entryStep(e)
	case "binding":
		for _, child := range e.Children {
			if child.Tag == "parameter" {
				return withName("parameter", child.Name())
			}
		}
	case "row":
		return fmt.Sprintf("row %d", r.homes[e].index+1)
	case "inputData":
		return "input data"
	}
	return r.memberStep(e, plainSteps[e.Tag])
}

// isPart reports whether an element is itself a part of the model, not a reference in another one.
func (r *refusals) isPart(e *dmn.Element) bool { return r.partOf(e) == e }

// withName returns a word, with a name if there is one.
func withName(word, name string) string {
	if name == "" {
		return word
	}
	return fmt.Sprintf("%s %q", word, spelled(name))
}

// memberStep numbers the members of a list, and names the cells of a relation by their columns.
func (r *refusals) memberStep(e *dmn.Element, word string) string {
	parent := r.homes[e].parent
	if parent == nil {
		return word
	}
	switch parent.Tag {
	case "list":
		return fmt.Sprintf("member %d", r.homes[e].place+1)
	case "row":
		if relation := r.homes[parent].parent; relation != nil {
			if column := nth(relation, "column", r.homes[e].place); column != nil {
				return withName("column", column.Name())
			}
		}
	}
	return word
}

// columnStep names a column of a table, or a cell of it, by the column's head in an editor.
func (r *refusals) columnStep(e *dmn.Element, tag string) string {
	clause := e
	if e.Tag != tag {
		table := r.homes[e].parent
		if table != nil {
			table = r.homes[table].parent
		}
		if clause = nth(table, tag, r.homes[e].index); clause == nil {
			return fmt.Sprintf("%s %d", tag, r.homes[e].index+1)
		}
	}
	if name := headOf(clause); name != "" {
		return withName(tag, shortened(name))
	}
	return fmt.Sprintf("%s %d", tag, r.homes[clause].index+1)
}

// headOf returns the head of a column in an editor: its label or name, else the text of its expression.
func headOf(clause *dmn.Element) string {
	if label := clause.Attribute("label"); label != "" {
		return label
	}
	if name := clause.Name(); name != "" {
		return name
	}
	for _, expression := range clause.Children {
		for _, text := range expression.Children {
			if expression.Tag == "inputExpression" && text.Tag == "text" {
				return text.Text
			}
		}
	}
	return ""
}

// nth returns the child at an index among those of a tag; nil if there is none.
func nth(e *dmn.Element, tag string, at int) *dmn.Element {
	if e == nil {
		return nil
	}
	for _, child := range e.Children {
		if child.Tag != tag {
			continue
		}
		if at == 0 {
			return child
		}
		at--
	}
	return nil
}

func entryStep(e *dmn.Element) string {
	for _, child := range e.Children {
		if child.Tag == "variable" {
			return withName("entry", child.Name())
		}
	}
	return "result"
}
