package model

import "fmt"

// A Written is a model as in its file: names and texts are the file's. If the file counts in units, what only the translation
// has is left out.
type Written struct {
	Model *Model
	// Origins maps the tables of Model to the model's tables.
	Origins map[*Table]Origin
}

// An Origin is a table of a model and its JSON Pointer.
type Origin struct {
	Table   *Table
	Pointer string
}

// Written returns a model as in its file.
func (s Spelling) Written(m *Model) *Written {
	w := &writer{Spelling: s, made: &Written{Model: &Model{Inputs: s.names(m.Inputs)}, Origins: map[*Table]Origin{}}}
	for at, it := range m.Decisions {
		w.made.Model.Decisions = append(w.made.Model.Decisions, Decision{Name: s.Name(it.Name), Needs: s.names(it.Needs),
			Expr: w.expression(it.Expr, fmt.Sprintf("/decisions/%d/expr", at))})
	}
	for _, it := range m.Services {
		w.made.Model.Services = append(w.made.Model.Services, Service{s.Name(it.Name), s.names(it.Outputs), s.names(it.Encapsulated),
			s.names(it.InputDecisions), s.names(it.InputData)})
	}
	return w.made
}

func (s Spelling) names(words []string) []string {
	names := make([]string, len(words))
	for at, word := range words {
		names[at] = s.Name(word)
	}
	return names
}

// A writer writes expressions as in the file.
type writer struct {
	Spelling
	made *Written
}

func (w *writer) expression(e Expression, pointer string) Expression {
	if text, is := w.Texts[pointer]; is {
		return Literal(text)
	}
	switch e := e.(type) {
	case Literal:
		return Literal(w.Text(string(e)))
	case List:
		list := make(List, len(e))
		for at, it := range e {
			list[at] = w.expression(it, fmt.Sprintf("%s/list/%d", pointer, at))
		}
		return list
	case Context:
		return w.context(e, pointer)
	case *Table:
		return w.table(e, pointer+"/table")
	}
	return e
}

// context writes the entries that are in the file.
func (w *writer) context(c Context, pointer string) Expression {
	if inner, at, is := w.Inner(c, pointer); is {
		return w.expression(inner, at)
	}
	var made Context
	for at, it := range c.Entries {
		if len(w.Texts) == 0 || w.IsOfFile(it.Name) {
			made.Entries = append(made.Entries, Entry{w.Name(it.Name), w.expression(it.Expr, entryAt(pointer, at))})
		}
	}
	if c.Result != nil {
		made.Result = w.expression(c.Result, pointer+"/result")
	}
	return made
}

func entryAt(pointer string, at int) string { return fmt.Sprintf("%s/context/%d/expr", pointer, at) }

// Inner returns what the file has instead of a context whose entries only the translation has, and its pointer: the result, or
// the last entry from the file, which got a name because its value is tested or converted.
func (s Spelling) Inner(c Context, pointer string) (inner Expression, at string, is bool) {
	if c.Result == nil || len(c.Entries) == 0 || len(s.Texts) == 0 {
		return nil, "", false
	}
	inner, at = c.Result, pointer+"/result"
	_, isText := s.Texts[at]
	_, isLiteral := c.Result.(Literal)
	for i, it := range c.Entries {
		if s.IsOfFile(it.Name) {
			return nil, "", false
		}
		if place := entryAt(pointer, i); isLiteral && !isText && s.isFromFile(it.Expr, place) {
			inner, at = it.Expr, place
		}
	}
	return inner, at, true
}

// isFromFile reports whether the file has an expression that the translation gave a name: it has its text there, or is a table
// with the file's texts.
func (s Spelling) isFromFile(e Expression, pointer string) bool {
	if _, is := s.Texts[pointer]; is {
		return true
	}
	switch e := e.(type) {
	case Context:
		return e.Result != nil && s.isFromFile(e.Result, pointer+"/result")
	case *Table:
		return s.Places[pointer] || s.tables[pointer+"/table"]
	}
	return false
}

func cellAt(pointer string, rule int, kind string, column int) string {
	return fmt.Sprintf("%s/rules/%d/%s/%d", pointer, rule, kind, column)
}

func (w *writer) table(t *Table, pointer string) Expression {
	made := &Table{Hit: t.Hit, Inputs: make([]string, w.InputsOf(t, pointer)), Outputs: make([]Output, len(t.Outputs)),
		Rules: make([]Rule, len(t.Rules))}
	for i := range made.Inputs {
		made.Inputs[i] = w.At(fmt.Sprintf("%s/inputs/%d", pointer, i), t.Inputs[i])
	}
	for i, it := range t.Outputs {
		made.Outputs[i] = Output{w.Name(it.Name), it.Values, w.other(it.Default, fmt.Sprintf("%s/outputs/%d/default", pointer, i))}
	}
	for at, rule := range t.Rules {
		made.Rules[at] = Rule{w.cells(rule.When[:len(made.Inputs)], pointer, at, "when"), w.cells(rule.Then, pointer, at, "then")}
	}
	w.made.Origins[made] = Origin{t, pointer}
	return made
}

func (w *writer) other(text *string, pointer string) *string {
	if text == nil {
		return nil
	}
	written := w.At(pointer, *text)
	return &written
}

func (w *writer) cells(texts []string, pointer string, rule int, kind string) []string {
	made := make([]string, len(texts))
	for i, text := range texts {
		if w.tables[pointer] {
			made[i] = w.At(cellAt(pointer, rule, kind, i), text)
		} else {
			made[i] = w.Text(text)
		}
	}
	return made
}

// InputsOf returns how many input columns a table has in the file: the last may hold conditions that the translation added.
func (s Spelling) InputsOf(t *Table, pointer string) int {
	last := len(t.Inputs) - 1
	if last < 0 || len(s.Texts) == 0 || t.Inputs[last] != "true" || s.Places[fmt.Sprintf("%s/inputs/%d", pointer, last)] ||
		s.columns[fmt.Sprintf("%s/when/%d", pointer, last)] {
		return last + 1
	}
	return last
}
