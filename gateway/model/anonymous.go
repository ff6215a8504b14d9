package model

import "fmt"

// Anonymous returns a model whose entries that are not in the file are numbered by place, so that two translations of one file
// are equal.
func Anonymous(m *Model, s Spelling) *Model {
	made := *m
	made.Decisions = append([]Decision(nil), m.Decisions...)
	for at := range made.Decisions {
		a := &anonymizer{Spelling{Names: map[string]string{}}, s}
		made.Decisions[at].Expr = a.expression(m.Decisions[at].Expr)
	}
	return &made
}

// An anonymizer renames the entries of a decision.
type anonymizer struct {
	// made has the new words, file the words of the file.
	made, file Spelling
}

func (a *anonymizer) expression(e Expression) Expression {
	switch e := e.(type) {
	case Literal:
		return Literal(a.made.Text(string(e)))
	case List:
		list := make(List, len(e))
		for at, it := range e {
			list[at] = a.expression(it)
		}
		return list
	case Context:
		return a.context(e)
	case *Table:
		return a.table(e)
	}
	return e
}

func (a *anonymizer) context(c Context) Expression {
	made := Context{Entries: make([]Entry, len(c.Entries))}
	for at, it := range c.Entries {
		word := it.Name
		if !a.file.IsOfFile(word) {
			word = fmt.Sprintf("entry_%d", len(a.made.Names)+1)
			a.made.Names[it.Name] = word
		}
		made.Entries[at] = Entry{word, a.expression(it.Expr)}
	}
	if c.Result != nil {
		made.Result = a.expression(c.Result)
	}
	return made
}

func (a *anonymizer) table(t *Table) Expression {
	made := *t
	made.Inputs = a.texts(t.Inputs)
	made.Rules = make([]Rule, len(t.Rules))
	for at, rule := range t.Rules {
		made.Rules[at] = Rule{a.texts(rule.When), a.texts(rule.Then)}
	}
	return &made
}

func (a *anonymizer) texts(texts []string) []string {
	made := make([]string, len(texts))
	for at, text := range texts {
		made[at] = a.made.Text(text)
	}
	return made
}
