package tell

import (
	"strconv"

	"gateway/feel"
	"gateway/feel/strict"
	"gateway/lines"
	"gateway/model"
)

// A numberUses walks through a model and collects values that are only tested as numbers.
type numberUses struct {
	// asked has the values that some column tests; false means that a test may ask for something else.
	asked map[valueName]bool
	// hidden has the names of context entries, which may hide parameters.
	hidden set
}

// numbersAsked returns the values that columns test, always as numbers, and that nothing compares with anything else. It leaves
// out names that a context entry has too.
func numbersAsked(m *model.Model) map[valueName]bool {
	u := numberUses{asked: map[valueName]bool{}, hidden: set{}}
	for at := range m.Decisions {
		u.look(m.Decisions[at].Expr)
	}
	for name, isNumber := range u.asked {
		if !isNumber || u.hidden[name.name] {
			delete(u.asked, name)
		}
	}
	return u.asked
}

func (u *numberUses) look(logic model.Expression) {
	switch logic := logic.(type) {
	case model.Literal:
		u.text(string(logic))
	case model.List:
		for _, member := range logic {
			u.look(member)
		}
	case model.Context:
		for _, entry := range logic.Entries {
			u.hidden[entry.Name] = true
			u.look(entry.Expr)
		}
		if logic.Result != nil {
			u.look(logic.Result)
		}
	case *model.Table:
		u.table(logic)
	}
}

func (u *numberUses) table(table *model.Table) {
	all := testsOf(table)
	for at, text := range table.Inputs {
		u.text(text)
		if node, ok := strict.ReadExpression(text); ok {
			if subject, ok := subjectOf(node); ok {
				u.column(subject, columnOf(all, at))
			}
		}
	}
	for _, output := range table.Outputs {
		if output.Default != nil {
			u.text(*output.Default)
		}
	}
	for at, rule := range table.Rules {
		for _, tests := range all[at] {
			u.compared(tests.List...)
		}
		for _, text := range rule.Then {
			u.text(text)
		}
	}
}

// column takes the tests of a value's column; a column that takes everything asks for nothing.
func (u *numberUses) column(subject valueName, column []strict.Tests) {
	isAsked, isNumber := false, true
	for _, tests := range column {
		if tests.Any {
			continue
		}
		isAsked = true
		isNumber = isNumber && !tests.Negated && areConstant(tests)
	}
	if isAsked {
		u.take(subject, isNumber && columnKinds(column) == kinds{numbers: true})
	}
}

func (u *numberUses) text(text string) {
	if node, ok := strict.ReadExpression(text); ok {
		u.compared(node)
	}
}

// compared takes the values that texts compare with something other than numbers.
func (u *numberUses) compared(nodes ...feel.Node) {
	for _, node := range nodes {
		eachComparison(node, func(subject valueName, other feel.Node) {
			var with kinds
			with.see(other)
			if with != (kinds{numbers: true}) {
				u.take(subject, false)
			}
		})
	}
}

func (u *numberUses) take(subject valueName, isNumber bool) {
	was, known := u.asked[subject]
	u.asked[subject] = isNumber && (was || !known)
}

// The notes that the engine doesn't make.
const (
	noteEntry = "no entry"
	noteText  = "text for number"
)

// texts notes parameters and entries that are texts though all tests ask for numbers.
func (r *reading) texts(doc *lines.Document, name string, value lines.Node) {
	if text, ok := doc.Text(value); ok {
		if r.numbers[valueName{name, ""}] {
			r.note(noteText, func() note { return textNote(name, text) })
		}
		return
	}
	if doc.Kind(value) != '{' {
		return
	}
	for _, member := range doc.Members(value) {
		key := member.Key
		text, ok := doc.Text(member.Value)
		if ok && r.numbers[valueName{name, key}] {
			r.note(noteText, func() note { return textNote(name+"."+key, text) })
		}
	}
}

// textNote is the note on a value that is a text; it may mean the number in it.
func textNote(name, text string) note {
	near := ""
	// JSON's digits have no leading zero or plus.
	if number, err := strconv.ParseInt(text, 10, 64); err == nil && strconv.FormatInt(number, 10) == text && lines.IsWhole(text) {
		near = text
	}
	return note{noteText, name, near, orMeant(name+" is a text, and all its tests ask for numbers", near)}
}
