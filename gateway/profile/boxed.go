package profile

import (
	"fmt"
	"strings"

	"gateway/dmn"
	"gateway/feel"
)

// expression translates a boxed expression, and checks it against its own declared type.
func (t *translator) expression(x dmn.Expression, s *scope) (*box, *valueType) {
	var of *valueType
	made := t.framed(func() *box {
		var b *box
		b, of = t.plain(x, s)
		return b
	})
	made.origin = x.At()
	due := t.types.resolve(x.At(), x.Type())
	if due == nil {
		return made, of
	}
	made, of = t.conform(made, of, due, func(why, instead string) {
		t.refusals.refuse(x.At(), textOf(x), why, instead)
	})
	return t.from(made, x), of
}

// from notes the element of a text if numbers are counted, since the model's text differs then.
func (t *translator) from(b *box, x dmn.Expression) *box {
	if b.origin != nil || !t.counts || textOf(x) == "" {
		return b
	}
	made := *b
	made.origin = x.At()
	return &made
}

// textOf returns the text of a literal expression; empty for other expressions.
func textOf(x dmn.Expression) string {
	if text, literal := x.(*dmn.Text); literal {
		return text.Text
	}
	return ""
}

func (t *translator) plain(x dmn.Expression, s *scope) (*box, *valueType) {
	switch x := x.(type) {
	case *dmn.Text:
		return t.literal(x, s)
	case *dmn.Table:
		return t.table(x, s)
	case *dmn.Context:
		return t.context(x, s)
	case *dmn.List:
		return t.boxes(x.Members, s)
	case *dmn.Relation:
		return t.relation(x, s)
	case *dmn.Invocation:
		return t.invocation(x, s)
	case *dmn.Conditional:
		return t.conditional(x, s)
	case *dmn.FunctionDefinition:
		t.refusals.refuse(x.Element, "", "functions are no values of the profile", "a business knowledge model")
	default:
		t.refusals.refuse(x.At(), "", "there is no boxed "+x.At().Tag, "let the request bring what it gives")
	}
	return boxOf(refused), refusedType
}

// literal translates a literal expression.
func (t *translator) literal(x *dmn.Text, s *scope) (made *box, of *valueType) {
	made, of = boxOf(refused), refusedType
	if !t.isFEEL(x) {
		return made, of
	}
	t.at(x, func() {
		nodes := t.read(x, s, false)
		if nodes != nil {
			made, of = t.boxedForm(nodes[0], s)
		}
	})
	return made, of
}

const notFEEL = "the expression language is not FEEL"

// inFEEL reports whether a text is in FEEL, by the language declared in it or its file.
func inFEEL(x *dmn.Text) bool {
	language := strings.TrimSuffix(strings.ToLower(x.Language), "/")
	return language == "" || language == "feel" || language == "s-feel" || strings.Contains(language+"/", "/feel/")
}

// isFEEL reports whether a text is in FEEL and not empty. It refuses other texts.
func (t *translator) isFEEL(x *dmn.Text) bool {
	switch {
	case !inFEEL(x):
		t.refusals.refuse(x.Element, x.Language, notFEEL, "the expression in FEEL")
	case strings.TrimSpace(x.Text) == "":
		t.refusals.refuse(x.Element, "", "there is no expression", "null, or a value")
	default:
		return true
	}
	return false
}

// boxes translates the members of a list.
func (t *translator) boxes(members []dmn.Expression, s *scope) (*box, *valueType) {
	made := &box{kind: listBox, list: make([]*box, len(members))}
	all := make([]*valueType, len(members))
	for i, member := range members {
		made.list[i], all[i] = t.expression(member, s)
	}
	refuse := func(why, instead string) { t.refusals.refuse(t.near, "", why, instead) }
	return made, t.listOfBoxes(made, all, refuse)
}

// context translates a boxed context. An entry sees those before it; the last one may have no name, and is then the
// result.
func (t *translator) context(x *dmn.Context, s *scope) (*box, *valueType) {
	made := &box{kind: contextBox, entries: []boxEntry{}}
	of := &valueType{kind: contextKind, fields: map[string]*valueType{}}
	inside := newScope(s)
	for i, entry := range x.Entries {
		if entry.Value == nil {
			t.refusals.refuse(entry.Element, "", "the entry has no expression", "null, or a value")
			continue
		}
		if entry.Variable == nil || entry.Variable.Name() == "" {
			if i < len(x.Entries)-1 {
				t.refusals.refuse(entry.Element, "", "an entry without a name before the last", "a name for it")
			}
			result, resultOf := t.expression(entry.Value, inside)
			made.result = result
			return made, resultOf
		}
		t.contextEntry(entry, made, of, inside)
	}
	return made, of.bounded(func(why, instead string) { t.refusals.refuse(x.At(), "", why, instead) })
}

// contextEntry translates a named entry, and puts it into scope for later entries.
func (t *translator) contextEntry(entry *dmn.ContextEntry, made *box, of *valueType, s *scope) {
	name := feel.Canonical(entry.Variable.Name())
	if _, twice := of.fields[name]; twice {
		t.refusals.refuse(entry.Element, entry.Variable.Name(), "duplicate entry name", "another name")
		return
	}
	value, valueOf := t.expression(entry.Value, s)
	if due := t.types.resolve(entry.Variable.Element, entry.Variable.TypeRef); due != nil {
		value, valueOf = t.conform(value, valueOf, due, func(why, instead string) {
			t.refusals.refuse(entry.Variable.Element, textOf(entry.Value), why, instead)
		})
		value = t.from(value, entry.Value)
	}
	word := t.words.of(entry.Variable.Name())
	t.wrote(len(word) + bytesOfEntry)
	made.entries = append(made.entries, boxEntry{word: word, value: value, origin: entry.Element, of: valueOf})
	of.setField(name, valueOf)
	s.bind(entry.Variable.Name(), &binding{value: constant(word, valueOf), logic: value})
}

// relation translates a relation, a list of contexts. A cell that names an earlier column is refused: it may mean the
// column or a name outside.
func (t *translator) relation(x *dmn.Relation, s *scope) (*box, *valueType) {
	made := &box{kind: listBox, list: []*box{}}
	var all []*valueType
	for _, row := range x.Rows {
		if len(row.Members) != len(x.Columns) {
			t.refusals.refuse(row.Element, "", fmt.Sprintf("the row has %d cells, and the relation %d columns",
				len(row.Members), len(x.Columns)), "a cell for each column")
			continue
		}
		b, rowOf := t.relationRow(x, row, s)
		made.list = append(made.list, b)
		all = append(all, rowOf)
	}
	refuse := func(why, instead string) { t.refusals.refuse(x.Element, "", why, instead) }
	return made, t.listOfBoxes(made, all, refuse)
}

func (t *translator) relationRow(x *dmn.Relation, row *dmn.List, s *scope) (*box, *valueType) {
	made := &box{kind: contextBox, entries: []boxEntry{}, origin: row.Element, isRow: true}
	of := &valueType{kind: contextKind, fields: map[string]*valueType{}}
	for i, column := range x.Columns {
		name := feel.Canonical(column.Name())
		if _, twice := of.fields[name]; twice || name == "" {
			t.refusals.refuse(column.Element, column.Name(), "the column has no name of its own", "another name")
			continue
		}
		if t.usesColumn(row.Members[i], of, s) {
			t.refusals.refuse(row.Members[i].At(), textOf(row.Members[i]),
				"it has the name of a column before it, which may be that column or a name outside", "another name")
			continue
		}
		value, valueOf := t.expression(row.Members[i], s)
		if due := t.types.resolve(column.Element, column.TypeRef); due != nil {
			cell := row.Members[i]
			value, valueOf = t.conform(value, valueOf, due, func(why, instead string) {
				t.refusals.refuse(cell.At(), textOf(cell), why, instead)
			})
			value = t.from(value, cell)
		}
		word := t.words.of(column.Name())
		t.wrote(len(word) + bytesOfEntry)
		made.entries = append(made.entries, boxEntry{word: word, value: value, of: valueOf})
		of.setField(name, valueOf)
	}
	return made, of.bounded(func(why, instead string) { t.refusals.refuse(row.Element, "", why, instead) })
}

// usesColumn reports whether a cell may name an earlier column.
func (t *translator) usesColumn(cell dmn.Expression, columns *valueType, s *scope) bool {
	text, literal := cell.(*dmn.Text)
	if !literal {
		return mentions(cell.At(), columns.order)
	}
	node, fault := feel.Expression(text.Text, s.reads, t.members)
	return fault == nil && feel.Any(node, func(n feel.Node) bool {
		name, is := n.(*feel.Name)
		return is && columns.fields[name.Name] != nil
	})
}

// mentions reports whether a text in an element contains one of the names.
func mentions(e *dmn.Element, names []string) bool {
	for _, name := range names {
		if strings.Contains(e.Text, name) {
			return true
		}
	}
	for _, child := range e.Children {
		if mentions(child, names) {
			return true
		}
	}
	return false
}

// invocation translates a boxed invocation.
func (t *translator) invocation(x *dmn.Invocation, s *scope) (*box, *valueType) {
	refuse := func(why, instead string) { t.refusals.refuse(x.Element, textOfText(x.Function), why, instead) }
	k := t.invokedBy(x, s)
	if k == nil {
		return boxOf(refused), refusedType
	}
	arguments := make([]argument, 0, len(x.Bindings))
	for _, binding := range x.Bindings {
		if binding.Parameter == nil || binding.Value == nil {
			t.refusals.refuse(binding.Element, "", "the binding has no parameter, or no expression", "both")
			continue
		}
		value, of := t.expression(binding.Value, s)
		arguments = append(arguments, argument{name: feel.Canonical(binding.Parameter.Name()), value: value, of: of})
	}
	made, of := t.invoked(k, arguments, refuse)
	if made == nil {
		return boxOf(refused), refusedType
	}
	return made, of
}

func textOfText(x *dmn.Text) string {
	if x == nil {
		return ""
	}
	return x.Text
}

// invokedBy returns what a boxed invocation invokes; nil if that is refused.
func (t *translator) invokedBy(x *dmn.Invocation, s *scope) *knowledge {
	name := feel.Canonical(textOfText(x.Function))
	found := s.find(name)
	switch {
	case name == "":
		t.refusals.refuse(x.Element, "", "the invocation names no function", "the name of a business knowledge model")
	case found == nil:
		t.refusals.refuse(x.Element, x.Function.Text, "it is no name in scope", "the name of a business knowledge model "+
			"that is required; functions of FEEL are invoked in a literal expression")
	case found.service:
		t.refusals.refuse(x.Element, x.Function.Text, "decision services are not invoked", "need its output decision")
	case found.function == nil:
		t.refusals.refuse(x.Element, x.Function.Text, "it is a value of the model, and no function", "a function")
	default:
		return found.function
	}
	return nil
}

// conditional translates a boxed if. Its parts are texts, or entries before it.
func (t *translator) conditional(x *dmn.Conditional, s *scope) (*box, *valueType) {
	if x.If == nil || x.Then == nil || x.Else == nil {
		t.refusals.refuse(x.Element, "", "the conditional has not all of if, then and else", "null for a part")
		return boxOf(refused), refusedType
	}
	part := func(base string, y dmn.Expression) phrase {
		b, of := t.expression(y, s)
		if b.kind == textBox && b.value.depth <= mostOperandDepth {
			p := b.value
			p.of = of
			return p
		}
		return t.hoisted(base, b, of)
	}
	condition := part("condition", x.If)
	both := []phrase{
		t.under(condition, true, func() phrase { return part("then", x.Then) }),
		t.under(condition, false, func() phrase { return part("else", x.Else) }),
	}
	t.together(both, func(why, instead string) { t.refusals.refuse(x.Element, "", why, instead) })
	made := choice(condition, both[0], both[1])
	return t.boxed(made), made.of
}
