package export

import (
	"gateway/feel"
	"gateway/model"
)

// kinds is a set of kinds of values.
type kinds uint8

const (
	isNull kinds = 1 << iota
	isBoolean
	isNumber
	isText
	isList
	isContext

	isAnything = isNull | isBoolean | isNumber | isText | isList | isContext
)

// A shape is what is known of an expression's values.
type shape struct {
	kinds
	// members is what is known of a list's members, or nil.
	members *shape
	// entries is what is known of a context's entries, or nil.
	entries map[string]shape
}

var (
	anything  = shape{kinds: isAnything}
	condition = shape{kinds: isBoolean | isNull}
	number    = shape{kinds: isNumber | isNull}
)

func (s shape) maybe(k kinds) bool { return s.kinds&k != 0 }

// either returns what is known of a value with one of two shapes.
func (s shape) either(other shape) shape {
	both := shape{kinds: s.kinds | other.kinds, members: s.members, entries: s.entries}
	switch {
	case s.kinds&isList == 0:
		both.members = other.members
	case other.kinds&isList != 0:
		both.members = eitherMember(s.members, other.members)
	}
	switch {
	case s.kinds&isContext == 0:
		both.entries = other.entries
	case other.kinds&isContext != 0:
		both.entries = nil
	}
	return both
}

func eitherMember(a, b *shape) *shape {
	if a == nil || b == nil {
		return nil
	}
	both := a.either(*b)
	return &both
}

// member returns what is known of a list's members.
func (s shape) member() shape {
	if s.members == nil {
		return anything
	}
	return *s.members
}

// path returns what is known of the entry that a path leads to.
func (s shape) path(name string) shape {
	var found shape
	if s.maybe(isAnything &^ (isContext | isList)) {
		found = shape{kinds: isNull}
	}
	if s.maybe(isContext) {
		entry, known := s.entries[name]
		switch {
		case s.entries == nil:
			entry = anything
		case !known:
			entry = shape{kinds: isNull}
		}
		found = found.either(entry)
	}
	if s.maybe(isList) {
		member := anything
		if s.members != nil && !s.members.maybe(isList) {
			member = s.members.path(name)
		}
		found = found.either(shape{kinds: isList, members: &member})
	}
	return found
}

// names holds the names bound at a place, with what is known of their values. A missing name is null.
type names struct {
	outer  *names
	shapes map[string]shape
	// reads has the names for the parser.
	reads *feel.Scope
}

// newNames returns a place inside outer, which may be nil.
func newNames(outer *names) *names {
	n := &names{outer: outer, shapes: map[string]shape{}}
	if outer != nil {
		n.reads = feel.NewScope(outer.reads)
	} else {
		n.reads = feel.NewScope(nil)
	}
	return n
}

// bind binds a name, and hides an outer one.
func (n *names) bind(name string, s shape) {
	n.shapes[name] = s
	n.reads.Add(name)
}

func (n *names) find(name string) (shape, bool) {
	for ; n != nil; n = n.outer {
		if s, bound := n.shapes[name]; bound {
			return s, true
		}
	}
	return shape{}, false
}

// of returns what is known of the value of one of our expressions.
func (n *names) of(node feel.Node) shape {
	switch e := node.(type) {
	case *feel.Number, *feel.Negation:
		return number
	case *feel.String:
		return shape{kinds: isText}
	case *feel.Boolean, *feel.Binary, *feel.Between:
		return condition
	case *feel.Null:
		return shape{kinds: isNull}
	case *feel.Name:
		if s, bound := n.find(e.Name); bound {
			return s
		}
		return shape{kinds: isNull}
	case *feel.Chain:
		if operator := e.Operators[0]; operator == "and" || operator == "or" {
			return condition
		}
		return number
	case *feel.If:
		return n.of(e.Then).either(n.of(e.Else))
	case *feel.Path:
		return n.of(e.Operand).path(e.Name)
	case *feel.Call:
		if function(e) == "not" {
			return condition
		}
		return number
	case *feel.List:
		return n.ofList(e)
	}
	return anything
}

func (n *names) ofList(list *feel.List) shape {
	if len(list.Items) == 0 {
		return shape{kinds: isList}
	}
	member := n.of(list.Items[0])
	for _, item := range list.Items[1:] {
		member = member.either(n.of(item))
	}
	return shape{kinds: isList, members: &member}
}

// function returns the name of the called function.
func function(call *feel.Call) string {
	if name, ok := call.Function.(*feel.Name); ok {
		return name.Name
	}
	return ""
}

// ofText returns what is known of the value of a text: anything if it has no reading.
func (n *names) ofText(text string) shape {
	node, fault := feel.Expression(text, n.reads, nil)
	if fault != nil {
		return anything
	}
	return n.of(node)
}

// ofBoxed returns what is known of the value of a boxed expression.
func (n *names) ofBoxed(e model.Expression) shape {
	switch e := e.(type) {
	case model.Literal:
		return n.ofText(string(e))
	case model.List:
		return n.ofMembers(e)
	case model.Context:
		return n.ofContext(e)
	case *model.Table:
		return n.ofTable(e)
	}
	return anything
}

func (n *names) ofMembers(list model.List) shape {
	if len(list) == 0 {
		return shape{kinds: isList}
	}
	member := n.ofBoxed(list[0])
	for _, e := range list[1:] {
		member = member.either(n.ofBoxed(e))
	}
	return shape{kinds: isList, members: &member}
}

func (n *names) ofContext(c model.Context) shape {
	entries := map[string]shape{}
	inside := newNames(n)
	for _, entry := range c.Entries {
		entries[entry.Name] = inside.ofBoxed(entry.Expr)
		inside.bind(entry.Name, entries[entry.Name])
	}
	if c.Result != nil {
		return inside.ofBoxed(c.Result)
	}
	return shape{kinds: isContext, entries: entries}
}

func (n *names) ofTable(t *model.Table) shape {
	switch t.Hit {
	case "C#", "C+", "C<", "C>":
		return number.either(n.ofDefaults(t))
	}
	hit := n.ofHit(t)
	switch t.Hit {
	case "R", "O", "C":
		return shape{kinds: isList, members: &hit}.either(n.ofDefaults(t))
	}
	return hit.either(n.ofDefaults(t)).either(shape{kinds: isNull})
}

// ofHit returns what is known of the output of a rule that hits.
func (n *names) ofHit(t *model.Table) shape {
	entries := map[string]shape{}
	for i, output := range t.Outputs {
		entries[output.Name] = n.ofColumn(t, i)
	}
	if len(t.Outputs) == 1 {
		return entries[t.Outputs[0].Name]
	}
	return shape{kinds: isContext, entries: entries}
}

func (n *names) ofColumn(t *model.Table, column int) shape {
	var found shape
	for _, rule := range t.Rules {
		if column < len(rule.Then) {
			found = found.either(n.ofText(rule.Then[column]))
		}
	}
	return found
}

// ofDefaults returns what is known of the result of a table if no rule hits.
func (n *names) ofDefaults(t *model.Table) shape {
	entries := map[string]shape{}
	found := false
	for _, output := range t.Outputs {
		entries[output.Name] = shape{kinds: isNull}
		if output.Default != nil {
			entries[output.Name] = n.ofText(*output.Default)
			found = true
		}
	}
	switch {
	case !found:
		return shape{kinds: isNull}
	case len(t.Outputs) == 1:
		return entries[t.Outputs[0].Name]
	}
	return shape{kinds: isContext, entries: entries}
}
