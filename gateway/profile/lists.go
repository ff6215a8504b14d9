package profile

import (
	"fmt"

	"gateway/feel"
	"gateway/model"
)

const (
	// mostUnrolled is how many members a list may have to be gone through one by one.
	mostUnrolled = 100
	// mostGone is how many members of all lists a pass goes through: more wouldn't fit in a line.
	mostGone = 50_000
	// mostWrittenOut is how many bytes a pass writes out for members in the innermost lists.
	mostWrittenOut = MostLine
)

// listForm translates those forms over lists that have an exact equivalent. It refuses the others.
func (t *translator) listForm(n feel.Node, s *scope) phrase {
	made, is := phrase{}, false
	switch n := n.(type) {
	case *feel.InstanceOf:
		made, is = t.instanceOf(n, s)
	case *feel.For:
		made, is = t.unrolledFor(n, s)
	case *feel.Quantified:
		if made, is = t.someEqual(n, s); !is {
			made, is = t.unrolledQuantified(n, s)
		}
	case *feel.Filter:
		made, is = t.indexed(n, s)
	}
	if is {
		return made
	}
	return t.left(n)
}

// listCall translates a function over a list that has an exact equivalent; false if there is none.
func (t *translator) listCall(n *feel.Call, name string, s *scope) (phrase, bool) {
	switch {
	case name == "list contains" && len(n.Arguments) == 2 && n.Arguments[0].Name == "" && n.Arguments[1].Name == "":
		l, x := t.operand(n.Arguments[0].Value, s), t.operand(n.Arguments[1].Value, s)
		return t.contains(n, l, x)
	case (name == "sum" || name == "count") && len(n.Arguments) == 1 && n.Arguments[0].Name == "":
		if filter, is := n.Arguments[0].Value.(*feel.Filter); is {
			return t.overFilter(n, name, filter, s)
		}
	}
	return phrase{}, false
}

// contains asks whether a list of scalars has a member, by a table whose test is the list. It is null if the list is.
// False if the types don't rule out that the value is a list.
func (t *translator) contains(n feel.Node, l, x phrase) (made phrase, is bool) {
	if l.of.kind == refusedKind || x.of.kind == refusedKind {
		return refused, true
	}
	if l.of.kind != listKind || !l.of.element.isScalar() || x.of.kind != l.of.element.kind && x.of.kind != nullKind {
		return phrase{}, false
	}
	l, isNever := t.short(l), false
	if x, isNever = t.countedAsMember(n, l, x); x.of.kind == refusedKind {
		return refused, true
	}
	hit := constant("false", booleanType)
	if !isNever {
		x = t.short(x)
		fallback := "false"
		table := &model.Table{Hit: "F", Inputs: []string{x.text}, Outputs: []model.Output{{Name: t.words.of("result"), Default: &fallback}},
			Rules: []model.Rule{{When: []string{asTest(l)}, Then: []string{"true"}}}}
		t.wrote(len(x.text) + len(l.text) + bytesOfEntry)
		hit = t.hoisted("contains", tableOf(table), booleanType)
	}
	isNull := infix(l, "=", constant("null", nullType), rankComparison, booleanType)
	return choice(isNull, constant("null", nullType), hit), true
}

// countedAsMember returns a value in the unit of a list's members. Never is true if no member can equal it.
func (t *translator) countedAsMember(n feel.Node, l, x phrase) (member phrase, never bool) {
	u := l.of.within()
	if t.counts && x.of.kind == numberKind {
		met(u, x.of.units)
	}
	switch {
	case !t.counts || x.of.kind != numberKind || x.of.units.isAs(u):
		return x, false
	case x.number != nil && u.per > 1 && constantNumber(x.number).of.units.scale > u.scale+mostFiner:
		return t.refuse(n, "a quotient is compared with a number of too many decimals", "a number with fewer decimals"), false
	case x.number != nil:
		at := inUnits(x.number, u)
		return wholeConstant(at.Num()), !at.IsInt() || !isNumber(at.Num())
	case x.of.units.scale > u.scale:
		why := countedAlike(l.of, listOf(numberOf(joinedUnits(u, x.of.units))))
		return t.refuse(n, why, "as many decimals for both, as by --decimals"), false
	}
	return t.recountedOr(n, x, units{scale: u.scale, per: u.per}), false
}

// someEqual translates "some s in l satisfies s = x".
func (t *translator) someEqual(n *feel.Quantified, s *scope) (phrase, bool) {
	equal, is := n.Condition.(*feel.Binary)
	if !is || n.Word != "some" || len(n.Iterators) != 1 || n.Iterators[0].End != nil || equal.Operator != "=" {
		return phrase{}, false
	}
	name := n.Iterators[0].Name
	mentions := func(n feel.Node) bool {
		return feel.Any(n, func(n feel.Node) bool { one, is := n.(*feel.Name); return is && one.Name == name })
	}
	left, right := equal.Left, equal.Right
	if one, is := right.(*feel.Name); is && one.Name == name {
		left, right = right, left
	}
	if one, is := left.(*feel.Name); !is || one.Name != name || mentions(right) {
		return phrase{}, false
	}
	if _, written := n.Iterators[0].List.(*feel.List); written {
		return phrase{}, false
	}
	return t.contains(n, t.operand(n.Iterators[0].List, s), t.operand(right, s))
}

// instanceOf translates "x instance of number", string, boolean or list. For null each is false.
func (t *translator) instanceOf(n *feel.InstanceOf, s *scope) (phrase, bool) {
	if made, is := t.instanceOfTemporal(n, s); is {
		return made, true
	}
	forms := map[string]string{"number": "(%[1]s - %[1]s = 0) = true", "string": `(%[1]s >= "") = true`,
		"boolean": "(%[1]s = true or %[1]s = false) = true", "list": "(count(%[1]s) >= 0) = true"}
	form, known := forms[n.Type]
	if !known || t.types.items[feel.Canonical(n.Type)] != nil {
		return phrase{}, false
	}
	x := t.short(t.operand(n.Operand, s))
	if x.of.kind == refusedKind {
		return refused, true
	}
	if x.of.isTemporal() {
		return constant("false", booleanType), true
	}
	return phrase{text: fmt.Sprintf(form, x.within(rankPath).text), rank: rankComparison, depth: x.depth + 6, of: booleanType}, true
}

// membersOfList returns the members of a written-out list, or of a named relation or list of literals; false for
// others.
func (t *translator) membersOfList(n feel.Node, s *scope) (all []phrase, is bool) {
	switch n := n.(type) {
	case *feel.List:
		if len(n.Items) > mostUnrolled || holdsTests(n) {
			return nil, false
		}
		for _, item := range n.Items {
			all = append(all, t.short(t.operand(item, s)))
		}
		return all, true
	case *feel.Name:
		found := s.find(n.Name)
		if !n.Known || n.Doubtful || found == nil || found.logic == nil {
			return nil, false
		}
		return t.rows(found)
	}
	return nil, false
}

// rows returns the members of a relation or a boxed list whose cells are literals. They are repeated for each use.
func (t *translator) rows(found *binding) (all []phrase, is bool) {
	of := found.value.of
	if of.kind != listKind || t.gone > mostGone {
		return nil, false
	}
	members, known := t.kept.literal[found.logic]
	if !known {
		members = literalMembers(found.logic)
		t.kept.literal[found.logic] = members
	}
	if members == nil {
		return nil, false
	}
	for _, member := range members {
		if member.kind == textBox {
			p := member.value
			p.of = of.element
			all = append(all, p)
		} else {
			t.gone++
			all = append(all, t.hoisted("row", member, of.element))
		}
	}
	return all, true
}

// literalMembers returns the members of a short written-out list of literals or contexts; nil for others.
func literalMembers(b *box) []*box {
	members := append([]*box{}, b.list...)
	if b.kind == textBox && b.value.members() != nil {
		for _, member := range b.value.members() {
			members = append(members, boxOf(member))
		}
	} else if b.kind != listBox {
		return nil
	}
	if len(members) > mostUnrolled {
		return nil
	}
	for _, member := range members {
		if !isConstantBox(member) {
			return nil
		}
	}
	return members
}

// isConstantBox reports whether a box is a literal, or a context of literals.
func isConstantBox(b *box) bool {
	switch {
	case b.kind == textBox:
		if len(b.value.text) > mostLiteral {
			return false
		}
		node, fault := feel.Expression(b.value.text, nil, nil)
		return fault == nil && literalType(node) != nil
	case b.kind != contextBox || b.result != nil:
		return false
	}
	for _, entry := range b.entries {
		if !isConstantBox(entry.value) {
			return false
		}
	}
	return true
}

// each calls do for each combination of members of the iterators' lists, with the names bound; false if a list can't be
// gone through.
func (t *translator) each(n feel.Node, iterators []feel.Iterator, s *scope, count *int, do func(*scope)) bool {
	if len(iterators) == 0 {
		*count++
		t.gone++
		if *count > mostUnrolled || t.gone > mostGone {
			return false
		}
		if !t.full {
			do(s)
		}
		return true
	}
	members, is := t.iterated(iterators[0], s)
	for _, member := range members {
		inside := s.within()
		inside.bind(iterators[0].Name, &binding{value: member})
		if !is || !t.each(n, iterators[1:], inside, count, do) {
			return false
		}
	}
	return is
}

// unrolled writes out a form for each member, as long as the model may still fit in a line.
func (t *translator) unrolled(n feel.Node, s *scope) phrase {
	before := t.writtenOut
	made := t.operand(n, s)
	if t.writtenOut == before {
		t.writtenOut += len(made.text)
	}
	if t.writtenOut > mostWrittenOut {
		t.wrote(t.writtenOut)
	}
	return made
}

// iterated returns the values of an iterator.
func (t *translator) iterated(i feel.Iterator, s *scope) ([]phrase, bool) {
	if i.End == nil {
		return t.membersOfList(i.List, s)
	}
	from, to := rational(i.List), rational(i.End)
	if from == nil || to == nil || !from.IsInt() || !to.IsInt() || !from.Num().IsInt64() || !to.Num().IsInt64() {
		return nil, false
	}
	first, last, step := from.Num().Int64(), to.Num().Int64(), int64(1)
	if last < first {
		step = -1
	}
	var all []phrase
	for at := first; ; at += step {
		if len(all) == mostUnrolled {
			return nil, false
		}
		all = append(all, t.wholeNumber(i.Span, at))
		if at == last {
			return all, true
		}
	}
}

// wholeNumber returns a number of an iterator as a literal.
func (t *translator) wholeNumber(at feel.Span, value int64) phrase {
	if value < 0 {
		return t.operand(&feel.Negation{Span: at, Operand: &feel.Number{Span: at, Text: fmt.Sprint(-value)}}, newScope(nil))
	}
	return t.operand(&feel.Number{Span: at, Text: fmt.Sprint(value)}, newScope(nil))
}

// unrolledFor returns the list of a for's results.
func (t *translator) unrolledFor(n *feel.For, s *scope) (phrase, bool) {
	var results []phrase
	count := 0
	if !t.each(n, n.Iterators, s, &count, func(inside *scope) { results = append(results, t.unrolled(n.Result, inside)) }) {
		return phrase{}, false
	}
	of := t.together(results, t.refusal(n))
	return listing(results, t.kept.listOf(of)), true
}

// unrolledQuantified joins the conditions of all members by or, or by and.
func (t *translator) unrolledQuantified(n *feel.Quantified, s *scope) (phrase, bool) {
	var conditions []phrase
	count := 0
	if !t.each(n, n.Iterators, s, &count, func(inside *scope) { conditions = append(conditions, t.unrolled(n.Condition, inside)) }) {
		return phrase{}, false
	}
	end, join := "false", anyOf
	if n.Word == "every" {
		end, join = "true", allOf
	}
	// A value that isn't a condition counts as null, even if it is the only one.
	if len(conditions) == 0 || len(conditions) == 1 && conditions[0].of.kind != booleanKind {
		conditions = append(conditions, constant(end, booleanType))
	}
	return join(conditions), true
}

// indexed returns the member at a literal index of a written-out list, or the first that a filter leaves.
func (t *translator) indexed(n *feel.Filter, s *scope) (phrase, bool) {
	index := rational(n.Condition)
	if index == nil || !index.IsInt() {
		return phrase{}, false
	}
	if filter, is := n.Operand.(*feel.Filter); is && index.Num().IsInt64() && index.Num().Int64() == 1 {
		return t.first(filter, s)
	}
	members, is := t.membersOfList(n.Operand, s)
	if !is {
		return phrase{}, false
	}
	at := index.Num().Int64()
	if at < 0 {
		at += int64(len(members)) + 1
	}
	if !index.Num().IsInt64() || at < 1 || at > int64(len(members)) {
		return constant("null", nullType), true
	}
	return members[at-1], true
}

// first returns the first member that a filter leaves; null if it leaves none.
func (t *translator) first(n *feel.Filter, s *scope) (phrase, bool) {
	members, conditions, is := t.filtered(n, s)
	if !is {
		return phrase{}, false
	}
	t.together(members, t.refusal(n))
	made := constant("null", nullType)
	for i := len(members) - 1; i >= 0; i-- {
		made = t.shallow(choice(conditions[i], members[i], made))
	}
	return made, true
}

// filtered returns the members of a list that can be gone through, with the condition of each; false for other lists,
// or if the filter may be an index.
func (t *translator) filtered(n *feel.Filter, s *scope) (members, conditions []phrase, is bool) {
	if rational(n.Condition) != nil {
		return nil, nil, false
	}
	members, is = t.membersOfList(n.Operand, s)
	if !is {
		return nil, nil, false
	}
	t.gone += len(members)
	if t.gone > mostGone {
		return nil, nil, false
	}
	for i := range members {
		inside := s.within()
		if !bindMember(inside, members[i], t.words) {
			return nil, nil, false
		}
		condition := t.short(t.operand(n.Condition, inside))
		if condition.of.kind != booleanKind && condition.of.kind != refusedKind {
			return nil, nil, false
		}
		conditions = append(conditions, condition)
	}
	return members, conditions, true
}

// bindMember binds item, and the entries of the member that a filter looks at; false if an entry is called item.
func bindMember(s *scope, member phrase, words *words) bool {
	s.bind("item", &binding{value: member})
	if member.of.kind != contextKind {
		return true
	}
	for _, name := range member.of.order {
		entry := phrase{text: member.text + "." + words.of(name), rank: rankPath, depth: 1 + member.depth, of: member.of.fields[name]}
		s.bind(name, &binding{value: entry, member: true})
	}
	return member.of.fields["item"] == nil
}

// overFilter returns the sum or count of what a filter leaves. The sum of nothing is null.
func (t *translator) overFilter(n feel.Node, name string, filter *feel.Filter, s *scope) (phrase, bool) {
	members, conditions, is := t.filtered(filter, s)
	if !is {
		return phrase{}, false
	}
	if len(members) == 0 {
		return constant(map[string]string{"sum": "null", "count": "0"}[name], map[string]*valueType{"sum": nullType, "count": numberType}[name]), true
	}
	of := numberType
	if name == "count" {
		for i := range members {
			members[i] = constant("1", numberType)
		}
	} else {
		if of = t.together(members, t.refusal(n)); of.hasTemporal() {
			return t.refuse(n, "a sum of dates or durations: the standard has one of numbers alone", "a number"), true
		}
	}
	parts := make([]phrase, len(members))
	for i, condition := range conditions {
		parts[i] = t.shallow(choice(condition, members[i], constant("0", of)))
	}
	sum := call("sum", numberOf(uncelled(of.within())), listing(parts, listOf(of)))
	if name == "count" {
		return sum, true
	}
	return choice(t.shallow(anyOf(conditions)), t.shallow(sum), constant("null", nullType)), true
}
