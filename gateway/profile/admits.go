package profile

import (
	"fmt"
	"strings"

	"gateway/dmn"
	"gateway/feel"
)

// admitted checks a value that fits a declared type against the type's allowed values. The standard makes null of a
// value that isn't one of them, and of a list or context with such a part. A value that is surely allowed is left as it
// is, one that may not be is tested, and one that can't be tested is refused.
func (t *translator) admitted(b *box, of, due *valueType, refuse func(why, instead string)) (*box, *valueType) {
	made := t.narrowedTo(due, of)
	if !due.isNarrow() || t.isSure(b, of, due) {
		return b, made
	}
	if b.kind == textBox && t.inCell {
		p := b.value
		p.of = of
		return boxOf(t.admittedPhrase(p, due, refuse)), made
	}
	return t.framed(func() *box {
		switch {
		case b.kind == listBox:
			return t.admittedList(b, of, due, refuse)
		case b.kind == textBox:
			p := b.value
			p.of = of
			return t.boxed(t.admittedPhrase(p, due, refuse))
		}
		return t.boxed(t.admittedPhrase(t.hoisted("value", b, of), due, refuse))
	}), made
}

// narrowedTo returns the type of another type's values after the check against it.
func (t *translator) narrowedTo(due, of *valueType) *valueType {
	switch {
	case due.kind != anyKind && (!due.isScalar() || len(due.allowed.nodes()) > 0 || len(of.values().nodes()) == 0):
		return t.countedAs(due, of)
	case due.kind != anyKind:
		own := *t.countedAs(due, of)
		own.common = of.values()
		return &own
	case len(due.allowed.nodes()) == 0:
		return of
	}
	own := *of
	own.allowed, own.narrow, own.fitting, own.implying = due.allowed, unknown, nil, nil
	return &own
}

// admittedPhrase returns the value, or null if the type doesn't allow it.
func (t *translator) admittedPhrase(p phrase, due *valueType, refuse func(why, instead string)) phrase {
	if p.members() != nil && due.kind == listKind && len(due.allowed.nodes()) == 0 {
		members, conditions, why := t.admittedMembers(p.members(), due.element)
		if why == "" {
			return t.whereAll(conditions, listing(members, p.of))
		}
		refuse(why, untestableInstead)
		return refused
	}
	if p.over() != nil {
		refuse("a quotient by a variable is not held against allowed values", "a rounding round the quotient")
		return refused
	}
	x := t.short(p)
	conditions, why := t.admits(x, due, false)
	if why != "" {
		refuse(why, untestableInstead)
		return refused
	}
	return t.whereAll(conditions, x)
}

const untestableInstead = "a type without allowed values, or a list that is written out"

// whereAll returns the value if the conditions hold, else null.
func (t *translator) whereAll(conditions []phrase, value phrase) phrase {
	if len(conditions) == 0 {
		return value
	}
	for i := range conditions {
		conditions[i] = t.shallow(conditions[i])
	}
	return choice(t.shallow(allOf(conditions)), t.shallow(value), constant("null", nullType))
}

// admittedMembers returns the members of a list in a form that may be repeated, and the conditions under which a type
// allows them.
func (t *translator) admittedMembers(members []phrase, due *valueType) (short, conditions []phrase, why string) {
	for _, member := range members {
		if t.isSurePhrase(member, due) {
			short = append(short, member)
			continue
		}
		x := t.short(member)
		conds, why := t.admits(x, due, true)
		if why != "" {
			return nil, nil, why
		}
		short, conditions = append(short, x), append(conditions, conds...)
	}
	return short, conditions, ""
}

// admittedList returns a boxed list, or null if the type doesn't allow a member.
func (t *translator) admittedList(b *box, of, due *valueType, refuse func(why, instead string)) *box {
	members := make([]phrase, len(b.list))
	for i, member := range b.list {
		if member.kind == textBox {
			members[i] = member.value
		} else {
			members[i] = t.hoisted("member", member, of.memberType())
		}
	}
	return t.boxed(t.admittedPhrase(listing(members, of), due, refuse))
}

// admits returns the conditions under which a type allows a value that may be written more than once. With orNull they
// hold for null too. Why says what can't be tested.
func (t *translator) admits(x phrase, due *valueType, orNull bool) (conditions []phrase, why string) {
	switch {
	case implies(x.of, due):
		return nil, ""
	case due.kind == listKind:
		return nil, "the members of a list may be none of the allowed values of their type, which can't be tested of a list that is not " +
			"written out"
	case due.kind == contextKind && len(due.allowed.nodes()) > 0:
		return nil, "allowed values of a context can't be tested"
	case due.kind == contextKind:
		return t.admitsEntries(x, due)
	}
	condition := t.isAllowed(x, due.allowed)
	if orNull {
		isNull := infix(x, "=", constant("null", nullType), rankComparison, booleanType)
		condition = anyOf([]phrase{isNull, t.shallow(condition)})
	}
	return []phrase{condition}, ""
}

func (t *translator) admitsEntries(x phrase, due *valueType) (conditions []phrase, why string) {
	for _, name := range due.order {
		own, field := x.of.fields[name], due.fields[name]
		if own == nil || !field.isNarrow() {
			continue
		}
		entry := phrase{text: x.text + "." + t.words.of(name), rank: rankPath, depth: 1 + x.depth, of: own}
		more, why := t.admits(t.short(entry), field, true)
		if why != "" {
			return nil, "its component " + name + ": " + why
		}
		conditions = append(conditions, more...)
	}
	return conditions, ""
}

// isAllowed returns the condition that a value is one of the allowed values.
func (t *translator) isAllowed(x phrase, allowed valueList) (condition phrase) {
	if t.full {
		return constant("true", booleanType)
	}
	t.at(allowed.at(), func() { condition = t.conditions(allowed.nodes(), x, newScope(nil)) })
	t.wrote(len(condition.text))
	return condition
}

// isSure reports whether a type allows all values of a box.
func (t *translator) isSure(b *box, of, due *valueType) bool {
	if implies(of, due) {
		return true
	}
	switch b.kind {
	case textBox:
		p := b.value
		p.of = of
		return t.isSurePhrase(p, due)
	case listBox:
		for _, member := range b.list {
			if due.kind != listKind || len(due.allowed.nodes()) > 0 || !t.isSure(member, of.memberType(), due.element) {
				return false
			}
		}
		return true
	case contextBox:
		return t.isSureContext(b, of, due)
	}
	return t.isSureTable(b, of, due)
}

func (t *translator) isSureContext(b *box, of, due *valueType) bool {
	if b.result != nil {
		return t.isSure(b.result, of, due)
	}
	if due.kind != contextKind || len(due.allowed.nodes()) > 0 {
		return false
	}
	for _, entry := range b.entries {
		if field := t.field(due, entry.word); field != nil && !t.isSure(entry.value, t.fieldOr(of, entry.word), field) {
			return false
		}
	}
	return true
}

// isSureTable is isSure for the output entries and defaults of a table.
func (t *translator) isSureTable(b *box, of, due *valueType) bool {
	switch b.table.Hit {
	case "C", "R", "O":
		if due.kind != listKind || len(due.allowed.nodes()) > 0 {
			return false
		}
		due = due.element
	case "C#", "C+":
		return false
	}
	for i, output := range b.table.Outputs {
		field := due
		if len(b.table.Outputs) > 1 {
			if field = t.field(due, output.Name); field == nil {
				continue
			}
		}
		for _, cell := range b.cells[i] {
			if !t.isSurePhrase(cell, field) {
				return false
			}
		}
	}
	return len(due.allowed.nodes()) == 0 || len(b.table.Outputs) == 1
}

// mostLiteral is the length in bytes up to which a literal is looked at.
const mostLiteral = 1000

// isSurePhrase reports whether a type allows all values of a phrase.
func (t *translator) isSurePhrase(p phrase, due *valueType) bool {
	switch {
	case implies(p.of, due):
		return true
	case p.branches() != nil:
		return t.isSurePhrase(p.branches().then, due) && t.isSurePhrase(p.branches().otherwise, due) || t.wasTested(p, due)
	case p.members() != nil && due.kind == listKind && len(due.allowed.nodes()) == 0:
		for _, member := range p.members() {
			if !t.isSurePhrase(member, due.element) {
				return false
			}
		}
		return true
	case len(p.text) > mostLiteral:
		return false
	}
	node, fault := feel.Expression(p.text, nil, nil)
	return fault == nil && literalType(node) != nil && due.allowed.has(uncounted(node, p.of.within()))
}

// wasTested reports whether a choice is one that admitted made, as in an exported file.
func (t *translator) wasTested(p phrase, due *valueType) bool {
	x := p.branches().then
	if p.branches().otherwise.text != "null" || !x.isShort() || t.full {
		return false
	}
	written, entries, civils := t.written, len(t.frame.entries), t.civils
	t.civils = nil
	conditions, why := t.admits(x, due, false)
	isSame := why == "" && len(conditions) > 0 && len(t.frame.entries) == entries &&
		allOf(conditions).text == p.branches().condition.text
	t.written, t.frame.entries, t.civils = written, t.frame.entries[:entries], civils
	return isSame
}

// A narrowness says whether a type, or a part of it, has allowed values.
type narrowness uint8

const (
	unknown narrowness = iota
	isWide
	isNarrow
)

// isNarrow reports whether a type, or a part of it, has allowed values. The result is kept.
func (t *valueType) isNarrow() bool {
	if t.narrow == unknown {
		t.narrow = isWide
		if t.hasAllowed() {
			t.narrow = isNarrow
		}
	}
	return t.narrow == isNarrow
}

func (t *valueType) hasAllowed() bool {
	if len(t.allowed.nodes()) > 0 || t.kind == listKind && t.element.isNarrow() {
		return true
	}
	for _, name := range t.order {
		if t.fields[name].isNarrow() {
			return true
		}
	}
	return false
}

// An implied says whether another type allows all values of a type, and after how many changes of open types that was
// found.
type implied struct {
	all     bool
	changes int
}

// implies reports whether due, a declared type that of fits, allows all values of of.
func implies(of, due *valueType) bool {
	switch {
	case of == due || !due.isNarrow() || of.kind == nullKind || of.kind == refusedKind:
		return true
	case !due.allowed.includes(of.values()):
		return false
	case due.kind == listKind:
		return of.kind == listKind && implies(of.element, due.element)
	case due.kind != contextKind:
		return true
	}
	if known, is := due.implying[of]; is && (!of.open || known.changes == of.changes.now()) {
		return known.all
	}
	all := of.kind == contextKind
	for _, name := range due.order {
		own := of.fields[name]
		all = all && own != nil && implies(own, due.fields[name])
	}
	if due.implying == nil {
		due.implying = map[*valueType]implied{}
	}
	due.implying[of] = implied{all, of.changes.now()}
	return all
}

// has reports whether a literal is surely one of the values. Null always is.
func (v *valueList) has(n feel.Node) bool {
	literal := literalType(n)
	if len(v.nodes()) == 0 || literal.kind == nullKind || v.words()[literalText(n)] {
		return true
	}
	if v.words() == nil && len(v.nodes()) <= mostCommon {
		for _, other := range v.nodes() {
			if literalType(other) != nil && literalText(other) == literalText(n) {
				return true
			}
		}
	}
	for _, other := range v.tests() {
		if interval, is := other.(*feel.Range); is && liesIn(n, interval) {
			return true
		}
	}
	return false
}

// liesIn reports whether a literal surely lies in a range.
func liesIn(literal feel.Node, interval *feel.Range) bool {
	text, is := literal.(*feel.String)
	low, lowIs := interval.Low.(*feel.String)
	high, highIs := interval.High.(*feel.String)
	if is && lowIs && highIs {
		from, to := strings.Compare(text.Value, low.Value), strings.Compare(text.Value, high.Value)
		return (from > 0 || from == 0 && !interval.LowOpen) && (to < 0 || to == 0 && !interval.HighOpen)
	}
	return rational(literal) != nil && rational(interval.Low) != nil && rational(interval.High) != nil && mayLieIn(literal, interval)
}

// includes reports whether all the other values are surely among these.
func (v *valueList) includes(other valueList) bool {
	switch {
	case len(v.nodes()) == 0 || len(other.nodes()) > 0 && &v.nodes()[0] == &other.nodes()[0] || v.at() != nil && v.at() == other.at():
		return true
	case len(other.nodes()) == 0:
		return false
	}
	for _, n := range other.nodes() {
		if literalType(n) != nil && v.has(n) {
			continue
		}
		if interval, is := n.(*feel.Range); !is || !v.covers(interval) {
			return false
		}
	}
	return true
}

// covers reports whether a range of the values contains another one.
func (v *valueList) covers(inner *feel.Range) bool {
	for _, other := range v.tests() {
		outer, is := other.(*feel.Range)
		if !is {
			continue
		}
		low, outerLow, high, outerHigh := rational(inner.Low), rational(outer.Low), rational(inner.High), rational(outer.High)
		if low == nil || outerLow == nil || high == nil || outerHigh == nil {
			continue
		}
		from, to := low.Cmp(outerLow), high.Cmp(outerHigh)
		if (from > 0 || from == 0 && (!outer.LowOpen || inner.LowOpen)) && (to < 0 || to == 0 && (!outer.HighOpen || inner.HighOpen)) {
			return true
		}
	}
	return false
}

// values returns values that include all those of a type; none if they aren't known.
func (t *valueType) values() valueList {
	if len(t.allowed.nodes()) > 0 {
		return t.allowed
	}
	return t.common
}

// mostCommon is how many joined values are kept.
const mostCommon = 20

// commonValues returns values that include those of both types; none if they aren't known.
func commonValues(a, b valueList) valueList {
	switch {
	case len(a.nodes()) == 0 || len(b.nodes()) == 0:
		return valueList{}
	case b.includes(a):
		return b
	case a.includes(b):
		return a
	case len(a.nodes())+len(b.nodes()) > mostCommon:
		return valueList{}
	}
	return valueList{&listedValues{all: append(append([]feel.Node(nil), a.nodes()...), b.nodes()...),
		others: append(append([]feel.Node(nil), a.tests()...), b.tests()...)}}
}

// asOutput checks an output entry against the output values of its column.
func (r *tableReader) asOutput(entry *dmn.Text, value phrase, o *output) phrase {
	due := &valueType{kind: value.of.kind, allowed: o.allowed}
	if len(o.allowed.nodes()) == 0 || r.isSurePhrase(value, due) {
		return value
	}
	refuse := func(why, instead string) { r.refusals.refuse(entry.Element, entry.Text, why, instead) }
	if r.byPriority() {
		refuse("it may be none of the output values, by which the hit policy goes", "one of the output values in each rule")
		return refused
	}
	if value.of.kind == listKind || value.of.kind == contextKind {
		refuse(fmt.Sprintf("a value of the type %s can't be held against output values", value.of), "no output values")
		return refused
	}
	return r.shallow(r.admittedPhrase(value, due, refuse))
}

// asInput checks the value of a column against its input values, unless the caller promises that it is one of them.
func (r *tableReader) asInput(c *column) {
	due := &valueType{kind: c.value.of.kind, allowed: c.allowed}
	if len(c.allowed.nodes()) == 0 || c.clause.Expression == nil || r.isPromised(*c) || r.isSurePhrase(c.value, due) {
		return
	}
	refuse := func(why, instead string) {
		r.refusals.refuse(c.clause.Values.Element, c.clause.Values.Text, why, instead)
	}
	if c.value.of.kind == listKind || c.value.of.kind == contextKind {
		refuse(fmt.Sprintf("a value of the type %s can't be held against input values", c.value.of), "no input values")
		return
	}
	c.value = r.shallow(r.admittedPhrase(c.value, due, refuse))
	c.text = c.value.text
}
