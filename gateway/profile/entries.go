package profile

import (
	"strings"

	"gateway/dmn"
	"gateway/feel"
)

// entry translates an input entry to tests of its column, or to a condition of the further column; its own column then
// has "-".
func (r *tableReader) entry(entry *dmn.Text, i int) (test string, condition *phrase) {
	c := r.columns[i]
	if strings.TrimSpace(entry.Text) == "" {
		return "-", nil
	}
	if !r.isFEEL(entry) {
		return "-", nil
	}
	r.at(entry, func() {
		nodes := r.read(entry, r.scope, true)
		if nodes == nil {
			test = "-"
			return
		}
		r.checkEntry(entry, nodes, c)
		test = r.asTests(nodes, c)
		if test == "" {
			test = "-"
			made := r.shallow(r.translator.conditions(nodes, r.columnValue(i), r.scope))
			condition = &made
		}
	})
	return test, condition
}

// asTests returns an entry as the engine's tests; empty if it needs a condition.
func (r *tableReader) asTests(nodes []feel.Node, c column) string {
	if not, is := nodes[0].(*feel.NotTests); is {
		inside := r.testList(not.Tests, c, true)
		if inside == "" {
			return ""
		}
		return "not(" + inside + ")"
	}
	return r.testList(nodes, c, false)
}

// testList returns tests separated by commas; empty if one needs a condition.
func (r *tableReader) testList(nodes []feel.Node, c column, underNot bool) string {
	texts := make([]string, len(nodes))
	for i, n := range nodes {
		texts[i] = r.test(n, c, underNot)
		if texts[i] == "" {
			return ""
		}
	}
	return strings.Join(texts, ", ")
}

// test returns one test; empty if it needs a condition.
func (r *tableReader) test(n feel.Node, c column, underNot bool) string {
	if _, is := n.(*feel.Anything); is {
		return "-"
	}
	if c.value.isQuotient() {
		return ""
	}
	switch n := n.(type) {
	case *feel.Unary:
		return r.signTest(n.Operator, n.Operand, c, underNot)
	case *feel.Range:
		if usesInput(n) {
			return ""
		}
		return r.rangeTest(n, c)
	case *feel.Binary:
		if _, input := n.Left.(*feel.Input); input && n.Operator != "**" && !usesInput(n.Right) {
			return r.signTest(n.Operator, n.Right, c, underNot)
		}
	}
	if usesInput(n) {
		return ""
	}
	return r.valueTest(n, c, underNot)
}

// signTest returns a comparison with the column's value.
func (r *tableReader) signTest(operator string, operand feel.Node, c column, underNot bool) string {
	switch {
	case usesInput(operand), operator == "!=":
		return ""
	case operator == "=":
		value := r.maybeQuotient(operand, r.scope)
		if r.countsOtherwise(value, c) {
			return ""
		}
		if value.of.isScalar() && (!underNot || value.of.kind == c.value.of.kind) || value.of.kind == nullKind {
			return r.equalTest(operand, value, c)
		}
		return ""
	}
	value := r.maybeQuotient(operand, r.scope)
	if r.countsOtherwise(value, c) {
		return ""
	}
	operator, limit := r.bound(operand, operator, value, c)
	return operator + " " + limit.text
}

// equalTest returns a value as a test; empty if the column has no such value in its unit.
func (r *tableReader) equalTest(n feel.Node, value phrase, c column) string {
	made, fine := r.equalIn(n, value, c)
	if !fine {
		return ""
	}
	return asTest(made)
}

func (r *tableReader) rangeTest(n *feel.Range, c column) string {
	low, high := r.maybeQuotient(n.Low, r.scope), r.maybeQuotient(n.High, r.scope)
	if r.countsOtherwise(low, c) || r.countsOtherwise(high, c) {
		return ""
	}
	above, below := ">=", "<="
	if n.LowOpen {
		above = ">"
	}
	if n.HighOpen {
		below = "<"
	}
	above, low = r.bound(n.Low, above, low, c)
	below, high = r.bound(n.High, below, high, c)
	from, to := "[", "]"
	if above == ">" {
		from = "("
	}
	if below == "<" {
		to = ")"
	}
	return from + low.text + ".." + high.text + to
}

// valueTest returns a value that the column's is compared with, or a written-out list of such values.
func (r *tableReader) valueTest(n feel.Node, c column, underNot bool) string {
	if list, is := n.(*feel.List); is {
		return r.listTest(list, c, underNot)
	}
	if literal := literalType(n); literal != nil {
		if underNot && literal.kind != nullKind && literal.kind != c.value.of.kind {
			return ""
		}
		value := r.value(n, r.scope)
		if r.countsOtherwise(value, c) {
			return ""
		}
		made, fine := r.equalIn(n, value, c)
		if !fine {
			return ""
		}
		return made.text
	}
	value := r.maybeQuotient(n, r.scope)
	if why := doubtfulTest(n, value); why != "" {
		r.refuse(n, why, "? = "+r.slice(n)+", or a column of its own")
		return "-"
	}
	if underNot && value.of.kind != c.value.of.kind || r.countsOtherwise(value, c) {
		return ""
	}
	return r.equalTest(n, value, c)
}

// listTest returns a test for a written-out list: the column's value is one of its members, or is the list itself.
func (r *tableReader) listTest(n *feel.List, c column, underNot bool) string {
	if holdsTests(n) {
		r.refuseTests(n)
		return "-"
	}
	members := r.testList(n.Items, c, underNot)
	if members == "" || !c.value.of.mayBe(listKind) {
		return members
	}
	if r.counts && (r.isCounted(c.value.of) || r.isCounted(r.operand(n, r.scope).of)) {
		return ""
	}
	return r.operand(n, r.scope).text
}

// asTest returns a value as a single test. At the start of a text not( .. ) would be a list of tests.
func asTest(p phrase) string {
	if strings.HasPrefix(p.text, "not") {
		return "(" + p.text + ")"
	}
	return p.text
}

// checkEntry checks the literals of an entry against the column's type and input values. A rule with any other literal
// never hits, which nobody means.
func (r *tableReader) checkEntry(entry *dmn.Text, nodes []feel.Node, c column) {
	for _, n := range nodes {
		switch n := n.(type) {
		case *feel.NotTests:
			r.checkEntry(entry, n.Tests, c)
			continue
		case *feel.List:
			r.checkEntry(entry, n.Items, c)
			continue
		case *feel.Unary:
			r.checkKind(n.Operand, c)
			continue
		case *feel.Range:
			r.checkKind(n.Low, c)
			r.checkKind(n.High, c)
			continue
		}
		if r.checkKind(n, c) && !c.allowed.allows(n) {
			r.refuse(n, "it is none of the input values of its column", "one of the input values")
		} else if !c.value.of.allowed.allows(n) {
			r.refuse(n, "it is none of the allowed values of its column's type", "one of the allowed values")
		}
	}
}

// checkKind reports whether a literal is of the column's type, and refuses others.
func (r *tableReader) checkKind(n feel.Node, c column) bool {
	literal, of := literalType(n), c.value.of
	if literal == nil || literal.kind == nullKind || of.kind == anyKind || of.kind == refusedKind || of.kind == nullKind {
		return true
	}
	if of.kind == listKind || of.isTemporal() {
		return true
	}
	if literal.kind != of.kind {
		r.refuse(n, "it is of the type "+literal.String()+", and the column of "+of.String(), "a value of the column's type")
		return false
	}
	return true
}

// checkAllowed refuses an entry that gives a literal outside the allowed values.
func (r *tableReader) checkAllowed(entry *dmn.Text, allowed valueList, which string) {
	kept := r.trees[entry]
	if kept == nil || kept.fault != nil || len(kept.nodes) != 1 {
		return
	}
	if literalIsForbidden(kept.nodes[0], &valueType{allowed: allowed}, units{}) {
		r.refusals.refuse(entry.Element, entry.Text, "it is none of "+which, "one of these")
	}
}
