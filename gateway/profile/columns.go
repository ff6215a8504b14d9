package profile

import (
	"fmt"

	"gateway/dmn"
	"gateway/feel"
	"gateway/model"
)

// alignOutputs brings the entries, defaults and output values of each column to one unit, and writes them.
func (r *tableReader) alignOutputs() {
	for i := range r.outputs {
		o := &r.outputs[i]
		clause := o.clause.Element
		refuse := func(why, instead string) { r.refusals.refuse(clause, "", why, instead) }
		isCount := r.made.table.Hit == "C#"
		all := append([]phrase(nil), o.cells...)
		if o.other != nil && !isCount {
			all = append(all, *o.other)
		}
		for _, value := range o.allowed.nodes() {
			if number := rational(value); number != nil && ends(number) {
				all = append(all, constantNumber(number))
			}
		}
		o.gives = joined(o.gives, r.together(all, refuse))
		r.writeOutput(o, i, all)
		if isCount && o.other != nil && r.isCounted(o.other.of) {
			refuse("a default with decimals where hits are counted", "a whole number")
		}
	}
}

// writeOutput writes what alignOutputs aligned.
func (r *tableReader) writeOutput(o *output, i int, all []phrase) {
	table := r.made.table
	r.made.cells = append(r.made.cells, all)
	for row := range o.cells {
		table.Rules[row].Then[i] = all[row].text
	}
	next := len(o.cells)
	if o.other != nil {
		text := o.other.text
		if table.Hit != "C#" {
			text = all[next].text
			next++
		}
		table.Outputs[i].Default = &text
	}
	at := 0
	for _, value := range o.allowed.nodes() {
		if number := rational(value); number != nil && ends(number) {
			if at < len(table.Outputs[i].Values) {
				table.Outputs[i].Values[at] = all[next].text
			}
			next++
		}
		at++
	}
}

// countsOtherwise reports whether a test has to become a condition: it is a quotient, has a finer unit than the column,
// or one of the two is a date.
func (r *tableReader) countsOtherwise(value phrase, c column) bool {
	if one, _ := mixed(value.of, c.value.of); one != nil {
		return true
	}
	if !r.counts {
		return value.isQuotient()
	}
	r.meeting(value, c.value)
	if value.isQuotient() || c.value.isQuotient() {
		return true
	}
	return value.of.kind != numberKind && r.isCounted(value.of) || value.of.kind == numberKind && value.number == nil &&
		value.of.units.scale > r.within(c.value.of).scale
}

// bound returns an order comparison with a column's value, in the column's unit.
func (r *tableReader) bound(n feel.Node, operator string, value phrase, c column) (string, phrase) {
	u := r.within(c.value.of)
	switch {
	case !r.counts || value.of.isPlain() && u.isPlain():
		return operator, value.within(rankSum)
	case value.number != nil:
		operator, limit := boundIn(operator, value.number, u)
		return operator, wholeConstant(limit)
	case value.of.kind == numberKind:
		value = r.recountedOr(n, value, units{scale: u.scale})
	}
	return operator, value.within(rankSum)
}

// equalIn returns a value as a test of a column, in the column's unit; false if the column has no such value.
func (r *tableReader) equalIn(n feel.Node, value phrase, c column) (phrase, bool) {
	u := r.within(c.value.of)
	switch {
	case !r.counts || value.of.kind != numberKind || value.of.isPlain() && u.isPlain():
		return value, true
	case value.number != nil:
		at := inUnits(value.number, u)
		return wholeConstant(at.Num()), at.IsInt() && isNumber(at.Num())
	}
	return r.recountedOr(n, value, units{scale: u.scale}), true
}

// ratioExpression translates an input expression that is a quotient; false if it isn't one.
func (r *tableReader) ratioExpression(x *dmn.Text) (value phrase, is bool) {
	if !inFEEL(x) {
		return value, false
	}
	r.at(x, func() {
		nodes := r.read(x, r.scope, false)
		if nodes == nil || !isDivision(nodes[0]) {
			return
		}
		is = true
		value = r.maybeQuotient(nodes[0], r.scope)
	})
	if !is {
		return value, false
	}
	if due := r.types.resolve(x.Element, x.TypeRef); due != nil && due.kind != numberKind && due.kind != anyKind && due.kind != refusedKind {
		r.refusals.refuse(x.Element, x.Text, fmt.Sprintf("it is a number, where %s is declared", due), "the type number")
	}
	if value.number != nil {
		value = r.bounded(&feel.Null{}, value)
	}
	return value, true
}

// isDivision reports whether a form is a product that contains a division.
func isDivision(n feel.Node) bool {
	switch n := n.(type) {
	case *feel.Negation:
		return isDivision(n.Operand)
	case *feel.Chain:
		for i, operator := range n.Operators {
			if operator == "/" || operator == "*" && (isDivision(n.Operands[i]) || isDivision(n.Operands[i+1])) {
				return true
			}
		}
	}
	return false
}

// hitTable returns a table that is true if one of the rules hits.
func (r *tableReader) hitTable(rules []int) *box {
	made := &model.Table{Hit: "F", Inputs: append([]string(nil), r.made.table.Inputs...), Outputs: []model.Output{{Name: "hit"}},
		Rules: []model.Rule{}}
	conditioned := false
	for _, rule := range rules {
		conditioned = conditioned || r.conditions[rule] != ""
	}
	if conditioned {
		made.Inputs = append(made.Inputs, "true")
	}
	for _, input := range made.Inputs {
		r.wrote(len(input) + 3)
	}
	for _, rule := range rules {
		when := append([]string(nil), r.made.table.Rules[rule].When...)
		if conditioned {
			condition := r.conditions[rule]
			if condition == "" {
				condition = "-"
			}
			when = append(when, condition)
		}
		made.Rules = append(made.Rules, model.Rule{When: when, Then: []string{"true"}})
		r.wrote(len(fmt.Sprint(when)) + bytesOfEntry)
	}
	return tableOf(made)
}
