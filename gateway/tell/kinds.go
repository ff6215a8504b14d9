package tell

import (
	"strings"

	"gateway/feel"
	"gateway/feel/strict"
	"gateway/model"
)

// A kinds holds the kinds of values that a column's tests ask for.
type kinds struct{ numbers, texts, truths, null, parted bool }

var everyKind = kinds{true, true, true, true, true}

// columnKinds returns the kinds of the constants in a column's tests, or every kind if there are none but null.
func columnKinds(tests []strict.Tests) kinds {
	var k kinds
	for _, of := range tests {
		for _, test := range of.List {
			k.see(test)
		}
	}
	if k == (kinds{}) || k == (kinds{null: true}) {
		return everyKind
	}
	return k
}

// see adds the kinds of a test's constants: of a list those of its members.
func (k *kinds) see(test feel.Node) {
	switch of := bare(test).(type) {
	case *feel.Unary:
		k.add(of.Operand)
	case *feel.Range:
		k.add(of.Low)
		k.add(of.High)
	case *feel.List:
		for _, item := range of.Items {
			k.add(item)
		}
	default:
		k.add(test)
	}
}

// add adds the kind of an expression, where it is a constant.
func (k *kinds) add(node feel.Node) {
	switch bare(node).(type) {
	case *feel.String:
		k.texts = true
	case *feel.Boolean:
		k.truths = true
	case *feel.Null:
		k.null = true
	case *feel.List:
		k.parted = true
	default:
		k.numbers = k.numbers || isSum(node)
	}
}

// bare is an expression without its parentheses.
func bare(node feel.Node) feel.Node {
	for {
		group, ok := node.(*strict.Group)
		if !ok {
			return node
		}
		node = group.Inside
	}
}

// isSum tells whether an expression is of numbers alone, with parentheses, "-", "+" and "*".
func isSum(node feel.Node) bool {
	switch of := bare(node).(type) {
	case *feel.Number:
		return true
	case *feel.Negation:
		return isSum(of.Operand)
	case *feel.Chain:
		for _, operator := range of.Operators {
			if !strings.Contains("+-*", operator) {
				return false
			}
		}
		for _, operand := range of.Operands {
			if !isSum(operand) {
				return false
			}
		}
		return true
	}
	return false
}

// isConstant reports whether an expression is a constant, or a number after a minus.
func isConstant(node feel.Node) bool {
	if negation, ok := node.(*feel.Negation); ok {
		_, ok = negation.Operand.(*feel.Number)
		return ok
	}
	_, ok := strict.ConstantOf(node)
	return ok
}

// areConstant reports whether an entry compares with constants only.
func areConstant(tests strict.Tests) bool {
	for _, test := range tests.List {
		switch of := test.(type) {
		case *feel.Unary:
			if !isConstant(of.Operand) {
				return false
			}
		case *feel.Range:
			if !isConstant(of.Low) || !isConstant(of.High) {
				return false
			}
		default:
			if !isConstant(test) {
				return false
			}
		}
	}
	return true
}

// kindsText returns the kinds that the columns ask for, such as "numbers, texts and null".
func kindsText(columns []kinds) string {
	var all kinds
	for _, k := range columns {
		if k.numbers && k.truths && k.null && k.parted {
			continue
		}
		all = kinds{all.numbers || k.numbers, all.texts || k.texts, all.truths || k.truths, all.null || k.null, all.parted || k.parted}
	}
	var words []string
	for _, kind := range []struct {
		is   bool
		word string
	}{{all.numbers, "numbers"}, {all.texts, "texts"}, {all.truths, "truth values"}, {all.null, "null"}, {all.parted, "lists"}} {
		if kind.is {
			words = append(words, kind.word)
		}
	}
	if last := len(words) - 1; last > 0 {
		return strings.Join(words[:last], ", ") + " and " + words[last]
	}
	return strings.Join(words, "")
}

// testsOf returns a table's input entries, rule by rule.
func testsOf(table *model.Table) [][]strict.Tests {
	all := make([][]strict.Tests, len(table.Rules))
	for at, rule := range table.Rules {
		all[at] = make([]strict.Tests, len(rule.When))
		for column, text := range rule.When {
			all[at][column], _ = strict.ReadTests(text)
		}
	}
	return all
}

// columnOf returns the entries of one input.
func columnOf(all [][]strict.Tests, at int) []strict.Tests {
	var column []strict.Tests
	for _, rule := range all {
		if at < len(rule) {
			column = append(column, rule[at])
		}
	}
	return column
}
