package profile

import (
	"math/big"
	"strings"

	"gateway/dmn"
	"gateway/feel"
)

// A valueList is a list of allowed values, of input values or of output values. An empty one allows all.
type valueList struct{ *listedValues }

// listedValues are the values of a list that isn't empty.
type listedValues struct {
	all []feel.Node
	// literals has the literals as the engine reads them; others are the ranges and tests.
	literals map[string]bool
	others   []feel.Node
	// text is the list's text.
	text *dmn.Text
}

// nodes returns all values.
func (v valueList) nodes() []feel.Node {
	if v.listedValues == nil {
		return nil
	}
	return v.all
}

// words returns the literals as the engine reads them.
func (v valueList) words() map[string]bool {
	if v.listedValues == nil {
		return nil
	}
	return v.literals
}

// tests returns the ranges and tests.
func (v valueList) tests() []feel.Node {
	if v.listedValues == nil {
		return nil
	}
	return v.others
}

// at returns the list's text; nil if the list is empty.
func (v valueList) at() *dmn.Text {
	if v.listedValues == nil {
		return nil
	}
	return v.text
}

// mostOthers is how many ranges and tests a list may have: each literal is checked against each of them.
const mostOthers = 100

func listOfValues(nodes []feel.Node) valueList {
	made := valueList{&listedValues{all: nodes, literals: map[string]bool{}}}
	for _, n := range nodes {
		if literalType(n) == nil {
			made.others = append(made.others, n)
		} else {
			made.literals[literalText(n)] = true
		}
	}
	return made
}

// allows reports whether a form may be one of the values. Only a literal can be ruled out. Null never is.
func (v *valueList) allows(n feel.Node) bool {
	literal := literalType(n)
	if literal == nil || literal.kind == nullKind || len(v.nodes()) == 0 || v.words()[literalText(n)] {
		return true
	}
	for _, other := range v.tests() {
		interval, is := other.(*feel.Range)
		if !is || mayLieIn(n, interval) {
			return true
		}
	}
	return false
}

// mayLieIn reports whether a number may lie in a range. It is true if either isn't of numbers.
func mayLieIn(literal feel.Node, interval *feel.Range) bool {
	x, low, high := rational(literal), rational(interval.Low), rational(interval.High)
	if x == nil || low == nil || high == nil {
		return true
	}
	from, to := x.Cmp(low), x.Cmp(high)
	return (from > 0 || from == 0 && !interval.LowOpen) && (to < 0 || to == 0 && !interval.HighOpen)
}

// rational returns the number of a literal; nil for others.
func rational(n feel.Node) *big.Rat {
	if negation, is := n.(*feel.Negation); is {
		if inside := rational(negation.Operand); inside != nil {
			return inside.Neg(inside)
		}
		return nil
	}
	number, is := n.(*feel.Number)
	if !is || len(number.Text) > mostWord {
		return nil
	}
	value, fine := numberOfText(number.Text)
	if !fine {
		return nil
	}
	return value
}

// shortest returns a terminating number in its shortest form.
func shortest(value *big.Rat) string {
	text := value.FloatString(2 * mostScale)
	return strings.TrimSuffix(strings.TrimRight(text, "0"), ".")
}

// literalText returns a literal in its shortest form; empty for other forms, and for a number past the range or with
// too many decimals.
func literalText(n feel.Node) string {
	switch n := n.(type) {
	case *feel.String:
		return quotedText(n.Value)
	case *feel.Boolean:
		if n.Value {
			return "true"
		}
		return "false"
	case *feel.Null:
		return "null"
	case *feel.Number, *feel.Negation:
		if number, is := n.(*feel.Number); is && isShortest(number.Text) {
			return number.Text
		}
		value := rational(n)
		if value != nil && value.IsInt() && value.Num().BitLen() < 64 {
			return value.Num().String()
		}
		if value != nil && ends(value) && !value.IsInt() {
			return shortest(value)
		}
	}
	return ""
}

// isShortest reports whether a numeric literal is in its shortest form, and surely in the range.
func isShortest(text string) bool {
	point := strings.IndexByte(text, '.')
	isLong, hasEmptyEnd := len(text) >= len(largestNumber), point == 0 || text[len(text)-1] == '0' && point > 0
	return !isLong && !hasEmptyEnd && (text[0] != '0' || len(text) == 1 || point == 1)
}
