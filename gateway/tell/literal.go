package tell

import (
	"math"
	"strconv"

	"gateway/feel"
	"gateway/feel/strict"
)

// A literalKind is the kind of a literal that can be compared.
type literalKind uint8

const (
	noKind literalKind = iota
	booleanKind
	numberKind
	textKind
)

var literalKinds = map[literalKind]string{booleanKind: "a boolean", numberKind: "a number", textKind: "a text"}

func kindOfValue(value strict.Value) literalKind {
	switch value.(type) {
	case bool:
		return booleanKind
	case int64:
		return numberKind
	case string:
		return textKind
	}
	return noKind
}

// jsonText returns a value as JSON.
func jsonText(value strict.Value) string {
	switch value := value.(type) {
	case bool:
		return strconv.FormatBool(value)
	case int64:
		return strconv.FormatInt(value, 10)
	case string:
		return quoted(value)
	}
	return "null"
}

// literalText returns a literal as JSON; false if the text is not one.
func literalText(text string) (string, bool) {
	value, ok := strict.ReadLiteral(text)
	if !ok {
		return "", false
	}
	return jsonText(value), true
}

// known returns the value of an expression without names and functions.
func known(node feel.Node) (strict.Value, bool) {
	switch of := node.(type) {
	case *strict.Group:
		return known(of.Inside)
	case *feel.Negation:
		value, ok := known(of.Operand)
		number, isNumber := value.(int64)
		return -number, ok && isNumber
	case *feel.Chain:
		return knownChain(of)
	}
	return strict.ConstantOf(node)
}

func knownChain(chain *feel.Chain) (strict.Value, bool) {
	first, ok := known(chain.Operands[0])
	result, isNumber := first.(int64)
	if !ok || !isNumber {
		return nil, false
	}
	for at, operator := range chain.Operators {
		next, ok := known(chain.Operands[at+1])
		number, isNumber := next.(int64)
		if !ok || !isNumber {
			return nil, false
		}
		if result, ok = calculated(result, operator, number); !ok {
			return nil, false
		}
	}
	return result, true
}

// calculated applies an operator to two numbers; false if the result is out of range.
func calculated(one int64, operator string, other int64) (int64, bool) {
	var result int64
	switch operator {
	case "+":
		result = one + other
		if (result > one) != (other > 0) && other != 0 {
			return 0, false
		}
	case "-":
		result = one - other
		if (result < one) != (other > 0) && other != 0 {
			return 0, false
		}
	case "*":
		result = one * other
		if one != 0 && (result/one != other || one == -1 && other == math.MinInt64) {
			return 0, false
		}
	default:
		return 0, false
	}
	return result, result != math.MinInt64
}

// isNumber reports whether an expression is a number, perhaps with a minus.
func isNumber(node feel.Node) bool {
	if negation, ok := node.(*feel.Negation); ok {
		return isNumber(negation.Operand)
	}
	_, ok := node.(*feel.Number)
	return ok
}
