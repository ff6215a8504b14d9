package strict

import (
	"strconv"
	"strings"

	"gateway/feel"
)

// A Group is an expression in parentheses.
type Group struct {
	feel.Span
	Inside feel.Node
}

// Tests are the tests of an input entry. Each is a *feel.Unary with a comparison sign, a *feel.Range, or an expression that the
// input must equal.
type Tests struct {
	// Any means that the entry is "-", which every value meets.
	Any bool
	// Negated means that none of the tests may hold.
	Negated bool
	List    []feel.Node
}

// A Value is the value of a literal: nil, a bool, an int64 or a string.
type Value any

// ConstantOf returns the value of a node that is a constant token; false for others.
func ConstantOf(node feel.Node) (Value, bool) {
	switch node := node.(type) {
	case *feel.Number:
		number, err := strconv.ParseInt(node.Text, 10, 64)
		return number, err == nil
	case *feel.String:
		return node.Value, true
	case *feel.Boolean:
		return node.Value, true
	case *feel.Null:
		return nil, true
	}
	return nil, false
}

// valueOf returns the value of a constant token; false for a number out of range.
func valueOf(text string, token Token) (Value, bool) {
	switch spelled := text[token.Start:token.End]; {
	case token.Sort == Number:
		number, err := strconv.ParseInt(spelled, 10, 64)
		return number, err == nil
	case token.Sort == Text:
		return unquoted(spelled), true
	case spelled == "null":
		return nil, true
	default:
		return spelled == "true", true
	}
}

// unquoted returns the value of a text in quotes.
func unquoted(spelled string) string {
	inner := spelled[1 : len(spelled)-1]
	if strings.IndexByte(inner, '\\') < 0 {
		return inner
	}
	var text strings.Builder
	for at := 0; at < len(inner); at++ {
		if inner[at] == '\\' {
			at++
			text.WriteByte(escaped(inner[at]))
			continue
		}
		text.WriteByte(inner[at])
	}
	return text.String()
}
