// Package strict reads FEEL exactly as the engine does: the part of the language that its models may use. Names are single
// words, and numbers are whole. A text has a reading here if and only if it has one in the engine.
//
// If a text has no reading, StopOf says where reading stops and what could be there.
//
// Trees have the nodes of package feel, and Group, since parentheses count: an expression has at most MostDepth levels, and
// each pair of parentheses is one.
package strict

// MostDepth limits the depth of an expression: a constant or name is one level, any other form one more than its deepest part.
// Each step of a chain of operators is a form.
const MostDepth = 64

// A Kind is the required kind of a text.
type Kind uint8

// The kinds of texts in a model.
const (
	Expression Kind = iota
	UnaryTests
	Literal
)
