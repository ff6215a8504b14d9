// Package lines checks JSON texts before they reach the engine: syntax, length and nesting of a line, and the values of inputs.
// The engine refuses nothing that passes here.
package lines

// Limits of the engine.
const (
	// MaxLine is the largest length of a line in bytes, without its newline.
	MaxLine = 1_048_576
	// MaxNesting is the deepest nesting of lists and objects in a line.
	MaxNesting = 127
	// MaxNodes is the largest number of nodes in an input's value: null, a boolean, a number or a text is one node, a list or
	// context one more than its parts together.
	MaxNodes = 10_000
	// MaxDepth is the greatest depth of an input's value: null, a boolean, a number, a text and an empty list or context have
	// depth 1, any other list or context one more than its deepest part.
	MaxDepth = 100
	// MaxNumber is the greatest number, and -MaxNumber the least.
	MaxNumber = 9_223_372_036_854_775_807
)
