// Package feel reads texts of FEEL 1.3, the expression language of DMN, into trees with places. It reads all of the
// language, also what is translated nowhere, and evaluates nothing.
//
// A name of FEEL is a list of tokens and may hold blanks and signs, so it can be told from other text by what is in
// scope alone: of all names in scope the longest is taken. A word that begins no name in scope is read as a Name that
// is not known, together with the words after it.
//
// What is read:
//
//	Expression  a literal expression, an output entry, a default
//	Tests       an input entry: "-", a list of tests, or not( a list of tests )
//	Values      a list of allowed values, of input values or of output values
//
// A text is at most MostBytes long, and its forms stand in each other at most MostDepth deep.
package feel
