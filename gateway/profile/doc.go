// Package profile translates files of DMN into the model of the engine, or refuses their places.
//
// The rule is: same meaning, or refused. A part of the model means what DMN 1.3 says about its part of the file. A
// place where that is impossible, or where the standard can be read in two ways, is refused with what to write instead.
//
// Three things have no counterpart in the model:
//
//   - A name of the file becomes a word. A name has one word in the whole model, and two names never share one.
//   - What can't be in a text (a context literal, an invocation, a form that is too deep) becomes an entry of a boxed
//     context around the expression, under a fresh word that no name has.
//   - A condition in an input entry goes into a further column, whose input is true.
//
// Types. The declared types of inputs say what values may be. A request has to keep them: they are given as JSON
// Schema. An input without a declared type takes the type of the column or decision that uses it unchanged. Null
// conforms to each type.
//
// Units. The engine has only whole numbers, and numbers of FEEL are decimals of 34 digits. So numbers of a file are
// counted: in the model each is a whole number of 10^-scale. The scale is part of the type, and known from the text. A
// literal has the scale of its digits, and a product the sum of its operands' scales. Values that meet in a sum, a
// branch, a list or a column are multiplied to the finest of their scales. A comparison brings a constant to the unit
// of the value. The engine's numbers have at most 19 digits, so results are exact in the standard too.
//
// Lists, contexts and values of the type Any can't be multiplied, so they have to be counted alike where they meet. If
// they come from an input, that input gets the finer scale; else the place is refused.
//
// Division by a constant with only the factors two and five changes the scale. By another constant the result is a
// quotient: a whole number of one part of per, which is in the type. By a variable it is a phrase over a positive
// divisor. Quotients are accepted where they keep their meaning: comparisons multiply both sides with the divisors,
// roundings divide exactly (see division.go), and results are written to 34 digits. The steps of a rounding come before
// the expression, under the condition of its branch or rule (see steps.go).
//
// Dates, times and durations are whole numbers too, as package calendar counts them: a date by its day, the others in
// ticks of a second or in months. The model can't distinguish them from numbers, so each kind only meets itself, and
// none is of the type Any (see temporal.go). The year, month and day of a date are found by divisions of small numbers
// (see civil.go). Results outside the years exceed a limit. Times with an offset are instants, which are compared and
// never written (see offsets.go). A clock is an input (see clock.go).
//
// An import makes two passes: the first finds the types of undeclared inputs, the last translates. If the files need
// fractions, a pass in between finds what meets them, and the last one is repeated while some scale has to be finer.
// Files without fractions are counted in ones.
package profile
