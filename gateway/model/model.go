// Package model is the engine's model as Go values, with its JSON: inputs, decisions with their logic, and services. It can
// hold anything of the right form; whether a model is valid is up to the engine (desk check).
package model

// Model is a decision model. Its limits (1,000 decisions, a line of 1,048,576 bytes) are the engine's.
type Model struct {
	// Inputs are the names of the values in a request.
	Inputs []string
	// Decisions are the decisions, in any order.
	Decisions []Decision
	// Services are what a request may ask for.
	Services []Service
}

// Decision is a named piece of logic over the values of what it needs.
type Decision struct {
	Name string
	// Needs are the names of the inputs and decisions that the logic uses, each once.
	Needs []string
	Expr  Expression
}

// Service returns the values of its outputs, given its input decisions and input data.
type Service struct {
	Name string `json:"name"`
	// Outputs are decisions, at least one, in answer order.
	Outputs []string `json:"outputs"`
	// Encapsulated are decisions that are evaluated and not returned.
	Encapsulated []string `json:"encapsulated"`
	// InputDecisions are decisions whose values the request brings.
	InputDecisions []string `json:"inputDecisions"`
	// InputData are inputs.
	InputData []string `json:"inputData"`
}

// Expression is a boxed expression: a Literal, a List, a Context or a *Table.
type Expression interface {
	boxed()
}

// Literal is an expression as text.
type Literal string

// List is a boxed list: its value is the list of its members' values.
type List []Expression

// Context is a boxed context: entries, each of which sees those before it, and a result.
type Context struct {
	Entries []Entry
	// Result is the value of the context; nil means the context of all entries.
	Result Expression
}

// Entry is an entry of a context.
type Entry struct {
	Name string
	Expr Expression
}

// Table is a decision table.
type Table struct {
	// Hit is the hit policy: U A P F O R C C+ C< C> C#.
	Hit string
	// Inputs are the input expressions.
	Inputs []string
	// Outputs are the output columns, at least one.
	Outputs []Output
	// Rules are the rules, each with an entry for each column.
	Rules []Rule
}

// Output is an output column.
type Output struct {
	Name string
	// Values are literals that set the order for policies P and O; may be empty.
	Values []string
	// Default is the expression used if no rule hits, or nil.
	Default *string
}

// Rule is a row of a table.
type Rule struct {
	// When are unary tests, one text for each input.
	When []string
	// Then are expressions, one for each output.
	Then []string
}

func (Literal) boxed() {}
func (List) boxed()    {}
func (Context) boxed() {}
func (*Table) boxed()  {}
