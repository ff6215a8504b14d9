package dmn

// A File is one .dmn file.
type File struct {
	// Path is the name under which the file was read.
	Path string
	// Version is the DMN version, such as "1.3".
	Version string
	// Namespace is the model's; references from other files begin with it.
	Namespace string
	// Root is the definitions element.
	Root *Element

	Imports   []*Element
	Types     []*ItemDefinition
	Inputs    []*InputData
	Decisions []*Decision
	Knowledge []*BusinessKnowledge
	Services  []*DecisionService
	// Faults has the unknown parts, in file order.
	Faults []*Fault
}

// A Variable is an informationItem: a name with a type. It is nil if the file has no such element.
type Variable struct {
	*Element
	// TypeRef is its type's name, or "".
	TypeRef string
}

// InputData is an input of the model.
type InputData struct {
	*Element
	Variable *Variable
}

// A Decision has its requirements and its logic.
type Decision struct {
	*Element
	Variable *Variable
	// Inputs and Decisions are the required information, Knowledge what it may invoke.
	Inputs, Decisions, Knowledge []*Reference
	// Logic may be nil.
	Logic Expression
}

// BusinessKnowledge is a businessKnowledgeModel: a function with a name.
type BusinessKnowledge struct {
	*Element
	Variable  *Variable
	Knowledge []*Reference
	// Logic may be nil.
	Logic *FunctionDefinition
}

// A DecisionService is a decisionService with its four lists.
type DecisionService struct {
	*Element
	Variable                                *Variable
	Outputs, Encapsulated, Decisions, Input []*Reference
}

// A Reference names an element by id after "#". The namespace of another file comes before it.
type Reference struct {
	*Element
	Href string
}

// An ItemDefinition is a type: a name for another type, or a context of components, perhaps a list of these.
type ItemDefinition struct {
	*Element
	TypeRef    string
	Components []*ItemDefinition
	Collection bool
	// Allowed is the element allowedValues or typeConstraint, or nil.
	Allowed *Text
	// Function means a type of functions.
	Function bool
}

// A Text is an element with FEEL text.
type Text struct {
	*Element
	Text string
	// Language is its expression language, else that of the file; "" if neither declares one.
	Language string
	// TypeRef is the declared type of its value, or "".
	TypeRef string
}

// An Expression is a boxed expression: *Text, *Table, *Context, *List, *Relation, *Invocation, *FunctionDefinition,
// *Conditional, or *Unread.
type Expression interface {
	// At returns the expression's element.
	At() *Element
	// Type returns the name of its declared type, or "".
	Type() string
}

// At returns the element itself.
func (e *Element) At() *Element { return e }

// Type returns the typeRef of the element.
func (e *Element) Type() string { return e.Attribute("typeRef") }

// A Table is a decisionTable.
type Table struct {
	*Element
	// HitPolicy is as in the file, "UNIQUE" by default. Aggregation may be empty.
	HitPolicy, Aggregation string
	Inputs                 []*InputClause
	Outputs                []*OutputClause
	Rules                  []*Rule
}

// An InputClause is an input column. Expression and Values may be nil.
type InputClause struct {
	*Element
	Expression *Text
	Values     *Text
}

// An OutputClause is an output column. Values and Default may be nil.
type OutputClause struct {
	*Element
	Values  *Text
	Default *Text
}

// A Rule is a row of a table.
type Rule struct {
	*Element
	When, Then []*Text
}

// A Context is a boxed context. If the last entry has no name it is the result.
type Context struct {
	*Element
	Entries []*ContextEntry
}

// A ContextEntry is an entry of a context. Variable is nil for the result. Value may be nil.
type ContextEntry struct {
	*Element
	Variable *Variable
	Value    Expression
}

// A List is a boxed list.
type List struct {
	*Element
	Members []Expression
}

// A Relation is a list of contexts in the form of a table: a name for each column, and rows.
type Relation struct {
	*Element
	Columns []*Variable
	Rows    []*List
}

// An Invocation is a boxed invocation: the function as an expression, and its arguments by parameter name.
type Invocation struct {
	*Element
	// Function may be nil.
	Function *Text
	Bindings []*Binding
}

// A Binding gives a parameter its argument. Parameter and Value may be nil.
type Binding struct {
	*Element
	Parameter *Variable
	Value     Expression
}

// A FunctionDefinition is a function with parameters and a body.
type FunctionDefinition struct {
	*Element
	// Kind is "FEEL", "Java" or "PMML", "FEEL" by default.
	Kind       string
	Parameters []*Variable
	// Body may be nil.
	Body Expression
}

// A Conditional is an if of boxed expressions. Each part may be nil.
type Conditional struct {
	*Element
	If, Then, Else Expression
}

// Unread is a boxed expression known only by name: filter, for, every, some.
type Unread struct{ *Element }
