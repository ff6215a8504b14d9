package feel

// A Span is the place of a form in its text, in bytes counted from 0. End is exclusive.
type Span struct{ Start, End int }

// At returns the span itself.
func (s Span) At() Span { return s }

// A Node is a form of FEEL, one of the types of this file.
type Node interface{ At() Span }

type (
	// Number is a numeric literal, as written.
	Number struct {
		Span
		Text string
	}
	// String is a string literal; Value is its value.
	String struct {
		Span
		Value string
	}
	// Boolean is true or false.
	Boolean struct {
		Span
		Value bool
	}
	// Null is null.
	Null struct{ Span }
	// Name is a name. Known is true if it is in scope; Name is canonical.
	Name struct {
		Span
		Name  string
		Known bool
		// Doubtful is true if its signs are spaced otherwise than where it was declared, and its first words are a name
		// too: "a - b" if there are names "a-b" and "a".
		Doubtful bool
	}
	// Input is "?", the value being tested.
	Input struct{ Span }
	// AtLiteral is a date or a duration after @.
	AtLiteral struct {
		Span
		Text string
	}
	// List is [a, b].
	List struct {
		Span
		Items []Node
	}
	// Context is {a: 1}.
	Context struct {
		Span
		Entries []Entry
	}
	// Range is [low..high]; one end may be missing.
	Range struct {
		Span
		LowOpen, HighOpen bool
		Low, High         Node
	}
	// Unary is a test with a sign: "< 5".
	Unary struct {
		Span
		Operator string
		Operand  Node
	}
	// Chain is operands separated by operators of one rank: "+" and "-", "*" and "/", "and", "or".
	Chain struct {
		Span
		Operators []string
		Operands  []Node
	}
	// Binary is a comparison or "**".
	Binary struct {
		Span
		Operator    string
		Left, Right Node
	}
	// Negation is -a.
	Negation struct {
		Span
		Operand Node
	}
	// Between is "a between low and high".
	Between struct {
		Span
		Operand, Low, High Node
	}
	// In is "a in tests".
	In struct {
		Span
		Operand Node
		Tests   []Node
	}
	// InstanceOf is "a instance of type".
	InstanceOf struct {
		Span
		Operand Node
		Type    string
	}
	// Path is a.name; Name is canonical. Respelled is true if its signs are spaced otherwise than where a member of
	// this name was declared, Quoted if it is in backticks.
	Path struct {
		Span
		Operand           Node
		Name              string
		Respelled, Quoted bool
	}
	// Filter is a[condition].
	Filter struct {
		Span
		Operand, Condition Node
	}
	// Call is an invocation.
	Call struct {
		Span
		Function  Node
		Arguments []Argument
	}
	// If is "if condition then .. else ..".
	If struct {
		Span
		Condition, Then, Else Node
	}
	// For is "for x in list return ..".
	For struct {
		Span
		Iterators []Iterator
		Result    Node
	}
	// Quantified is "some" or "every".
	Quantified struct {
		Span
		Word      string
		Iterators []Iterator
		Condition Node
	}
	// Function is a function definition.
	Function struct {
		Span
		Parameters []string
		External   bool
		Body       Node
	}
	// Anything is the test "-".
	Anything struct{ Span }
	// NotTests is not( tests ) as the whole of an input entry.
	NotTests struct {
		Span
		Tests []Node
	}
)

// An Entry is one of a context literal; Key is canonical.
type Entry struct {
	Span
	Key   string
	Value Node
}

// An Argument is one of an invocation. Name is canonical, and empty for positional arguments.
type Argument struct {
	Span
	Name  string
	Value Node
}

// An Iterator is "x in list", or "x in low..high".
type Iterator struct {
	Span
	Name      string
	List, End Node
}
