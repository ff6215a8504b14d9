package strict

import (
	"sync"

	"gateway/feel"
)

// A reader reads the tokens of one text. Each of its methods begins at the current token. The limit is how many levels the form
// may have. A form without a reading within it gives a nil node, and makes the reader unusable.
type reader struct {
	text string
	// token is the current token, previous the one before.
	token, previous Token
	// names and numbers are spare nodes: texts with many nodes usually have many of these.
	names   []feel.Name
	numbers []feel.Number
}

// mostRoom limits the nodes allocated at once.
const mostRoom = 256

// name returns a new node.
func (r *reader) name(span feel.Span, name string) feel.Node {
	if len(r.names) == cap(r.names) {
		r.names = make([]feel.Name, 0, room(cap(r.names)))
	}
	r.names = append(r.names, feel.Name{Span: span, Name: name})
	return &r.names[len(r.names)-1]
}

// number returns a new node.
func (r *reader) number(span feel.Span, text string) feel.Node {
	if len(r.numbers) == cap(r.numbers) {
		r.numbers = make([]feel.Number, 0, room(cap(r.numbers)))
	}
	r.numbers = append(r.numbers, feel.Number{Span: span, Text: text})
	return &r.numbers[len(r.numbers)-1]
}

// room returns how many nodes to allocate after last.
func room(last int) int {
	if last >= mostRoom {
		return mostRoom
	}
	return 1 + 2*last
}

// A sorts is a set of sorts.
type sorts uint32

func setOf(all ...Sort) (set sorts) {
	for _, sort := range all {
		set |= 1 << sort
	}
	return set
}

var (
	ofOr         = setOf(Or)
	ofAnd        = setOf(And)
	ofSigns      = setOf(Plus, Minus)
	ofStar       = setOf(Star)
	ofNames      = setOf(Name, Function, Modulo)
	ofConstants  = setOf(Number, Text, Constant)
	ofComparison = setOf(Equal, Order, Between)
	ofLowEnds    = setOf(OpenBracket, OpenParen, CloseBracket)
	ofHighEnds   = setOf(CloseBracket, CloseParen, OpenBracket)
)

func (s sorts) has(sort Sort) bool { return s>>sort&1 > 0 }

// ReadExpression reads an expression. It returns false if the text is not one.
func ReadExpression(text string) (feel.Node, bool) {
	if node := oneToken(text); node != nil {
		return node, true
	}
	r := newReader(text)
	defer r.end()
	node, _ := r.read(MostDepth, (*reader).whole)
	return node, node != nil && r.isAtEnd()
}

// oneToken reads a text that is only a constant or name; nil for others.
func oneToken(text string) feel.Node {
	token := tokenAfter(text, Token{Sort: end})
	switch {
	case tokenAfter(text, token).Sort != end:
		return nil
	case ofConstants.has(token.Sort):
		return constantOf(text, token)
	case ofNames.has(token.Sort):
		return &feel.Name{Span: feel.Span{Start: token.Start, End: token.End}, Name: text[token.Start:token.End]}
	}
	return nil
}

// ReadLiteral reads a literal: a constant, or a number after a minus.
func ReadLiteral(text string) (Value, bool) {
	first := tokenAfter(text, Token{Sort: end})
	if !ofConstants.has(first.Sort) && first.Sort != Minus {
		return nil, false
	}
	second := tokenAfter(text, first)
	switch {
	case first.Sort != Minus && second.Sort == end:
		return valueOf(text, first)
	case first.Sort == Minus && second.Sort == Number && tokenAfter(text, second).Sort == end:
		value, ok := valueOf(text, second)
		number, isNumber := value.(int64)
		return -number, ok && isNumber
	}
	return nil, false
}

// readers are finished readers. Their spare nodes are reused.
var readers = sync.Pool{New: func() any { return &reader{} }}

func newReader(text string) *reader {
	r := readers.Get().(*reader)
	r.text, r.previous = text, Token{Sort: end}
	r.token = tokenAfter(text, r.previous)
	return r
}

// end returns the reader to the pool.
func (r *reader) end() {
	r.text = ""
	readers.Put(r)
}

// goOn moves to the next token.
func (r *reader) goOn() { r.previous, r.token = r.token, tokenAfter(r.text, r.token) }

func (r *reader) isAtEnd() bool { return r.token.Sort == end }

// takes reads a token of this sort.
func (r *reader) takes(sort Sort) bool {
	if r.token.Sort == sort {
		r.goOn()
		return true
	}
	return false
}

// spelled returns the current token as written.
func (r *reader) spelled() string { return r.text[r.token.Start:r.token.End] }

// from returns the span of the text from a byte to what was read.
func (r *reader) from(start int) feel.Span { return feel.Span{Start: start, End: r.previous.End} }

// A form reads a form whose parts have at most inner levels, and returns its depth.
type form func(r *reader, inner int) (node feel.Node, depth int)

// read reads a form with at most limit levels.
func (r *reader) read(limit int, of form) (feel.Node, int) {
	if limit == 0 {
		return nil, 0
	}
	return of(r, limit-1)
}

// deeper returns one more than the deepest of the parts.
func deeper(one, two, three int) int {
	if two > one {
		one = two
	}
	if three > one {
		one = three
	}
	return 1 + one
}

func (r *reader) whole(inner int) (feel.Node, int) {
	start := r.token.Start
	if !r.takes(If) {
		return r.disjunction(inner)
	}
	condition, one := r.read(inner, (*reader).whole)
	if condition == nil || !r.takes(Then) {
		return nil, 0
	}
	yes, two := r.read(inner, (*reader).whole)
	if yes == nil || !r.takes(Else) {
		return nil, 0
	}
	no, three := r.read(inner, (*reader).whole)
	if no == nil {
		return nil, 0
	}
	return &feel.If{Span: r.from(start), Condition: condition, Then: yes, Else: no}, deeper(one, two, three)
}

func (r *reader) disjunction(inner int) (feel.Node, int) {
	return r.chain(inner, (*reader).conjunction, ofOr)
}

func (r *reader) conjunction(inner int) (feel.Node, int) {
	return r.chain(inner, (*reader).comparison, ofAnd)
}

func (r *reader) sum(inner int) (feel.Node, int) {
	return r.chain(inner, (*reader).product, ofSigns)
}

func (r *reader) product(inner int) (feel.Node, int) {
	return r.chain(inner, (*reader).negation, ofStar)
}

// chain reads operands with operators of these sorts between, grouped to the left: each step is one more level.
func (r *reader) chain(inner int, operand form, operators sorts) (feel.Node, int) {
	start := r.token.Start
	first, depth := operand(r, inner)
	if first == nil || !operators.has(r.token.Sort) {
		return first, depth
	}
	chain := &feel.Chain{Operators: make([]string, 0, 1), Operands: append(make([]feel.Node, 0, 2), first)}
	for operators.has(r.token.Sort) {
		if depth > inner {
			return nil, 0
		}
		chain.Operators = append(chain.Operators, r.spelled())
		r.goOn()
		next, of := r.read(inner, operand)
		if next == nil {
			return nil, 0
		}
		chain.Operands = append(chain.Operands, next)
		depth = deeper(depth, of, 0)
	}
	chain.Span = r.from(start)
	return chain, depth
}

func (r *reader) comparison(inner int) (feel.Node, int) {
	start := r.token.Start
	left, depth := r.sum(inner)
	if left == nil || !ofComparison.has(r.token.Sort) {
		return left, depth
	}
	if depth > inner {
		return nil, 0
	}
	operator := r.spelled()
	r.goOn()
	right, of := r.read(inner, (*reader).sum)
	if right == nil {
		return nil, 0
	}
	if operator != "between" {
		return &feel.Binary{Span: r.from(start), Operator: operator, Left: left, Right: right}, deeper(depth, of, 0)
	}
	if !r.takes(And) {
		return nil, 0
	}
	high, third := r.read(inner, (*reader).sum)
	if high == nil {
		return nil, 0
	}
	return &feel.Between{Span: r.from(start), Operand: left, Low: right, High: high}, deeper(depth, of, third)
}

func (r *reader) negation(inner int) (feel.Node, int) {
	start := r.token.Start
	if !r.takes(Minus) {
		return r.path(inner)
	}
	operand, depth := r.read(inner, (*reader).negation)
	if operand == nil {
		return nil, 0
	}
	return &feel.Negation{Span: r.from(start), Operand: operand}, deeper(depth, 0, 0)
}

func (r *reader) path(inner int) (feel.Node, int) {
	start := r.token.Start
	node, depth := r.primary(inner)
	for node != nil && r.takes(Dot) {
		if depth > inner || !ofNames.has(r.token.Sort) {
			return nil, 0
		}
		name := r.spelled()
		r.goOn()
		node, depth = &feel.Path{Span: r.from(start), Operand: node, Name: name}, depth+1
	}
	return node, depth
}

func (r *reader) primary(inner int) (feel.Node, int) {
	start := r.token.Start
	switch r.token.Sort {
	case Number:
		spelled := r.spelled()
		r.goOn()
		return r.number(r.from(start), spelled), 1
	case Text, Constant:
		constant := constantOf(r.text, r.token)
		r.goOn()
		return constant, 1
	case Name, Function, Modulo:
		return r.named(inner)
	case Not:
		r.goOn()
		return r.call(start, inner, "not", 1)
	case OpenParen:
		r.goOn()
		inside, depth := r.read(inner, (*reader).whole)
		if inside == nil || !r.takes(CloseParen) {
			return nil, 0
		}
		return &Group{r.from(start), inside}, deeper(depth, 0, 0)
	case OpenBracket:
		return r.list(inner)
	}
	return nil, 0
}

// constantOf returns the node of a constant token.
func constantOf(text string, token Token) feel.Node {
	span, spelled := feel.Span{Start: token.Start, End: token.End}, text[token.Start:token.End]
	switch {
	case token.Sort == Number:
		return &feel.Number{Span: span, Text: spelled}
	case token.Sort == Text:
		return &feel.String{Span: span, Value: unquoted(spelled)}
	case spelled == "null":
		return &feel.Null{Span: span}
	}
	return &feel.Boolean{Span: span, Value: spelled == "true"}
}

// named reads a name, or a function call if a parenthesis follows.
func (r *reader) named(inner int) (feel.Node, int) {
	start, name, sort := r.token.Start, r.spelled(), r.token.Sort
	r.goOn()
	if r.token.Sort != OpenParen {
		return r.name(r.from(start), name), 1
	}
	switch sort {
	case Function:
		return r.call(start, inner, name, 1)
	case Modulo:
		return r.call(start, inner, name, 2)
	}
	return nil, 0
}

// call reads a function's arguments in parentheses.
func (r *reader) call(start, inner int, name string, arguments int) (feel.Node, int) {
	call := &feel.Call{Function: &feel.Name{Name: name}}
	if !r.takes(OpenParen) {
		return nil, 0
	}
	deepest := 0
	for len(call.Arguments) < arguments {
		if len(call.Arguments) > 0 && !r.takes(Comma) {
			return nil, 0
		}
		argument, depth := r.read(inner, (*reader).whole)
		if argument == nil {
			return nil, 0
		}
		call.Arguments = append(call.Arguments, feel.Argument{Value: argument})
		if depth > deepest {
			deepest = depth
		}
	}
	if !r.takes(CloseParen) {
		return nil, 0
	}
	call.Span = r.from(start)
	return call, deeper(deepest, 0, 0)
}

func (r *reader) list(inner int) (feel.Node, int) {
	start, deepest := r.token.Start, 0
	r.goOn()
	list := &feel.List{}
	for !r.takes(CloseBracket) {
		if len(list.Items) > 0 && !r.takes(Comma) {
			return nil, 0
		}
		item, depth := r.read(inner, (*reader).whole)
		if item == nil {
			return nil, 0
		}
		list.Items = appended(list.Items, item)
		if depth > deepest {
			deepest = depth
		}
	}
	list.Span = r.from(start)
	return list, deeper(deepest, 0, 0)
}

// appended appends a node, and doubles the capacity if it is used up.
func appended(nodes []feel.Node, node feel.Node) []feel.Node {
	if len(nodes) == cap(nodes) {
		nodes = append(make([]feel.Node, 0, 1+2*len(nodes)), nodes...)
	}
	return append(nodes, node)
}
