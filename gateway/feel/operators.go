package feel

// expression reads any expression; the loosest forms begin with a word.
func (p *parser) expression() Node {
	defer p.deeper()()
	defer func(before bool) { p.inEnd = before }(p.inEnd)
	p.inEnd = false
	return p.loose()
}

func (p *parser) loose() Node {
	if p.startsName() {
		return p.or()
	}
	switch {
	case p.is("if"):
		return p.conditional()
	case p.is("for"):
		return p.iteration()
	case p.is("some") || p.is("every"):
		return p.quantified()
	case p.is("function") && p.peekIs(1, "("):
		return p.function()
	}
	return p.or()
}

// startsName reports whether a name in scope of more than one word begins here, which takes precedence over a keyword.
func (p *parser) startsName() bool {
	taken, _ := p.longest()
	return taken > 1
}

func (p *parser) or() Node  { return p.chain(p.and, "or") }
func (p *parser) and() Node { return p.chain(p.comparison, "and") }
func (p *parser) sum() Node { return p.chain(p.product, "+", "-") }

func (p *parser) product() Node { return p.chain(p.power, "*", "/") }

// chain reads operands separated by any of some operators.
func (p *parser) chain(operand func() Node, operators ...string) Node {
	start := p.at
	first := operand()
	operator := p.acceptOne(operators)
	if operator == "" {
		return first
	}
	c := &Chain{Operands: []Node{first}}
	for ; operator != ""; operator = p.acceptOne(operators) {
		c.Operators = append(c.Operators, operator)
		c.Operands = append(c.Operands, operand())
	}
	c.Span = p.from(start)
	return c
}

// acceptOne skips and returns one of some spellings; empty if none comes next.
func (p *parser) acceptOne(spellings []string) string {
	for _, spelled := range spellings {
		if p.accept(spelled) {
			return spelled
		}
	}
	return ""
}

var comparisons = []string{"=", "!=", "<", "<=", ">", ">="}

func (p *parser) comparison() Node {
	start := p.at
	left := p.sum()
	for steps := 0; ; steps++ {
		if steps > MostDepth {
			p.fail("a comparison of comparisons is too long", "")
		}
		operator := p.acceptOne(comparisons)
		switch {
		case operator != "":
			right := p.sum()
			left = &Binary{p.from(start), operator, left, right}
		case p.accept("between"):
			low := p.sum()
			p.expect("and")
			high := p.sum()
			left = &Between{p.from(start), left, low, high}
		case p.accept("in"):
			tests := p.inTests()
			left = &In{p.from(start), left, tests}
		default:
			return left
		}
	}
}

// inTests reads what follows "in": one test, or tests in parentheses.
func (p *parser) inTests() []Node {
	if !p.is("(") || p.isRange() {
		return []Node{p.singleTest()}
	}
	p.at++
	tests := p.tests()
	p.expect(")")
	return tests
}

// isRange reports whether the current bracket opens a range: it contains ".." at its own depth, and no comma before
// that.
func (p *parser) isRange() bool { return p.ranges[int32(p.at)] }

// rangesOf finds the brackets that open a range, in one walk over the tokens.
func (p *parser) rangesOf() map[int32]bool {
	found := map[int32]bool{}
	var open []int32
	for i, t := range p.all {
		if t.kind != sign {
			continue
		}
		last := len(open) - 1
		switch p.spell(t) {
		case "(", "[", "{":
			open = append(open, int32(i))
		case ")", "]", "}":
			if last >= 0 {
				open = open[:last]
			}
		case "..":
			if last >= 0 && open[last] >= 0 {
				found[open[last]] = true
			}
		case ",":
			if last >= 0 && !found[open[last]] {
				// If a comma comes first it is a list.
				open[last] = -1
			}
		}
	}
	return found
}

// tests reads tests separated by commas.
func (p *parser) tests() []Node {
	tests := []Node{p.test()}
	for p.accept(",") {
		tests = append(tests, p.test())
	}
	return tests
}

// singleTest reads a test that ends before "and" and "or".
func (p *parser) singleTest() Node {
	start := p.at
	operator := p.acceptOne(comparisons)
	operand := p.sum()
	if operator == "" {
		return operand
	}
	return &Unary{p.from(start), operator, operand}
}

func (p *parser) test() Node {
	defer p.deeper()()
	start := p.at
	if operator := p.acceptOne(comparisons); operator != "" {
		operand := p.sum()
		return &Unary{p.from(start), operator, operand}
	}
	return p.expression()
}

func (p *parser) power() Node {
	start := p.at
	left := p.negation()
	for steps := 0; p.accept("**"); steps++ {
		if steps > MostDepth {
			p.fail("too many powers", "")
		}
		right := p.negation()
		left = &Binary{p.from(start), "**", left, right}
	}
	return left
}

func (p *parser) negation() Node {
	if !p.is("-") {
		return p.instance()
	}
	defer p.deeper()()
	start := p.at
	p.at++
	operand := p.negation()
	return &Negation{p.from(start), operand}
}

func (p *parser) instance() Node {
	start := p.at
	operand := p.postfix()
	for p.is("instance") && p.peekIs(1, "of") {
		defer p.deeper()()
		p.at += 2
		of := p.typeName()
		operand = &InstanceOf{p.from(start), operand, of}
	}
	return operand
}

// longTypes are FEEL's own types with a keyword in their names.
var longTypes = NewScope(nil, "date and time", "days and time duration", "years and months duration")

// typeName reads the name of a type, with angle brackets after it.
func (p *parser) typeName() string {
	start := p.at
	if p.current().kind != word {
		p.stop("a type is due")
	}
	if taken, _ := longTypes.longest(&p.reading, p.at, len(p.all)); taken > 0 {
		p.at += taken
		span := p.from(start)
		return Canonical(p.source[span.Start:span.End])
	}
	for p.current().kind == word && !keywords[p.spell(p.current())] || p.is(".") {
		p.at++
	}
	if p.at == start {
		p.at++
	}
	if p.is("<") {
		p.angles()
	}
	span := p.from(start)
	return p.source[span.Start:span.End]
}

// angles skips what is between < and >, nested ones included.
func (p *parser) angles() {
	for depth := 0; ; p.at++ {
		switch {
		case p.current().kind == endOfText:
			p.stop("> is due")
		case p.is("<"):
			depth++
		case p.is(">"):
			depth--
		}
		if depth == 0 {
			p.at++
			return
		}
	}
}

// postfix reads a form followed by paths, filters and arguments.
func (p *parser) postfix() Node {
	start := p.at
	node := p.primary()
	for {
		switch {
		case p.is(".") && p.peek(1).kind == word || p.is(".") && p.peek(1).kind == quoted:
			defer p.deeper()()
			node = p.path(start, node)
		case p.is("[") && !p.closesRange():
			defer p.deeper()()
			p.at++
			condition := p.condition()
			p.expect("]")
			node = &Filter{p.from(start), node, condition}
		case p.is("("):
			defer p.deeper()()
			arguments := p.arguments()
			node = &Call{p.from(start), node, arguments}
		default:
			return node
		}
	}
}

// condition reads the content of a filter, which may use "item" and the entries of the members.
func (p *parser) condition() Node {
	defer func(before *Scope) { p.scope = before }(p.scope)
	p.scope = NewScope(p.scope, "item")
	return p.expression()
}

// closesRange reports whether the current bracket closes a range: no expression begins after it.
func (p *parser) closesRange() bool {
	if !p.inEnd {
		return false
	}
	after := p.peek(1)
	if after.kind == word {
		switch p.spell(after) {
		case "and", "or", "then", "else", "return", "satisfies", "in", "between":
			return true
		}
		return false
	}
	return after.kind == endOfText || p.peekIs(1, ",") || p.peekIs(1, ")") || p.peekIs(1, "]") || p.peekIs(1, "=")
}
