package feel

import (
	"strings"
)

// primary reads a literal, a name, or a form in brackets.
func (p *parser) primary() Node {
	start := p.at
	t := p.current()
	switch t.kind {
	case number:
		p.at++
		return &Number{p.from(start), p.spell(t)}
	case text:
		p.at++
		return &String{p.from(start), p.stringValue(t)}
	case quoted:
		return p.quotedName()
	case word:
		return p.worded()
	case endOfText:
		p.stop("an expression is due")
	}
	switch p.spell(t) {
	case "(":
		return p.parenthesis()
	case "[":
		return p.bracket()
	case "]":
		return p.rangeFrom(start, true)
	case "{":
		return p.context()
	case "@":
		return p.atLiteral()
	}
	p.stop("an expression is due")
	return nil
}

// atLiteral reads a date or a duration: @ and a string.
func (p *parser) atLiteral() Node {
	start := p.at
	p.at++
	t := p.current()
	if t.kind != text {
		p.stop("a text is due")
	}
	p.at++
	return &AtLiteral{p.from(start), p.stringValue(t)}
}

// parenthesis reads an expression in parentheses, or a range with an open low end.
func (p *parser) parenthesis() Node {
	start := p.at
	if p.isRange() {
		return p.rangeFrom(start, true)
	}
	p.at++
	if operator := p.acceptOne(comparisons); operator != "" {
		operand := p.sum()
		p.expect(")")
		return &Unary{p.from(start), operator, operand}
	}
	inside := p.expression()
	p.expect(")")
	return inside
}

// bracket reads a list, or a range with a closed low end.
func (p *parser) bracket() Node {
	start := p.at
	if p.isRange() {
		return p.rangeFrom(start, false)
	}
	p.at++
	list := &List{}
	for !p.is("]") {
		if len(list.Items) > 0 {
			p.expect(",")
		}
		list.Items = append(list.Items, p.test())
	}
	p.at++
	list.Span = p.from(start)
	return list
}

// rangeFrom reads a range from its first sign on.
func (p *parser) rangeFrom(start int, open bool) Node {
	defer p.deeper()()
	defer func(before bool) { p.inEnd = before }(p.inEnd)
	p.at++
	r := &Range{LowOpen: open}
	p.inEnd = false
	r.Low = p.sum()
	p.expect("..")
	p.inEnd = true
	r.High = p.sum()
	switch {
	case p.accept("]"):
	case p.accept(")"), p.accept("["):
		r.HighOpen = true
	default:
		p.stop("the end of the range is due")
	}
	r.Span = p.from(start)
	return r
}

// context reads {a: 1, "b": 2}. Each value sees the entries before it.
func (p *parser) context() Node {
	outer := p.scope
	defer func() { p.scope = outer }()
	start := p.at
	p.at++
	c := &Context{}
	for !p.is("}") {
		if len(c.Entries) > 0 {
			p.expect(",")
		}
		entry := p.at
		key := p.key()
		p.expect(":")
		value := p.expression()
		c.Entries = append(c.Entries, Entry{p.from(entry), key, value})
		if p.is("}") {
			break // no other entry sees this one
		}
		if p.scope == outer {
			p.scope = NewScope(outer)
		}
		p.scope.Add(key)
	}
	p.at++
	c.Span = p.from(start)
	return c
}

// key reads the key of a context: a string, or a name up to the colon.
func (p *parser) key() string {
	if t := p.current(); t.kind == text {
		p.at++
		return Canonical(p.stringValue(t))
	}
	return p.nameUpTo(":")
}

// nameUpTo reads a new name, which ends before one of the given signs.
func (p *parser) nameUpTo(ends ...string) string {
	start := p.at
	if k := p.current().kind; k != word && k != quoted {
		p.stop("a name is due")
	}
	for p.current().kind != endOfText && !p.isOne(ends) {
		p.at++
	}
	if p.at == start {
		p.stop("a name is due")
	}
	span := p.from(start)
	return Canonical(strings.Trim(p.source[span.Start:span.End], "`"))
}

func (p *parser) isOne(spellings []string) bool {
	for _, spelled := range spellings {
		if p.is(spelled) {
			return true
		}
	}
	return false
}

// worded reads a constant, a name, or a form that begins with a word.
func (p *parser) worded() Node {
	start := p.at
	spelled := p.spell(p.current())
	taken, _ := p.longest()
	if taken <= 1 {
		switch spelled {
		case "true", "false":
			p.at++
			return &Boolean{p.from(start), spelled == "true"}
		case "null":
			p.at++
			return &Null{p.from(start)}
		case "?":
			p.at++
			return &Input{p.from(start)}
		case "if", "for", "some", "every", "function":
			if spelled != "function" || p.peekIs(1, "(") {
				return p.expression()
			}
		}
	}
	return p.name()
}

// name reads the longest name in scope, else the name of a function, else words that aren't a name in scope.
func (p *parser) name() Node {
	start := p.at
	taken, declared := p.longest()
	function, _ := builtins.longest(&p.reading, p.at, len(p.all))
	if function > taken && p.peekIs(function, "(") {
		p.at += function
		span := p.from(start)
		return &Name{Span: span, Name: Canonical(p.source[span.Start:span.End])}
	}
	if taken == 0 {
		return p.unknownName()
	}
	p.at += taken
	span := p.from(start)
	n := &Name{Span: span, Name: Canonical(p.source[span.Start:span.End]), Known: true}
	spelled := p.source[span.Start:span.End]
	if taken > 1 {
		spelled = strings.Join(strings.Fields(spelled), " ")
	}
	n.Doubtful = spelled != declared && p.scope.hasShorter(&p.reading, start, p.at)
	return n
}

// unknownName reads a word that begins no name in scope, and the words and numbers after it.
func (p *parser) unknownName() Node {
	start := p.at
	if keywords[p.spell(p.current())] && !(p.is("not") && p.peekIs(1, "(")) {
		p.stop("an expression is due")
	}
	p.at++
	for p.current().kind == word && !keywords[p.spell(p.current())] && !p.startsKnown() {
		p.at++
	}
	span := p.from(start)
	return &Name{Span: span, Name: Canonical(p.source[span.Start:span.End])}
}

// startsKnown reports whether a name in scope begins here.
func (p *parser) startsKnown() bool {
	taken, _ := p.longest()
	return taken > 0
}

// quotedName reads a name between backticks.
func (p *parser) quotedName() Node {
	start := p.at
	t := p.current()
	p.at++
	inside := p.source[t.start+1 : t.end-1]
	name := &reading{source: inside, all: nameTokens(inside)}
	taken, _ := p.scope.longest(name, 0, len(name.all))
	known := taken > 0 && taken == len(name.all)
	return &Name{Span: p.from(start), Name: Canonical(inside), Known: known}
}

// path reads a point and the name after it: the longest known member, else words.
func (p *parser) path(start int, operand Node) Node {
	p.at++
	if t := p.current(); t.kind == quoted {
		p.at++
		return &Path{Span: p.from(start), Operand: operand, Name: Canonical(p.source[t.start+1 : t.end-1]), Quoted: true}
	}
	first := p.at
	taken, declared := p.members.longest(&p.reading, p.at, len(p.all))
	if taken > 0 {
		p.at += taken
	} else {
		p.at++
		for p.current().kind == word && !keywords[p.spell(p.current())] {
			p.at++
		}
	}
	span := p.from(first)
	spelled := p.source[span.Start:span.End]
	return &Path{Span: p.from(start), Operand: operand, Name: Canonical(spelled),
		Respelled: taken > 0 && strings.Join(strings.Fields(spelled), " ") != declared}
}
