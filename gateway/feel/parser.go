package feel

import (
	"fmt"
	"strings"
)

// MostDepth is how deeply the forms of a text may nest.
const MostDepth = 500

// parser reads the tokens of one text. Each method that reads a form begins at the current token, and ends after the
// form's last. At a fault it panics with a *Fault, which the readers of this package recover.
type parser struct {
	reading
	at    int
	depth int
	scope *Scope
	// members are the names that may follow a point: those of the components of types and of the entries of contexts.
	members *Scope
	// ranges are the tokens that open a range.
	ranges map[int32]bool
	// inEnd is true while the end of a range is read, which "[" may close.
	inEnd bool
	// found is the longest name at the place asked last.
	found foundName
}

// A foundName is the longest name at a token, in a scope with count names: its length in tokens, and its declared
// spelling.
type foundName struct {
	scope     *Scope
	count, at int
	taken     int
	declared  string
}

// longest finds the longest name in scope at the current token. The same place is asked several times.
func (p *parser) longest() (int, string) {
	if p.scope == nil {
		return 0, ""
	}
	if f := &p.found; f.scope != p.scope || f.at != p.at || f.count != p.scope.count {
		taken, declared := p.scope.longest(&p.reading, p.at, len(p.all))
		p.found = foundName{p.scope, p.scope.count, p.at, taken, declared}
	}
	return p.found.taken, p.found.declared
}

// Expression reads a text as an expression over the names in scope.
func Expression(source string, scope, members *Scope) (node Node, fault *Fault) {
	defer caught(&fault)
	p := newParser(source, scope, members)
	node = p.expression()
	p.finish()
	return node, nil
}

// Tests reads a text as an input entry: *Anything or *NotTests alone, or tests, one of which has to hold.
func Tests(source string, scope, members *Scope) (tests []Node, fault *Fault) {
	defer caught(&fault)
	p := newParser(source, scope, members)
	if p.peekIs(0, "-") && p.all[1].kind == endOfText {
		return []Node{&Anything{p.spanOf(0)}}, nil
	}
	if inside := p.notAsAWhole(); inside != nil {
		return []Node{&NotTests{Span{0, len(source)}, inside}}, nil
	}
	tests = p.tests()
	p.finish()
	return tests, nil
}

// Values reads a text as a list of values or ranges, without names.
func Values(source string) ([]Node, *Fault) { return Tests(source, nil, nil) }

func newParser(source string, scope, members *Scope) *parser {
	all, fault := tokens(source)
	if fault != nil {
		panic(fault)
	}
	p := &parser{reading: reading{source: source, all: all}, scope: scope, members: members}
	p.ranges = p.rangesOf()
	return p
}

// caught recovers the fault that a reader stopped with.
func caught(fault **Fault) {
	switch stopped := recover().(type) {
	case nil:
	case *Fault:
		*fault = stopped
	default:
		panic(stopped)
	}
}

// notAsAWhole reads the tests of a text that is not( tests ) as a whole. It is nil for any other text, which is then
// read from its start: parentheses can't decide, as those of ranges may be unpaired.
func (p *parser) notAsAWhole() (inside []Node) {
	last := len(p.all) - 2
	if !p.peekIs(0, "not") || !p.peekIs(1, "(") || p.spell(p.all[last]) != ")" {
		return nil
	}
	if taken, _ := p.scope.longest(&p.reading, 0, len(p.all)); taken > 0 {
		return nil
	}
	var fault *Fault
	defer func() {
		if fault != nil {
			inside = nil
			p.at, p.depth, p.inEnd = 0, 0, false
		}
	}()
	defer caught(&fault)
	scope := p.scope
	defer func() { p.scope = scope }()
	p.at = 2
	inside = p.tests()
	p.expect(")")
	p.finish()
	return inside
}

func (p *parser) current() token { return p.all[p.at] }

// peek returns the token some places ahead, or the end of the text.
func (p *parser) peek(ahead int) token {
	if p.at+ahead < len(p.all) {
		return p.all[p.at+ahead]
	}
	return p.all[len(p.all)-1]
}

func (p *parser) peekIs(ahead int, spelled string) bool {
	t := p.peek(ahead)
	return (t.kind == sign || t.kind == word) && p.source[t.start] == spelled[0] && p.spell(t) == spelled
}

func (p *parser) is(spelled string) bool { return p.peekIs(0, spelled) }

// accept skips a token of this spelling.
func (p *parser) accept(spelled string) bool {
	if p.is(spelled) {
		p.at++
		return true
	}
	return false
}

func (p *parser) expect(spelled string) {
	if !p.accept(spelled) {
		p.stop(fmt.Sprintf("%q is due", spelled))
	}
}

// stop ends the reading at the current token.
func (p *parser) stop(due string) {
	t := p.current()
	if t.kind == endOfText {
		p.fail(fmt.Sprintf("the text ends where %s", due), "")
	}
	if inside := juel(p.source[t.start:]); inside != "" {
		p.fail("this is JUEL, the expression language of Camunda 7, and no FEEL", inside)
	}
	p.fail(fmt.Sprintf("it stops at %q, where %s", p.spell(t), due), "")
}

// juel returns the content of ${..} at the start of a text; empty if it doesn't begin so.
func juel(text string) string {
	end := strings.IndexByte(text, '}')
	if !strings.HasPrefix(text, "${") || end < 0 {
		return ""
	}
	return strings.TrimSpace(text[len("${"):end])
}

func (p *parser) fail(why, instead string) {
	panic(&Fault{Offset: int(p.current().start), Why: why, Instead: instead})
}

func (p *parser) finish() {
	if p.current().kind != endOfText {
		p.stop("an operator or the end is due")
	}
}

// deeper counts one level of nesting. The function that it returns takes it back.
func (p *parser) deeper() func() {
	p.depth++
	if p.depth > MostDepth {
		p.fail(fmt.Sprintf("forms stand in each other over %d deep", MostDepth), "")
	}
	return func() { p.depth-- }
}

// from returns the span from a token's start to the end of what was read.
func (p *parser) from(start int) Span {
	return Span{int(p.all[start].start), int(p.all[p.at-1].end)}
}

func (p *parser) spanOf(i int) Span { return Span{int(p.all[i].start), int(p.all[i].end)} }
