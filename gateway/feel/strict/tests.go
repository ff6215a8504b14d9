package strict

import "gateway/feel"

// ReadTests reads an input entry. A text that as a whole reads as not( tests ) is read only so.
func ReadTests(text string) (Tests, bool) {
	if node := oneToken(text); node != nil {
		return Tests{List: []feel.Node{node}}, true
	}
	r := newReader(text)
	defer r.end()
	begin := *r
	switch {
	case r.takes(Minus) && r.isAtEnd():
		return Tests{Any: true}, true
	case begin.token.Sort == Not:
		r.goOn()
		if !r.takes(OpenParen) {
			break
		}
		if list := r.tests(); list != nil && r.takes(CloseParen) && r.isAtEnd() {
			return Tests{Negated: true, List: list}, true
		}
	}
	*r = begin
	list := r.tests()
	return Tests{List: list}, list != nil && r.isAtEnd()
}

// tests reads tests with commas between; nil if one has no reading.
func (r *reader) tests() []feel.Node {
	var list []feel.Node
	for {
		test := r.test()
		if test == nil {
			return nil
		}
		list = appended(list, test)
		if !r.takes(Comma) {
			return list
		}
	}
}

func (r *reader) test() feel.Node {
	begin := *r
	if r.token.Sort == Order {
		sign := r.spelled()
		r.goOn()
		operand, _ := r.read(MostDepth, (*reader).sum)
		if operand == nil {
			return nil
		}
		return &feel.Unary{Span: r.from(begin.token.Start), Operator: sign, Operand: operand}
	}
	if node, _ := r.read(MostDepth, (*reader).whole); node != nil {
		return node
	}
	*r = begin
	return r.interval()
}

// interval reads an interval from its first sign.
func (r *reader) interval() feel.Node {
	start := r.token.Start
	if !ofLowEnds.has(r.token.Sort) {
		return nil
	}
	interval := &feel.Range{LowOpen: r.token.Sort != OpenBracket}
	r.goOn()
	interval.Low, _ = r.read(MostDepth, (*reader).sum)
	if interval.Low == nil || !r.takes(DotDot) {
		return nil
	}
	interval.High, _ = r.read(MostDepth, (*reader).sum)
	if interval.High == nil || !ofHighEnds.has(r.token.Sort) {
		return nil
	}
	interval.HighOpen = r.token.Sort != CloseBracket
	r.goOn()
	interval.Span = r.from(start)
	return interval
}
