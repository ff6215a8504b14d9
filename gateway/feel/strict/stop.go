package strict

// A Stop is where the reading of a text stops that has no reading of its kind.
type Stop struct {
	// At is the byte at which it stops: the text before could be continued in another way. It is 0 if the text is too deep.
	At int
	// Due is what could be there.
	Due []Due
}

// IsTooDeep reports whether the text is too deep as a whole.
func (s Stop) IsTooDeep() bool { return len(s.Due) > 0 && s.Due[0] == DueShallow }

// DueText words what could be there.
func (s Stop) DueText() string { return listed(s.Due) }

// Character returns the number of the character at which reading stops, from 1.
func (s Stop) Character(text string) int {
	count := 1
	for at := 0; at < s.At && at < len(text); at++ {
		if !isInner(text[at]) {
			count++
		}
	}
	return count
}

// Found returns what is there: a word or a character, or "" at the end.
func (s Stop) Found(text string) string {
	rest := text[s.At:]
	if length := runLength(rest, IsWordByte); length > 0 || rest == "" {
		return rest[:length]
	}
	return rest[:1+runLength(rest[1:], isInner)]
}

// A halt is where the tokens of a text stop being a form.
type halt struct {
	// taken is how many tokens were read.
	taken int
	// isWhole means that the form may end there, wantsValue and wantsName say what may follow.
	isWhole, wantsValue, wantsName bool
	due                            []Due
}

func haltBefore(taken int, due ...Due) *halt {
	return &halt{taken: taken, wantsValue: has(due, DueValue), due: due}
}

func (h halt) after(more int) halt {
	h.taken += more
	return h
}

// or returns the same halt with more that is due.
func (h halt) or(due ...Due) halt {
	all := append([]Due(nil), h.due...)
	for _, one := range due {
		if !has(all, one) {
			all = append(all, one)
		}
	}
	h.due = all
	return h
}

// farther returns the later of two halts, and what is due at both if they are at one place.
func (h halt) farther(other halt) halt {
	switch {
	case h.taken > other.taken:
		return h
	case h.taken < other.taken:
		return other
	}
	return h.or(other.due...)
}

// haltOf returns where the longest form at the start ends that can be within of.
func haltOf(of around, tokens []Token) halt {
	m, taken := newMachine(of), 0
	for taken < len(tokens) && m.takes(tokens[taken].Sort) {
		taken++
	}
	return halt{taken, m.isWhole(), m.wantsValue(), m.next == awaitsName, m.due()}
}

// SumEnd returns how many tokens at the start are a sum, as after a comparison sign, and whether they are a whole one.
func SumEnd(tokens []Token) (taken int, isWhole bool) {
	h := haltOf(aroundBound, tokens)
	return h.taken, h.isWhole
}

// StopOf returns where the reading of a text stops that has no reading of its kind.
func StopOf(kind Kind, text string) Stop {
	tokens := Tokens(text)
	var h *halt
	switch kind {
	case Expression:
		h = expressionHalt(tokens)
	case UnaryTests:
		h = testsHalt(tokens)
	case Literal:
		h = literalHalt(tokens)
	}
	switch {
	case h == nil:
		return Stop{Due: []Due{DueShallow}}
	case h.taken >= len(tokens):
		return Stop{len(text), h.due}
	}
	return h.within(tokens[h.taken])
}

// within returns the place of a halt in the token after it.
func (h halt) within(token Token) Stop {
	switch {
	case token.Sort == OpenText && h.wantsValue:
		return Stop{token.End, []Due{DueQuote}}
	case token.Sort == WrongEscape && h.wantsValue:
		return Stop{token.End, []Due{DueEscape}}
	case token.Sort == LargeNumber && h.wantsValue:
		return Stop{token.Start, []Due{DueSmallNumber}}
	case token.Sort == LongName && (h.wantsValue || h.wantsName):
		return Stop{token.Start, []Due{DueShortName}}
	}
	return Stop{token.Start, h.due}
}

// The halts below are nil if no token stops the reading: the text is too deep then.

func expressionHalt(tokens []Token) *halt {
	h := haltOf(aroundWhole, tokens)
	switch {
	case !h.isWhole:
		return &h
	case h.taken >= len(tokens):
		return nil
	}
	h = h.or(DueEnd)
	return &h
}

func literalHalt(tokens []Token) *halt {
	is := func(at int, of sorts) bool { return at < len(tokens) && of.has(tokens[at].Sort) }
	minus, number := setOf(Minus), setOf(Number)
	switch {
	case is(0, minus) && is(1, number) && len(tokens) == 2, is(0, ofConstants) && len(tokens) == 1:
		return nil
	case is(0, minus) && is(1, number):
		return haltBefore(2, DueEnd)
	case is(0, minus):
		return haltBefore(1, DueNumber)
	case is(0, ofConstants):
		return haltBefore(1, DueEnd)
	}
	return haltBefore(0, DueLiteral)
}

func testsHalt(tokens []Token) *halt {
	if len(tokens) == 0 {
		return haltBefore(0, DueTest)
	}
	plain := listHalt(tokens, 0, false)
	if plain == nil || len(tokens) < 2 || tokens[0].Sort != Not || tokens[1].Sort != OpenParen {
		return plain
	}
	negated := listHalt(tokens, 2, true)
	if negated == nil {
		return nil
	}
	h := plain.farther(*negated)
	return &h
}

// listHalt returns where a list of tests stops that begins at this token. It ends with the text, or with a parenthesis if it
// closes.
func listHalt(tokens []Token, begin int, closes bool) *halt {
	for {
		h := testHalt(tokens[begin:]).after(begin)
		if !h.isWhole || h.taken >= len(tokens) || tokens[h.taken].Sort != Comma {
			return endHalt(tokens, h, closes)
		}
		begin = h.taken + 1
	}
}

// endHalt returns where a list stops after its last test.
func endHalt(tokens []Token, last halt, closes bool) *halt {
	end := DueEnd
	if closes {
		end = DueCloseParen
	}
	isAtEnd := last.taken >= len(tokens)
	switch {
	case !last.isWhole:
		return &last
	case isAtEnd && !closes:
		return nil
	case isAtEnd, !closes, tokens[last.taken].Sort != CloseParen:
		h := last.or(DueComma, end)
		return &h
	case last.taken+1 >= len(tokens):
		return nil
	}
	return haltBefore(last.taken+1, DueEnd)
}

func testHalt(tokens []Token) halt {
	if len(tokens) == 0 {
		return *haltBefore(0, DueTest)
	}
	if tokens[0].Sort == Order {
		return haltOf(aroundBound, tokens[1:]).after(1)
	}
	h := plainHalt(tokens)
	if h.taken == 0 {
		h.due = []Due{DueTest}
	}
	return h
}

// plainHalt returns where a test without a comparison sign stops: an expression or an interval.
func plainHalt(tokens []Token) halt {
	h := haltOf(aroundWhole, tokens)
	if first := tokens[0].Sort; h.isWhole || first != OpenParen && first != OpenBracket && first != CloseBracket {
		return h
	}
	other := haltOf(aroundLow, tokens[1:]).after(1)
	if other.isWhole {
		return other
	}
	return h.farther(other)
}
