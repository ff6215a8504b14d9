package tell

import (
	"strings"

	"gateway/feel/strict"
)

// reads reports whether a text has a reading of a kind.
func reads(kind strict.Kind, text string) bool {
	ok := false
	switch kind {
	case strict.Expression:
		_, ok = strict.ReadExpression(text)
	case strict.UnaryTests:
		_, ok = strict.ReadTests(text)
	case strict.Literal:
		_, ok = strict.ReadLiteral(text)
	}
	return ok
}

// mend returns the text that is probably meant by one without a reading, or "". It always has a reading.
func mend(kind strict.Kind, text string, stop strict.Stop) string {
	var candidates []string
	c := cutAt(text, stop.At)
	switch kind {
	case strict.UnaryTests:
		candidates = append(cellMends(strings.TrimSpace(text)), c.toInterval(), c.negated(len(c.rest)), c.joinedSign())
	case strict.Expression:
		candidates = []string{c.negated(conditionEnd(c.rest)), c.modulo(), c.compared(), c.withSubject(), c.joinedSign()}
	}
	for _, candidate := range candidates {
		if candidate != "" && reads(kind, candidate) {
			return candidate
		}
	}
	return ""
}

// cellMends returns what an input entry written as in another language may mean.
func cellMends(text string) []string {
	var mends []string
	if rest := strings.TrimPrefix(text, "<>"); rest != text {
		mends = append(mends, "not("+strings.TrimSpace(rest)+")")
	}
	if strings.Contains(text, "|") {
		var tests []string
		for _, test := range strings.Split(strings.ReplaceAll(text, "||", "|"), "|") {
			tests = append(tests, strings.TrimSpace(test))
		}
		mends = append(mends, strings.Join(tests, ", "))
	}
	if word(text) == "in" {
		rest := strings.TrimSpace(text[2:])
		mends = append(mends, rest)
		if strings.HasPrefix(rest, "(") && strings.HasSuffix(rest, ")") {
			mends = append(mends, rest[1:len(rest)-1])
		}
	}
	if low, high, ok := strings.Cut(text, ","); ok && strings.ContainsAny(text[:1], "([]") && !strings.Contains(high, ",") {
		mends = append(mends, strings.TrimSpace(low)+".."+strings.TrimSpace(high))
	}
	if rest := strings.TrimPrefix(text, "between"); rest != text {
		if low, high, ok := strings.Cut(rest, " and "); ok {
			mends = append(mends, "["+strings.TrimSpace(low)+".."+strings.TrimSpace(high)+"]")
		}
	}
	if strings.Contains(text, "..") {
		mends = append(mends, "["+text+"]")
	}
	return mends
}

// toInterval turns "5 to 7" into an interval.
func (c cut) toInterval() string {
	if word(c.rest) != "to" {
		return ""
	}
	return "[" + strings.TrimSpace(c.before) + ".." + strings.TrimSpace(c.rest[2:]) + "]"
}

// negated puts parentheses after a "not", around the rest up to this byte.
func (c cut) negated(end int) string {
	if c.lastWord() != "not" || strings.TrimSpace(c.rest[:end]) == "" {
		return ""
	}
	inside := strings.TrimRight(c.rest[:end], " ")
	return c.before + "(" + inside + ")" + c.rest[len(inside):]
}

// conditionEnd returns where the condition at the start of a text ends: at an "and" or "or", or where the form around it
// closes.
func conditionEnd(text string) int {
	depth, isBetween := 0, false
	for _, token := range strict.Tokens(text) {
		switch token.Sort {
		case strict.OpenParen, strict.OpenBracket:
			depth++
		case strict.CloseParen, strict.CloseBracket:
			depth--
			if depth < 0 {
				return token.Start
			}
		case strict.Between:
			isBetween = isBetween || depth == 0
		case strict.And:
			if depth == 0 && !isBetween {
				return token.Start
			}
			isBetween = isBetween && depth > 0
		case strict.Or, strict.Then, strict.Else, strict.Comma:
			if depth == 0 {
				return token.Start
			}
		}
	}
	return len(text)
}

// modulo turns a % b or a mod b into modulo(a, b).
func (c cut) modulo() string {
	rest := ""
	switch sign := word(c.rest); {
	case strings.HasPrefix(c.rest, "%"):
		rest = c.rest[1:]
	case strings.EqualFold(sign, "mod"):
		rest = c.rest[len(sign):]
	default:
		return ""
	}
	rest = strings.TrimLeft(rest, " ")
	begin, end := operandBegin(c.before), operandEnd(rest)
	if begin == len(c.before) || end == 0 {
		return ""
	}
	return c.before[:begin] + "modulo(" + c.before[begin:] + ", " + rest[:end] + ")" + rest[end:]
}

// operandBegin returns where the last operand of a text begins: a constant, a name or path, a call, or something in brackets.
func operandBegin(text string) int {
	tokens, depth := strict.Tokens(text), 0
	for at := len(tokens) - 1; at >= 0; at-- {
		switch sort := tokens[at].Sort; {
		case sort == strict.CloseParen || sort == strict.CloseBracket:
			depth++
		case sort == strict.OpenParen || sort == strict.OpenBracket:
			depth--
		}
		if depth < 0 {
			break
		}
		if depth > 0 || at > 0 && joins(tokens[at-1].Sort, tokens[at].Sort) {
			continue
		}
		return tokens[at].Start
	}
	return len(text)
}

// joins reports whether two tokens belong to one operand.
func joins(one, other strict.Sort) bool {
	isCall := other == strict.OpenParen && (one == strict.Function || one == strict.Modulo || one == strict.Not)
	return isCall || one == strict.Dot || other == strict.Dot
}

// operandEnd returns where the first operand of a text ends.
func operandEnd(text string) int {
	tokens, depth := strict.Tokens(text), 0
	for at, token := range tokens {
		switch sort := token.Sort; {
		case sort == strict.OpenParen || sort == strict.OpenBracket:
			depth++
		case sort == strict.CloseParen || sort == strict.CloseBracket:
			depth--
		}
		if depth < 0 {
			return 0
		}
		if depth == 0 && (at+1 == len(tokens) || !joins(token.Sort, tokens[at+1].Sort)) {
			return token.End
		}
	}
	return 0
}

// compared turns "is" into =, and "is not" into !=.
func (c cut) compared() string {
	if word(c.rest) != "is" {
		return ""
	}
	rest, sign := strings.TrimSpace(c.rest[2:]), "="
	if word(rest) == "not" {
		rest, sign = strings.TrimSpace(rest[3:]), "!="
	}
	return c.before + " " + sign + " " + rest
}

// withSubject repeats the compared value before a sign that follows an "and" or "or".
func (c cut) withSubject() string {
	last := c.lastWord()
	if last != "and" && last != "or" || !isOrder(c.at(0)) && c.at(0) != '!' {
		return ""
	}
	tokens := strict.Tokens(c.before)
	sign := -1
	for at := len(tokens) - 2; at >= 0 && sign < 0; at-- {
		if sort := tokens[at].Sort; sort == strict.Order || sort == strict.Equal {
			sign = at
		}
	}
	if sign < 1 {
		return ""
	}
	begin := sign
	for begin > 0 && !endsCondition(tokens[begin-1].Sort) {
		begin--
	}
	if begin == sign {
		return ""
	}
	return c.before + " " + c.before[tokens[begin].Start:tokens[sign-1].End] + " " + c.rest
}

// endsCondition reports whether a condition begins after such a token.
func endsCondition(sort strict.Sort) bool {
	switch sort {
	case strict.And, strict.Or, strict.If, strict.Then, strict.Else, strict.OpenParen, strict.OpenBracket, strict.Comma:
		return true
	}
	return false
}

// joinedSigns maps two signs in a row to the sign they mean.
var joinedSigns = map[string]string{"=<": "<=", "=>": ">=", "<=": "<=", ">=": ">="}

// joinedSign turns two signs into one: <= for "= <" and for "< =".
func (c cut) joinedSign() string {
	if c.before != "" && c.rest != "" {
		if sign := joinedSigns[c.before[len(c.before)-1:]+c.rest[:1]]; sign != "" {
			return c.before[:len(c.before)-1] + sign + " " + strings.TrimLeft(c.rest[1:], " ")
		}
	}
	if !strings.HasPrefix(c.rest, "=") {
		return ""
	}
	rest := strings.TrimLeft(c.rest[1:], " ")
	if rest == "" || joinedSigns["="+rest[:1]] == "" {
		return ""
	}
	return c.before + joinedSigns["="+rest[:1]] + " " + strings.TrimLeft(rest[1:], " ")
}

// joinsTexts reports whether a sign that joins texts in other languages is next to a text.
func (c cut) joinsTexts() bool {
	rest := strings.TrimLeft(strings.TrimPrefix(c.rest, "&"), " ")
	return c.at(0) == '&' && c.at(1) != '&' && (c.last() == '"' || strings.HasPrefix(rest, `"`))
}
