package tell

import (
	"fmt"
	"strings"

	"gateway/feel/strict"
)

// Hints about a text that has no reading.
const (
	hintComma       = `write a comma for "or" between tests`
	hintDash        = `an entry that any input meets is "-"`
	hintDecimal     = "numbers are whole: amounts stand in cents, rates in hundredths of a percent"
	hintDate        = "there are no dates: 31 January 2026 is the number 20260131"
	hintQuotes      = `a text stands between two ", which are written \" within JSON`
	hintEqual       = "write = in place of =="
	hintUnequal     = "write != in place of <>"
	hintEqualTest   = "write the value alone: there is no = in a test"
	hintUnequalTest = "write not(..) for what the input is not"
	hintAnd         = "write and in place of &&"
	hintOr          = "write or in place of ||"
	hintNot         = "write not(..) in place of !"
	hintDivision    = `there is no division: see "Division" in docs/MODEL.md`
	hintPower       = "there are no powers: write the product a * a"
	hintInput       = "a test leaves the input out: > 3 in place of ? > 3"
	hintBraces      = `a context is a boxed expression of the model, {"context":[..]}`
	hintIndex       = "there are no indexes and no filters: let the request bring the member"
	hintLoop        = `there is no for, some or every: see "Lists and contexts" in docs/MODEL.md`
	hintIn          = "write x = 1 or x = 2 for x in [1, 2]"
	hintParentheses = "an if within another form stands in parentheses"
	hintChain       = "write a < b and b < c for a < b < c"
	hintComment     = "there are no comments: // and /* begin none"
	hintConditional = "write if a then b else c for a ? b : c"
	hintTwo         = "modulo has two arguments"
	hintDigits      = "a number has digits alone: 1000 for 1,000"
	hintLetters     = "a name has the letters A-Z and a-z, digits and _ alone; a text stands in quotes"
)

// hintOf returns what to write instead of a text that has no reading of its kind and stops here; "" if nothing is known.
func hintOf(kind strict.Kind, text string, stop strict.Stop) string {
	if stop.IsTooDeep() {
		return ""
	}
	if hint := hintOfKind(kind, text); hint != "" {
		return hint
	}
	if mended := mend(kind, text, stop); mended != "" {
		return "write " + mended
	}
	if hint := hintOfCall(text, stop); hint != "" {
		return hint
	}
	return cutAt(text, stop.At).hint(kind)
}

// hintOfKind returns a hint that doesn't depend on where the text stops.
func hintOfKind(kind strict.Kind, text string) string {
	switch kind {
	case strict.UnaryTests:
		if strings.TrimSpace(text) == "" {
			return hintDash
		}
		for _, text := range []string{text, strings.ReplaceAll(text, "&&", " and ")} {
			if interval := intervalOf(text); interval != "" {
				return "write " + interval
			}
		}
	case strict.Literal:
		return hintOfLiteral(strings.TrimSpace(text))
	}
	return ""
}

// hintOfLiteral returns a hint about words in the place of a literal.
func hintOfLiteral(text string) string {
	if text == "" || strict.IsDigit(text[0]) || printed(text) == hintQuotes {
		return ""
	}
	for at := 0; at < len(text); at++ {
		if c := text[at]; !strict.IsWordByte(c) && c != ' ' && c < 0x80 {
			return ""
		}
	}
	if constant := inSmall([]string{"true", "false", "null"}, text); constant != "" {
		return "write " + constant
	}
	return fmt.Sprintf(`a text stands in quotes: "%s"`, text)
}

// hint returns the hint for a stop.
func (c cut) hint(kind strict.Kind) string {
	for _, hint := range []func(strict.Kind) string{c.ofNumber, c.ofSign, c.ofPrint, c.ofKeyword, c.ofBracket, c.ofChain, c.ofWord} {
		if found := hint(kind); found != "" {
			return found
		}
	}
	return ""
}

func (c cut) ofNumber(strict.Kind) string {
	switch {
	case c.isDay():
		return hintDate
	case c.isParted():
		return hintDigits
	case c.isDecimal():
		return hintDecimal
	}
	return ""
}

// ofSign handles signs of other languages.
func (c cut) ofSign(kind strict.Kind) string {
	last, first, second := c.last(), c.at(0), c.at(1)
	isTests := kind == strict.UnaryTests
	switch {
	case last == '=' && first == '=':
		return hintEqual
	case last == '<' && first == '>':
		return hintUnequal
	case last == '*' && first == '*':
		return hintPower
	case first == '!' && second == '=' && isTests:
		return hintUnequalTest
	case first == '=' && isTests:
		return hintEqualTest
	case c.joinsTexts():
		return "texts can't be joined"
	case first == '&' && second != '&':
		return "write and in place of &"
	case first == '|' && second != '|' && isTests:
		return hintComma
	case first == '|' && second != '|':
		return "write or in place of |"
	case first == '/' && (second == '/' || second == '*'):
		return hintComment
	case first == '?' && c.endsWithValue() && strings.Contains(c.rest, ":"):
		return hintConditional
	}
	return signHints[first]
}

var signHints = map[byte]string{
	'!': hintNot, '&': hintAnd, '|': hintOr, '/': hintDivision, '?': hintInput, '{': hintBraces, '\'': hintQuotes, '`': hintQuotes,
	'@': hintDate,
}

func (c cut) ofPrint(strict.Kind) string { return printed(c.rest) }

func (c cut) ofKeyword(kind strict.Kind) string {
	known := inSmall(keywords, word(c.rest))
	if known == "" {
		known = inSmall(keywords, c.lastWord())
	}
	switch {
	case known == "":
		return ""
	case known == "or" && kind == strict.UnaryTests:
		return hintComma
	}
	return "key words have small letters: write " + known
}

func (c cut) ofBracket(strict.Kind) string {
	name := c.lastWord()
	switch {
	case c.at(0) == '(' && isOfDates(name):
		return hintDate
	case c.at(0) == '(' && name != "":
		return noFunction(name)
	case c.at(0) == '[' && name != "":
		return hintIndex
	}
	return ""
}

func isOfDates(word string) bool {
	switch word {
	case "date", "time", "duration", "today", "now":
		return true
	}
	return false
}

func noFunction(name string) string {
	return "there is no function " + name + ", only not, abs, sum, min, max, count and modulo"
}

func isOrder(c byte) bool { return c == '<' || c == '>' || c == '=' }

func (c cut) ofChain(kind strict.Kind) string {
	if kind == strict.Expression && isOrder(c.at(0)) && c.endsWithValue() && !contains(keywords, c.lastWord()) {
		return hintChain
	}
	return ""
}

func (c cut) ofWord(kind strict.Kind) string {
	last, found := c.lastWord(), word(c.rest)
	first := word(c.before)
	switch {
	case found == "":
		return ""
	case first == "for" || first == "some" || first == "every":
		return hintLoop
	case found == "in":
		return hintIn
	case found == "if":
		return hintParentheses
	case found == "or" && kind == strict.UnaryTests:
		return hintComma
	case last == "", found == "then", found == "else", found == "between", c.endsWithDigit():
		return ""
	}
	if name := functionName(last, c.rest); name != "" {
		return noFunction(name)
	}
	return fmt.Sprintf(`a name has no blank: "%s" and the word behind it are joined by _, or are a text in quotes`, last)
}

// mostFunctionWords limits the words looked at for a function's name.
const mostFunctionWords = 4

// functionName returns the name of a function with blanks, of which first is the first word; "" if no parenthesis follows.
func functionName(first, rest string) string {
	name := first
	for count := 0; count < mostFunctionWords; count++ {
		next := word(rest)
		switch next {
		case "", "not", "abs", "sum", "min", "max", "count":
			return ""
		}
		name += " " + next
		rest = strings.TrimLeft(rest[len(next):], " ")
		if strings.HasPrefix(rest, "(") {
			return name
		}
	}
	return ""
}

// hintOfCall returns a hint about too many or too few arguments.
func hintOfCall(text string, stop strict.Stop) string {
	rest := text[stop.At:]
	isSurplus := strings.HasPrefix(rest, ",") && isDue(stop, strict.DueCloseParen)
	isMissing := strings.HasPrefix(rest, ")") && len(stop.Due) > 0 && stop.Due[0] == strict.DueComma
	if !isSurplus && !isMissing {
		return ""
	}
	switch name := calledAt(text, stop.At); name {
	case "sum", "min", "max", "count":
		return fmt.Sprintf("%s has one argument, a list: write %s([a, b])", name, name)
	case "abs", "not":
		return name + " has one argument"
	case "modulo":
		return hintTwo
	}
	return ""
}

func isDue(stop strict.Stop, due strict.Due) bool {
	for _, one := range stop.Due {
		if one == due {
			return true
		}
	}
	return false
}

// calledAt returns the text before the innermost parenthesis that is open at a byte.
func calledAt(text string, at int) string {
	tokens, depth := strict.Tokens(text), 0
	for i := len(tokens) - 1; i >= 0; i-- {
		if tokens[i].Start >= at {
			continue
		}
		switch tokens[i].Sort {
		case strict.CloseParen, strict.CloseBracket:
			depth++
		case strict.OpenParen:
			if depth == 0 && i > 0 {
				return text[tokens[i-1].Start:tokens[i-1].End]
			}
			depth--
		case strict.OpenBracket:
			if depth == 0 {
				return ""
			}
			depth--
		}
		if depth < 0 {
			return ""
		}
	}
	return ""
}

// A bound is a comparison with <, <=, > or >=.
type bound struct {
	value           string
	isLow, isClosed bool
}

func boundOf(text string, sign strict.Token, end int) bound {
	mark := text[sign.Start:sign.End]
	return bound{strings.TrimSpace(text[sign.End:end]), mark[0] == '>', len(mark) == 2}
}

// intervalOf returns two comparisons with "and" between as an interval: [5..7) for ">= 5 and < 7". It returns "" for other
// texts.
func intervalOf(text string) string {
	tokens := strict.Tokens(text)
	if len(tokens) == 0 || tokens[0].Sort != strict.Order {
		return ""
	}
	between, _ := strict.SumEnd(tokens[1:])
	between++
	if between+1 >= len(tokens) || tokens[between+1].Sort != strict.Order {
		return ""
	}
	and := tokens[between]
	if !strings.EqualFold(text[and.Start:and.End], "and") {
		return ""
	}
	rest := tokens[between+2:]
	if taken, isWhole := strict.SumEnd(rest); !isWhole || taken < len(rest) {
		return ""
	}
	low, high := boundOf(text, tokens[0], and.Start), boundOf(text, tokens[between+1], len(text))
	if low.isLow == high.isLow {
		return ""
	}
	if high.isLow {
		low, high = high, low
	}
	return openings[low.isClosed] + low.value + ".." + high.value + closings[high.isClosed]
}

var (
	openings = map[bool]string{true: "[", false: "("}
	closings = map[bool]string{true: "]", false: ")"}
)
