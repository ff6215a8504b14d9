package tell

import (
	"strings"
	"unicode/utf8"

	"gateway/feel/strict"
)

// A cut is a text, split where its reading stops.
type cut struct {
	// before has no blanks at its end; rest begins at the stop.
	before, rest string
}

func cutAt(text string, at int) cut {
	end := at
	for end > 0 && text[end-1] <= ' ' {
		end--
	}
	return cut{text[:end], text[at:]}
}

// last returns the last byte of before, or 0.
func (c cut) last() byte {
	if c.before == "" {
		return 0
	}
	return c.before[len(c.before)-1]
}

// at returns a byte of rest, or 0.
func (c cut) at(index int) byte {
	if index < len(c.rest) {
		return c.rest[index]
	}
	return 0
}

func (c cut) hasDigit(index int) bool { return strict.IsDigit(c.at(index)) }

func (c cut) endsWithDigit() bool { return strict.IsDigit(c.last()) }

// endsWithValue reports whether before ends as a value may.
func (c cut) endsWithValue() bool {
	switch last := c.last(); last {
	case '"', ')', ']':
		return true
	default:
		return strict.IsWordByte(last)
	}
}

// isParted reports whether a number continues after a comma, a blank or "_" with its last three digits.
func (c cut) isParted() bool {
	mark := 0
	if first := c.at(0); first == ',' || first == '_' {
		mark = 1
	}
	hasThree := c.hasDigit(mark) && c.hasDigit(mark+1) && c.hasDigit(mark+2)
	return c.endsWithDigit() && hasThree && !strict.IsWordByte(c.at(mark+3))
}

// endsWithPoint reports whether before ends with a digit and a point.
func (c cut) endsWithPoint() bool {
	count := len(c.before)
	return count > 1 && c.before[count-1] == '.' && strict.IsDigit(c.before[count-2])
}

// isDecimal reports whether a number has a fraction or is a percentage.
func (c cut) isDecimal() bool {
	if c.endsWithPoint() && c.hasDigit(0) {
		return true
	}
	switch c.at(0) {
	case '.':
		return c.hasDigit(1)
	case ',':
		return c.endsWithDigit() && c.hasDigit(1)
	}
	return c.at(0) == '%'
}

// isDay reports whether a number continues as a date: 31.1.2026, 1/31/2026.
func (c cut) isDay() bool {
	mark := byte('/')
	if c.endsWithPoint() {
		mark = '.'
	}
	marks := 0
	for at := 0; at < len(c.rest); at++ {
		switch b := c.rest[at]; {
		case b == mark:
			marks++
		case !strict.IsDigit(b):
			return false
		}
	}
	if mark == '.' {
		return marks == 1
	}
	return c.endsWithDigit() && c.at(0) == '/' && marks == 2
}

// lastWord returns the word at the end of before.
func (c cut) lastWord() string {
	begin := len(c.before)
	for begin > 0 && strict.IsWordByte(c.before[begin-1]) {
		begin--
	}
	return c.before[begin:]
}

// word returns the word at the start of a text.
func word(text string) string {
	end := 0
	for end < len(text) && strict.IsWordByte(text[end]) {
		end++
	}
	return text[:end]
}

// keywords are FEEL's keywords.
var keywords = []string{"if", "then", "else", "and", "or", "not", "between", "null", "true", "false"}

// inSmall returns the word that matches in other letter case; "" if none does, or if word is one itself.
func inSmall(words []string, word string) string {
	for _, known := range words {
		if strings.EqualFold(known, word) && word != known && len(word) == len(known) {
			return known
		}
	}
	return ""
}

// printed returns a hint about a character from print: another quote, dash or sign, or a letter that names can't have.
func printed(rest string) string {
	character, _ := utf8.DecodeRuneInString(rest)
	in := func(low, high rune) bool { return low <= character && character <= high }
	instead := func(sign, other string) string { return "write " + other + " in place of " + sign }
	switch {
	case rest == "" || character == utf8.RuneError:
		return ""
	case in(0x2018, 0x201F), character == 0xAB, character == 0xBB:
		return hintQuotes
	case character == 0x2264:
		return instead("≤", "<=")
	case character == 0x2265:
		return instead("≥", ">=")
	case character == 0x2260:
		return instead("≠", "!=")
	case in(0x2010, 0x2015), character == 0x2212:
		return instead("the dash", "-")
	case character == 0xD7, character == 0xB7, character == 0x22C5:
		return instead("the sign", "*")
	case character == 0xF7:
		return hintDivision
	case character == 0xA0, in(0x2000, 0x200B), character == 0x202F, character == 0xFEFF:
		return instead("the blank of print", "a blank")
	case character == 0xAA, character == 0xB5, character == 0xBA, in(0xC0, 0x1FFF), in(0x2C00, 0xD7FF), in(0xF900, 0xFDFF):
		return hintLetters
	}
	return ""
}
