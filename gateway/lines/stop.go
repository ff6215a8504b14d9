package lines

import (
	"bytes"
	"unicode/utf8"
)

// A Stop is where a text stops being JSON.
type Stop struct {
	// Line and Column are those of the byte at which it stops, from 1. At the end of a text the column is that of its last
	// byte, or 0 if the last line is empty.
	Line, Column int
	// Due is what could be there, or what is wrong with what is there.
	Due Due
}

// A Due is what could be at a stop, or what is wrong there.
type Due string

// The values of Due.
const (
	DueValue          Due = "a value"
	DueValueOrBracket Due = `a value or "]"`
	DueKey            Due = "a key in quotes"
	DueKeyOrBrace     Due = `a key in quotes or "}"`
	DueColon          Due = `":"`
	DueCommaOrBracket Due = `"," or "]"`
	DueCommaOrBrace   Due = `"," or "}"`
	DueQuote          Due = "the quote that ends the string"
	DueEnd            Due = "the end"
	// WrongString, WrongNumber, LargeNumber, TooDeep and NoUTF8 are whole sentences.
	WrongString Due = `a string has no line end and no control character, and behind \ one of " \ / b f n r t u`
	WrongNumber Due = "a number has no sign but - and no 0 before its digits, and digits on both sides of a point"
	LargeNumber Due = "the number before it is over 1.8e308"
	TooDeep     Due = "over 127 lists and objects stand in each other"
	NoUTF8      Due = "it is no UTF-8 from here on"
)

// Sentence says what is due, or what is wrong.
func (d Due) Sentence() string {
	switch d {
	case WrongString, WrongNumber, LargeNumber, TooDeep, NoUTF8:
		return string(d)
	}
	return string(d) + " is due"
}

// StopOf returns where a text stops being JSON as the engine reads it; nil if it is JSON. A text that is not UTF-8 stops at its
// first invalid byte, no matter what else is wrong.
func StopOf(text []byte) *Stop {
	if !utf8.Valid(text) {
		return placedStop(text, invalidAt(text), NoUTF8)
	}
	s := scanner{text: text, nesting: MaxNesting}
	s.blanks()
	if _, fault := s.whole(); fault == nil {
		return nil
	}
	switch at := s.at; s.reason {
	case reasonNesting:
		return placedStop(text, at+1, TooDeep)
	case reasonDigit:
		return placedStop(text, runStart(text, at), WrongNumber)
	case reasonRange:
		return placedStop(text, afterNumber(text, at), LargeNumber)
	default:
		return stopAt(text, at)
	}
}

// stopAt returns the stop of a text that failed at this byte.
func stopAt(text []byte, at int) *Stop {
	front := frontOf(text[:at])
	if front.isText {
		if isCutWithin(text, at) {
			return placedStop(text, front.quote, DueQuote)
		}
		return placedStop(text, front.quote, WrongString)
	}
	if at < len(text) && !isBetween(text[at]) {
		// The fault may be the end of a word or number that seemed whole.
		if start := runStart(text, at); start < at {
			at, front = start, frontOf(text[:start])
		}
	}
	due := front.due
	if at < len(text) && (due == DueValue || due == DueValueOrBracket) && (text[at] == '-' || '0' <= text[at] && text[at] <= '9') {
		due = WrongNumber
	}
	return placedStop(text, at, due)
}

// isCutWithin reports whether a text ends within a string, or within an escape that is valid so far.
func isCutWithin(text []byte, at int) bool {
	rest := text[at:]
	if len(rest) < 2 {
		return len(rest) == 0 || rest[0] == '\\'
	}
	if rest[0] != '\\' || rest[1] != 'u' || len(rest) >= 6 {
		return false
	}
	for _, c := range rest[2:] {
		if bytes.IndexByte([]byte("0123456789abcdefABCDEF"), c) < 0 {
			return false
		}
	}
	return true
}

// isBetween reports whether a byte ends a word or a number.
func isBetween(c byte) bool {
	switch c {
	case ' ', '\t', '\r', '\n', ',', ':', '[', ']', '{', '}':
		return true
	}
	return false
}

// runStart returns the start of the word or number at this byte.
func runStart(text []byte, at int) int {
	for at > 0 && !isBetween(text[at-1]) && text[at-1] != '"' {
		at--
	}
	return at
}

// afterNumber returns where the token after a number begins.
func afterNumber(text []byte, at int) int {
	for at < len(text) && !isBetween(text[at]) {
		at++
	}
	s := scanner{text: text, at: at}
	s.blanks()
	return s.at
}

// placedStop returns a stop at a byte.
func placedStop(text []byte, at int, due Due) *Stop {
	if at > len(text) {
		at = len(text)
	}
	line, column := 1, at+1
	if last := bytes.LastIndexByte(text[:at], '\n'); last >= 0 {
		line, column = 1+bytes.Count(text[:at], []byte{'\n'}), at-last
	}
	if at == len(text) {
		column--
	}
	return &Stop{line, column, due}
}

// A front is a prefix of a JSON text.
type front struct {
	// isText means that it ends within a string, which begins at quote.
	isText bool
	quote  int
	// open says, for each open list or object, whether it is an object.
	open []bool
	due  Due
}

// frontOf reads a prefix of a JSON text.
func frontOf(text []byte) front {
	f := front{due: DueValue}
	for at := 0; at < len(text); at++ {
		switch c := text[at]; {
		case f.isText && c == '\\':
			at++
		case f.isText && c == '"':
			f.isText, f.due = false, f.afterText()
		case f.isText:
		case c == '"':
			f.isText, f.quote = true, at
		default:
			f.take(c)
		}
	}
	return f
}

// take reads a byte outside strings.
func (f *front) take(c byte) {
	switch c {
	case ' ', '\t', '\r', '\n':
	case ',':
		f.due = DueValue
		if len(f.open) > 0 && f.open[len(f.open)-1] {
			f.due = DueKey
		}
	case ':':
		f.due = DueValue
	case '{':
		f.open, f.due = append(f.open, true), DueKeyOrBrace
	case '[':
		f.open, f.due = append(f.open, false), DueValueOrBracket
	case ']', '}':
		if len(f.open) > 0 {
			f.open = f.open[:len(f.open)-1]
		}
		f.due = f.afterValue()
	default:
		f.due = f.afterValue()
	}
}

func (f *front) afterText() Due {
	if f.due == DueKey || f.due == DueKeyOrBrace {
		return DueColon
	}
	return f.afterValue()
}

func (f *front) afterValue() Due {
	switch {
	case len(f.open) == 0:
		return DueEnd
	case f.open[len(f.open)-1]:
		return DueCommaOrBrace
	}
	return DueCommaOrBracket
}
