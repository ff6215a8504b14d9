package lines

import (
	"fmt"
	"strconv"
	"unicode/utf8"
)

// A SyntaxFault is where a text stops being JSON.
type SyntaxFault struct {
	// Offset is the byte at which reading stops, from 0.
	Offset int
	// Line and Column are those of this byte, from 1. Columns are bytes.
	Line, Column int
	// Reason says what is wrong there.
	Reason string
}

func (f *SyntaxFault) Error() string {
	return fmt.Sprintf("line %d, column %d: %s", f.Line, f.Column, f.Reason)
}

// A Span is a value within a text, with its size for the engine's limits. Both members of a repeated key are counted, though
// the engine keeps only the last.
type Span struct {
	// Start and End bound the value's text.
	Start, End int
	// Nodes and Depth are the value's size.
	Nodes, Depth int
	// Bad is the offset of the first number in it that is not whole or is out of range, or -1.
	Bad int
}

// A Member is a member of an object.
type Member struct {
	Key   string
	Value Span
}

// fewMembers is enough for most objects.
const fewMembers = 4

// A scanner reads a text once.
type scanner struct {
	text []byte
	at   int
	// nesting is how many more lists and objects may be opened here.
	nesting int
	reason  string
	// reader is nil or gets the keys; outermost is the nesting within the outermost object then.
	reader    *Reader
	outermost int
	// isInner means that the next value's members are returned.
	isInner bool
}

// Members reads a text that is an object with at most this nesting, and returns its members in order. Other is true if the text
// is another JSON value; its parts are not returned. The text is read as the engine does: UTF-8, no lone surrogates, no number
// outside the range of floats.
func Members(text []byte, nesting int) (members []Member, other bool, fault *SyntaxFault) {
	s := scanner{text: text, nesting: nesting}
	s.blanks()
	if s.peek() != '{' {
		_, fault = s.whole()
		return nil, true, fault
	}
	members = make([]Member, 0, fewMembers)
	ok := s.object(func(key []byte, value Span) { members = append(members, Member{Text(key), value}) })
	return members, false, s.ended(ok)
}

// Items reads a text that is a list, and returns its items.
func Items(text []byte, nesting int) ([]Span, *SyntaxFault) {
	s := scanner{text: text, nesting: nesting}
	s.blanks()
	var items []Span
	ok := s.list(func(item Span) { items = append(items, item) })
	return items, s.ended(ok)
}

// Whole reads a text that is any JSON value.
func Whole(text []byte, nesting int) (Span, *SyntaxFault) {
	s := scanner{text: text, nesting: nesting}
	s.blanks()
	return s.whole()
}

// Begins returns the first byte of a text that is not a blank, or 0.
func Begins(text []byte) byte {
	s := scanner{text: text}
	s.blanks()
	return s.peek()
}

func (s *scanner) whole() (Span, *SyntaxFault) {
	span, ok := s.value()
	return span, s.ended(ok)
}

// ended returns the fault, if any, after a value.
func (s *scanner) ended(ok bool) *SyntaxFault {
	if ok {
		s.blanks()
		if s.at < len(s.text) {
			ok = s.fail("something stands behind the value")
		}
	}
	if ok && !utf8.Valid(s.text) {
		s.at = invalidAt(s.text)
		ok = s.fail("a byte is not UTF-8")
	}
	if ok {
		return nil
	}
	fault := &SyntaxFault{Offset: s.at, Line: 1, Column: 1, Reason: s.reason}
	for _, c := range s.text[:s.at] {
		fault.Column++
		if c == '\n' {
			fault.Line, fault.Column = fault.Line+1, 1
		}
	}
	return fault
}

func invalidAt(text []byte) int {
	at := 0
	for at < len(text) {
		r, size := utf8.DecodeRune(text[at:])
		if r == utf8.RuneError && size == 1 {
			break
		}
		at += size
	}
	return at
}

// Reasons that StopOf distinguishes.
const (
	reasonNesting = "lists and objects are nested over 127 deep"
	reasonDigit   = "a digit is due"
	reasonRange   = "a number is out of range"
	reasonKey     = "a key in quotes is due"
	reasonColon   = "a colon is due"
)

// fail notes the first reason, and returns false.
func (s *scanner) fail(reason string) bool {
	if s.reason == "" {
		s.reason = reason
	}
	return false
}

func (s *scanner) peek() byte {
	if s.at < len(s.text) {
		return s.text[s.at]
	}
	return 0
}

func (s *scanner) blanks() {
	for s.at < len(s.text) {
		switch s.text[s.at] {
		case ' ', '\t', '\r', '\n':
			s.at++
		default:
			return
		}
	}
}

func (s *scanner) value() (Span, bool) {
	span := Span{Start: s.at, Nodes: 1, Depth: 1, Bad: -1}
	ok, isInner := false, s.isInner
	s.isInner = false
	switch c := s.peek(); {
	case c == '{':
		ok = s.object(func(key []byte, value Span) {
			span.add(value)
			if isInner {
				s.reader.takeInner(key, value)
			}
		})
	case c == '[':
		ok = s.list(span.add)
	case c == '"':
		ok = s.str()
	case c == '-' || c >= '0' && c <= '9':
		var whole bool
		whole, ok = s.number()
		if !whole {
			span.Bad = span.Start
		}
	default:
		ok = s.word()
	}
	span.End = s.at
	return span, ok
}

// add counts a part of a list or context.
func (v *Span) add(part Span) {
	v.Nodes += part.Nodes
	if v.Depth <= part.Depth {
		v.Depth = part.Depth + 1
	}
	if v.Bad < 0 {
		v.Bad = part.Bad
	}
}

func (s *scanner) enter() bool {
	if s.nesting == 0 {
		return s.fail(reasonNesting)
	}
	s.nesting--
	s.at++
	s.blanks()
	return true
}

// next moves past a comma, or to the end of a list or object; last says which.
func (s *scanner) next(end byte) (last, ok bool) {
	s.blanks()
	switch s.peek() {
	case ',':
		s.at++
		s.blanks()
		return false, true
	case end:
		s.at++
		s.nesting++
		return true, true
	}
	return false, s.fail(fmt.Sprintf("a comma or %q is due", string(end)))
}

func (s *scanner) list(take func(Span)) bool {
	if s.peek() != '[' {
		return s.fail("a list is due")
	}
	if !s.enter() {
		return false
	}
	if s.peek() == ']' {
		s.at++
		s.nesting++
		return true
	}
	for {
		item, ok := s.value()
		if !ok {
			return false
		}
		take(item)
		if last, ok := s.next(']'); last || !ok {
			return ok
		}
	}
}

// object calls take with each member of an object: its quoted key, and its value.
func (s *scanner) object(take func(key []byte, value Span)) bool {
	if !s.enter() {
		return false
	}
	if s.peek() == '}' {
		s.at++
		s.nesting++
		return true
	}
	for {
		key, value, ok := s.member()
		if !ok {
			return false
		}
		take(key, value)
		if last, ok := s.next('}'); last || !ok {
			return ok
		}
	}
}

func (s *scanner) member() (key []byte, value Span, ok bool) {
	start := s.at
	if !s.key() {
		return nil, Span{}, false
	}
	key = s.text[start:s.at]
	if !s.colon() {
		return nil, Span{}, false
	}
	if s.reader != nil {
		s.reader.noteKey(key)
		s.isInner = s.nesting == s.outermost && s.reader.takes(key)
	}
	value, ok = s.value()
	return key, value, ok
}

func (s *scanner) word() bool {
	for _, word := range [...]string{"true", "false", "null"} {
		if len(s.text)-s.at >= len(word) && string(s.text[s.at:s.at+len(word)]) == word {
			s.at += len(word)
			return true
		}
	}
	return s.fail("a value is due")
}

// digits skips digits, and reports whether there is any.
func (s *scanner) digits() bool {
	start := s.at
	for s.at < len(s.text) && s.text[s.at] >= '0' && s.text[s.at] <= '9' {
		s.at++
	}
	return s.at > start || s.fail(reasonDigit)
}

// number reads a number. whole means that it has no point or exponent, is in range and not "-0".
func (s *scanner) number() (whole, ok bool) {
	start := s.at
	if s.peek() == '-' {
		s.at++
	}
	if s.peek() == '0' {
		s.at++
	} else if !s.digits() {
		return true, false
	}
	whole = true
	if s.peek() == '.' {
		s.at++
		whole = false
		if !s.digits() {
			return true, false
		}
	}
	if s.peek()|0x20 == 'e' {
		s.at++
		whole = false
		if s.peek() == '+' || s.peek() == '-' {
			s.at++
		}
		if !s.digits() {
			return true, false
		}
	}
	return s.ranged(start, whole)
}

// ranged checks the range of a number.
func (s *scanner) ranged(start int, whole bool) (bool, bool) {
	text := s.text[start:s.at]
	if whole && len(text) < 19 {
		return !(len(text) == 2 && text[0] == '-' && text[1] == '0'), true
	}
	if whole {
		if n, err := strconv.ParseInt(string(text), 10, 64); err == nil {
			return n >= -MaxNumber, true
		}
	}
	if _, err := strconv.ParseFloat(string(text), 64); err != nil {
		s.at = start
		return false, s.fail(reasonRange)
	}
	return false, true
}
