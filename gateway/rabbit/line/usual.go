package line

import (
	"crypto/sha256"
	"encoding/binary"
	"unicode/utf8"
)

// usual reads a usual request in one pass: without a fault or an escape in its key. It reports whether the text is one. Read
// gives the same result for any request, and the fault of any other text, in several passes.
func usual(text []byte) (Line, bool) {
	var l Line
	if len(text) > MaximumBytes || !utf8.Valid(text) {
		return l, false
	}
	s := scanner{text: text}
	if !s.members(&l) || l.Key == nil || l.service == nil || l.inputs == nil || l.ID == nil {
		return l, false
	}
	if s.space(); s.at != len(text) || l.service[0] != '"' || l.inputs[0] != '{' || len(l.ID) > MaximumIDBytes {
		return l, false
	}
	name, is := plain(l.Key)
	if !is || len(name) == 0 || len(name) > MaximumKeyBytes {
		return l, false
	}
	l.place(name)
	return l, true
}

// place takes the key.
func (l *Line) place(name []byte) {
	digest := sha256.Sum256(name)
	l.Client, l.hash = int(digest[8]%Clients), binary.BigEndian.Uint64(digest[:8])
}

// plain returns the value of a JSON string without escapes.
func plain(text []byte) ([]byte, bool) {
	if text[0] != '"' {
		return nil, false
	}
	for _, char := range text {
		if char == '\\' {
			return nil, false
		}
	}
	return text[1 : len(text)-1], true
}

// A scanner reads JSON nested at most MaximumDepth deep. Its methods report whether their syntax is there.
type scanner struct {
	text []byte
	at   int
}

// members reads an object with only members of a request, each once.
func (s *scanner) members(l *Line) bool {
	if s.space(); !s.next('{') {
		return false
	}
	for {
		s.space()
		begin := s.at
		if !s.string() {
			return false
		}
		member := l.member(s.text[begin:s.at])
		if s.space(); member == nil || *member != nil || !s.next(':') {
			return false
		}
		s.space()
		begin = s.at
		if !s.value(1) {
			return false
		}
		*member = s.text[begin:s.at:s.at]
		if s.space(); s.next('}') {
			return true
		}
		if !s.next(',') {
			return false
		}
	}
}

// member returns where the member's value belongs, or nil.
func (l *Line) member(name []byte) *[]byte {
	switch string(name) {
	case `"key"`:
		return &l.Key
	case `"service"`:
		return &l.service
	case `"inputs"`:
		return &l.inputs
	case `"id"`:
		return &l.ID
	}
	return nil
}

// next reads this character, if it is next.
func (s *scanner) next(char byte) bool {
	is := s.at < len(s.text) && s.text[s.at] == char
	if is {
		s.at++
	}
	return is
}

func (s *scanner) space() {
	for s.at < len(s.text) {
		switch s.text[s.at] {
		case ' ', '\t', '\n', '\r':
			s.at++
		default:
			return
		}
	}
}

// value reads a value at this depth.
func (s *scanner) value(depth int) bool {
	if s.at >= len(s.text) {
		return false
	}
	switch char := s.text[s.at]; {
	case char == '"':
		return s.string()
	case char == '{' || char == '[':
		return depth < MaximumDepth && s.nested(char == '{', depth+1)
	case char == 't':
		return s.word("true")
	case char == 'f':
		return s.word("false")
	case char == 'n':
		return s.word("null")
	}
	return s.number()
}

// nested reads a list or an object.
func (s *scanner) nested(isObject bool, depth int) bool {
	end := byte(']')
	if isObject {
		end = '}'
	}
	s.at++
	if s.space(); s.next(end) {
		return true
	}
	for {
		if isObject {
			if s.space(); !s.string() {
				return false
			}
			if s.space(); !s.next(':') {
				return false
			}
		}
		if s.space(); !s.value(depth) {
			return false
		}
		if s.space(); s.next(end) {
			return true
		}
		if !s.next(',') {
			return false
		}
	}
}

func (s *scanner) word(word string) bool {
	end := s.at + len(word)
	is := end <= len(s.text) && string(s.text[s.at:end]) == word
	s.at = end
	return is
}

func (s *scanner) string() bool {
	if !s.next('"') {
		return false
	}
	for s.at < len(s.text) {
		char := s.text[s.at]
		s.at++
		switch {
		case char == '"':
			return true
		case char < ' ' || char == '\\' && !s.escape():
			return false
		}
	}
	return false
}

// escape reads what follows a backslash.
func (s *scanner) escape() bool {
	if s.at >= len(s.text) {
		return false
	}
	char := s.text[s.at]
	s.at++
	switch char {
	case '"', '\\', '/', 'b', 'f', 'n', 'r', 't':
		return true
	case 'u':
		for end := s.at + 4; s.at < end; s.at++ {
			if s.at >= len(s.text) || !isHex(s.text[s.at]) {
				return false
			}
		}
		return true
	}
	return false
}

func isHex(char byte) bool {
	return char >= '0' && char <= '9' || char >= 'a' && char <= 'f' || char >= 'A' && char <= 'F'
}

func (s *scanner) number() bool {
	s.next('-')
	if !s.next('0') && !s.digits() {
		return false
	}
	if s.next('.') && !s.digits() {
		return false
	}
	if s.next('e') || s.next('E') {
		if !s.next('+') {
			s.next('-')
		}
		return s.digits()
	}
	return true
}

// digits reads one digit or more.
func (s *scanner) digits() bool {
	begin := s.at
	for s.at < len(s.text) && s.text[s.at] >= '0' && s.text[s.at] <= '9' {
		s.at++
	}
	return s.at > begin
}
