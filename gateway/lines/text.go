package lines

import (
	"bytes"
	"encoding/json"
	"fmt"
	"strings"
	"unicode/utf16"
	"unicode/utf8"
)

// plain are the bytes that are valid within quotes unescaped.
var plain = func() (table [256]bool) {
	for c := range table {
		table[c] = c >= 0x20 && c != '"' && c != '\\'
	}
	return table
}()

// str skips a string, from its first quote.
func (s *scanner) str() bool {
	s.at++
	for {
		at := s.at
		for at < len(s.text) && plain[s.text[at]] {
			at++
		}
		s.at = at
		switch s.peek() {
		case '"':
			s.at++
			return true
		case '\\':
			if !s.escape() {
				return false
			}
		default:
			if s.at == len(s.text) {
				return s.fail("the text ends within a string")
			}
			return s.fail("a control character stands within a string")
		}
	}
}

// escape skips an escape; two of them may be one character.
func (s *scanner) escape() bool {
	if s.at+1 >= len(s.text) {
		s.at = len(s.text)
		return s.fail("the text ends within a string")
	}
	switch s.text[s.at+1] {
	case '"', '\\', '/', 'b', 'f', 'n', 'r', 't':
		s.at += 2
		return true
	case 'u':
	default:
		return s.fail("an escape is none of JSON's")
	}
	first, ok := s.unit(s.at)
	if !ok {
		return s.fail("four hexadecimal digits are due")
	}
	if first < 0xD800 || first > 0xDFFF {
		s.at += 6
		return true
	}
	second, ok := s.unit(s.at + 6)
	if first > 0xDBFF || !ok || second < 0xDC00 || second > 0xDFFF {
		return s.fail("half of a surrogate pair stands alone")
	}
	s.at += 12
	return true
}

// hexadecimalDigits has each digit at an index whose last four bits are its value.
const hexadecimalDigits = "0123456789abcdef0123456789ABCDEF"

// unit returns the number of an escape \uXXXX.
func (s *scanner) unit(at int) (int, bool) {
	if at+6 > len(s.text) || s.text[at] != '\\' || s.text[at+1] != 'u' {
		return 0, false
	}
	n := 0
	for _, c := range s.text[at+2 : at+6] {
		digit := strings.IndexByte(hexadecimalDigits, c)
		if digit < 0 {
			return 0, false
		}
		n = n<<4 | digit&15
	}
	return n, true
}

// Text returns the value of a valid JSON string in its quotes.
func Text(quoted []byte) string {
	inner := quoted[1 : len(quoted)-1]
	escape := bytes.IndexByte(inner, '\\')
	if escape < 0 {
		return string(inner)
	}
	var text strings.Builder
	text.Grow(len(inner))
	for escape >= 0 {
		text.Write(inner[:escape])
		letter, length := unescaped(inner[escape:])
		text.WriteRune(letter)
		inner = inner[escape+length:]
		escape = bytes.IndexByte(inner, '\\')
	}
	text.Write(inner)
	return text.String()
}

// unescaped returns the character of the escape at the start of a text, and the escape's length.
func unescaped(text []byte) (rune, int) {
	switch c := text[1]; c {
	case 'b':
		return '\b', 2
	case 'f':
		return '\f', 2
	case 'n':
		return '\n', 2
	case 'r':
		return '\r', 2
	case 't':
		return '\t', 2
	case 'u':
	default:
		return rune(c), 2
	}
	s := scanner{text: text}
	first, _ := s.unit(0)
	if !utf16.IsSurrogate(rune(first)) {
		return rune(first), 6
	}
	second, _ := s.unit(6)
	return utf16.DecodeRune(rune(first), rune(second)), 12
}

const hexadecimal = "0123456789abcdef"

// AppendQuoted adds a text as a JSON string. It escapes quotes, backslashes and control characters, as the engine does.
func AppendQuoted(to []byte, text string) []byte {
	to = append(to, '"')
	for at := 0; at < len(text); at++ {
		c := text[at]
		switch {
		case plain[c]:
			to = append(to, c)
		case c == '"' || c == '\\':
			to = append(to, '\\', c)
		case c == '\n':
			to = append(to, '\\', 'n')
		case c == '\r':
			to = append(to, '\\', 'r')
		case c == '\t':
			to = append(to, '\\', 't')
		case c == '\b':
			to = append(to, '\\', 'b')
		case c == '\f':
			to = append(to, '\\', 'f')
		default:
			to = append(to, '\\', 'u', '0', '0', hexadecimal[c>>4], hexadecimal[c&15])
		}
	}
	return append(to, '"')
}

// OneLine returns a valid JSON text without line ends, and without other blanks between tokens if that makes it no longer than
// longest. It returns the text itself if nothing changes.
func OneLine(text []byte, longest int) []byte {
	if len(text) <= longest && bytes.IndexByte(text, '\n') < 0 {
		return text
	}
	var compact bytes.Buffer
	if err := json.Compact(&compact, text); err != nil {
		return text
	}
	return compact.Bytes()
}

// IsText reports whether a text is UTF-8 and has 1 to longest bytes.
func IsText(text string, longest int) bool {
	return len(text) > 0 && len(text) <= longest && utf8.ValidString(text)
}

// Brief returns a text cut to longest bytes, for people.
func Brief(text []byte, longest int) string {
	if len(text) <= longest {
		return string(text)
	}
	cut := longest
	for cut > 0 && !utf8.RuneStart(text[cut]) {
		cut--
	}
	return fmt.Sprintf("%s..", text[:cut])
}
