package feel

import (
	"fmt"
	"strings"
	"unicode"
	"unicode/utf8"
)

// MostBytes is the most bytes of a text: a model is a line of at most that many.
const MostBytes = 1 << 20

// A Fault is where the reading of a text stops.
type Fault struct {
	// Offset is the byte of the text, counted from 0.
	Offset int
	// Why says what is wrong, Instead what to write; Instead may be empty.
	Why, Instead string
}

func (f *Fault) Error() string { return fmt.Sprintf("byte %d: %s", f.Offset, f.Why) }

type kind uint8

const (
	endOfText kind = iota
	word           // a name start and name parts; keywords too
	number         // digits, with a fraction where there is one
	text           // a string between quotes
	quoted         // a name between backticks
	sign
)

// token is a piece of a text. Its spelling is text[start:end].
type token struct {
	kind       kind
	start, end int32
}

// nameStart are the characters that begin a name (rule 28 of FEEL's grammar), ASCII apart.
var nameStart = &unicode.RangeTable{
	R16: []unicode.Range16{
		{0x00c0, 0x00d6, 1}, {0x00d8, 0x00f6, 1}, {0x00f8, 0x02ff, 1}, {0x0370, 0x037d, 1}, {0x037f, 0x1fff, 1},
		{0x200c, 0x200d, 1}, {0x2070, 0x218f, 1}, {0x2c00, 0x2fef, 1}, {0x3001, 0xd7ff, 1}, {0xf900, 0xfdcf, 1},
		{0xfdf0, 0xfffd, 1},
	},
	R32: []unicode.Range32{{0x10000, 0xeffff, 1}},
}

func isBlank(r rune) bool {
	switch {
	case r >= 0x09 && r <= 0x0d, r == ' ', r == 0x85, r == 0xa0, r == 0x1680, r == 0x180e, r >= 0x2000 && r <= 0x200b:
		return true
	}
	return r == 0x2028 || r == 0x2029 || r == 0x202f || r == 0x205f || r == 0x3000 || r == 0xfeff
}

func isNameStart(r rune) bool {
	if r < utf8.RuneSelf {
		return r == '?' || r == '_' || r >= 'A' && r <= 'Z' || r >= 'a' && r <= 'z'
	}
	return !isBlank(r) && unicode.Is(nameStart, r)
}

func isNamePart(r rune) bool {
	return isNameStart(r) || r >= '0' && r <= '9' || r == 0xb7 || r >= 0x300 && r <= 0x36f || r == 0x203f || r == 0x2040
}

// signs are those of more than one character, longest first.
var signs = []string{"..", "**", "<=", ">=", "!=", "->"}

// usualToken is how many bytes a token takes with the blanks before it, or more.
const usualToken = 4

// tokens cuts a text. The last token is the end of the text.
func tokens(source string) ([]token, *Fault) {
	if len(source) > MostBytes {
		return nil, &Fault{Offset: MostBytes, Why: fmt.Sprintf("the text has over %d bytes", MostBytes)}
	}
	all := make([]token, 0, len(source)/usualToken+2)
	for offset := 0; ; {
		start, fault := skipBlanks(source, offset)
		if fault != nil {
			return nil, fault
		}
		if start == len(source) {
			return append(all, token{endOfText, int32(start), int32(start)}), nil
		}
		kind, end, fault := next(source, start)
		if fault != nil {
			return nil, fault
		}
		all = append(all, token{kind, int32(start), int32(end)})
		offset = end
	}
}

// skipBlanks skips blanks and comments.
func skipBlanks(source string, offset int) (int, *Fault) {
	for offset < len(source) {
		r, size := utf8.DecodeRuneInString(source[offset:])
		rest := source[offset:]
		switch {
		case isBlank(r):
			offset += size
		case strings.HasPrefix(rest, "//"):
			end := strings.IndexAny(rest, "\n\r")
			if end < 0 {
				return len(source), nil
			}
			offset += end
		case strings.HasPrefix(rest, "/*"):
			end := strings.Index(rest[2:], "*/")
			if end < 0 {
				return 0, &Fault{Offset: offset, Why: "the comment has no end", Instead: "*/ behind it"}
			}
			offset += end + 4
		default:
			return offset, nil
		}
	}
	return offset, nil
}

// next returns the token that begins at start.
func next(source string, start int) (kind, int, *Fault) {
	r, size := utf8.DecodeRuneInString(source[start:])
	switch {
	case isNameStart(r):
		return word, endOfRun(source, start, isNamePart), nil
	case isDigit(r), r == '.' && start+1 < len(source) && isDigit(rune(source[start+1])):
		return number, endOfNumber(source, start), nil
	case r == '"':
		return closed(source, start, '"', text, "the text has no end")
	case r == '`':
		return closed(source, start, '`', quoted, "the name between ` has no end")
	}
	for _, long := range signs {
		if strings.HasPrefix(source[start:], long) {
			return sign, start + len(long), nil
		}
	}
	return sign, start + size, nil
}

func isDigit(r rune) bool { return r >= '0' && r <= '9' }

func endOfRun(source string, start int, belongs func(rune) bool) int {
	for i, r := range source[start:] {
		if !belongs(r) {
			return start + i
		}
	}
	return len(source)
}

func endOfNumber(source string, start int) int {
	end := endOfRun(source, start, isDigit)
	if end+1 < len(source) && source[end] == '.' && isDigit(rune(source[end+1])) {
		end = endOfRun(source, end+1, isDigit)
	}
	return end
}

// closed finds the end of quoted text. A backslash includes the character after it.
func closed(source string, start int, quote byte, of kind, why string) (kind, int, *Fault) {
	for i := start + 1; i < len(source); i++ {
		switch {
		case source[i] == quote:
			return of, i + 1, nil
		case source[i] == '\\' && quote == '"':
			i++
		}
	}
	return of, 0, &Fault{Offset: start, Why: why}
}
