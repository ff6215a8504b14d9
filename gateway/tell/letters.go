package tell

import (
	"fmt"
	"strings"
	"unicode"
	"unicode/utf16"
)

// hidden are the letters written by number in a text for people: control characters, zero width, and text direction.
var hidden = &unicode.RangeTable{
	R16: []unicode.Range16{
		{0x0000, 0x001f, 1}, {0x007f, 0x009f, 1}, {0x00ad, 0x00ad, 1}, {0x034f, 0x034f, 1}, {0x061c, 0x061c, 1}, {0x115f, 0x1160, 1},
		{0x17b4, 0x17b5, 1}, {0x180b, 0x180f, 1}, {0x200b, 0x200f, 1}, {0x2028, 0x202e, 1}, {0x2060, 0x206f, 1}, {0x2800, 0x2800, 1},
		{0x3164, 0x3164, 1}, {0xfe00, 0xfe0f, 1}, {0xfeff, 0xfeff, 1}, {0xffa0, 0xffa0, 1}, {0xfff9, 0xfffb, 1},
	},
	R32:         []unicode.Range32{{0x1d173, 0x1d17a, 1}, {0xe0000, 0xe007f, 1}, {0xe0100, 0xe01ef, 1}},
	LatinOffset: 3,
}

// addVisible adds a letter, by number if it is hidden.
func addVisible(to *page, letter rune) {
	switch {
	case letter >= ' ' && letter < 0x7f || !unicode.Is(hidden, letter):
		to.addRune(letter)
	case letter < 0x10000:
		fmt.Fprintf(to, `\u%04x`, letter)
	default:
		high, low := utf16.EncodeRune(letter)
		fmt.Fprintf(to, `\u%04x\u%04x`, high, low)
	}
}

// visible returns a text with its hidden letters written by number.
func visible(text string) string {
	var to page
	for _, letter := range text {
		addVisible(&to, letter)
	}
	return to.String()
}

// addSource adds the first letters of a FEEL text on one line.
func addSource(to *page, source string, most int) {
	for _, letter := range source {
		if most == 0 {
			return
		}
		most--
		switch letter {
		case '\\':
			to.WriteString(`\\`)
		case '\n':
			to.WriteString(`\n`)
		case '\r':
			to.WriteString(`\r`)
		case '\t':
			to.WriteString(`\t`)
		default:
			addVisible(to, letter)
		}
	}
}

// nameBlank is the no-break space, written by number in names.
const nameBlank = 0xa0

// addQuotedName adds the first letters of a name as addQuoted does; a visible blank is a plain one.
func addQuotedName(to *page, inner string, most int) (count int) {
	return addQuoted(to, strings.ReplaceAll(inner, string(rune(nameBlank)), fmt.Sprintf(`\u%04x`, nameBlank)), most)
}

// addQuoted adds the first letters of a JSON string in quotes, and returns how many letters it has. inner has no quotes. An
// escape is one letter, kept as it is.
func addQuoted(to *page, inner string, most int) (count int) {
	to.addByte('"')
	isEscape, digits := false, 0
	for _, sign := range inner {
		if !isEscape && digits == 0 {
			count++
		}
		if count <= most {
			switch {
			case isEscape && sign == 'b':
				to.WriteString("u0008")
			case isEscape && sign == 'f':
				to.WriteString("u000c")
			default:
				addVisible(to, sign)
			}
		}
		switch {
		case digits > 0:
			digits--
		case isEscape && sign == 'u':
			isEscape, digits = false, 4
		default:
			isEscape = !isEscape && sign == '\\'
		}
	}
	to.addByte('"')
	return count
}
