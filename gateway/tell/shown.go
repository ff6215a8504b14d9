package tell

import (
	"fmt"
	"strconv"
	"unicode/utf8"

	"gateway/feel/strict"
	"gateway/lines"
)

const (
	// mostParts limits the parts shown of a value, mostLetters the letters of a text.
	mostParts, mostLetters = 200, 200
	// mostExplained limits the bytes of an explanation's text, and of its decisions in JSON.
	mostExplained = 64 << 20
)

// A members holds the keys and values of a JSON object, alternating, as written.
type members [][]byte

func membersOf(raw []byte) members { return lines.Parts(raw) }

// get returns the value under a key, or nil.
func (m members) get(key string) []byte {
	for at := 0; at+1 < len(m); at += 2 {
		if inner(m[at]) == key {
			return m[at+1]
		}
	}
	return nil
}

// inner returns what is between the quotes of a string, with its escapes.
func inner(raw []byte) string {
	if len(raw) < 2 {
		return ""
	}
	return string(raw[1 : len(raw)-1])
}

func (m members) text(key string) string { return inner(m.get(key)) }

// number returns the number under a key, or 0.
func (m members) number(key string) uint64 {
	number, _ := strconv.ParseUint(string(m.get(key)), 10, 64)
	return number
}

func (m members) isTrue(key string) bool { return string(m.get(key)) == "true" }

func (m members) list(key string) [][]byte { return lines.Parts(m.get(key)) }

// addMore adds how many more there are than most.
func addMore(to *page, count, most int) {
	if count > most {
		fmt.Fprintf(to, ".. %d more", count-most)
	}
}

// addShown adds a JSON value. Names that are words have no quotes. Long values and texts are cut, with how much more there is.
func addShown(to *page, value []byte) {
	left := mostParts
	addValue(to, value, &left)
}

// addValue adds a value while parts are left.
func addValue(to *page, value []byte, left *int) {
	if *left > 0 {
		*left--
	}
	switch {
	case len(value) == 0:
	case value[0] == '[':
		addItems(to, value, left)
	case value[0] == '{':
		addMembers(to, value, left)
	case value[0] == '"':
		addText(to, inner(value))
	default:
		to.Write(value)
	}
}

// firstParts returns the first parts of a list or object, up to the limit, and how many there are.
func firstParts(value []byte) (first [][]byte, count int) {
	lines.EachPart(value, func(part []byte) {
		if count++; count <= 2*mostParts+2 {
			first = append(first, part)
		}
	})
	return first, count
}

func addItems(to *page, list []byte, left *int) {
	to.addByte('[')
	items, count := firstParts(list)
	for at, item := range items {
		if at > 0 {
			to.WriteString(", ")
		}
		if *left == 0 {
			addMore(to, count, at)
			break
		}
		addValue(to, item, left)
	}
	to.addByte(']')
}

func addMembers(to *page, context []byte, left *int) {
	to.addByte('{')
	parts, count := firstParts(context)
	for at := 0; at+1 < len(parts); at += 2 {
		if at > 0 {
			to.WriteString(", ")
		}
		if *left == 0 {
			addMore(to, count/2, at/2)
			break
		}
		addName(to, inner(parts[at]))
		to.WriteString(": ")
		addValue(to, parts[at+1], left)
	}
	to.addByte('}')
}

func addText(to *page, inner string) {
	addMore(to, addQuoted(to, inner, mostLetters), mostLetters)
}

// addExpression adds a FEEL expression, cut as a text is.
func addExpression(to *page, source string) {
	addSource(to, source, mostLetters)
	addMore(to, utf8.RuneCountInString(source), mostLetters)
}

// addName adds a name, in quotes unless it is a word.
func addName(to *page, name string) {
	if name != "" && !strict.IsDigit(name[0]) && word(name) == name {
		to.WriteString(name)
		return
	}
	addMore(to, addQuotedName(to, name, mostLetters), mostLetters)
}
