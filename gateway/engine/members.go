package engine

import (
	"bytes"
	"encoding/json"
	"strconv"
)

// Engines write compact JSON, so its parts can be found without parsing what is in them.

// eachMember passes each member of an object to take: its key as written, without quotes, and its value.
func eachMember(object []byte, take func(key, value []byte)) {
	if len(object) == 0 || object[0] != '{' {
		return
	}
	for at := 1; at < len(object) && object[at] == '"'; at++ {
		end := textEnd(object, at)
		start := end + 1
		if start >= len(object) {
			return
		}
		key := object[at+1 : end-1]
		at = valueEnd(object, start)
		take(key, object[start:at])
	}
}

// valueEnd returns where the value at a place ends.
func valueEnd(text []byte, at int) int {
	depth := 0
	for at < len(text) {
		switch text[at] {
		case '"':
			at = textEnd(text, at)
			continue
		case '{', '[':
			depth++
		case '}', ']':
			if depth == 0 {
				return at
			}
			depth--
		case ',':
			if depth == 0 {
				return at
			}
		}
		at++
	}
	return at
}

// textEnd returns where the text in quotes at a place ends.
func textEnd(text []byte, at int) int {
	for at++; at < len(text); at++ {
		next := bytes.IndexByte(text[at:], '"')
		if next < 0 {
			return len(text)
		}
		at += next
		slashes := 0
		for text[at-1-slashes] == '\\' {
			slashes++
		}
		if slashes%2 == 0 {
			return at + 1
		}
	}
	return at
}

// unquoted returns the text in quotes.
func unquoted(quoted []byte) string {
	if len(quoted) > 1 && bytes.IndexByte(quoted, '\\') < 0 {
		return string(quoted[1 : len(quoted)-1])
	}
	var text string
	if json.Unmarshal(quoted, &text) != nil {
		return string(quoted)
	}
	return text
}

func decimal(n int) string { return strconv.Itoa(n) }
