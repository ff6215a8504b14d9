package cases

import (
	"bytes"
	"encoding/json"
	"fmt"
	"unicode/utf8"

	"gateway/lines"
)

// A kind is what a type allows, as far as it matters for reading a cell.
type kind struct {
	isText, isNumber, isTruth, isOther bool
	// format is a text's format in JSON Schema: date, date-time.
	format string
	// properties has an object's properties, by word.
	properties map[string]json.RawMessage
}

// kindOf returns the kind of a JSON Schema; without one it is empty.
func kindOf(schema json.RawMessage) kind {
	var form struct {
		Type       any                        `json:"type"`
		Format     string                     `json:"format"`
		Properties map[string]json.RawMessage `json:"properties"`
	}
	if schema == nil || json.Unmarshal(schema, &form) != nil {
		return kind{}
	}
	all, is := form.Type.([]any)
	if !is {
		all = []any{form.Type}
	}
	k := kind{properties: form.Properties, format: form.Format}
	for _, name := range all {
		switch name {
		case "string":
			k.isText = true
		case "number", "integer":
			k.isNumber = true
		case "boolean":
			k.isTruth = true
		case "array", "object":
			k.isOther = true
		}
	}
	return k
}

// is reports whether a kind allows exactly these.
func (k kind) is(other kind) bool {
	return k.isText == other.isText && k.isNumber == other.isNumber && k.isTruth == other.isTruth && k.isOther == other.isOther
}

var (
	text   = kind{isText: true}
	number = kind{isNumber: true}
	truth  = kind{isTruth: true}
	parts  = kind{isOther: true}
)

// appendValue adds the value of a nonempty cell as JSON, or says why it has none.
func (k kind) appendValue(to, cell []byte, comma bool) ([]byte, string) {
	if !utf8.Valid(cell) {
		return to, notUTF8
	}
	trimmed := bytes.TrimSpace(cell)
	switch {
	case string(trimmed) == "null":
		return append(to, "null"...), ""
	case isSheetFault(trimmed):
		return to, fmt.Sprintf("%s is a fault of the spreadsheet", shown(trimmed))
	case k.is(text) && k.format != "":
		return lines.AppendQuoted(to, string(isoDate(trimmed))), ""
	case k.is(text):
		return appendText(to, cell), ""
	case k.is(truth):
		if word := truthOf(trimmed, true); word != "" {
			return append(to, word...), ""
		}
		return to, fmt.Sprintf("%s is not true or false", shown(cell))
	case k.is(number):
		made, ok := appendNumber(to, trimmed, comma)
		if !ok {
			return to, noNumber(cell, trimmed, comma)
		}
		return made, ""
	case k.is(parts):
		return appendJSON(to, trimmed)
	}
	return appendAny(to, cell, trimmed, comma)
}

// appendAny adds the value of a cell of unknown type: a number, true, false, JSON, or else a text.
func appendAny(to, cell, trimmed []byte, comma bool) ([]byte, string) {
	if len(trimmed) == 0 {
		return lines.AppendQuoted(to, string(cell)), ""
	}
	if word := truthOf(trimmed, false); word != "" {
		return append(to, word...), ""
	}
	switch c := trimmed[0]; {
	case c == '[' || c == '{':
		return appendJSON(to, trimmed)
	case c == '"':
		return appendText(to, cell), ""
	case isShortened(trimmed):
		return to, noNumber(cell, trimmed, comma) + inQuotes
	case c != '-' && (c < '0' || c > '9'), isCode(trimmed):
		return lines.AppendQuoted(to, string(cell)), ""
	}
	made, ok := appendNumber(to, trimmed, comma)
	switch {
	case ok:
		return made, ""
	case isNumeral(trimmed):
		return to, noNumber(cell, trimmed, comma) + inQuotes
	}
	return lines.AppendQuoted(to, string(cell)), ""
}

const inQuotes = "; in quotes within the cell it is a text"

// isCode reports whether digits begin with a zero, as a postal code may.
func isCode(text []byte) bool {
	if len(text) < 2 || text[0] != '0' {
		return false
	}
	for _, c := range text {
		if c < '0' || c > '9' {
			return false
		}
	}
	return true
}

// isNumeral reports whether a text has digits with one point or comma, or groups of three.
func isNumeral(text []byte) bool {
	text = bytes.TrimPrefix(text, []byte("-"))
	pieces := bytes.FieldsFunc(text, func(r rune) bool { return r == '.' || r == ',' })
	for _, piece := range pieces {
		for _, c := range piece {
			if c < '0' || c > '9' {
				return false
			}
		}
	}
	groups := len(pieces) > 2
	for at := 1; at < len(pieces)-1; at++ {
		groups = groups && len(pieces[at]) == 3
	}
	return len(pieces) == 2 || groups
}

// appendText adds a text; for a JSON string in quotes, its value.
func appendText(to, cell []byte) []byte {
	if cell[0] == '"' {
		if _, fault := lines.Whole(cell, 0); fault == nil {
			return append(to, bytes.TrimSpace(cell)...)
		}
	}
	return lines.AppendQuoted(to, string(cell))
}

func appendJSON(to, cell []byte) ([]byte, string) {
	if c := cell[0]; c != '[' && c != '{' {
		return to, fmt.Sprintf("%s is no list or object of JSON", shown(cell))
	}
	if _, fault := lines.Whole(cell, lines.MaxNesting-2); fault != nil {
		return to, fmt.Sprintf("character %d of the cell: %s", fault.Offset+1, fault.Reason)
	}
	return append(to, lines.OneLine(cell, len(cell))...), ""
}

// noNumber says that a cell is not a number.
func noNumber(cell, trimmed []byte, comma bool) string {
	switch {
	case isShortened(trimmed):
		return fmt.Sprintf("%s is a number that the spreadsheet shortened: give its column a format with all digits", shown(cell))
	case !isNumeral(trimmed):
		return fmt.Sprintf("%s is not a number", shown(cell))
	case comma:
		return fmt.Sprintf("%s is not a number: with --comma it has a decimal comma, and no points", shown(cell))
	}
	return fmt.Sprintf("%s is not a number: it has a decimal point, and no commas; --comma reads decimal commas", shown(cell))
}

// appendNumber adds a number in JSON's form: +007,50 with a decimal comma is 7.5.
func appendNumber(to, text []byte, comma bool) (_ []byte, ok bool) {
	point := byte('.')
	if comma {
		point = ','
	}
	isNegative := len(text) > 0 && text[0] == '-'
	if isNegative || len(text) > 0 && text[0] == '+' {
		text = text[1:]
	}
	whole, part := text, []byte(nil)
	if at := bytes.IndexByte(text, point); at >= 0 {
		whole, part = text[:at], text[at+1:]
	}
	if len(whole)+len(part) == 0 || !areDigits(whole) || !areDigits(part) {
		return to, false
	}
	whole, part = bytes.TrimLeft(whole, "0"), bytes.TrimRight(part, "0")
	if isNegative && len(whole)+len(part) > 0 {
		to = append(to, '-')
	}
	if len(whole) == 0 {
		whole = []byte("0")
	}
	to = append(to, whole...)
	if len(part) > 0 {
		to = append(append(to, '.'), part...)
	}
	return to, true
}

func areDigits(text []byte) bool {
	for _, c := range text {
		if c < '0' || c > '9' {
			return false
		}
	}
	return true
}

// shown returns a text as in messages.
func shown(text []byte) string {
	return string(lines.AppendQuoted(nil, lines.Brief(bytes.ToValidUTF8(text, []byte("?")), 60)))
}
