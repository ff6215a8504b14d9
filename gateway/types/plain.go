package types

import (
	"bytes"
	"strconv"

	"gateway/lines"
)

// HoldsPlain reports whether a value visibly has this type, without reading its text into a tree. If not, Check decides. The
// text is valid JSON without blanks around it.
func (t *Type) HoldsPlain(text []byte) bool {
	r := lines.PlainOf(text)
	return t.holds(&r) && r.IsAtEnd()
}

// Any is the type of untyped values.
var Any = &Type{}

// or returns the type itself, or Any for nil.
func (t *Type) or() *Type {
	if t == nil {
		return Any
	}
	return t
}

// holds reads a value, and reports whether it visibly has this type.
func (t *Type) holds(r *lines.Plain) bool {
	switch r.Peek() {
	case '{':
		return t.takes("object") && len(t.enum) == 0 && r.Parts('}', func() bool { return t.holdsMember(r) })
	case '[':
		return t.takes("array") && len(t.enum) == 0 && r.Parts(']', func() bool { return t.items.or().holds(r) })
	}
	text := r.Scalar()
	if len(text) == 0 || !t.isListedText(text) {
		return false
	}
	switch text[0] {
	case '"':
		return t.takes("string")
	case 't', 'f':
		return t.takes("boolean")
	case 'n':
		return t.takes("null")
	}
	return (t.takes("integer") || t.takes("number")) && t.holdsNumber(text)
}

// holdsMember reads an object's member. Each member of a repeated key must have the type.
func (t *Type) holdsMember(r *lines.Plain) bool {
	key, isSeen := r.Key()
	return isSeen && t.properties[string(key)].or().holds(r)
}

func (t *Type) takes(kind string) bool {
	for _, own := range t.kinds {
		if own == kind {
			return true
		}
	}
	return len(t.kinds) == 0
}

// isListedText reports whether a value is among the allowed ones as written.
func (t *Type) isListedText(text []byte) bool {
	for _, listed := range t.listed {
		if string(text) == listed {
			return true
		}
	}
	return len(t.enum) == 0
}

// mostCharacters is the length up to which a whole number is surely in range.
const mostCharacters = 18

// holdsNumber reports whether a number is short, whole and within the bounds.
func (t *Type) holdsNumber(text []byte) bool {
	digits := bytes.TrimPrefix(text, []byte("-"))
	isNegative := len(digits) < len(text)
	if !t.unit.IsWhole() || len(digits) == 0 || len(text) > mostCharacters || isNegative && digits[0] == '0' {
		return false
	}
	number := int64(0)
	for _, c := range digits {
		if c < '0' || c > '9' {
			return false
		}
		number = number*10 + int64(c-'0')
	}
	if isNegative {
		number = -number
	}
	return t.bounds(number)
}

// PlainUnits returns a number as the engine has it, if that is visible without reading its text into a tree. If not, Units
// decides. The text is valid JSON without blanks around it.
func (t *Type) PlainUnits(text []byte) (units []byte, isSeen bool) {
	if t.moment != nil || len(t.enum) > 0 || t.unit.Per > 1 || !t.takes("number") || len(text) > mostCharacters {
		return nil, false
	}
	number, decimals, fine := plainDecimal(text)
	for ; fine && decimals > t.unit.Decimals; decimals-- {
		fine = number%10 == 0
		number /= 10
	}
	for ; fine && decimals < t.unit.Decimals; decimals++ {
		fine = number < mostPlain && number > -mostPlain
		number *= 10
	}
	if !fine || !t.bounds(number) {
		return nil, false
	}
	return strconv.AppendInt(make([]byte, 0, mostCharacters+2), number, 10), true
}

// mostPlain is a number that stays in range times ten.
const mostPlain = lines.MaxNumber / 10

// plainDecimal returns the digits of a short number as a whole number, and how many follow its point.
func plainDecimal(text []byte) (number int64, decimals int, fine bool) {
	digits := bytes.TrimPrefix(text, []byte("-"))
	if point := bytes.IndexByte(digits, '.'); point >= 0 {
		decimals = len(digits) - point - 1
	}
	for _, c := range digits {
		switch {
		case c >= '0' && c <= '9':
			number = number*10 + int64(c-'0')
		case c != '.':
			return 0, 0, false
		}
	}
	if len(digits) < len(text) {
		number = -number
	}
	return number, decimals, len(digits) > 0
}

// bounds reports whether a number in the type's unit is within the bounds, if these are whole in it.
func (t *Type) bounds(number int64) bool {
	for _, end := range t.ends {
		if !end.isWhole || end.open && number == end.whole || end.below && number < end.whole || !end.below && number > end.whole {
			return false
		}
	}
	return true
}
