package dmn

import (
	"bytes"
	"fmt"
	"unicode/utf8"
)

// A Place is a line and a column of a file, both from 1. Columns are characters.
type Place struct{ Line, Column int }

// A Fault is a place of a file that can't be read.
type Fault struct {
	Place Place
	// Element is the element at the place; nil if the file has none there.
	Element *Element
	// Text is what is there; it may be empty.
	Text string
	// Why says what is wrong.
	Why string
	// Instead says what to write; it may be empty.
	Instead string
}

func (f *Fault) Error() string {
	return fmt.Sprintf("line %d, column %d: %s", f.Place.Line, f.Place.Column, f.Why)
}

// placeIn returns the place of a byte in a text.
func placeIn(text []byte, offset int) Place {
	before := text[:offset]
	start := bytes.LastIndexByte(before, '\n') + 1
	return Place{Line: 1 + bytes.Count(before, []byte{'\n'}), Column: 1 + utf8.RuneCount(before[start:])}
}

// A ruler finds the places of ascending offsets in one pass over a text.
type ruler struct {
	text   []byte
	offset int
	at     Place
}

func newRuler(text []byte) *ruler { return &ruler{text: text, at: Place{Line: 1, Column: 1}} }

// place returns the place of a byte, which must not be before the last one.
func (r *ruler) place(offset int) Place {
	passed := r.text[r.offset:offset]
	if newlines := bytes.Count(passed, []byte{'\n'}); newlines > 0 {
		r.at.Line += newlines
		r.at.Column = 1
		passed = passed[bytes.LastIndexByte(passed, '\n')+1:]
	}
	r.at.Column += utf8.RuneCount(passed)
	r.offset = offset
	return r.at
}
