package tell

import (
	"bytes"
	"unicode/utf8"

	"gateway/lines"
)

// A foreign is what a text is that is not JSON from its first bytes on.
type foreign uint8

const (
	notForeign foreign = iota
	foreignXML
	foreignUTF16
	foreignMark
	foreignBytes
)

// hint returns a hint, or "" if the text isn't foreign.
func (f foreign) hint() string {
	switch f {
	case foreignXML:
		return "this is XML: a file of DMN is read by desk import"
	case foreignUTF16:
		return "this is UTF-16: save it as UTF-8"
	case foreignMark:
		return "it begins with a byte order mark: save it without one"
	case foreignBytes:
		return "save it as UTF-8"
	}
	return ""
}

// foreignOf identifies a text by its first bytes, or by bytes that are not UTF-8.
func foreignOf(text []byte) foreign {
	if bytes.HasPrefix(text, []byte("\xFF\xFE")) || bytes.HasPrefix(text, []byte("\xFE\xFF")) {
		return ofPairs(text[2:])
	}
	if firstPair(text) != 0 {
		return ofPairs(text)
	}
	rest := bytes.TrimPrefix(text, []byte("\xEF\xBB\xBF"))
	switch {
	case lines.Begins(rest) == '<':
		return foreignXML
	case len(rest) < len(text):
		return foreignMark
	case !utf8.Valid(text):
		return foreignBytes
	}
	return notForeign
}

// firstPair returns the first character of a UTF-16 text if it is ASCII, else 0.
func firstPair(text []byte) byte {
	switch {
	case len(text) < 2:
		return 0
	case text[0] == 0:
		return text[1]
	case text[1] == 0:
		return text[0]
	}
	return 0
}

func ofPairs(text []byte) foreign {
	if firstPair(text) == '<' {
		return foreignXML
	}
	return foreignUTF16
}

// A stop is where a text stops being JSON, and what it is if it is foreign.
type stop struct {
	*lines.Stop
	foreign foreign
}

// stopOf returns nil if the text is JSON.
func stopOf(text []byte) *stop {
	at := lines.StopOf(text)
	if at == nil {
		return nil
	}
	it := &stop{at, foreignOf(text)}
	if at.Due == lines.NoUTF8 && it.foreign != foreignBytes {
		// Its first bytes identify it.
		due := *at
		due.Due = lines.DueValue
		it.Stop = &due
	}
	return it
}
