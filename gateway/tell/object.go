package tell

import (
	"strconv"

	"gateway/lines"
)

// quoted returns a text in quotes, as the engine writes it.
func quoted(text string) string { return string(lines.AppendQuoted(nil, text)) }

// An object is a JSON object as far as it is written.
type object []byte

func (o object) key(key string) object {
	if len(o) == 0 {
		o = append(o, '{')
	} else {
		o = append(o, ',')
	}
	return append(lines.AppendQuoted(o, key), ':')
}

func (o object) text(key, text string) object { return lines.AppendQuoted(o.key(key), text) }

// some adds a text unless it is empty.
func (o object) some(key, text string) object {
	if text == "" {
		return o
	}
	return o.text(key, text)
}

func (o object) number(key string, number int) object {
	return strconv.AppendInt(o.key(key), int64(number), 10)
}

// position adds a spot, with its file unless that is the one checked.
func (o object) position(spot Spot) object {
	return o.some("file", spot.File).number("line", spot.Line).number("column", spot.Column)
}

// line returns the whole object, with a newline.
func (o object) line() string {
	if len(o) == 0 {
		return "{}\n"
	}
	return string(append(o, '}', '\n'))
}

// raw adds JSON.
func (o object) raw(key, json string) object { return append(o.key(key), json...) }
