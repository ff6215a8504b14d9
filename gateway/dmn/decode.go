package dmn

import (
	"bytes"
	"encoding/binary"
	"regexp"
	"strings"
	"unicode/utf16"
	"unicode/utf8"
)

// declaredEncoding finds the encoding in an XML declaration at the start of a file.
var declaredEncoding = regexp.MustCompile(`^<\?xml[^>]*?encoding\s*=\s*["']([A-Za-z0-9._-]+)["']`)

const (
	saveAsUTF8  = "save the file as UTF-8"
	endOfHeader = 1024
)

// asUTF8 converts a file to UTF-8 without a byte order mark. The byte order mark gives the encoding, else the XML declaration,
// else it is UTF-8.
func asUTF8(raw []byte) ([]byte, *Fault) {
	switch {
	case bytes.HasPrefix(raw, []byte{0x1f, 0x8b}):
		return nil, &Fault{Why: "this is gzip, and no XML", Instead: "the file that is packed in it, by gunzip"}
	case bytes.HasPrefix(raw, []byte("PK\x03\x04")):
		return nil, &Fault{Why: "this is a zip archive, and no XML", Instead: "the .dmn file that is packed in it, by unzip"}
	case bytes.HasPrefix(raw, []byte{0, 0, 0xfe, 0xff}), bytes.HasPrefix(raw, []byte{0xff, 0xfe, 0, 0}):
		return nil, &Fault{Why: "the encoding is UTF-32", Instead: saveAsUTF8}
	case bytes.HasPrefix(raw, []byte{0xef, 0xbb, 0xbf}):
		return checkedUTF8(raw[3:])
	case bytes.HasPrefix(raw, []byte{0xff, 0xfe}):
		return fromUTF16(raw[2:], binary.LittleEndian)
	case bytes.HasPrefix(raw, []byte{0xfe, 0xff}):
		return fromUTF16(raw[2:], binary.BigEndian)
	case bytes.HasPrefix(raw, []byte{'<', 0}):
		return fromUTF16(raw, binary.LittleEndian)
	case bytes.HasPrefix(raw, []byte{0, '<'}):
		return fromUTF16(raw, binary.BigEndian)
	}
	switch encoding := declared(raw); strings.ToLower(encoding) {
	case "", "utf-8", "utf8", "us-ascii", "ascii":
		return checkedUTF8(raw)
	case "iso-8859-1", "latin1", "iso8859-1":
		return fromLatin1(raw), nil
	default:
		return nil, &Fault{Text: encoding, Why: "the file is not in the encoding that it declares, or it is not read",
			Instead: saveAsUTF8}
	}
}

// declared returns the encoding named in a file's XML declaration, or "".
func declared(raw []byte) string {
	head := raw
	if len(head) > endOfHeader {
		head = head[:endOfHeader]
	}
	found := declaredEncoding.FindSubmatch(head)
	if found == nil {
		return ""
	}
	return string(found[1])
}

func checkedUTF8(raw []byte) ([]byte, *Fault) {
	if utf8.Valid(raw) {
		return raw, nil
	}
	offset := 0
	for {
		r, size := utf8.DecodeRune(raw[offset:])
		if r == utf8.RuneError && size <= 1 {
			return nil, &Fault{Place: placeIn(raw, offset), Why: "the bytes are no UTF-8", Instead: saveAsUTF8}
		}
		offset += size
	}
}

func fromUTF16(raw []byte, order binary.ByteOrder) ([]byte, *Fault) {
	if len(raw)%2 != 0 {
		return nil, &Fault{Why: "the file ends within a character of UTF-16", Instead: saveAsUTF8}
	}
	units := make([]uint16, len(raw)/2)
	for i := range units {
		units[i] = order.Uint16(raw[2*i:])
	}
	text := []byte(string(utf16.Decode(units)))
	if at := bytes.IndexRune(text, utf8.RuneError); at >= 0 {
		return nil, &Fault{Place: placeIn(text, at), Why: "a half of a pair of UTF-16 stands alone", Instead: saveAsUTF8}
	}
	return text, nil
}

func fromLatin1(raw []byte) []byte {
	text := make([]rune, len(raw))
	for i, b := range raw {
		text[i] = rune(b)
	}
	return []byte(string(text))
}
