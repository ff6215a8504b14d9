package cases

import (
	"bytes"
	"errors"
	"fmt"
	"io"
	"strings"
	"unicode/utf8"
)

// A cell is a part of a record: its text, without the quotes around it.
type cell struct {
	start, end int
	// isDoubled means that it is quoted and contains doubled quotes.
	isDoubled bool
}

// text returns the cell's value; room is used if that isn't written as it is.
func (c cell) text(record, room []byte) []byte {
	text := record[c.start:c.end]
	if !c.isDoubled {
		return text
	}
	return append(room[:0], bytes.ReplaceAll(text, []byte(`""`), []byte(`"`))...)
}

// A quoteFault is where a record's quotes are wrong.
type quoteFault struct {
	offset int
	reason string
	// isOpen means that the record ends within quotes.
	isOpen bool
}

// cells adds the cells of a record (RFC 4180), up to the first with a fault.
func cells(to []cell, text []byte, separator byte) ([]cell, *quoteFault) {
	for at := 0; ; {
		it, next, fault := cellAt(text, at, separator)
		if fault != nil {
			return to, fault
		}
		to = append(to, it)
		if next == len(text) {
			return to, nil
		}
		at = next + 1
	}
}

// cellAt returns the cell that begins at a place; next is the separator after it, or the end.
func cellAt(text []byte, at int, separator byte) (it cell, next int, _ *quoteFault) {
	if at == len(text) || text[at] != '"' {
		length := bytes.IndexByte(text[at:], separator)
		if length < 0 {
			length = len(text) - at
		}
		if quote := bytes.IndexByte(text[at:at+length], '"'); quote >= 0 {
			return it, 0, &quoteFault{offset: at + quote, reason: `a quote within a cell: put the cell in quotes, and write "" for the quote`}
		}
		return cell{start: at, end: at + length}, at + length, nil
	}
	it.start = at + 1
	for end := it.start; ; end += 2 {
		length := bytes.IndexByte(text[end:], '"')
		if length < 0 {
			return it, 0, &quoteFault{offset: at, reason: "the quote that begins here is not closed", isOpen: true}
		}
		end += length
		if end+1 < len(text) && text[end+1] == '"' {
			it.isDoubled = true
			continue
		}
		it.end = end
		if end+1 < len(text) && text[end+1] != separator {
			return it, 0, &quoteFault{offset: end + 1, reason: "a separator is due after the closing quote"}
		}
		return it, end + 1, nil
	}
}

// isOpenAfter reports whether a line ends within quotes, given whether it begins within some; ok means that its quotes are
// right.
func isOpenAfter(line []byte, isOpen bool, separator byte) (_, ok bool) {
	at := 0
	if isOpen {
		end := closing(line)
		if end < 0 {
			return true, true
		}
		if at = end + 1; at < len(line) && line[at] != separator {
			return false, false
		}
		at++
	}
	for at <= len(line) {
		_, next, fault := cellAt(line, at, separator)
		if fault != nil {
			return fault.isOpen, fault.isOpen
		}
		at = next + 1
	}
	return false, true
}

// closing returns the index of the first quote that isn't doubled, or -1.
func closing(text []byte) int {
	for at := 0; ; at += 2 {
		length := bytes.IndexByte(text[at:], '"')
		if length < 0 {
			return -1
		}
		if at += length; at+1 == len(text) || text[at+1] != '"' {
			return at
		}
	}
}

// readCSV adds the next record: one line, or several if line ends are in quotes. A record with wrong quotes ends with its first
// line, so that later lines are read normally.
func (f *File) readCSV(b *Batch, record *Record) error {
	start := len(b.room)
	room, isLong, err := f.lines.next(b.room)
	if err != nil {
		return err
	}
	record.Line = f.lines.number
	first := len(room)
	isOpen, ok := false, true
	if !isLong && bytes.IndexByte(room[start:], '"') >= 0 {
		isOpen, ok = isOpenAfter(withoutEnd(room[start:]), false, f.Separator)
	}
	for isOpen && ok && !isLong {
		begin := len(room)
		if room, isLong, err = f.lines.next(room); errors.Is(err, io.EOF) {
			break
		} else if err != nil {
			return err
		}
		isOpen, ok = isOpenAfter(withoutEnd(room[begin:]), true, f.Separator)
		isLong = isLong || len(room)-start > MaxRow
	}
	if len(room) > first && (isOpen || !ok || isLong) {
		f.lines.putBack(room[first:], isLong && len(room)-first > MaxRow)
		room, isLong = room[:first], false
	}
	b.room = room[:start+len(withoutEnd(room[start:]))]
	if isLong {
		b.room, record.fault = b.room[:start], longRow(record.Line)
	}
	return nil
}

// separators are those searched for in a header.
const separators = ";,\t|"

// readHeader reads the header, and Excel's line with the separator before it.
func (f *File) readHeader() *Fault {
	f.Separator = f.options.Separator
	text, fault := f.headerLine()
	if fault != nil {
		return fault
	}
	if rest := bytes.TrimPrefix(text, []byte("sep=")); len(rest) == 1 && len(text) == len("sep=")+1 {
		f.Separator = rest[0]
		if text, fault = f.headerLine(); fault != nil {
			return fault
		}
	}
	if f.Separator == 0 {
		f.Separator = separatorOf(text, f.options.Comma)
	}
	f.headerAt, f.header = f.lines.number, text
	line := f.headerAt
	found, wrong := cells(nil, text, f.Separator)
	if wrong != nil {
		return &Fault{Line: line, Column: wrong.offset + 1, Reason: wrong.reason}
	}
	seen := make(map[string]int, len(found))
	for at, it := range found {
		name := canonical(string(it.text(text, nil)))
		if name != "" && name[0] != asideMark {
			if before, is := seen[name]; is {
				return &Fault{Line: line, Column: it.start + 1,
					Reason: fmt.Sprintf("columns %d and %d both have the name %q", before, at+1, name)}
			}
			seen[name] = at + 1
		}
		f.Header = append(f.Header, name)
	}
	return nil
}

// headerLine returns the next nonempty line.
func (f *File) headerLine() ([]byte, *Fault) {
	for {
		line, isLong, err := f.lines.next(nil)
		number := f.lines.number
		text := withoutEnd(line)
		switch {
		case errors.Is(err, io.EOF):
			return nil, &Fault{Line: number + 1, Reason: "a header is due: the names of the columns"}
		case err != nil:
			return nil, &Fault{Line: number + 1, Reason: err.Error()}
		case isLong:
			return nil, longRow(number)
		case !utf8.Valid(text):
			return nil, &Fault{Line: number, Column: invalidAt(text) + 1, Reason: notUTF8 + ", or read it with --encoding windows-1252"}
		case bytes.IndexByte(text, '\r') >= 0:
			return nil, &Fault{Line: number, Column: bytes.IndexByte(text, '\r') + 1,
				Reason: "a carriage return without a line feed: save the file with line ends of Windows or Unix"}
		case len(bytes.TrimSpace(text)) > 0:
			return text, nil
		}
	}
}

const notUTF8 = "a byte is not UTF-8: save the file as UTF-8"

func invalidAt(text []byte) int {
	at := 0
	for at < len(text) {
		r, size := utf8.DecodeRune(text[at:])
		if r == utf8.RuneError && size == 1 {
			break
		}
		at += size
	}
	return at
}

// separatorOf returns the separator that is most frequent outside of quotes.
func separatorOf(header []byte, comma bool) byte {
	counts, isQuoted := [256]int{}, false
	for _, c := range header {
		if c == '"' {
			isQuoted = !isQuoted
		} else if !isQuoted {
			counts[c]++
		}
	}
	best := byte(',')
	if comma {
		best = ';'
	}
	for _, c := range []byte(separators) {
		if counts[c] > counts[best] {
			best = c
		}
	}
	return best
}

// canonical returns a name with single blanks, and none around it.
func canonical(name string) string {
	return strings.Join(strings.Fields(name), " ")
}

// appendCell adds a text as a cell, in quotes if needed.
func appendCell(to []byte, text []byte, separator byte) []byte {
	isPlain := len(text) == 0 || text[0] != ' ' && text[len(text)-1] != ' '
	for _, c := range text {
		isPlain = isPlain && c != '"' && c != separator && c != '\n' && c != '\r'
	}
	if isPlain {
		return append(to, text...)
	}
	to = append(to, '"')
	to = append(to, bytes.ReplaceAll(text, []byte(`"`), []byte(`""`))...)
	return append(to, '"')
}
