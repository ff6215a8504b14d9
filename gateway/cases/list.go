package cases

import (
	"bufio"
	"errors"
	"io"
)

// A listReader splits a JSON array into its items. Faults within items are found later.
type listReader struct {
	from         *bufio.Reader
	line, column int
	isBegun      bool
	isOver       bool
}

// byte reads a byte, and tracks its position.
func (r *listReader) byte() (byte, error) {
	c, err := r.from.ReadByte()
	if err != nil {
		return 0, err
	}
	r.column++
	if c == '\n' {
		r.line, r.column = r.line+1, 1
	}
	return c, nil
}

// read adds the next item to a batch's room.
func (r *listReader) read(b *Batch, record *Record) error {
	if r.isOver {
		return r.rest(record)
	}
	c, err := r.skip()
	if err == nil && !r.isBegun {
		r.isBegun = true
		if c, err = r.skip(); err == nil && c == ']' {
			r.isOver = true
			return r.rest(record)
		}
	}
	if err != nil {
		return r.ended(err, record)
	}
	record.Line, record.Column = r.line, r.column-1
	if c == '\n' {
		record.Line, record.Column = r.line, 1
	}
	return r.item(c, b, record)
}

// skip returns the next nonblank byte.
func (r *listReader) skip() (byte, error) {
	for {
		c, err := r.byte()
		if err != nil || c != ' ' && c != '\t' && c != '\r' && c != '\n' {
			return c, err
		}
	}
}

// item adds an item that begins with a byte, up to the comma after it or the list's end.
func (r *listReader) item(c byte, b *Batch, record *Record) (err error) {
	start, depth, isText, isEscaped, isLong := len(b.room), 0, false, false, false
	for ; ; c, err = r.byte() {
		if err != nil {
			b.room = b.room[:start]
			return r.ended(err, record)
		}
		switch {
		case isEscaped:
			isEscaped = false
		case isText:
			isText, isEscaped = c != '"', c == '\\'
		case c == '"':
			isText = true
		case c == '[' || c == '{':
			depth++
		case depth == 0 && (c == ',' || c == ']'):
			r.isOver = c == ']'
			if isLong {
				b.room, record.fault = b.room[:start], longRow(record.Line)
			}
			return nil
		case c == ']' || c == '}':
			depth--
		}
		if isLong = isLong || len(b.room)-start >= MaxRow; !isLong {
			b.room = append(b.room, c)
		}
	}
}

// ended makes the record of an unclosed list.
func (r *listReader) ended(err error, record *Record) error {
	if !errors.Is(err, io.EOF) {
		return err
	}
	r.isOver = true
	record.fault = &Fault{Line: r.line, Column: r.column, Reason: "the list is not closed: ] is due"}
	record.Line, record.Column = r.line, r.column
	return nil
}

// rest looks for something after the list.
func (r *listReader) rest(record *Record) error {
	if _, err := r.skip(); err != nil {
		return err
	}
	record.Line, record.Column = r.line, r.column-1
	record.fault = &Fault{Line: record.Line, Column: record.Column, Reason: "something is after the list"}
	_, err := r.from.WriteTo(io.Discard)
	return err
}
