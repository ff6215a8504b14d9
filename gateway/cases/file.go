package cases

import (
	"bufio"
	"bytes"
	"errors"
	"fmt"
	"io"
	"path/filepath"
	"strings"
	"sync/atomic"
)

// A Form is the form of a file's rows.
type Form int

// Forms of files. A line of Lines is an object of inputs, or a request as serve reads it.
const (
	CSV Form = iota
	Lines
	List
)

// Options says how a file is read.
type Options struct {
	// Comma means a decimal comma in CSV.
	Comma bool
	// Separator separates CSV cells; 0 means it is found in the header.
	Separator byte
	// IsANSI means that a file not marked as UTF-8 or UTF-16 is Windows-1252.
	IsANSI bool
	// Unknown means that unknown columns and members are ignored.
	Unknown bool
}

// A Record is a row as in a file.
type Record struct {
	// Line and Column are where it begins, from 1. Columns are bytes.
	Line, Column int
	// Text has no line end.
	Text  []byte
	fault *Fault
}

// A Batch is some consecutive records.
type Batch struct {
	Records []Record
	ends    []int
	room    []byte
}

const (
	// batchRows and batchBytes limit a batch, which has at least one row. An explained batch has more rows, as a process is
	// started for each.
	batchRows     = 256
	explainedRows = 2500
	batchBytes    = 256 << 10
)

// A File is an open file of rows. Read must not be called concurrently.
type File struct {
	Form Form
	// Header has a CSV file's column names.
	Header []string
	// Separator is a CSV file's separator.
	Separator byte
	// headerAt is the header's line number, header its text.
	headerAt int
	header   []byte
	options  Options
	lines    lineReader
	list     listReader
	count    *counter
}

// A counter counts the bytes read.
type counter struct {
	from io.Reader
	read atomic.Int64
}

func (c *counter) Read(to []byte) (int, error) {
	n, err := c.from.Read(to)
	c.read.Add(int64(n))
	return n, err
}

// Open reads the start of a file. The form is that of its extension (.csv, .jsonl), or is found in its first bytes.
func Open(name string, from io.Reader, options Options) (*File, error) {
	count := &counter{from: from}
	text := decoded(count, options.IsANSI)
	f := &File{options: options, count: count, lines: lineReader{from: text}}
	first, err := firstByte(text)
	if err != nil && !errors.Is(err, io.EOF) {
		return nil, fmt.Errorf("reading %s: %w", name, err)
	}
	switch extension := strings.ToLower(filepath.Ext(name)); {
	case extension == ".csv":
	case first == '[':
		f.Form, f.list = List, listReader{from: text, line: 1, column: 1}
		return f, nil
	case first == '{', extension == ".jsonl", extension == ".json":
		f.Form = Lines
		return f, nil
	}
	if fault := f.readHeader(); fault != nil {
		return nil, fmt.Errorf("%w: %s:%v", ErrForm, name, fault)
	}
	return f, nil
}

// mostBlanks limits the blanks before the first byte of JSON.
const mostBlanks = 1000

// firstByte returns the first nonblank byte, without reading it.
func firstByte(from *bufio.Reader) (byte, error) {
	begin, err := from.Peek(1)
	for n := 1; len(begin) == n && n < mostBlanks; n++ {
		if c := begin[n-1]; !bytes.ContainsRune([]byte(" \t\r\n"), rune(c)) {
			return c, nil
		}
		begin, err = from.Peek(n + 1)
	}
	return 0, err
}

// Done returns how many bytes of the file were read. Any goroutine may call it.
func (f *File) Done() int64 { return f.count.read.Load() }

// Read fills a batch, whose records are valid until it is filled again. It returns io.EOF at the end.
func (f *File) Read(b *Batch) error { return f.read(b, batchRows) }

// read fills a batch with at most this many rows.
func (f *File) read(b *Batch, most int) error {
	b.Records, b.ends, b.room = b.Records[:0], b.ends[:0], b.room[:0]
	for len(b.Records) < most && len(b.room) < batchBytes {
		record := Record{Column: 1}
		start := len(b.room)
		err := f.readRecord(b, &record)
		if err != nil {
			if !errors.Is(err, io.EOF) {
				return fmt.Errorf("reading the rows: %w", err)
			}
			break
		}
		if record.fault == nil && f.isBlank(b.room[start:]) {
			b.room = b.room[:start]
			continue
		}
		b.Records, b.ends = append(b.Records, record), append(b.ends, len(b.room))
	}
	start := 0
	for at := range b.Records {
		b.Records[at].Text, start = b.room[start:b.ends[at]:b.ends[at]], b.ends[at]
	}
	if len(b.Records) == 0 {
		return io.EOF
	}
	return nil
}

// isBlank reports whether a record is empty. In a line of tabs these separate cells.
func (f *File) isBlank(text []byte) bool {
	return len(bytes.TrimSpace(text)) == 0 && (f.Form != CSV || f.Separator != '\t' || bytes.IndexByte(text, '\t') < 0)
}

// readRecord adds the next record's text to a batch's room.
func (f *File) readRecord(b *Batch, record *Record) error {
	switch f.Form {
	case CSV:
		return f.readCSV(b, record)
	case List:
		return f.list.read(b, record)
	}
	start := len(b.room)
	room, isLong, err := f.lines.next(b.room)
	if err != nil {
		return err
	}
	b.room = room[:start+len(withoutEnd(room[start:]))]
	record.Line = f.lines.number
	if isLong {
		b.room, record.fault = b.room[:start], longRow(record.Line)
	}
	return nil
}

func longRow(line int) *Fault {
	return &Fault{Line: line, Reason: fmt.Sprintf("the row has over %d bytes", MaxRow)}
}
