package journal

import (
	"bufio"
	"errors"
	"fmt"
	"io"
	"os"
	"path/filepath"
)

// A Read is an entry that was read. Its bytes are valid until the next one is read.
type Read struct {
	// Path and Line are those of its last line; lines count from 1.
	Path string
	Line int
	// N is its number; 0 for a line from earlier versions.
	N uint64
	// Asked is the request's line without its newline, or empty. About is the line about it.
	Asked, About []byte
	// text is what is chained.
	text []byte
	at   link
}

// Sum returns its chain in hexadecimal.
func (r *Read) Sum() string { return r.at.String() }

// errCut means that a file ends within an entry.
var errCut = errors.New("the file ends within an entry")

// A cursor reads a file's entries.
type cursor struct {
	path string
	os   *os.File
	from *bufio.Reader
	line int
	text []byte
	read Read
	// isChained means that the file has entries; others only have lines.
	isChained bool
}

func openFile(path string) (*cursor, error) {
	opened, err := os.Open(path)
	if err != nil {
		return nil, err
	}
	c := &cursor{path: path, os: opened, isChained: firstIn(opened) > 0}
	if _, err := opened.Seek(0, 0); err != nil {
		opened.Close()
		return nil, err
	}
	c.from = bufio.NewReaderSize(opened, 256<<10)
	return c, nil
}

func (c *cursor) close() { c.os.Close() }

// next reads an entry, or returns io.EOF.
func (c *cursor) next() (*Read, error) {
	c.text = c.text[:0]
	for {
		start := len(c.text)
		if err := c.readLine(); err != nil {
			return nil, err
		}
		line := c.text[start : len(c.text)-1]
		at, is := linkIn(line)
		switch {
		case is:
			c.read = Read{Path: c.path, Line: c.line, N: at.n, at: at, About: line,
				text: c.text[: len(c.text)-1-tailLength : len(c.text)-1-tailLength]}
			if start > 0 {
				c.read.Asked = c.text[:start-1]
			}
			return &c.read, nil
		case !c.isChained:
			c.read = Read{Path: c.path, Line: c.line, Asked: line}
			return &c.read, nil
		}
	}
}

// readLine appends a line with its newline to the text.
func (c *cursor) readLine() error {
	isFirst := len(c.text) == 0
	for {
		part, err := c.from.ReadSlice('\n')
		c.text = append(c.text, part...)
		switch {
		case err == nil:
			c.line++
			return nil
		case errors.Is(err, bufio.ErrBufferFull):
		case errors.Is(err, io.EOF) && isFirst && len(c.text) == 0:
			return io.EOF
		case errors.Is(err, io.EOF):
			return errCut
		default:
			return fmt.Errorf("reading %s: %w", c.path, err)
		}
	}
}

// A Reader reads a folder's entries by number; lines from earlier versions come by file name.
type Reader struct {
	names []string
	open  []*cursor
	// due is the next expected number, newest that of the first entry in the last opened file: files are named in the order of
	// their first entries, so no earlier entry is in an unopened file.
	due, newest uint64
	// Cut has the files that end within an entry.
	Cut []string
	// last is the cursor of the last returned entry.
	last *cursor
}

// NewReader reads a folder.
func NewReader(folder string) (*Reader, error) {
	names, err := filepath.Glob(filepath.Join(folder, "*"+suffix))
	if err != nil {
		return nil, fmt.Errorf("reading the journal: %w", err)
	}
	if _, err := os.ReadDir(folder); err != nil {
		return nil, fmt.Errorf("reading the journal: %w", err)
	}
	return &Reader{names: names}, nil
}

// Close closes the open files.
func (r *Reader) Close() {
	for _, c := range r.open {
		c.close()
	}
	r.open, r.names = nil, nil
}

// Next returns the next entry, or io.EOF.
func (r *Reader) Next() (*Read, error) {
	if r.last != nil {
		if err := r.advance(r.last); err != nil {
			return nil, err
		}
		r.last = nil
	}
	for {
		best := r.least()
		if best != nil && (best.read.N <= r.due || best.read.N < r.newest || len(r.names) == 0) {
			r.due, r.last = best.read.N+1, best
			return &best.read, nil
		}
		if len(r.names) == 0 {
			return nil, io.EOF
		}
		c, err := openFile(r.names[0])
		if err != nil {
			return nil, fmt.Errorf("reading the journal: %w", err)
		}
		r.names = r.names[1:]
		r.open = append(r.open, c)
		if err := r.advance(c); err != nil {
			return nil, err
		}
		r.newest = c.read.N
	}
}

// least returns the cursor whose entry has the least number.
func (r *Reader) least() (best *cursor) {
	for _, c := range r.open {
		if best == nil || c.read.N < best.read.N {
			best = c
		}
	}
	return best
}

// advance reads a cursor's next entry, and closes it at its end.
func (r *Reader) advance(c *cursor) error {
	_, err := c.next()
	if errors.Is(err, errCut) {
		r.Cut = append(r.Cut, c.path)
	} else if err == nil || !errors.Is(err, io.EOF) {
		return err
	}
	c.close()
	for at, other := range r.open {
		if other == c {
			r.open = append(r.open[:at], r.open[at+1:]...)
			break
		}
	}
	return nil
}

// Files returns the paths of a journal's files, in order.
func Files(folder string) ([]string, error) {
	r, err := NewReader(folder)
	if err != nil {
		return nil, err
	}
	return r.names, nil
}

// First reads a file's first entry, or returns io.EOF.
func First(path string) (*Read, error) {
	c, err := openFile(path)
	if err != nil {
		return nil, fmt.Errorf("reading the journal: %w", err)
	}
	defer c.close()
	return c.next()
}
