// Package cases reads files of rows, each a request or a test case, and writes the results in the same form: CSV, JSON lines, a
// JSON array, or lines as serve reads them.
//
// A faulty row is refused with its place, and later rows are still read. At most MaxRow bytes of a row are held, however long
// it is. That rules out encoding/csv, which holds everything after an unclosed quote.
package cases

import (
	"errors"
	"fmt"

	"gateway/lines"
)

// MaxRow limits the bytes of a row.
const MaxRow = lines.MaxLine

// A Fault says why a row, or a whole file, is refused.
type Fault struct {
	// Line and Column are the place of the fault, from 1. Columns are bytes; 0 means unknown.
	Line, Column int
	// Name is the column or member, or "".
	Name   string
	Reason string
}

func (f *Fault) Error() string {
	place := fmt.Sprint(f.Line)
	if f.Column > 0 {
		place = fmt.Sprintf("%d:%d", f.Line, f.Column)
	}
	if f.Name != "" {
		return fmt.Sprintf("%s: %s: %s", place, f.Name, f.Reason)
	}
	return fmt.Sprintf("%s: %s", place, f.Reason)
}

// ErrForm is wrapped by the error of a file without rows, or with an invalid header.
var ErrForm = errors.New("the file can't be read")
