package tell

import (
	"strings"
	"unicode/utf8"
)

const (
	// widest limits the letters in a table's cell, gap is the number of blanks between two cells.
	widest, gap = 40, 2
)

// gridCell returns a cell after what is before it, cut if it is too wide.
func gridCell(before, source string) string {
	var to page
	to.WriteString(before)
	if utf8.RuneCountInString(source) <= widest {
		addSource(&to, source, widest)
	} else {
		addSource(&to, source, widest-2)
		to.WriteString("..")
	}
	return to.String()
}

// widen makes the columns as wide as a row's cells.
func widen(widths []int, row []string) []int {
	for at, cell := range row {
		width := utf8.RuneCountInString(cell)
		if at == len(widths) {
			widths = append(widths, width)
		} else if width > widths[at] {
			widths[at] = width
		}
	}
	return widths
}

func addBlanks(to *page, count int) { to.WriteString(strings.Repeat(" ", count)) }

// addRow adds a row's cells, and returns how many blanks are due after the last.
func addRow(to *page, row []string, widths []int, indent int) int {
	blanks := indent
	for at, cell := range row {
		addBlanks(to, blanks)
		to.WriteString(cell)
		blanks = gap
		if at < len(widths) && widths[at] > utf8.RuneCountInString(cell) {
			blanks += widths[at] - utf8.RuneCountInString(cell)
		}
	}
	return blanks
}
