package profile

import (
	"gateway/dmn"
	"gateway/model"
)

// A box is a boxed expression of the model that knows its origin. It is one of a table, a list, entries, or a phrase.
type box struct {
	kind  boxKind
	value phrase
	// boxedTable is nil except for decision tables.
	*boxedTable
	list    []*box
	entries []boxEntry
	// result is nil for a context without one.
	result *box
	// isRow is set for the row of a relation: a context whose entries don't see each other.
	isRow bool
	// origin is its element; nil if the translator made the box.
	origin *dmn.Element
}

// A boxedTable is a decision table with the elements of its parts.
type boxedTable struct {
	table         *model.Table
	rows          []*dmn.Element
	inputs, gives []*dmn.Element
	// cells are the entries and the default of each output of a table.
	cells [][]phrase
	// columns are the values of the input columns.
	columns []phrase
}

// tableOf returns the box of a table.
func tableOf(table *model.Table) *box {
	return &box{kind: tableBox, boxedTable: &boxedTable{table: table}}
}

type boxKind uint8

const (
	textBox boxKind = iota
	tableBox
	listBox
	contextBox
)

type boxEntry struct {
	word  string
	value *box
	// origin is the element of the entry; nil if the translator made it.
	origin *dmn.Element
	// of is the type of the value; nil if the translator made it.
	of *valueType
}

func boxOf(p phrase) *box { return &box{kind: textBox, value: p} }

// A frame collects the entries that the texts of a boxed expression need before it.
type frame struct{ entries []boxEntry }

// around puts the entries of a frame in front of a box.
func (f *frame) around(b *box) *box {
	if len(f.entries) == 0 {
		return b
	}
	return &box{kind: contextBox, entries: f.entries, result: b}
}
