package cases

import (
	"fmt"

	"gateway/coverage"
	"gateway/model"
)

// A Covered is a table with its reached rules.
type Covered struct {
	// Name is the name of the decision, and of its entry that has the table.
	Name string
	// Rules is the number of rules; Unreached are those that no row hit, Undecided those that hit and never decided.
	Rules                int
	Unreached, Undecided []int
	// Tests is how many cells of its input columns test something, Untried are those of hit rules at which no row missed.
	Tests   int
	Untried []Cell
	// unreached is how many of the tests are in rules that no row hit.
	unreached int
}

// A Cell is a cell of a rule in an input column, with the file's names.
type Cell struct {
	Rule         int
	Column, Test string
}

// Reached returns how many cells were reached: their rules hit, and missed there.
func (c *Covered) Reached() int { return c.Tests - c.unreached - len(c.Untried) }

// Covered returns all tables of the file with their counts.
func (s *Subject) Covered(counts *coverage.Counts) ([]Covered, error) {
	parsed, written, err := s.logic()
	if err != nil {
		return nil, err
	}
	var words []string
	for _, it := range parsed.Decisions {
		words = append(words, it.Name)
	}
	c := &coverer{counted: counts.Tables(words), written: written}
	for _, it := range c.written.Model.Decisions {
		c.expression(it.Expr, it.Name)
	}
	return c.all, nil
}

// A coverer walks a model's tables as in its file.
type coverer struct {
	counted map[string]*coverage.Table
	written *model.Written
	all     []Covered
}

func (c *coverer) expression(e model.Expression, name string) {
	switch e := e.(type) {
	case *model.Table:
		c.table(e, name)
	case model.List:
		for at, it := range e {
			c.expression(it, fmt.Sprintf("%s[%d]", name, at+1))
		}
	case model.Context:
		for _, it := range e.Entries {
			c.expression(it.Expr, name+"."+it.Name)
		}
		if e.Result != nil {
			c.expression(e.Result, name)
		}
	}
}

func (c *coverer) table(t *model.Table, name string) {
	it, counted := Covered{Name: name, Rules: len(t.Rules)}, c.counted[c.written.Origins[t].Pointer]
	for at := range t.Rules {
		switch {
		case counted == nil || at >= len(counted.Hits) || counted.Hits[at] == 0:
			it.Unreached = append(it.Unreached, at+1)
		case counted.Decided != nil && (at >= len(counted.Decided) || counted.Decided[at] == 0):
			it.Undecided = append(it.Undecided, at+1)
		}
	}
	c.cells(t, counted, &it)
	c.all = append(c.all, it)
}

// cells adds the cells of a table.
func (c *coverer) cells(t *model.Table, counted *coverage.Table, it *Covered) {
	for _, rule := range it.Unreached {
		it.unreached += tests(t.Rules[rule-1])
	}
	for at, rule := range t.Rules {
		it.Tests += tests(rule)
		if counted != nil && at < len(counted.Hits) && counted.Hits[at] > 0 {
			it.Untried = append(it.Untried, c.untried(t, at, counted.Missed)...)
		}
	}
}

// always is the test that every value meets.
const always = "-"

// tests returns how many cells of a rule test something.
func tests(rule model.Rule) (count int) {
	for _, test := range rule.When {
		if test != always {
			count++
		}
	}
	return count
}

// untried returns the cells of a rule at which it never missed. A test that the translation moved to its own column misses
// there.
func (c *coverer) untried(t *model.Table, rule int, missed [][]bool) (cells []Cell) {
	translated := c.written.Origins[t].Table.Rules[rule].When
	misses := func(column int) bool {
		return rule < len(missed) && column < len(missed[rule]) && missed[rule][column]
	}
	for column, test := range t.Rules[rule].When {
		isMoved := translated[column] == always && misses(len(t.Inputs))
		if test != always && !misses(column) && !isMoved {
			cells = append(cells, Cell{rule + 1, t.Inputs[column], test})
		}
	}
	return cells
}
