package tell

import (
	"strings"

	"gateway/feel"
	"gateway/feel/strict"
	"gateway/model"
)

// table looks at the current table.
func (w *walk) table(table *model.Table) {
	columns := w.inputs(table.Inputs)
	for at, output := range table.Outputs {
		if output.Default != nil {
			w.entry(*output.Default, key("outputs"), index(at), key("default"))
		}
	}
	rules := &ruleOrder{table: table, seen: map[string]int{}, areSpelled: areCompared(table)}
	w.within(key("rules"), func() {
		for at, rule := range table.Rules {
			w.within(index(at), func() {
				tests := w.cells(columns, at, rule.When, rules.areSpelled)
				for column, text := range rule.Then {
					w.entry(text, key("then"), index(column))
				}
				w.rule(rules, at, tests)
			})
		}
	})
	for at, column := range columns {
		w.column(table, at, column)
	}
	for at := range table.Outputs {
		w.output(table, at)
	}
	w.policy(table)
	w.unusedColumns(table, columns)
}

// entry looks at an output entry or a default.
func (w *walk) entry(text string, steps ...Step) { w.expression(steps, text, true) }

// A tally counts the cells of a column that compare with literals of a kind and that some value meets, and keeps the rule of
// the last.
type tally struct {
	kind        literalKind
	count, last int
}

// A column is an input of a table, with what is known of its cells.
type column struct {
	tallies [textKind + 1]tally
	// hasInterval means that some cell has an interval, any how many cells take every value.
	hasInterval bool
	any         int
	// looks has the cells that may mean something other than they look like.
	looks []looks
	// asked is the column's value, if it is known which literals it may be.
	asked   valueName
	isAsked bool
}

func (w *walk) inputs(texts []string) []*column {
	columns, all := make([]*column, len(texts)), make([]column, len(texts))
	for at, text := range texts {
		columns[at] = &all[at]
		node, ok := strict.ReadExpression(text)
		if !ok {
			continue
		}
		w.look([]Step{key("inputs"), index(at)}, text, false, node)
		w.slips([]Step{key("inputs"), index(at)}, text, node)
		if subject, ok := subjectOf(node); ok && w.isKnown(subject) {
			columns[at].asked, columns[at].isAsked = subject, true
		}
	}
	return columns
}

// A ruleTests holds the tests of a rule.
type ruleTests struct {
	// takeAll means that every value meets each test.
	takeAll bool
	// spelling is the tests in one spelling, so that blanks and how a literal is written don't matter. It is "" if the hit
	// policy doesn't need it.
	spelling string
}

// cells looks at a rule's input entries, and spells them if asked.
func (w *walk) cells(columns []*column, rule int, texts []string, areSpelled bool) ruleTests {
	all := ruleTests{takeAll: true}
	var spelling strings.Builder
	for at, text := range texts {
		tests, ok := strict.ReadTests(text)
		all.takeAll = all.takeAll && ok && tests.Any
		switch {
		case !ok || at >= len(columns):
		case tests.Any:
			columns[at].any++
		default:
			w.cell(columns[at], rule, at, text, tests)
		}
		if areSpelled {
			spell(&spelling, text, tests)
			spelling.WriteByte(';')
		}
	}
	all.spelling = spelling.String()
	return all
}

// cell looks at an input entry that is not "-".
func (w *walk) cell(c *column, rule, at int, text string, tests strict.Tests) {
	steps := []Step{key("when"), index(at)}
	w.look(steps, text, true, tests.List...)
	for _, test := range tests.List {
		w.slips(steps, text, test)
	}
	w.countedCells(steps, text, tests)
	if kind, areMet, ok := literalTests(tests); ok && !areMet {
		w.note(oddUnmet, steps, func() string { return "no value meets " + text })
	} else if ok && kind != noKind {
		c.tallies[kind].kind = kind
		c.tallies[kind].count++
		c.tallies[kind].last = rule
	}
	for _, test := range tests.List {
		_, isInterval := test.(*feel.Range)
		c.hasInterval = c.hasInterval || isInterval
		if c.isAsked && !isBySize(test) {
			w.askedFor(steps, c.asked, test)
		}
	}
	if l := looksOf(rule, text, tests.List); l.likeTruth || l.likeInterval || l.likeNumber {
		c.looks = append(c.looks, l)
	}
}

// column looks at what an input's cells compare with.
func (w *walk) column(table *model.Table, at int, c *column) {
	cell := func(rule int) (steps []Step, text string) {
		return []Step{key("rules"), index(rule), key("when"), index(at)}, table.Rules[rule].When[at]
	}
	if odd, other := c.oddOne(); odd.count > 0 {
		steps, text := cell(odd.last)
		w.note(oddKind, steps, func() string {
			return text + " is for " + literalKinds[odd.kind] + ", and the other rules are for " + literalKinds[other.kind]
		})
	}
	withNumbersOrTexts := c.tallies[numberKind].count > 0 || c.tallies[textKind].count > 0
	for _, l := range c.looks {
		steps, text := cell(l.rule)
		switch {
		case withNumbersOrTexts && l.likeTruth:
			w.note(oddTruth, steps, func() string {
				return text + " is true or false, with which the input is compared; a test begins with its sign, as > 5"
			})
		case c.hasInterval && l.likeInterval:
			w.note(oddList, steps, func() string { return text + " is a list of two numbers; an interval has two dots, as [1..5]" })
		case l.likeNumber:
			w.note(oddCut, steps, func() string { return "a comma parts two tests: " + text + "; a number has none" })
		}
	}
}

// oddOne returns the only cell of its kind and the cells of the other kind, if there are two kinds. Of two cells the later is
// odd.
func (c *column) oddOne() (odd, other tally) {
	var kinds []tally
	for _, t := range c.tallies {
		if t.count > 0 {
			kinds = append(kinds, t)
		}
	}
	if len(kinds) != 2 {
		return tally{}, tally{}
	}
	switch one, two := kinds[0], kinds[1]; {
	case one.count == 1 && two.count == 1 && one.last > two.last, one.count == 1 && two.count > 1:
		return one, two
	case two.count == 1:
		return two, one
	}
	return tally{}, tally{}
}

// A looks is what a cell looks like and may not mean.
type looks struct {
	rule                                int
	likeTruth, likeInterval, likeNumber bool
}

func looksOf(rule int, text string, tests []feel.Node) looks {
	l := looks{rule: rule, likeInterval: isPair(tests), likeNumber: hasNumbersInARow(tests) && isCut(text)}
	for _, test := range tests {
		l.likeTruth = l.likeTruth || !isBySize(test) && givesTruth(test)
	}
	return l
}

// givesTruth reports whether an expression is true, false or null, whatever its names are.
func givesTruth(node feel.Node) bool {
	switch of := node.(type) {
	case *strict.Group:
		return givesTruth(of.Inside)
	case *feel.Binary, *feel.Between:
		return true
	case *feel.Call:
		name, _ := of.Function.(*feel.Name)
		return name.Name == "not"
	case *feel.Chain:
		return of.Operators[0] == "and" || of.Operators[0] == "or"
	}
	return false
}

// isPair reports whether tests are a list of exactly two numbers.
func isPair(tests []feel.Node) bool {
	if len(tests) != 1 {
		return false
	}
	list, ok := tests[0].(*feel.List)
	return ok && len(list.Items) == 2 && isNumber(list.Items[0]) && isNumber(list.Items[1])
}

// hasNumbersInARow reports whether a number follows a test that ends with one.
func hasNumbersInARow(tests []feel.Node) bool {
	isAfterNumber := false
	for _, test := range tests {
		if isAfterNumber && isNumber(test) {
			return true
		}
		unary, isUnary := test.(*feel.Unary)
		isAfterNumber = isNumber(test) || isUnary && isNumber(unary.Operand)
	}
	return false
}

// isCut reports whether a text has a number with a comma before its last three digits.
func isCut(text string) bool {
	digits := 0
	for at := 0; at < len(text); at++ {
		if text[at] == ',' && 0 < digits && digits < 4 && digitsAt(text[at+1:]) == 3 {
			return true
		}
		if strict.IsDigit(text[at]) {
			digits++
		} else {
			digits = 0
		}
	}
	return false
}

// digitsAt returns how many of a text's first four bytes are digits, up to the first other byte.
func digitsAt(text string) int {
	count := 0
	for count < len(text) && count < 4 && strict.IsDigit(text[count]) {
		count++
	}
	return count
}

// spell adds tests in one spelling.
func spell(to *strings.Builder, text string, tests strict.Tests) {
	if tests.Negated {
		to.WriteString("not ")
	}
	for _, test := range tests.List {
		switch of := test.(type) {
		case *feel.Unary:
			to.WriteString(of.Operator)
			spellTree(to, text, of.Operand)
		case *feel.Range:
			to.WriteString(openings[!of.LowOpen])
			spellTree(to, text, of.Low)
			to.WriteString("..")
			spellTree(to, text, of.High)
			to.WriteString(closings[!of.HighOpen])
		default:
			spellTree(to, text, of)
		}
		to.WriteByte(',')
	}
}

// spellTree adds the tokens of an expression, each after a blank.
func spellTree(to *strings.Builder, text string, node feel.Node) {
	span := node.At()
	part := text[span.Start:span.End]
	strict.EachToken(part, func(token strict.Token) {
		spelled := part[token.Start:token.End]
		to.WriteByte(' ')
		switch token.Sort {
		case strict.Number, strict.Text:
			if literal, ok := literalText(spelled); ok {
				spelled = literal
			}
		}
		to.WriteString(spelled)
	})
}
