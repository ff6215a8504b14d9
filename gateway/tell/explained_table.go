package tell

import (
	"fmt"
	"strconv"

	"gateway/lines"
	"gateway/model"
)

// An explainedTable is a table and its explanation.
type explainedTable struct {
	*model.Table
	explained members
	indent    int
}

// mostShownRules is the largest table of which each rule is shown. In larger ones only hits are, unless misses are asked for.
const mostShownRules = 40

var policyNames = map[string]string{
	"U": "UNIQUE", "A": "ANY", "P": "PRIORITY", "F": "FIRST", "R": "RULE ORDER", "O": "OUTPUT ORDER", "C": "COLLECT",
	"C+": "COLLECT SUM", "C<": "COLLECT MIN", "C>": "COLLECT MAX", "C#": "COLLECT COUNT",
}

// add adds the hit policy, the input values and the rules, with "*" before each hit and ">" before those that decided.
func (t *explainedTable) add(to *page) {
	addBlanks(to, t.indent)
	fmt.Fprintf(to, "hit policy %s (%s): %s\n", t.Hit, policyNames[t.Hit], t.outcome())
	for at, value := range t.explained.list("inputs") {
		if at == len(t.Inputs) {
			break
		}
		addBlanks(to, t.indent)
		addExpression(to, t.Inputs[at])
		to.WriteString(" = ")
		addShown(to, value)
		to.addByte('\n')
	}
	if t.explained.get("hits") != nil {
		t.addRows(to)
	}
}

// outcome says how many rules hit, and how many decided.
func (t *explainedTable) outcome() string {
	switch {
	case t.explained.get("hits") == nil && t.explained.get("inputs") == nil:
		return "an input expression breaks a limit"
	case t.explained.get("hits") == nil:
		return "an input entry breaks a limit"
	}
	hits := len(t.explained.list("hits"))
	text := fmt.Sprintf("%d of %d rules hit", hits, len(t.Rules))
	switch {
	case t.explained.isTrue("defaults"):
		return text + ", the defaults decided"
	case hits == 0:
		return text
	case t.explained.get("decided") == nil:
		return text + ", an output of these breaks a limit"
	}
	return fmt.Sprintf("%s, %d of these decided", text, len(t.explained.list("decided")))
}

// An explainedRule is the explanation of a rule.
type explainedRule struct {
	// hit is the explanation of a rule that hit, column the one at which it missed.
	hit, column []byte
	decided     bool
}

// rules returns the explanation of each rule.
func (t *explainedTable) rules() []explainedRule {
	rules := make([]explainedRule, len(t.Rules))
	at := func(raw []byte) *explainedRule {
		number, err := strconv.Atoi(string(raw))
		if err != nil || number < 1 || number > len(rules) {
			return &explainedRule{}
		}
		return &rules[number-1]
	}
	for _, hit := range t.explained.list("hits") {
		at(membersOf(hit).get("rule")).hit = hit
	}
	for _, number := range t.explained.list("decided") {
		at(number).decided = true
	}
	for _, miss := range t.explained.list("misses") {
		m := membersOf(miss)
		at(m.get("rule")).column = t.missedAt(m.get("column"))
	}
	return rules
}

// missedAt returns the column at which a rule missed. After the table's columns come conditions of other columns; the result is
// empty if it may be one of several.
func (t *explainedTable) missedAt(column []byte) []byte {
	number, err := strconv.Atoi(string(column))
	switch {
	case err != nil || number <= len(t.Inputs):
		return column
	case len(t.Inputs) == 1:
		return []byte("1")
	}
	return []byte{}
}

// addRows adds the column heads, the rules, how many are left out, and the defaults if these decided.
func (t *explainedTable) addRows(to *page) {
	rules := t.rules()
	showsAll := len(rules) <= mostShownRules || t.explained.get("misses") != nil
	isShown := func(at int) bool { return showsAll || rules[at].hit != nil }
	takesDefaults := t.explained.isTrue("defaults")
	widths := widen(nil, t.heads())
	for at := range rules {
		if isShown(at) {
			widths = widen(widths, t.row(at, rules[at]))
		}
	}
	if takesDefaults {
		widths = widen(widths, t.defaults())
	}
	t.addPlainRow(to, t.heads(), widths)
	for at := range rules {
		if to.isLong() {
			break
		}
		if isShown(at) {
			blanks := addRow(to, t.row(at, rules[at]), widths, t.indent)
			rules[at].addNote(to, blanks)
			to.addByte('\n')
		}
	}
	if !showsAll {
		addBlanks(to, t.indent)
		fmt.Fprintf(to, "rules that missed, and are left out: %d\n", len(rules)-len(t.explained.list("hits")))
	}
	if takesDefaults {
		t.addPlainRow(to, t.defaults(), widths)
	}
}

// addPlainRow adds a row without explanation.
func (t *explainedTable) addPlainRow(to *page, row []string, widths []int) {
	addRow(to, row, widths, t.indent)
	to.addByte('\n')
}

// heads returns the input expressions and the output names.
func (t *explainedTable) heads() []string {
	row := []string{""}
	for _, input := range t.Inputs {
		row = append(row, gridCell("", input))
	}
	for _, output := range t.Outputs {
		row = append(row, gridCell("| ", output.Name))
	}
	return row
}

// row returns a rule: whether it hit and decided, its number, its entries and its outputs.
func (t *explainedTable) row(at int, explained explainedRule) []string {
	mark := " "
	switch {
	case explained.decided:
		mark = ">"
	case explained.hit != nil:
		mark = "*"
	}
	row := []string{fmt.Sprintf("%s %d", mark, at+1)}
	for _, test := range t.Rules[at].When {
		row = append(row, gridCell("", test))
	}
	for _, gives := range t.Rules[at].Then {
		row = append(row, gridCell("| ", gives))
	}
	return row
}

func (t *explainedTable) defaults() []string {
	row := []string{"> default"}
	for range t.Inputs {
		row = append(row, "")
	}
	for _, output := range t.Outputs {
		fallback := "null"
		if output.Default != nil {
			fallback = *output.Default
		}
		row = append(row, gridCell("| ", fallback))
	}
	return row
}

// addNote adds what a rule gave, or the column at which it missed.
func (r *explainedRule) addNote(to *page, blanks int) {
	switch {
	case r.hit != nil:
		addBlanks(to, blanks)
		addGiven(to, membersOf(r.hit))
	case r.column != nil && len(r.column) == 0:
		addBlanks(to, blanks)
		to.WriteString("misses")
	case r.column != nil:
		addBlanks(to, blanks)
		to.WriteString("misses at column ")
		addShown(to, r.column)
	}
}

// addGiven adds what a hit gave, and the places of that among the output values.
func addGiven(to *page, hit members) {
	value := hit.get("value")
	if value == nil {
		to.WriteString("breaks a limit")
		return
	}
	to.WriteString("= ")
	addShown(to, value)
	places := hit.get("places")
	if places == nil {
		return
	}
	to.WriteString(" (place ")
	for at, place := range lines.Parts(places) {
		if at > 0 {
			to.WriteString(", ")
		}
		if _, err := strconv.ParseUint(string(place), 10, 64); err != nil {
			place = []byte("none")
		}
		to.Write(place)
	}
	to.addByte(')')
}
