package tell

import (
	"errors"
	"fmt"
	"strings"

	"gateway/model"
)

const (
	// mostRules limits the rules named in a line.
	mostRules = 10
)

var errNoTable = errors.New("the engine tells of a table that is none")

// tables reports the findings about decision tables.
func (r *report) tables() error {
	for _, facts := range r.facts.tables {
		place := placeOf(facts.Table)
		table := r.file.table(place)
		if table == nil {
			return errNoTable
		}
		t := &tableReport{report: r, facts: facts, table: table, place: place}
		write := t.paragraph
		if r.format == JSON {
			write = t.lines
		}
		if err := write(); err != nil {
			return err
		}
	}
	if unreported := r.facts.unreported; unreported > 0 {
		r.put(func() string { return fmt.Sprintf("and %d tables more\n", unreported) },
			func() string { return object(nil).raw("table", "null").number("more", unreported).line() })
		r.noticeAt(ofTable+"more", Note, r.file.whole(), "", fmt.Sprintf("and %d tables more", unreported))
	}
	return nil
}

// A tableReport is the report about one table.
type tableReport struct {
	*report
	facts *factTable
	table *model.Table
	place Place
	// kinds are those that each column's tests ask for, names the columns' names. inputs says whether requests
	// give them.
	kinds  []kinds
	names  []string
	inputs *columns
}

func (t *tableReport) paragraph() error {
	tests := testsOf(t.table)
	t.inputs = t.columns()
	for at, input := range t.table.Inputs {
		t.kinds = append(t.kinds, columnKinds(columnOf(tests, at)))
		t.names = append(t.names, columnName(input))
	}
	owner := t.file.words(t.place[:len(t.place)-1])
	rules := "rules"
	if len(t.table.Rules) == 1 {
		rules = "rule"
	}
	t.say("table: %s%s: %d %s, %s: %s%s\n", t.file.at(t.place), owner, len(t.table.Rules), rules, t.table.Hit, t.completeness(), t.overlapWords())
	t.findings()
	t.allMore()
	t.notDecided()
	return nil
}

// columnName returns the name of a column: a name or path as it is, other expressions in quotes.
func columnName(input string) string {
	if way := wayOf(input); way != nil {
		return strings.Join(way, ".")
	}
	return quoted(input)
}

func isTrue(answer *bool) bool  { return answer != nil && *answer }
func isFalse(answer *bool) bool { return answer != nil && !*answer }

// forComing is the scope of a table that was looked at for what can come to its columns.
const forComing = " for what can come"

// completeness returns the widest scope that is complete.
func (t *tableReport) completeness() string {
	switch f := t.facts; {
	case f.Comes && isTrue(f.Complete):
		return "complete" + forComing
	case isTrue(f.Complete):
		return "complete"
	case isTrue(f.Asked):
		return "complete for " + kindsText(t.kinds)
	case isTrue(f.Words):
		return "complete for the words asked"
	case f.Comes && isFalse(f.Complete):
		return "not complete" + forComing
	case isFalse(f.Asked), isFalse(f.Words):
		return "not complete"
	}
	return "not decided"
}

// hasOverlaps reports whether overlaps matter under the hit policy.
func (t *tableReport) hasOverlaps() bool { return t.table.Hit == "U" || t.table.Hit == "A" }

func (t *tableReport) overlapWords() string {
	switch {
	case !t.hasOverlaps():
		return ""
	case isTrue(t.facts.isUnique()) && t.facts.Comes && t.facts.Complete == nil:
		return ", no two rules overlap" + forComing
	case isTrue(t.facts.isUnique()):
		return ", no two rules overlap"
	case isFalse(t.facts.isUnique()):
		return ", rules overlap"
	}
	return ", overlaps not decided"
}

// findings reports the findings in the engine's order. After the gaps it says which columns have none for other kinds of
// values.
func (t *tableReport) findings() {
	rest := rest{columns: make([]bool, len(t.kinds))}
	for _, kind := range []struct {
		name  string
		parts func(*factFinding) []string
	}{{"overlap", t.overlap}, {"gap", t.gap}, {otherKinds, rest.gatherer(t)}, {"never", t.never}, {"masked", t.masked}} {
		for _, finding := range t.facts.findings {
			if parts := kind.parts(finding); len(parts) > 0 {
				t.say("  %s\n", strings.Join(parts, "    "))
				t.noticeOf(kind.name, finding.Rules, strings.Join(parts, "; "))
			}
		}
	}
}

// otherKinds is the notice kind for gaps among other kinds of values than those asked.
const otherKinds = "other-kinds"

// noticeOf turns a finding into a notice at its rule, at the later of two that overlap, or at its table.
func (t *tableReport) noticeOf(kind string, rules []int, said string) {
	place, level := t.place, Warning
	switch {
	case kind == otherKinds, kind == "gap" && t.hasDefault():
		level = Note
	case t.isRefused:
		level = Error
	}
	switch {
	case kind == "overlap":
		place = place.with(key("rules"), index(rules[1]-1))
	case kind == "never", kind == "masked":
		place = place.with(key("rules"), index(rules[0]-1))
	}
	t.tableNotice(kind, level, place, said)
}

// tableNotice keeps a finding at the table or a part of it, which is named by its decision, context or list.
func (t *tableReport) tableNotice(kind string, level Level, place Place, said string) {
	owner := place
	if len(place) == len(t.place) {
		owner = place[:len(place)-1]
	}
	t.noticeAt(ofTable+kind, level, t.file.position(place), place.Pointer(), afterColon(t.file.words(owner), said))
}

func (t *tableReport) overlap(f *factFinding) []string {
	if f.Finding != "overlap" || len(f.Rules) < 2 {
		return nil
	}
	parts := append([]string{fmt.Sprintf("rules %d and %d both apply%s", f.Rules[0], f.Rules[1], t.cells(f))}, t.unsure()...)
	return append(parts, t.table.Hit+" gives null")
}

// cells returns the values of each column in a finding.
func (t *tableReport) cells(f *factFinding) string {
	var text strings.Builder
	for at := range f.Cells {
		if at >= len(t.names) {
			break
		}
		before := ", "
		if at == 0 {
			before = ": "
		}
		c := f.Cells[at].values()
		text.WriteString(before + t.names[at] + " " + c.text())
	}
	return text.String()
}

// unsure says that the columns may not be able to have the values of a finding.
func (t *tableReport) unsure() []string {
	if t.inputs.isFree {
		return nil
	}
	return []string{"if the columns can take these values together"}
}

// A rest is what the gaps among other kinds of values have in common.
type rest struct {
	// columns are those without a rule for other kinds; hasNull means that null is one of these.
	columns []bool
	hasNull bool
}

// gap reports a gap among the kinds of values that are asked.
func (t *tableReport) gap(f *factFinding) []string {
	if f.Finding != "gap" || isFalse(f.IsAsked) {
		return nil
	}
	parts := []string{"no rule" + t.cells(f)}
	if len(f.Witness) > 0 {
		values := make([]string, len(f.Witness))
		for at, value := range f.Witness {
			values[at] = string(value)
		}
		parts = append(parts, "e.g. "+strings.Join(values, ", "))
	}
	parts = append(parts, t.unsure()...)
	if t.hasDefault() {
		return append(parts, "the default")
	}
	return append(parts, "null")
}

// gatherer gathers what all gaps have in common, and reports it after the last. Where a gap lies in what can come it is told whole.
func (r *rest) gatherer(t *tableReport) func(*factFinding) []string {
	isPart := func(f *factFinding) bool {
		return f.Finding == "gap" && (!t.facts.Comes || isFalse(f.IsAsked))
	}
	left := 0
	for _, finding := range t.facts.findings {
		if isPart(finding) {
			left++
		}
	}
	return func(f *factFinding) []string {
		if !isPart(f) {
			return nil
		}
		t.gather(r, f)
		if left--; left > 0 {
			return nil
		}
		return t.restText(r)
	}
}

// hasDefault reports whether some output has a default.
func (t *tableReport) hasDefault() bool {
	for _, output := range t.table.Outputs {
		if output.Default != nil {
			return true
		}
	}
	return false
}

// gather notes the columns of a gap that have other kinds of values and lack some that are asked. A column that has all of
// these says nothing.
func (t *tableReport) gather(rest *rest, f *factFinding) {
	for at := range f.Cells {
		if at >= len(t.kinds) {
			return
		}
		c := f.Cells[at].values()
		if k := t.kinds[at]; c.hasOthers(k) && !c.covers(k) {
			rest.columns[at] = true
			rest.hasNull = rest.hasNull || c.null && !k.null
		}
	}
}

func (t *tableReport) restText(rest *rest) []string {
	var names []string
	for at, is := range rest.columns {
		if is {
			names = append(names, t.names[at])
		}
	}
	if len(names) == 0 {
		return nil
	}
	kinds := "other kinds of "
	if rest.hasNull {
		kinds = "null and other kinds of "
	}
	text := "no rule for " + kinds + strings.Join(names, ", ")
	if t.facts.more["gap"]+t.facts.more["other gap"] > 0 {
		text += ", and perhaps of others"
	}
	return []string{text}
}

func (t *tableReport) never(f *factFinding) []string {
	if f.Finding != "never" || len(f.Rules) == 0 {
		return nil
	}
	return []string{fmt.Sprintf("rule %d never hits", f.Rules[0])}
}

func (t *tableReport) masked(f *factFinding) []string {
	if f.Finding != "masked" || len(f.Rules) == 0 {
		return nil
	}
	before := "stand before it"
	if t.table.Hit == "P" {
		before = "go before it"
	}
	if len(f.Before) == 1 {
		before = map[string]string{"stand before it": "stands before it", "go before it": "goes before it"}[before]
	}
	return []string{fmt.Sprintf("rule %d never decides: %s %s", f.Rules[0], ruleNumbers(f.Before), before)}
}

// ruleNumbers returns the numbers of rules, as in "rules 2, 3 and 5".
func ruleNumbers(rules []int) string {
	if len(rules) == 1 {
		return fmt.Sprintf("rule %d", rules[0])
	}
	var text strings.Builder
	text.WriteString("rules ")
	for at, rule := range rules {
		switch {
		case at == mostRules:
			fmt.Fprintf(&text, " and %d more", len(rules)-mostRules)
			return text.String()
		case at > 0 && at == len(rules)-1:
			text.WriteString(" and ")
		case at > 0:
			text.WriteString(", ")
		}
		fmt.Fprint(&text, rule)
	}
	return text.String()
}

// allMore reports how many findings of each kind are left out.
func (t *tableReport) allMore() {
	for _, kind := range []struct {
		finding, words string
		more           int
	}{
		{"overlap", "overlaps", t.facts.more["overlap"]}, {"gap", "gaps", t.facts.more["gap"]},
		{"never", "rules that never hit", t.facts.more["never"]}, {"masked", "rules that never decide", t.facts.more["masked"]},
	} {
		if kind.more > 0 {
			t.say("  and %d more %s\n", kind.more, kind.words)
			t.tableNotice(kind.finding, Warning, t.place, fmt.Sprintf("and %d more %s", kind.more, kind.words))
		}
	}
}
