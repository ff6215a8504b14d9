// Package coverage counts from lines of `desk explain` how often each rule of each table hit and decided. It knows no rules:
// the lines say which hit and decided.
package coverage

import (
	"errors"
	"strconv"
)

// A Table has the counts of a table.
type Table struct {
	// Asked is how often its rules were evaluated, Defaults how often none hit and a default was used, None how often none hit
	// without a default.
	Asked    int `json:"asked"`
	Defaults int `json:"defaults"`
	None     int `json:"none"`
	// Hits and Decided are by rule, without trailing zeros. Decided is nil if no line says which rules decided.
	Hits    []int `json:"hits"`
	Decided []int `json:"decided"`
	// Missed says, by rule and column, where a rule missed: at the first column that wasn't met. It is filled if lines have
	// misses.
	Missed [][]bool `json:"-"`
}

// An Answer is what a line says about its request.
type Answer struct {
	// Result is the result's text, valid as long as the line, or nil.
	Result []byte
	// Fault and Refused are words, or empty.
	Fault, Refused string
}

// Counts has the counts of a model's tables.
type Counts struct {
	decisions map[string]*part
	// form is the form of lines; order has the decisions in the order of the last one.
	form  form
	order []*part
}

// A part is a decision or a boxed expression in it, with its counts and its own parts.
type part struct {
	table            *Table
	entries, members []*part
	result           *part
	// begin is how a decision begins, name an entry's name.
	begin, name string
	// The keys of its table, its hits and its misses, besides its own.
	form, ofTable, ofHits, ofMisses form
}

// New returns empty counts.
func New() *Counts {
	return &Counts{decisions: map[string]*part{}}
}

var errLine = errors.New("a line of an explanation cannot be read")

// Add counts a line about a request, and returns its answer.
func (c *Counts) Add(line []byte) (answer Answer, err error) {
	at, number := &cursor{text: line}, 0
	for is := at.open('{', '}'); is; is = at.more('}') {
		switch at.key(&c.form, number) {
		case `"decisions":`:
			c.readDecisions(at)
		case `"result":`:
			answer.Result = at.value()
		case `"fault":`:
			answer.Fault = string(at.quoted())
		case `"refused":`:
			answer.Refused = string(at.quoted())
		default:
			at.value()
		}
		number++
	}
	if at.isBad || at.at != len(line) {
		return Answer{}, errLine
	}
	return answer, nil
}

func (c *Counts) readDecisions(at *cursor) {
	number := 0
	for is := at.open('[', ']'); is; is = at.more(']') {
		it := c.begun(at, number)
		it.rest(at, 0)
		number++
	}
}

// begun reads the start of a decision, which is its name, and returns the decision.
func (c *Counts) begun(at *cursor, number int) *part {
	if number < len(c.order) && at.goes(c.order[number].begin) {
		return c.order[number]
	}
	start := at.at
	at.isBad = !at.goes(`{"name":`) || at.isBad
	it := c.named(at.quoted())
	if !at.isBad {
		it.begin = string(at.text[start:at.at])
		c.order = append(c.order[:number], it)
	}
	return it
}

// named returns the decision with a name.
func (c *Counts) named(name []byte) *part {
	it := c.decisions[string(name)]
	if it == nil {
		it = &part{}
		c.decisions[string(name)] = it
	}
	return it
}

// member counts the value under a key of a part.
func (p *part) member(at *cursor, key string) {
	switch key {
	case `"name":`:
		at.name(&p.name)
	case `"table":`:
		if p.table == nil {
			p.table = &Table{Hits: []int{}}
		}
		p.readTable(at)
	case `"entries":`:
		p.entries = readParts(at, p.entries)
	case `"members":`:
		p.members = readParts(at, p.members)
	case `"result":`:
		if p.result == nil {
			p.result = &part{}
		}
		p.result.read(at)
	default:
		at.value()
	}
}

func (p *part) read(at *cursor) {
	if at.open('{', '}') {
		p.member(at, at.key(&p.form, 0))
		p.rest(at, 1)
	}
}

// rest counts what follows this many members of a part, or a decision's name.
func (p *part) rest(at *cursor, number int) {
	for ; at.more('}'); number++ {
		p.member(at, at.key(&p.form, number))
	}
}

func readParts(at *cursor, parts []*part) []*part {
	n := 0
	for is := at.open('[', ']'); is; is = at.more(']') {
		if n == len(parts) {
			parts = append(parts, &part{})
		}
		parts[n].read(at)
		n++
	}
	return parts
}

// readTable counts what a line says about the table.
func (p *part) readTable(at *cursor) {
	t, number, hits, isAsked, defaults := p.table, 0, 0, false, false
	for is := at.open('{', '}'); is; is = at.more('}') {
		switch at.key(&p.ofTable, number) {
		case `"hits":`:
			isAsked = true
			hits = p.readHits(at)
		case `"defaults":`:
			defaults = string(at.value()) == "true"
		case `"decided":`:
			t.readDecided(at)
		case `"misses":`:
			p.readMisses(at)
		default:
			at.value()
		}
		number++
	}
	switch {
	case !isAsked:
		return
	case hits > 0:
	case defaults:
		t.Defaults++
	default:
		t.None++
	}
	t.Asked++
}

// readHits counts the rules of a list of hits, and returns their number.
func (p *part) readHits(at *cursor) (hits int) {
	for is := at.open('[', ']'); is; is = at.more(']') {
		p.table.Hits = counted(p.table.Hits, p.hitRule(at))
		hits++
	}
	return hits
}

func (t *Table) readDecided(at *cursor) {
	if t.Decided == nil {
		t.Decided = []int{}
	}
	for is := at.open('[', ']'); is; is = at.more(']') {
		t.Decided = counted(t.Decided, at.number())
	}
}

// readMisses notes where rules missed.
func (p *part) readMisses(at *cursor) {
	for is := at.open('[', ']'); is; is = at.more(']') {
		rule, column := p.miss(at)
		p.table.missed(rule, column)
	}
}

// miss returns the rule and column of a miss.
func (p *part) miss(at *cursor) (rule, column int) {
	number := 0
	for is := at.open('{', '}'); is; is = at.more('}') {
		switch at.key(&p.ofMisses, number) {
		case `"rule":`:
			rule = at.number()
		case `"column":`:
			column = at.number()
		default:
			at.value()
		}
		number++
	}
	return rule, column
}

// missed notes that a rule missed at a column, both from 1.
func (t *Table) missed(rule, column int) {
	if rule < 1 || rule > mostRules || column < 1 || column > mostRules {
		return
	}
	for len(t.Missed) < rule {
		t.Missed = append(t.Missed, nil)
	}
	row := t.Missed[rule-1]
	for len(row) < column {
		row = append(row, false)
	}
	row[column-1] = true
	t.Missed[rule-1] = row
}

// hitRule returns the rule number of a hit.
func (p *part) hitRule(at *cursor) (rule int) {
	number := 0
	for is := at.open('{', '}'); is; is = at.more('}') {
		if at.key(&p.ofHits, number) == `"rule":` {
			rule = at.number()
		} else {
			at.value()
		}
		number++
	}
	return rule
}

// mostRules is more than a model has, as it fits into a line.
const mostRules = 1 << 20

// counted adds 1 to the count of a rule, from 1.
func counted(counts []int, rule int) []int {
	if rule < 1 || rule > mostRules {
		return counts
	}
	for len(counts) < rule {
		counts = append(counts, 0)
	}
	counts[rule-1]++
	return counts
}

// Merge adds the counts of other, which is not used any more.
func (c *Counts) Merge(other *Counts) {
	for name, it := range other.decisions {
		c.decisions[name] = merged(c.decisions[name], it)
	}
}

// merged returns the sum of two parts, which may be nil.
func merged(one, other *part) *part {
	if one == nil || other == nil {
		if one == nil {
			return other
		}
		return one
	}
	one.table = mergedTables(one.table, other.table)
	one.entries = mergedParts(one.entries, other.entries)
	one.members = mergedParts(one.members, other.members)
	one.result = merged(one.result, other.result)
	return one
}

func mergedParts(parts, others []*part) []*part {
	if len(parts) < len(others) {
		parts, others = others, parts
	}
	for at, other := range others {
		parts[at] = merged(parts[at], other)
	}
	return parts
}

func mergedTables(one, other *Table) *Table {
	if one == nil {
		return other
	}
	if other != nil {
		one.Asked += other.Asked
		one.Defaults += other.Defaults
		one.None += other.None
		one.Hits = sums(one.Hits, other.Hits)
		one.Decided = sums(one.Decided, other.Decided)
		for rule := range other.Missed {
			one.mergeMissed(rule, other.Missed[rule])
		}
	}
	return one
}

// mergeMissed adds the columns at which a rule missed.
func (t *Table) mergeMissed(rule int, columns []bool) {
	for column, is := range columns {
		if is {
			t.missed(rule+1, column+1)
		}
	}
}

// sums adds counts, in the longer list; nil is no list.
func sums(counts, others []int) []int {
	if counts == nil || others != nil && len(counts) < len(others) {
		counts, others = others, counts
	}
	for at, count := range others {
		counts[at] += count
	}
	return counts
}

// Tables returns the counts by the JSON Pointer (RFC 6901) of each table, in a model whose decisions have these names.
func (c *Counts) Tables(decisions []string) map[string]*Table {
	tables := map[string]*Table{}
	for at, name := range decisions {
		if it := c.decisions[name]; it != nil {
			it.gather("/decisions/"+strconv.Itoa(at)+"/expr", tables)
		}
	}
	return tables
}

func (p *part) gather(pointer string, tables map[string]*Table) {
	if p.table != nil {
		tables[pointer+"/table"] = p.table
	}
	for at, entry := range p.entries {
		entry.gather(pointer+"/context/"+strconv.Itoa(at)+"/expr", tables)
	}
	for at, member := range p.members {
		member.gather(pointer+"/list/"+strconv.Itoa(at), tables)
	}
	if p.result != nil {
		p.result.gather(pointer+"/result", tables)
	}
}
