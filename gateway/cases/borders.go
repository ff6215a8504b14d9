package cases

import (
	"encoding/json"
	"fmt"
	"math/big"
	"regexp"
	"sort"
	"strconv"
	"strings"

	"gateway/lines"
	"gateway/model"
)

// Borders are rows at the borders of a decision table: for each rule, values that it tests; and in each column in turn both
// sides of each end of an interval, each word, another one, and null.
type Borders struct {
	// Name is the word of the table's decision, with those of the entries around the table.
	Name string
	// Decision is the word of the decision, Given those of the decisions whose values the rows bring.
	Decision string
	Given    []string
	// Rows are different objects of inputs.
	Rows [][]byte
	// columns are the paths that the rows set, values what each row has there.
	columns [][]string
	values  [][]any
	// Calculated are columns that the rows can't set, as their expressions are not names.
	Calculated []string
	// IsCut means that some rows are left out: values of other rules, or whole rules.
	IsCut bool
}

// MostBorders limits a table's rows, mostAsked how often rules are evaluated over all of them.
const (
	MostBorders = 10_000
	mostAsked   = 5_000_000
)

// A border is a column with the values tried in it.
type border struct {
	path   []string
	values []any
}

var (
	pathForm   = regexp.MustCompile(`^[\pL_][\pL\pN_]*(\.[\pL_][\pL\pN_]*)*$`)
	tokenForm  = regexp.MustCompile(`"(?:[^"\\]|\\.)*"|-?\d+(?:\.\d+)?|[\pL_][\pL\pN_]*`)
	otherWord  = "another"
	otherWords = map[string]any{"true": true, "false": false, "null": nil}
)

// A bordered is a table of a decision.
type bordered struct {
	name     string
	table    *model.Table
	decision *model.Decision
	// local are the words of entries, which are not inputs; written is the table as in the file, or nil.
	local   map[string]bool
	written *model.Table
}

// Borders returns the borders of each table of a decision.
func (s *Subject) Borders(word string) (all []*Borders, err error) {
	tables, err := s.tables(word)
	for at := range tables {
		if b := s.bordersOf(&tables[at], tables[at].table.Rules); len(b.Rows) > 0 || len(b.Calculated) > 0 {
			all = append(all, b)
		}
	}
	return all, err
}

// RuleBorders returns the borders of some rules of a decision that is a table, by number from 1; nil means all. It returns nil
// for other decisions.
func (s *Subject) RuleBorders(word string, only map[int]bool) (*Borders, error) {
	tables, err := s.tables(word)
	if err != nil || len(tables) == 0 || tables[len(tables)-1].name != word {
		return nil, err
	}
	main := &tables[len(tables)-1]
	rules := main.table.Rules
	if only != nil {
		rules = picked(rules, only)
	}
	return s.bordersOf(main, rules), nil
}

func picked(rules []model.Rule, only map[int]bool) (some []model.Rule) {
	for i, rule := range rules {
		if only[i+1] {
			some = append(some, rule)
		}
	}
	return some
}

// tables returns a decision's tables as in its file; the last is that of its result, if that is a table.
func (s *Subject) tables(word string) ([]bordered, error) {
	if s.parsed == nil {
		if err := s.parse(); err != nil {
			return nil, err
		}
	}
	at, is := s.places[word]
	if !is {
		return nil, nil
	}
	f := finder{subject: s, decision: &s.parsed.Decisions[at], local: map[string]bool{}}
	f.find(f.decision.Expr, fmt.Sprintf("/decisions/%d/expr", at), word)
	return f.found, nil
}

// parse reads the model's logic.
func (s *Subject) parse() error {
	parsed, written, err := s.logic()
	if err != nil {
		return err
	}
	s.written = map[string]*model.Table{}
	for table, origin := range written.Origins {
		s.written[origin.Pointer] = table
	}
	s.parsed = parsed
	return nil
}

// logic returns the model, and how its file has it.
func (s *Subject) logic() (*model.Model, *model.Written, error) {
	parsed, err := model.Parse(s.source.Text)
	if err != nil {
		return nil, nil, err
	}
	spelling, err := model.ReadSpelling(s.source.Names, s.source.Locals, s.source.Places)
	if err != nil {
		return nil, nil, err
	}
	return parsed, spelling.Written(parsed), nil
}

// Written returns the model as in its file.
func (s *Subject) Written() (*model.Model, error) {
	_, written, err := s.logic()
	if err != nil {
		return nil, err
	}
	return written.Model, nil
}

// A finder finds the tables of a decision.
type finder struct {
	subject  *Subject
	decision *model.Decision
	local    map[string]bool
	found    []bordered
}

func (f *finder) find(e model.Expression, pointer, name string) {
	switch e := e.(type) {
	case *model.Table:
		if written := f.subject.written[pointer+"/table"]; written != nil {
			f.found = append(f.found, bordered{name, e, f.decision, f.local, written})
		}
	case model.List:
		for i, it := range e {
			f.find(it, fmt.Sprintf("%s/list/%d", pointer, i), fmt.Sprintf("%s.%d", name, i+1))
		}
	case model.Context:
		for i, it := range e.Entries {
			f.local[it.Name] = true
			f.find(it.Expr, fmt.Sprintf("%s/context/%d/expr", pointer, i), name+"."+it.Name)
		}
		if e.Result != nil {
			f.find(e.Result, pointer+"/result", name)
		}
	}
}

// bordersOf returns the borders of some rules of a table.
func (s *Subject) bordersOf(t *bordered, rules []model.Rule) *Borders {
	b := &Borders{Name: t.name, Decision: t.decision.Name}
	var columns []border
	for i, text := range t.table.Inputs {
		path := strings.Split(text, ".")
		if !pathForm.MatchString(text) || !contains(t.decision.Needs, path[0]) || t.local[path[0]] {
			if i < len(t.written.Inputs) {
				b.Calculated = append(b.Calculated, t.written.Inputs[i])
			}
			path = nil
		} else if _, is := s.places[path[0]]; is && !contains(b.Given, path[0]) {
			b.Given = append(b.Given, path[0])
		}
		columns = append(columns, border{path, valuesOf(rules, i, s.Step, path)})
	}
	for _, it := range columns {
		if it.path != nil {
			b.columns = append(b.columns, it.path)
		}
	}
	if len(b.columns) > 0 {
		b.rows(rules, len(t.table.Rules), columns, s.Step)
	}
	return b
}

func contains(all []string, one string) bool {
	for _, it := range all {
		if it == one {
			return true
		}
	}
	return false
}

// valuesOf returns the values tried in a column.
func valuesOf(rules []model.Rule, column int, step func([]string) *big.Rat, path []string) []any {
	if path == nil {
		return nil
	}
	seen := map[string]any{}
	add := func(value any) { seen[string(lines.Compact(nil, value))] = value }
	for _, rule := range rules {
		for _, token := range tokenForm.FindAllString(rule.When[column], -1) {
			value, is := tokenValue(token)
			if !is {
				continue
			}
			if number, is := value.(json.Number); is {
				add(moved(number, step(path), -1))
				add(moved(number, step(path), 1))
				value = moved(number, step(path), 0)
			}
			add(value)
			if _, is := value.(string); is {
				add(otherWord)
			}
			if truth, is := value.(bool); is {
				add(!truth)
			}
		}
	}
	add(nil)
	all := make([]ordered, 0, len(seen))
	for text, value := range seen {
		all = append(all, orderedOf(text, value))
	}
	sort.Slice(all, func(i, j int) bool { return all[i].isBefore(&all[j]) })
	values := make([]any, len(all))
	for i := range all {
		values[i] = all[i].value
	}
	return values
}

// An ordered value has its number parsed, as it is often compared: a whole number if isWhole, else a fraction, or nil.
type ordered struct {
	text     string
	value    any
	whole    int64
	isWhole  bool
	fraction *big.Rat
}

func orderedOf(text string, value any) ordered {
	it := ordered{text: text, value: value}
	if number, is := value.(json.Number); is {
		whole, err := strconv.ParseInt(number.String(), 10, 64)
		if it.whole, it.isWhole = whole, err == nil; err != nil {
			it.fraction = rational(number)
		}
	}
	return it
}

func (o *ordered) rational() *big.Rat {
	if o.isWhole {
		return new(big.Rat).SetInt64(o.whole)
	}
	return o.fraction
}

// isBefore orders numbers by value, and others by text, null last.
func (o *ordered) isBefore(other *ordered) bool {
	if o.isWhole && other.isWhole {
		return o.whole < other.whole
	}
	if one, two := o.rational(), other.rational(); one != nil && two != nil {
		return one.Cmp(two) < 0
	}
	if o.value == nil || other.value == nil {
		return o.value != nil
	}
	return o.text < other.text
}

func rational(number json.Number) *big.Rat {
	value, _ := new(big.Rat).SetString(number.String())
	return value
}

// tokenValue returns the value of a literal.
func tokenValue(token string) (any, bool) {
	switch c := token[0]; {
	case c == '"':
		return lines.Text([]byte(token)), true
	case c == '-' || c >= '0' && c <= '9':
		return json.Number(token), true
	}
	value, is := otherWords[token]
	return value, is
}

// moved returns a number that is this many steps from one of the model, which counts steps, in the form of requests.
func moved(number json.Number, step *big.Rat, by int64) json.Number {
	value := rational(number)
	value.Add(value, big.NewRat(by, 1)).Mul(value, step)
	text := value.FloatString(20)
	if strings.Contains(text, ".") {
		text = strings.TrimRight(strings.TrimRight(text, "0"), ".")
	}
	return json.Number(text)
}

// rows makes the rows: around a base of each rule, each column in turn has each of its values. If these are too many, only the
// rule's values are used, and rules are left out evenly over the table.
func (b *Borders) rows(rules []model.Rule, asked int, columns []border, step func([]string) *big.Rat) {
	seen := map[string]bool{}
	most := MostBorders
	if asked > 0 && most > mostAsked/asked {
		most = mostAsked / asked
	}
	if b.IsCut = len(rules)*countOf(columns) > most; b.IsCut {
		rules = spread(rules, most/(usualBorders*len(columns)))
	}
	for _, rule := range rules {
		around := columns
		if b.IsCut {
			around = bordersOfRule(rule, columns, step)
		}
		if b.around(rule, around, step, seen, most); len(b.Rows) >= most {
			return
		}
	}
}

// usualBorders is how many values most cells have: a number and both sides of it, and null.
const usualBorders = 4

func countOf(columns []border) (count int) {
	for i := range columns {
		count += len(columns[i].values)
	}
	return count
}

// spread returns up to count rules, at least one, evenly spaced.
func spread(rules []model.Rule, count int) []model.Rule {
	if count < 1 {
		count = 1
	}
	if count >= len(rules) {
		return rules
	}
	some := make([]model.Rule, count)
	for i := range some {
		some[i] = rules[i*len(rules)/count]
	}
	return some
}

// bordersOfRule returns columns with the values of one rule.
func bordersOfRule(rule model.Rule, columns []border, step func([]string) *big.Rat) []border {
	own := make([]border, len(columns))
	for i := range columns {
		own[i] = border{columns[i].path, valuesOf([]model.Rule{rule}, i, step, columns[i].path)}
	}
	return own
}

// around adds the rows around a rule, up to a total.
func (b *Borders) around(rule model.Rule, columns []border, step func([]string) *big.Rat, seen map[string]bool, most int) {
	base := make([]any, len(columns))
	for i := range columns {
		base[i] = inside(rule.When[i], columns[i], step)
	}
	for i := range columns {
		b.along(columns, base, i, seen, most)
	}
}

// along adds the rows in which one column has each of its values.
func (b *Borders) along(columns []border, base []any, column int, seen map[string]bool, most int) {
	for _, value := range columns[column].values {
		if len(b.Rows) >= most {
			b.IsCut = true
			return
		}
		row := append([]any(nil), base...)
		row[column] = value
		b.add(columns, row, seen)
	}
}

// inside returns a value that a test probably holds for: the first literal, or the one next to it if it is not in the interval.
func inside(test string, column border, step func([]string) *big.Rat) any {
	values := column.values
	trimmed := strings.TrimSpace(test)
	found := tokenForm.FindAllString(trimmed, -1)
	for _, token := range found {
		value, is := tokenValue(token)
		if !is {
			continue
		}
		if number, is := value.(json.Number); is && column.path != nil {
			value = moved(number, step(column.path), 0)
		}
		at := placeOf(value, values)
		switch {
		case at < 0:
			return value
		case strings.HasPrefix(trimmed, "not"):
			return values[0]
		case (strings.HasPrefix(trimmed, ">") && !strings.HasPrefix(trimmed, ">=") || strings.HasPrefix(trimmed, "(") ||
			strings.HasPrefix(trimmed, "]")) && at+1 < len(values):
			return values[at+1]
		case strings.HasPrefix(trimmed, "<") && !strings.HasPrefix(trimmed, "<=") && at > 0:
			return values[at-1]
		}
		return value
	}
	if len(values) > 0 {
		return values[0]
	}
	return nil
}

func placeOf(value any, values []any) int {
	for at, it := range values {
		if it == value {
			return at
		}
	}
	return -1
}

// add adds a row that isn't there yet.
func (b *Borders) add(columns []border, values []any, seen map[string]bool) {
	row := map[string]any{}
	var set []any
	for i, it := range columns {
		if it.path == nil {
			continue
		}
		set = append(set, values[i])
		members := row
		for _, name := range it.path[:len(it.path)-1] {
			inner, is := members[name].(map[string]any)
			if !is {
				inner = map[string]any{}
				members[name] = inner
			}
			members = inner
		}
		members[it.path[len(it.path)-1]] = values[i]
	}
	text := lines.Compact(nil, row)
	if !seen[string(text)] {
		seen[string(text)] = true
		b.Rows, b.values = append(b.Rows, text), append(b.values, set)
	}
}

// CSV returns a file of the rows, with the file's names.
func (s *Subject) CSV(b *Borders, comma bool) []byte {
	separator := byte(',')
	if comma {
		separator = ';'
	}
	w := Writer{plan: &Plan{file: &File{Separator: separator, options: Options{Comma: comma}}}}
	var made []byte
	kinds := make([]kind, len(b.columns))
	for i, path := range b.columns {
		names := []string{s.Name(path[0])}
		for _, word := range path[1:] {
			names = append(names, s.partName(word))
		}
		if i > 0 {
			made = append(made, separator)
		}
		made = appendCell(made, []byte(strings.Join(names, ".")), separator)
		kinds[i] = kindOf(s.schema(path))
	}
	made = append(made, '\n')
	for _, row := range b.values {
		for i, value := range row {
			if i > 0 {
				made = append(made, separator)
			}
			made = w.valueCell(made, kinds[i], lines.Compact(nil, value))
		}
		made = append(made, '\n')
	}
	return made
}

// schema returns the type of a part of an input, or nil.
func (s *Subject) schema(path []string) json.RawMessage {
	schema := s.source.Types[path[0]]
	for _, word := range path[1:] {
		schema = kindOf(schema).properties[word]
	}
	return schema
}

// Step returns the unit of the numbers of an input or a part of it.
func (s *Subject) Step(path []string) *big.Rat {
	var form struct {
		MultipleOf json.Number `json:"multipleOf"`
	}
	if schema := s.schema(path); schema == nil || json.Unmarshal(schema, &form) != nil || len(form.MultipleOf) > mostDigits {
		return big.NewRat(1, 1)
	}
	if step, is := new(big.Rat).SetString(form.MultipleOf.String()); is && step.Sign() > 0 {
		return step
	}
	return big.NewRat(1, 1)
}
