package cases

import (
	"encoding/json"
	"fmt"
	"strings"

	"gateway/lines"
	"gateway/service"
)

// Marks of columns and members: expected ones, and ignored ones.
const (
	dueMark   = '='
	asideMark = '#'
)

// The columns and members of results besides the answers.
const (
	faultName = "#fault"
	rulesName = "#rules"
)

// A use is what a column is for.
type use int

const (
	aside use = iota
	input
	due
	// answered is a column of results, which is written again.
	answered
)

// A column is a CSV column.
type column struct {
	name string
	use  use
	// word is that of an input or decision, path the names within it.
	word string
	path []string
	kind kind
}

// A node is an object formed by columns: a part of it, or a value.
type node struct {
	// key is the member's key, with its colon.
	key    []byte
	column int
	parts  []*node
	byKey  map[string]*node
}

// A Question is what each row asks: a service of a model.
type Question struct {
	Source  *service.Source
	Service string
	// Outputs are the words of the answered decisions.
	Outputs []string
	subject *Subject
	// given are the decisions whose values the request brings.
	given map[string]bool
}

// Question returns the question of a file's rows, with the outputs of Outputs.
func (s *Subject) Question(name string) (*Question, error) {
	outputs, err := s.Outputs(name)
	if err != nil {
		return nil, err
	}
	at := s.service(name)
	if name == "" && len(s.form.Services) == 1 {
		at = 0
	}
	if at < 0 {
		return s.QuestionOf(outputs, nil)
	}
	q := &Question{Source: s.source, Service: s.form.Services[at].Name, Outputs: outputs, subject: s, given: map[string]bool{}}
	for _, word := range s.form.Services[at].InputDecisions {
		q.given[word] = true
	}
	return q, nil
}

// QuestionOf asks for some decisions, with the values of given ones in requests.
func (s *Subject) QuestionOf(outputs, given []string) (*Question, error) {
	source, word, err := s.Asking(outputs, given)
	if err != nil {
		return nil, err
	}
	q := &Question{Source: source, Service: word, Outputs: outputs, subject: s, given: map[string]bool{}}
	for _, it := range given {
		q.given[it] = true
	}
	return q, nil
}

// nameOf returns the name of what a row asks: a service, or decisions.
func (q *Question) nameOf(row *Row) string {
	if row.Service != "" {
		return q.subject.Name(row.Service)
	}
	if q.subject.service(q.Service) >= 0 {
		return q.subject.Name(q.Service)
	}
	var names []string
	for _, word := range q.Outputs {
		names = append(names, q.subject.Name(word))
	}
	return strings.Join(names, ", ")
}

// Named returns inputs with the file's names instead of words.
func (p *Plan) Named(inputs []byte) []byte {
	names := p.question.subject.source.Names
	if len(names) == 0 {
		return inputs
	}
	tree, err := lines.Tree(inputs)
	if err != nil {
		return inputs
	}
	return lines.Compact(nil, lines.Renamed(tree, names))
}

// A Plan is how a file's rows are read for a question.
type Plan struct {
	file     *File
	question *Question
	columns  []column
	root     node
	// isCopied means that rows of results begin with the rows as read.
	isCopied bool
	results  []resultColumn
}

// UnknownTo returns the first column that neither plan knows, or "".
func (p *Plan) UnknownTo(other *Plan) string {
	for at, it := range p.columns {
		if it.use == aside && !isMarked(it.name) && other.columns[at].use == aside {
			return it.name
		}
	}
	return ""
}

// mostFaults limits the reported faults of a header.
const mostFaults = 10

// A HeaderFaults is the error of a header with invalid columns.
type HeaderFaults []*Fault

func (h HeaderFaults) Error() string {
	var all []string
	for _, fault := range h {
		all = append(all, fault.Error())
	}
	return strings.Join(all, "\n")
}

// In returns the error with the file's name before each place.
func (h HeaderFaults) In(file string) error {
	var all []string
	for _, fault := range h {
		all = append(all, file+":"+fault.Error())
	}
	return fmt.Errorf("%w\n%s", ErrForm, strings.Join(all, "\n"))
}

// Plan reads a CSV file's header for a question. The error is a HeaderFaults if columns are unknown.
func (f *File) Plan(q *Question, isRun bool) (*Plan, error) {
	p := &Plan{file: f, question: q, isCopied: true}
	p.resultColumns()
	var faults HeaderFaults
	for at, name := range f.Header {
		if len(faults) == mostFaults {
			break
		}
		it, reason := p.column(name)
		if it.use == due && isRun {
			it.use = answered
		}
		if it.use == input && reason == "" {
			reason = p.root.add(quotedKey(it.word), it.path, at)
		}
		if reason != "" {
			faults = append(faults, &Fault{Line: f.headerAt, Name: fmt.Sprintf("column %d", at+1), Reason: reason})
		}
		p.isCopied = p.isCopied && it.use != answered
		p.columns = append(p.columns, it)
	}
	if len(faults) > 0 {
		return nil, faults
	}
	return p, nil
}

func quotedKey(name string) []byte {
	return append(lines.AppendQuoted(nil, name), ':')
}

// add adds a column below this node.
func (n *node) add(key []byte, path []string, at int) string {
	part := n.byKey[string(key)]
	if part == nil {
		if n.byKey == nil {
			n.byKey = map[string]*node{}
		}
		part = &node{key: key, column: -1}
		n.parts, n.byKey[string(key)] = append(n.parts, part), part
	}
	if len(path) == 0 {
		if len(part.parts) > 0 || part.column >= 0 {
			return "another column has the same value, or a part of it"
		}
		part.column = at
		return ""
	}
	if part.column >= 0 {
		return "another column has the value of which this is a part"
	}
	return part.add(quotedKey(path[0]), path[1:], at)
}

// column finds what a column is for, or says why it is invalid.
func (p *Plan) column(name string) (column, string) {
	switch {
	case name == faultName || name == rulesName:
		return column{name: name, use: answered}, ""
	case name != "" && name[0] == asideMark:
		return column{name: name}, ""
	case name == "":
		return column{}, "it has no name; # begins the name of a column that is left alone"
	case name[0] == dueMark:
		it, reason := p.question.subject.due(canonical(name[1:]))
		it.name, it.use = name, due
		return it, reason
	}
	it, reason := p.question.input(name)
	if it.name, it.use = name, input; reason != "" && p.file.options.Unknown {
		return column{name: name}, ""
	}
	return it, reason
}

// input finds an input, or a part of one.
func (q *Question) input(name string) (column, string) {
	s := q.subject
	word, path := found(name, s.inputs)
	if word == "" {
		if word, path = found(name, s.decisions); !q.given[word] {
			return column{}, fmt.Sprintf("the model has no input %q%s", name, meant(name, s.inputNames()))
		}
	}
	schema := s.source.Types[word]
	for _, part := range path {
		properties := kindOf(schema).properties
		if len(properties) == 0 {
			schema = nil
			continue
		}
		var is bool
		if schema, is = s.property(properties, part); !is {
			return column{}, fmt.Sprintf("%q has no part %q%s", s.Name(word), part, meant(part, s.propertyNames(properties)))
		}
	}
	return column{word: word, path: path, kind: kindOf(schema)}, ""
}

// property returns the schema of a property, named by its word or its name in the file.
func (s *Subject) property(properties map[string]json.RawMessage, name string) (json.RawMessage, bool) {
	for word, schema := range properties {
		if word == name || canonical(s.partName(word)) == name {
			return schema, true
		}
	}
	return nil, false
}

func (s *Subject) propertyNames(properties map[string]json.RawMessage) (names []string) {
	for word := range properties {
		names = append(names, s.partName(word))
	}
	return names
}

// due finds a decision, or a part of its result.
func (s *Subject) due(name string) (column, string) {
	word, path := found(name, s.decisions)
	if word == "" {
		return column{}, fmt.Sprintf("the model has no decision %q%s", name, meant(name, s.decisionNames()))
	}
	for at, part := range path {
		path[at] = s.Name(part)
	}
	it := column{word: word, path: path}
	if len(path) == 0 {
		it.kind = kindOf(s.source.Types[word])
	}
	return it, ""
}

// found returns the word of a name, and the path within it: the longest known name before a point.
func found(name string, words map[string]string) (word string, path []string) {
	if word, is := words[name]; is {
		return word, nil
	}
	for end := strings.LastIndexByte(name, '.'); end > 0; end = strings.LastIndexByte(name[:end], '.') {
		if word, is := words[canonical(name[:end])]; is {
			path = strings.Split(name[end+1:], ".")
			for at := range path {
				path[at] = canonical(path[at])
			}
			return word, path
		}
	}
	return "", nil
}
