package cases

import (
	"encoding/json"
	"fmt"
	"strings"
	"unicode/utf8"

	"gateway/lines"
)

// A Row is a request, or a test case.
type Row struct {
	*Record
	// Service is the service that a line names, as serve reads it, or "".
	Service string
	// Inputs is the object of the inputs.
	Inputs []byte
	// Dues are the expected values.
	Dues []Due
	// IsSkipped means another line of serve, which asks nothing.
	IsSkipped bool
	// cells are the cells with which results begin.
	cells []cell
}

// Fault returns why the row is refused, or nil.
func (r *Row) Fault() *Fault { return r.fault }

// Refuse notes why the row is refused.
func (r *Row) Refuse(fault *Fault) { r.fault = fault }

// A Due is an expected value.
type Due struct {
	// Name is as in the file, without its mark.
	Name string
	// Decision is a decision's word, Path the names within its result.
	Decision string
	Path     []string
	// Value is JSON. Text is the CSV cell that it is read from if its type is not known; else nil.
	Value, Text []byte
}

// A Parser reads a file's rows. Each goroutine needs its own.
type Parser struct {
	plan   *Plan
	reader lines.Reader
	room   []byte
}

// Parser returns a new Parser.
func (p *Plan) Parser() *Parser { return &Parser{plan: p} }

// Row reads a record. The row is valid as long as the record is.
func (p *Parser) Row(record *Record, row *Row) {
	*row = Row{Record: record, cells: row.cells[:0]}
	switch {
	case record.fault != nil:
	case p.plan.file.Form == CSV:
		p.csvRow(row)
	default:
		p.jsonRow(row)
	}
}

// faultAt notes a fault at a byte of a row.
func (r *Row) faultAt(offset int, name, reason string) {
	line, column := r.Line, r.Column
	for _, c := range r.Text[:offset] {
		column++
		if c == '\n' {
			line, column = line+1, 1
		}
	}
	r.fault = &Fault{Line: line, Column: column, Name: name, Reason: reason}
}

func (p *Parser) csvRow(row *Row) {
	var fault *quoteFault
	row.cells, fault = cells(row.cells, row.Text, p.plan.file.Separator)
	columns := p.plan.columns
	if !utf8.Valid(row.Text) {
		p.noText(row)
		return
	}
	if fault != nil {
		name := ""
		if len(row.cells) < len(columns) {
			name = columns[len(row.cells)].name
		}
		row.faultAt(fault.offset, name, fault.reason)
		return
	}
	if len(row.cells) != len(columns) {
		at := len(row.Text)
		if len(row.cells) > len(columns) {
			at = row.cells[len(columns)].start
			row.cells = row.cells[:len(columns)]
		}
		row.faultAt(at, "", fmt.Sprintf("the row has %s, and the header has %d", counted(row, p.plan.file.Separator), len(columns)))
		return
	}
	inputs, _ := p.object(&p.plan.root, row, make([]byte, 0, len(row.Text)*2))
	if len(inputs) == 0 {
		inputs = []byte("{}")
	}
	row.Inputs = inputs
	p.csvDues(row)
}

// noText notes the first byte of a row that is not UTF-8.
func (p *Parser) noText(row *Row) {
	at, name := 0, ""
	bad := invalidAt(row.Text)
	for at < len(row.cells) && row.cells[at].end < bad {
		at++
	}
	if at < len(p.plan.columns) {
		name = p.plan.columns[at].name
	}
	row.faultAt(bad, name, notUTF8)
}

func counted(row *Row, separator byte) string {
	found, _ := cells(nil, row.Text, separator)
	if len(found) == 1 {
		return "1 cell"
	}
	return fmt.Sprintf("%d cells", len(found))
}

// object adds a node's object, and reports whether it has a member.
func (p *Parser) object(n *node, row *Row, to []byte) ([]byte, bool) {
	start := len(to)
	to = append(to, '{')
	for _, part := range n.parts {
		before := len(to)
		if len(to) > start+1 {
			to = append(to, ',')
		}
		to = append(to, part.key...)
		var is bool
		if part.column < 0 {
			to, is = p.object(part, row, to)
		} else {
			to, is = p.value(part.column, row, to)
		}
		if !is {
			to = to[:before]
		}
	}
	if len(to) == start+1 {
		return to[:start], false
	}
	return append(to, '}'), true
}

// value adds a cell's value, and reports whether there is one.
func (p *Parser) value(at int, row *Row, to []byte) ([]byte, bool) {
	it, column := row.cells[at], &p.plan.columns[at]
	if it.start == it.end || row.fault != nil {
		return to, false
	}
	p.room = it.text(row.Text, p.room)
	text := p.room
	if !it.isDoubled {
		text, p.room = row.Text[it.start:it.end], nil
	}
	to, reason := column.kind.appendValue(to, text, p.plan.file.options.Comma)
	if reason != "" {
		row.faultAt(it.start, column.name, reason)
		return to, false
	}
	return to, true
}

func (p *Parser) csvDues(row *Row) {
	for at := range p.plan.columns {
		column := &p.plan.columns[at]
		if column.use != due {
			continue
		}
		if value, is := p.value(at, row, nil); is {
			due := Due{Name: strings.TrimPrefix(column.name, string(dueMark)), Decision: column.word, Path: column.path, Value: value}
			if column.kind.is(kind{}) {
				due.Text = row.cells[at].text(row.Text, nil)
			}
			row.Dues = append(row.Dues, due)
		}
	}
}

// jsonRow reads an object of inputs, or a request as serve reads it.
func (p *Parser) jsonRow(row *Row) {
	object, other, fault := p.reader.Read(row.Text, lines.MaxNesting)
	if fault != nil {
		row.faultAt(fault.Offset, "", fault.Reason)
		return
	}
	if other {
		row.faultAt(0, "", "an object is due, and this is "+lines.Brief(row.Text, 60))
		return
	}
	if service, inputs, is := requestIn(row.Text, object.Members); is {
		row.Service = lines.Text(row.Text[service.Start:service.End])
		row.Inputs = row.Text[inputs.Start:inputs.End]
		p.marked(row, object.Members)
		if members, other, fault := lines.Members(row.Inputs, lines.MaxNesting-1); fault == nil && !other {
			p.known(row, members, inputs.Start)
		}
		return
	}
	if row.IsSkipped = isOther(object.Members); row.IsSkipped {
		return
	}
	p.known(row, object.Members, 0)
	p.marked(row, object.Members)
	row.Inputs = plain(row.Text, object.Members)
}

// requestIn finds the service and the inputs of a line that is a request: besides these it may only have a client, a result,
// and members with marks.
func requestIn(text []byte, members []lines.Member) (service, inputs lines.Span, is bool) {
	for _, member := range members {
		switch member.Key {
		case "service":
			service = member.Value
		case "inputs":
			inputs = member.Value
		case "client", "result":
		default:
			if !isMarked(member.Key) {
				return service, inputs, false
			}
		}
	}
	return service, inputs, service.End > 0 && inputs.End > 0 && text[service.Start] == '"' && text[inputs.Start] == '{'
}

// isOther reports whether a line of serve is a model, a close or a resize.
func isOther(members []lines.Member) bool {
	keys := map[string]bool{}
	for _, member := range members {
		switch member.Key {
		case "model", "client", "close", "resize", "capacity":
			keys[member.Key] = true
		default:
			return false
		}
	}
	return len(keys) == 1 && keys["model"] || len(keys) == 2 && (keys["client"] && keys["close"] || keys["resize"] && keys["capacity"])
}

func isMarked(key string) bool {
	return key != "" && (key[0] == dueMark || key[0] == asideMark)
}

// known refuses a member that the model doesn't know.
func (p *Parser) known(row *Row, members []lines.Member, offset int) {
	if p.plan.file.options.Unknown {
		return
	}
	q := p.plan.question
	for _, member := range members {
		if isMarked(member.Key) {
			continue
		}
		word, is := q.subject.inputs[member.Key]
		if !is {
			if word, is = q.subject.decisions[member.Key]; is && row.Service == "" {
				is = q.given[word]
			}
		}
		if !is {
			row.faultAt(offset+member.Value.Start, member.Key,
				"the model has no such input"+meant(member.Key, q.subject.inputNames()))
			return
		}
	}
}

// marked reads the expected values.
func (p *Parser) marked(row *Row, members []lines.Member) {
	for _, member := range members {
		if member.Key == "result" && row.Service != "" {
			row.Dues = append(row.Dues, Due{Name: member.Key, Value: row.Text[member.Value.Start:member.Value.End]})
		}
		if member.Key == "" || member.Key[0] != dueMark {
			continue
		}
		name := canonical(member.Key[1:])
		it, reason := p.plan.question.subject.due(name)
		if reason != "" {
			row.faultAt(member.Value.Start, member.Key, reason)
			return
		}
		if row.Service != "" && !p.plan.question.subject.answers(row.Service, it.word) {
			row.faultAt(member.Value.Start, member.Key, fmt.Sprintf("the service %q does not answer it", row.Service))
			return
		}
		row.Dues = append(row.Dues, Due{Name: name, Decision: it.word, Path: it.path, Value: row.Text[member.Value.Start:member.Value.End]})
	}
}

// plain returns an object without the members that have marks.
func plain(text []byte, members []lines.Member) []byte {
	isPlain := true
	for _, member := range members {
		isPlain = isPlain && !isMarked(member.Key)
	}
	if isPlain {
		return text
	}
	made := []byte{'{'}
	for _, member := range members {
		if isMarked(member.Key) {
			continue
		}
		if len(made) > 1 {
			made = append(made, ',')
		}
		made = append(lines.AppendQuoted(made, member.Key), ':')
		made = append(made, text[member.Value.Start:member.Value.End]...)
	}
	return append(made, '}')
}

// rulesOf returns the deciding rules of an explanation, by the decision and the entry that has the table.
func rulesOf(explanation json.RawMessage) map[string][]int {
	var decisions []explained
	if json.Unmarshal(explanation, &decisions) != nil {
		return nil
	}
	rules := map[string][]int{}
	for _, it := range decisions {
		it.gather(it.Name, rules)
	}
	return rules
}

// An explained is a part of a decision's explanation.
type explained struct {
	Name  string
	Table *struct {
		Hits    []struct{ Rule int }
		Decided []int
	}
	Entries, Members []explained
	Result           *explained
}

func (e *explained) gather(name string, rules map[string][]int) {
	if e.Table != nil {
		rules[name] = append(append([]int{}, rules[name]...), e.Table.Decided...)
	}
	for at := range e.Entries {
		e.Entries[at].gather(name+"."+e.Entries[at].Name, rules)
	}
	for at := range e.Members {
		e.Members[at].gather(fmt.Sprintf("%s[%d]", name, at+1), rules)
	}
	if e.Result != nil {
		e.Result.gather(name, rules)
	}
}
