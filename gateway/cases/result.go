package cases

import (
	"bytes"
	"encoding/json"
	"sort"
	"strconv"
	"strings"

	"gateway/lines"
)

// An Answer is the outcome of a row.
type Answer struct {
	// Result is the text of the result, with the file's names: the only output's value, or an object of all.
	Result []byte
	// Fault is why there is none, or "". IsRefused means that the row was not taken, IsFailed that no engine answered;
	// otherwise it is the model's answer.
	Fault               string
	IsRefused, IsFailed bool
	// Rules are those that decided, if requested.
	Rules map[string][]int
	// Told is the explanation in the form of `desk explain`, if requested.
	Told []byte
}

// A resultColumn is a column added by results.
type resultColumn struct {
	// name begins with the mark.
	name   string
	output string
	// path is within the output.
	path []string
	kind kind
}

func (p *Plan) resultColumns() {
	s := p.question.subject
	for _, word := range p.question.Outputs {
		name := s.Name(word)
		members := s.members(word)
		if len(members) == 0 {
			p.results = append(p.results, resultColumn{string(dueMark) + name, name, nil, kindOf(s.source.Types[word])})
		}
		for _, member := range members {
			member = s.partName(member)
			p.results = append(p.results, resultColumn{string(dueMark) + name + "." + member, name, []string{member}, kind{}})
		}
	}
}

// A Writer writes results in the file's form.
type Writer struct {
	plan *Plan
	// hasRules means that the deciding rules are written too.
	hasRules bool
	count    int
}

// Writer returns a new Writer.
func (p *Plan) Writer(hasRules bool) *Writer { return &Writer{plan: p, hasRules: hasRules} }

// Begin adds what goes before all rows.
func (w *Writer) Begin(to []byte) []byte {
	switch w.plan.file.Form {
	case List:
		return append(to, '[')
	case Lines:
		return to
	}
	separator := w.plan.file.Separator
	for at, it := range w.plan.columns {
		if it.use != answered {
			to = append(appendCell(to, []byte(w.plan.file.Header[at]), separator), separator)
		}
	}
	for _, it := range w.plan.results {
		to = append(appendCell(to, []byte(it.name), separator), separator)
	}
	to = append(to, faultName...)
	if w.hasRules {
		to = append(append(to, separator), rulesName...)
	}
	return append(to, '\n')
}

// End adds what goes after all rows.
func (w *Writer) End(to []byte) []byte {
	if w.plan.file.Form == List {
		return append(to, "\n]\n"...)
	}
	return to
}

// Row adds a row with its answer.
func (w *Writer) Row(to []byte, row *Row, answer *Answer) []byte {
	if row.IsSkipped {
		return to
	}
	w.count++
	switch w.plan.file.Form {
	case CSV:
		return w.csvRow(to, row, answer)
	case List:
		if w.count > 1 {
			to = append(to, ',')
		}
		return w.jsonRow(append(to, '\n'), row, answer)
	}
	return append(w.jsonRow(to, row, answer), '\n')
}

func (w *Writer) csvRow(to []byte, row *Row, answer *Answer) []byte {
	separator := w.plan.file.Separator
	if w.plan.isCopied && row.fault == nil {
		to = append(append(to, row.Text...), separator)
	} else {
		to = w.keptCells(to, row)
	}
	to = w.answers(to, answer)
	to = appendCell(to, []byte(answer.Fault), separator)
	if w.hasRules {
		to = append(to, separator)
		to = appendCell(to, []byte(ShownRules(answer.Rules)), separator)
	}
	return append(to, '\n')
}

// keptCells adds the cells read, without those that are written again.
func (w *Writer) keptCells(to []byte, row *Row) []byte {
	separator := w.plan.file.Separator
	for at, column := range w.plan.columns {
		if column.use == answered {
			continue
		}
		if at < len(row.cells) {
			to = appendCell(to, bytes.ToValidUTF8(row.cells[at].text(row.Text, nil), []byte("\ufffd")), separator)
		}
		to = append(to, separator)
	}
	return to
}

// answers adds the cells of an answer, each followed by the separator.
func (w *Writer) answers(to []byte, answer *Answer) []byte {
	results, separator := w.plan.results, w.plan.file.Separator
	if answer.Result == nil {
		for range results {
			to = append(to, separator)
		}
		return to
	}
	if len(results) == 1 && (answer.Result[0] != '{' || len(w.plan.question.Outputs) == 1) && results[0].path == nil {
		return append(w.valueCell(to, results[0].kind, answer.Result), separator)
	}
	tree, err := lines.Tree(answer.Result)
	for _, it := range results {
		value := tree
		if len(w.plan.question.Outputs) > 1 {
			value = within(tree, []string{it.output})
		}
		if value = within(value, it.path); err == nil {
			to = w.valueCell(to, it.kind, lines.Compact(nil, value))
		}
		to = append(to, separator)
	}
	return to
}

// within returns a part of a value, or null.
func within(value any, path []string) any {
	for _, name := range path {
		members, _ := value.(map[string]any)
		value = members[name]
	}
	return value
}

// valueCell adds a value as a cell that reads as the same value.
func (w *Writer) valueCell(to []byte, k kind, value []byte) []byte {
	comma, separator := w.plan.file.options.Comma, w.plan.file.Separator
	switch c := value[0]; {
	case c == '"':
		text := []byte(lines.Text(value))
		if again, reason := k.appendValue(nil, orEmpty(text), comma); len(text) == 0 || reason != "" || !bytes.Equal(again, value) {
			text = value
		}
		return appendCell(to, text, separator)
	case comma && (c == '-' || c >= '0' && c <= '9'):
		return appendCell(to, bytes.Replace(value, []byte("."), []byte(","), 1), separator)
	}
	return appendCell(to, value, separator)
}

// orEmpty returns a text that is not nil.
func orEmpty(text []byte) []byte {
	if len(text) == 0 {
		return []byte(" ")
	}
	return text
}

// jsonRow adds a row with members for the answer.
func (w *Writer) jsonRow(to []byte, row *Row, answer *Answer) []byte {
	to = append(to, '{')
	begin := len(to)
	if members, other, fault := lines.Members(row.Text, lines.MaxNesting); fault == nil && !other {
		for _, member := range members {
			if w.isAnswer(member.Key, row) {
				continue
			}
			to = appendKey(to, begin, member.Key)
			to = append(to, lines.OneLine(row.Text[member.Value.Start:member.Value.End], 0)...)
		}
	} else {
		to = append(appendKey(to, begin, "#line"), strconv.Itoa(row.Line)...)
	}
	switch {
	case answer.Result == nil:
	case row.Service != "":
		to = append(appendKey(to, begin, "result"), answer.Result...)
	case len(w.plan.question.Outputs) == 1:
		to = append(appendKey(to, begin, string(dueMark)+w.plan.question.subject.Name(w.plan.question.Outputs[0])), answer.Result...)
	default:
		to = w.outputs(to, begin, answer.Result)
	}
	if answer.Fault != "" {
		to = lines.AppendQuoted(appendKey(to, begin, faultName), answer.Fault)
	}
	if w.hasRules && answer.Rules != nil {
		rules, _ := json.Marshal(answer.Rules)
		to = append(appendKey(to, begin, rulesName), rules...)
	}
	return append(to, '}')
}

// isAnswer reports whether results write this member again.
func (w *Writer) isAnswer(key string, row *Row) bool {
	return key == faultName || key == rulesName || key != "" && key[0] == dueMark || key == "result" && row.Service != ""
}

// outputs adds a member for each output.
func (w *Writer) outputs(to []byte, begin int, result []byte) []byte {
	members, _, _ := lines.Members(result, lines.MaxNesting)
	for _, member := range members {
		to = append(appendKey(to, begin, string(dueMark)+member.Key), result[member.Value.Start:member.Value.End]...)
	}
	return to
}

func appendKey(to []byte, begin int, key string) []byte {
	if len(to) > begin {
		to = append(to, ',')
	}
	return append(lines.AppendQuoted(to, key), ':')
}

// ShownRules returns the deciding rules on one line, such as price 3; risk 1, 2.
func ShownRules(rules map[string][]int) string {
	names := make([]string, 0, len(rules))
	for name := range rules {
		names = append(names, name)
	}
	sort.Strings(names)
	var all []string
	for _, name := range names {
		var numbers []string
		for _, rule := range rules[name] {
			numbers = append(numbers, strconv.Itoa(rule))
		}
		if len(numbers) == 0 {
			numbers = []string{"no rule"}
		}
		all = append(all, name+" "+strings.Join(numbers, ", "))
	}
	return strings.Join(all, "; ")
}
