package tell

import (
	"bytes"
	"encoding/json"
	"fmt"
	"math"

	"gateway/feel"
	"gateway/feel/strict"
	"gateway/lines"
	"gateway/model"
)

// TableLines words the engine's findings about a model's tables as `desk check --json --tables` does.
func TableLines(text []byte, found []json.RawMessage) (reported []json.RawMessage, err error) {
	defer recovered(&err)
	reported = []json.RawMessage{}
	output := []byte("{\"lawful\":true}\n")
	for _, line := range found {
		output = append(append(output, line...), '\n')
	}
	facts, err := readFacts(output)
	if err != nil {
		return nil, err
	}
	r := &report{format: JSON, facts: facts, file: newFile(text)}
	if r.file == nil || r.file.model == nil {
		return nil, errNoTable
	}
	if err := r.tables(); err != nil {
		return nil, err
	}
	for _, line := range bytes.SplitAfter(r.out.Bytes(), []byte("\n")) {
		if len(line) > 0 {
			reported = append(reported, line[:len(line)-1])
		}
	}
	return reported, nil
}

// lines writes the lines of a table: one about it, and one for each finding.
func (t *tableReport) lines() error {
	f := t.facts
	line := t.placed(nil)
	if f.Comes {
		line = line.raw("comes", "true")
	}
	line = line.raw("complete", answer(f.Complete)).raw("asked", answer(f.Asked)).raw("words", answer(f.Words))
	if len(f.Unique) > 0 {
		line = line.raw("unique", string(f.Unique))
	}
	line = line.number("steps", f.Steps)
	why, err := json.Marshal(f.Undecided)
	if err != nil {
		return fmt.Errorf("writing what is not decided: %w", err)
	}
	if string(why) != "{}" {
		line = line.raw("undecided", string(why))
	}
	t.out.WriteString(line.line())
	columns := t.columns()
	for _, kind := range []string{"overlap", "gap", "never", "masked"} {
		for _, finding := range f.findings {
			if finding.Finding == kind {
				t.line(columns, finding)
			}
		}
		t.moreLine(kind, f.more[kind]+f.more["other "+kind])
	}
	return nil
}

// placed adds the table's place to an object.
func (t *tableReport) placed(o object) object {
	return o.text("table", t.facts.Table).position(t.file.position(t.place))
}

func answer(is *bool) string {
	if is == nil {
		return "null"
	}
	return fmt.Sprint(*is)
}

func (t *tableReport) moreLine(kind string, more int) {
	if more > 0 {
		t.out.WriteString(object(nil).text("finding", kind).text("table", t.facts.Table).number("more", more).line())
	}
}

// line writes the line of a finding.
func (t *tableReport) line(columns *columns, f *factFinding) {
	line := t.placed(object(nil).text("finding", f.Finding)).raw("rules", numbers(f.Rules))
	if f.Finding == "masked" {
		line = line.raw("before", numbers(f.Before))
	}
	if f.Witness == nil {
		t.out.WriteString(line.line())
		return
	}
	line = line.raw("witness", string(array(f.Witness)))
	if columns.isFree {
		line = line.raw("inputs", string(columns.inputs(f.Witness)))
	}
	cells := make([]json.RawMessage, len(f.Cells))
	for at := range f.Cells {
		c := f.Cells[at].values()
		cells[at] = array(c.pieces())
	}
	line = line.raw("cells", string(array(cells)))
	if f.IsAsked != nil {
		line = line.raw("asked", answer(f.IsAsked))
	}
	if !columns.isFree {
		line = line.raw("sure", "false")
	}
	t.out.WriteString(line.line())
}

// array returns an array of JSON values.
func array(items []json.RawMessage) json.RawMessage {
	all := []byte{'['}
	for at, item := range items {
		if at > 0 {
			all = append(all, ',')
		}
		all = append(all, item...)
	}
	return append(all, ']')
}

func numbers(all []int) string {
	items := make([]json.RawMessage, len(all))
	for at, number := range all {
		items[at] = json.RawMessage(fmt.Sprint(number))
	}
	return string(array(items))
}

// pieces returns the parts of a cell as JSON.
func (c *cell) pieces() (all []json.RawMessage) {
	add := func(piece string) { all = append(all, json.RawMessage(piece)) }
	for _, s := range c.numbers {
		add(s.json())
	}
	if c.allBut {
		words := make([]json.RawMessage, len(c.words))
		for at, word := range c.words {
			words[at] = lines.AppendQuoted(nil, word)
		}
		add(fmt.Sprintf(`{"texts_but":%s}`, array(words)))
	} else {
		for _, word := range c.words {
			add(fmt.Sprintf(`{"text":%s}`, quoted(word)))
		}
	}
	for _, r := range c.runs {
		add(r.json())
	}
	for _, kind := range []struct {
		is   bool
		json string
	}{
		{c.yes, `{"value":true}`}, {c.no, `{"value":false}`}, {c.null, `{"value":null}`},
		{c.parted, `{"else":{"kinds":["list","context"],"values":[]}}`},
	} {
		if kind.is {
			add(kind.json)
		}
	}
	return all
}

func (s span) json() string {
	switch {
	case s.low == -math.MaxInt64 && s.high < math.MaxInt64:
		return fmt.Sprintf(`{"to":%d}`, s.high)
	case s.low > -math.MaxInt64 && s.high == math.MaxInt64:
		return fmt.Sprintf(`{"from":%d}`, s.low)
	}
	return fmt.Sprintf(`{"from":%d,"to":%d}`, s.low, s.high)
}

func (r textRun) json() string {
	o := object("{")
	if r.above != nil {
		o = append(o, `"above":`+quoted(*r.above)...)
	}
	if r.below != nil {
		if r.above != nil {
			o = append(o, ',')
		}
		o = append(o, `"below":`+quoted(*r.below)...)
	}
	return string(append(o, '}'))
}

// A columns holds the input columns of a table, each with the path to its value: an input of the model, and entries in it.
type columns struct {
	ways [][]string
	// isFree means that each column is an input or its path, and that all differ: a request can then give each any value.
	isFree bool
}

func (t *tableReport) columns() *columns {
	c := &columns{isFree: true}
	inScope, taken := t.file.inScope(t.place), map[string]any{}
	for _, input := range t.table.Inputs {
		way := wayOf(input)
		c.ways = append(c.ways, way)
		c.isFree = c.isFree && len(way) > 0 && inScope[way[0]] && put(taken, way, json.RawMessage("null"))
	}
	return c
}

// wayOf returns the path of an expression; none if it is not a name or path.
func wayOf(input string) []string {
	node, ok := strict.ReadExpression(input)
	var way []string
	for ok {
		switch of := node.(type) {
		case *feel.Name:
			return append([]string{of.Name}, way...)
		case *feel.Path:
			node, way = of.Operand, append([]string{of.Name}, way...)
		default:
			ok = false
		}
	}
	return nil
}

// put puts a value at the end of a path; false if something is there.
func put(object map[string]any, way []string, value any) bool {
	for ; len(way) > 1; way = way[1:] {
		inner, is := object[way[0]]
		if !is {
			inner = map[string]any{}
			object[way[0]] = inner
		}
		if object, is = inner.(map[string]any); !is {
			return false
		}
	}
	if _, is := object[way[0]]; is {
		return false
	}
	object[way[0]] = value
	return true
}

// inputs returns request inputs that give the columns these values.
func (c *columns) inputs(values []json.RawMessage) json.RawMessage {
	all := map[string]any{}
	for at, way := range c.ways {
		if at < len(values) {
			put(all, way, values[at])
		}
	}
	return appendSorted(nil, all)
}

// appendSorted adds an object, its members sorted by key.
func appendSorted(to []byte, object map[string]any) []byte {
	to = append(to, '{')
	for at, key := range lines.Keys(object) {
		if at > 0 {
			to = append(to, ',')
		}
		to = append(lines.AppendQuoted(to, key), ':')
		switch value := object[key].(type) {
		case map[string]any:
			to = appendSorted(to, value)
		case json.RawMessage:
			to = append(to, value...)
		}
	}
	return append(to, '}')
}

// inScope returns the inputs of the model that are visible at a table: its decision needs them, and no entry before it in an
// enclosing context hides them.
func (f *file) inScope(place Place) set {
	decision := &f.model.Decisions[place[1].Index]
	names, inputs := set{}, setOf(f.model.Inputs)
	for _, need := range decision.Needs {
		if inputs[need] {
			names[need] = true
		}
	}
	logic := decision.Expr
	for at := 2; at < len(place) && logic != nil; at++ {
		context, isContext := logic.(model.Context)
		switch step := place[at]; {
		case step.Key == "result" && isContext:
			names.hide(context.Entries)
			logic = context.Result
		case step.Key == "":
			if isContext && step.Index < len(context.Entries) {
				names.hide(context.Entries[:step.Index])
			}
			logic = element(logic, step.Index)
		}
	}
	return names
}

// hide removes the names of entries.
func (s set) hide(entries []model.Entry) {
	for at := range entries {
		delete(s, entries[at].Name)
	}
}
