package tell

import (
	"fmt"
	"io"
	"sort"

	"gateway/model"
)

// An explainer words the lines of `desk explain`, one after another.
type explainer struct {
	// decisions holds those of the last model.
	decisions map[string]*model.Decision
}

// write writes a line as text. A model becomes its name, an explanation several lines and an empty one; other lines are copied.
func (e *explainer) write(line []byte, out io.Writer) {
	m := membersOf(line)
	switch read := m.get("read"); {
	case read != nil:
		e.take(read)
		fmt.Fprintf(out, "line %d: model %s\n\n", m.number("line"), m.text("sha256"))
	case m.get("decisions") == nil && m.get("explained") == nil:
		fmt.Fprintln(out, visible(string(line)))
	default:
		e.explain(m, out)
		fmt.Fprintln(out)
	}
}

// take keeps a model.
func (e *explainer) take(read []byte) {
	e.decisions = nil
	m, err := model.Parse(read)
	if err != nil {
		return
	}
	e.decisions = map[string]*model.Decision{}
	for at := range m.Decisions {
		e.decisions[m.Decisions[at].Name] = &m.Decisions[at]
	}
}

// mostClient limits the letters shown of a client's name.
const mostClient = 64

// explain writes an explanation. It makes the text once to see whether it is too long, and again if it isn't short.
func (e *explainer) explain(m members, out io.Writer) {
	seen := &page{}
	addHead(seen, m)
	e.addDecisions(seen, m)
	to := &page{out: out}
	switch {
	case seen.isLong():
		addHead(to, m)
		to.WriteString("  the text of the decisions takes over 64 MiB, and is not told\n")
	case seen.count <= mostKept:
		to.Write(seen.kept)
	default:
		addHead(to, m)
		e.addDecisions(to, m)
	}
	if result := m.get("result"); result != nil {
		to.WriteString("  result: ")
		addShown(to, result)
		to.addByte('\n')
	} else {
		to.WriteString("  result: a limit is broken\n")
	}
}

// addHead adds the client, the service, the model, and the inputs sorted by name. A row of a file has no client, and only one
// model.
func addHead(to *page, m members) {
	fmt.Fprintf(to, "line %d: ", m.number("line"))
	isOfClient := m.get("client") != nil
	if isOfClient {
		to.WriteString("client ")
		addQuotedName(to, m.text("client"), mostClient)
		fmt.Fprintf(to, ", ticket %d, ", m.number("ticket"))
	}
	to.WriteString("asks for ")
	addName(to, m.text("service"))
	to.addByte('\n')
	if isOfClient {
		fmt.Fprintf(to, "  model %s\n", m.text("model"))
	}
	inputs := membersOf(m.get("inputs"))
	order := make([]int, 0, len(inputs)/2)
	for at := 0; at+1 < len(inputs); at += 2 {
		order = append(order, at)
	}
	sort.SliceStable(order, func(i, j int) bool { return inner(inputs[order[i]]) < inner(inputs[order[j]]) })
	for _, at := range order {
		to.WriteString("  input ")
		addName(to, inner(inputs[at]))
		to.WriteString(" = ")
		addShown(to, inputs[at+1])
		to.addByte('\n')
	}
}

// decisionIndent is the indent of a decision, partIndent the further indent of its parts.
const decisionIndent, partIndent = 2, 4

func (e *explainer) addDecisions(to *page, m members) {
	decisions := m.get("decisions")
	if decisions == nil {
		to.WriteString("  the decisions take over 64 MiB, and are not told\n")
		return
	}
	for _, raw := range m.list("decisions") {
		if to.isLong() {
			return
		}
		explained := membersOf(raw)
		name := explained.text("name")
		decision := e.decisions[name]
		if decision == nil || explained.get("given") != nil {
			addPartLine(to, name, nil, explained, decisionIndent)
		} else {
			addPart(to, name, decision.Expr, explained, decisionIndent)
		}
	}
}

// addPart adds a boxed expression, its value and how that came about.
func addPart(to *page, label string, logic model.Expression, explained members, indent int) {
	addPartLine(to, label, logic, explained, indent)
	indent += partIndent
	switch logic := logic.(type) {
	case *model.Table:
		if raw := explained.get("table"); raw != nil {
			t := explainedTable{logic, membersOf(raw), indent}
			t.add(to)
		}
	case model.List:
		addParts(to, explained.list("members"), indent, len(logic), func(at int) (string, model.Expression) {
			return fmt.Sprintf("member %d", at+1), logic[at]
		})
	case model.Context:
		addParts(to, explained.list("entries"), indent, len(logic.Entries), func(at int) (string, model.Expression) {
			return logic.Entries[at].Name, logic.Entries[at].Expr
		})
		if raw := explained.get("result"); raw != nil && logic.Result != nil {
			addPart(to, "result", logic.Result, membersOf(raw), indent)
		}
	}
}

// addParts adds the members of a list or the entries of a context, and how many are left out.
func addParts(to *page, parts [][]byte, indent, count int, of func(at int) (string, model.Expression)) {
	for at := 0; at < count && at < len(parts) && at < mostParts; at++ {
		label, logic := of(at)
		addPart(to, label, logic, membersOf(parts[at]), indent)
	}
	if len(parts) > mostParts {
		addBlanks(to, indent)
		fmt.Fprintf(to, "parts that are left out: %d\n", len(parts)-mostParts)
	}
}

// addPartLine adds the value of a boxed expression and its source text.
func addPartLine(to *page, label string, logic model.Expression, explained members, indent int) {
	addBlanks(to, indent)
	to.WriteString(label)
	if value := explained.get("value"); value != nil {
		to.WriteString(" = ")
		addShown(to, value)
	} else if given := explained.get("given"); given != nil {
		to.WriteString(" is given: ")
		addShown(to, given)
	} else {
		to.WriteString(" breaks a limit")
	}
	if source, ok := logic.(model.Literal); ok {
		to.WriteString(", from ")
		addExpression(to, string(source))
	}
	to.addByte('\n')
}
