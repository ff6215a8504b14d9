package profile

import (
	"encoding/json"
	"fmt"
	"strings"

	"gateway/dmn"
	"gateway/model"
)

// mostNesting is how deep the JSON of a model may nest.
const mostNesting = 126

// checkNesting refuses decisions that nest too deeply.
func (g *graph) checkNesting() {
	for _, n := range g.decisions {
		if n.logic != nil && !g.refusals.spoiled[n.element()] && n.logic.nesting(4) > mostNesting {
			g.refusals.refuse(n.element(), n.name, fmt.Sprintf("its boxed expressions and invocations nest over "+
				"%d levels deep in the model", mostNesting), "a decision of its own for inner parts")
		}
	}
}

// nesting returns how deep the JSON of a box nests. Its own first level is at depth.
func (b *box) nesting(depth int) int {
	deepest := depth
	switch b.kind {
	case tableBox:
		return depth + 4
	case listBox:
		for _, member := range b.list {
			deepest = maximum(deepest, member.nesting(depth+2))
		}
	case contextBox:
		for _, entry := range b.entries {
			deepest = maximum(deepest, entry.value.nesting(depth+3))
		}
		if b.result != nil {
			deepest = maximum(deepest, b.result.nesting(depth+1))
		}
	}
	return deepest
}

// assembler makes the model from boxes, and notes the origin of each part.
type assembler struct {
	homes   map[*dmn.Element]home
	places  map[string]Place
	origins map[string]Origin
	// counts is true if numbers are counted in units: places then have the texts of the files.
	counts bool
	// schemas are those of types, which places share. written counts their bytes, with repetitions.
	writer  *schemaWriter
	schemas map[*valueType]json.RawMessage
	written int
	// near is the current input or decision. tooLarge is the one whose schemas bring the total over the limit; nil if
	// none.
	near, tooLarge *node
	kept           *kept
}

// assembled returns the result of a graph that was translated without refusals, and the part whose schemas are too
// large, if any.
func assembled(g *graph, services []service, counts bool) (*Result, *node) {
	a := &assembler{writer: newSchemaWriter(g.words, g.offsets.tick), homes: g.refusals.homes, places: map[string]Place{},
		origins: map[string]Origin{}, counts: counts, schemas: map[*valueType]json.RawMessage{}, kept: newKept()}
	if len(g.sources) > 0 {
		a.origin("", g.sources[0].file.Root)
	}
	result := &Result{Names: g.words.names, Locals: g.words.locals, Types: map[string]json.RawMessage{}, Places: a.places,
		Origins: a.origins, Diagram: drawn(g)}
	if len(g.sources) > 0 {
		result.Language = g.sources[0].file.Root.Language()
	}
	result.Model = model.Model{Inputs: []string{}, Decisions: []model.Decision{}, Services: []model.Service{}}
	for i, n := range g.inputs {
		result.Model.Inputs = append(result.Model.Inputs, n.word)
		a.near = n
		result.Types[n.word] = a.schema(n.of)
		a.place(fmt.Sprintf("/inputs/%d", i), n.element())
	}
	for i, n := range g.decisions {
		pointer := fmt.Sprintf("/decisions/%d", i)
		a.near = n
		a.place(pointer, n.element())
		result.Types[n.word] = a.schema(n.of)
		decision := model.Decision{Name: n.word, Needs: wordsOf(n.needs), Expr: a.box(n.logic, pointer+"/expr")}
		result.Model.Decisions = append(result.Model.Decisions, decision)
	}
	for i, s := range services {
		result.Model.Services = append(result.Model.Services, s.Service)
		a.place(fmt.Sprintf("/services/%d", i), s.origin)
	}
	return result, a.tooLarge
}

// drawn returns where the diagram of a single file draws each input and decision; nil unless it draws all of them.
func drawn(g *graph) map[string]dmn.Box {
	if len(g.sources) != 1 {
		return nil
	}
	boxes, found := g.sources[0].file.Boxes(), map[string]dmn.Box{}
	for _, n := range append(append([]*node(nil), g.inputs...), g.decisions...) {
		box, is := boxes[n.element().ID()]
		if !is {
			return nil
		}
		found[n.word] = box
	}
	return found
}

// origin notes the place of a part's element.
func (a *assembler) origin(pointer string, e *dmn.Element) {
	if e != nil {
		a.origins[pointer] = Origin{a.homes[e].path, e.Place.Line, e.Place.Column}
	}
}

// place notes the place of a part's element, and its id or name if it has one.
func (a *assembler) place(pointer string, e *dmn.Element) {
	a.origin(pointer, e)
	if e == nil || e.ID() == "" && e.Name() == "" {
		return
	}
	a.places[pointer] = Place{ID: e.ID(), Name: e.Name()}
}

// text notes the text of an element if the model has another one.
func (a *assembler) text(pointer string, e *dmn.Element, translated string) {
	if !a.counts || e == nil {
		return
	}
	for _, child := range e.Children {
		switch text := strings.TrimSpace(child.Text); {
		case child.Tag == "inputExpression":
			a.text(pointer, child, translated)
		case child.Tag == "text" && text != translated && text != "":
			place := a.places[pointer]
			place.Text = text
			a.places[pointer] = place
		}
	}
}

// counted notes how the values of a part are counted, if they are.
func (a *assembler) counted(pointer string, value phrase) {
	place := a.places[pointer]
	switch {
	case value.over() != nil:
		place.Over, place.Decimals = value.over().text, value.of.units.scale
	case a.kept.isCounted(value.of) || value.of.hasTemporal():
		place.Type = a.schema(value.of)
	default:
		return
	}
	a.places[pointer] = place
}

// schema returns the schema of a type, made once; nil past the limit of bytes.
func (a *assembler) schema(of *valueType) json.RawMessage {
	if a.tooLarge != nil {
		return nil
	}
	made, found := a.schemas[of]
	if !found {
		made = a.writer.schema(of)
		a.schemas[of] = made
	}
	if a.written += len(made); a.written > mostOfSchemas {
		a.tooLarge = a.near
	}
	return made
}

// box returns the expression of a box at a pointer.
func (a *assembler) box(b *box, pointer string) model.Expression {
	a.place(pointer, b.origin)
	switch b.kind {
	case tableBox:
		return a.table(b, pointer)
	case listBox:
		list := make(model.List, len(b.list))
		for i, member := range b.list {
			list[i] = a.box(member, fmt.Sprintf("%s/list/%d", pointer, i))
		}
		return list
	case contextBox:
		a.text(pointer, b.origin, "")
		return a.context(b, pointer)
	}
	a.text(pointer, b.origin, b.value.text)
	return model.Literal(b.value.text)
}

func (a *assembler) context(b *box, pointer string) model.Expression {
	made := model.Context{Entries: make([]model.Entry, len(b.entries))}
	for i, entry := range b.entries {
		at := fmt.Sprintf("%s/context/%d", pointer, i)
		a.place(at, entry.origin)
		if entry.of != nil && (a.kept.isCounted(entry.of) || entry.of.hasTemporal()) {
			a.counted(at, phrase{of: entry.of})
		}
		made.Entries[i] = model.Entry{Name: entry.word, Expr: a.box(entry.value, at+"/expr")}
	}
	if b.result != nil {
		made.Result = a.box(b.result, pointer+"/result")
	}
	return made
}

func (a *assembler) table(b *box, pointer string) model.Expression {
	for i, e := range b.inputs {
		at := fmt.Sprintf("%s/table/inputs/%d", pointer, i)
		a.place(at, e)
		a.counted(at, b.columns[i])
		a.text(at, e, b.table.Inputs[i])
	}
	for i, e := range b.gives {
		at := fmt.Sprintf("%s/table/outputs/%d", pointer, i)
		a.place(at, e)
		a.listed(at, e, b.table.Outputs[i])
	}
	for i, e := range b.rows {
		at := fmt.Sprintf("%s/table/rules/%d", pointer, i)
		a.place(at, e)
		a.annotate(at, e)
		a.cells(at, e, b.table.Rules[i])
	}
	return b.table
}

// annotate notes the file's annotations of a rule.
func (a *assembler) annotate(pointer string, rule *dmn.Element) {
	place := a.places[pointer]
	for _, child := range rule.Children {
		text := ""
		switch child.Tag {
		case "description":
			text = strings.TrimSpace(child.Text)
		case "annotationEntry":
			text = annotation(child)
		}
		if text != "" {
			place.Annotations = append(place.Annotations, text)
		}
	}
	if len(place.Annotations) > 0 {
		a.places[pointer] = place
	}
}

func annotation(entry *dmn.Element) string {
	for _, child := range entry.Children {
		if child.Tag == "text" {
			return strings.TrimSpace(child.Text)
		}
	}
	return ""
}

// listed notes the default and the values of an output.
func (a *assembler) listed(pointer string, output *dmn.Element, made model.Output) {
	for _, child := range output.Children {
		switch {
		case child.Tag == "defaultOutputEntry" && made.Default != nil:
			a.text(pointer+"/default", child, *made.Default)
		case child.Tag == "outputValues":
			a.text(pointer+"/values", child, strings.Join(made.Values, ", "))
		}
	}
}

// cells notes the places and texts of a rule's entries.
func (a *assembler) cells(pointer string, rule *dmn.Element, made model.Rule) {
	for _, entry := range rule.Children {
		index := a.homes[entry].index
		switch entry.Tag {
		case "inputEntry":
			a.cell(fmt.Sprintf("%s/when/%d", pointer, index), entry, made.When[index])
		case "outputEntry":
			a.cell(fmt.Sprintf("%s/then/%d", pointer, index), entry, made.Then[index])
		}
	}
}

func (a *assembler) cell(pointer string, entry *dmn.Element, made string) {
	a.origin(pointer, entry)
	a.text(pointer, entry, made)
}
