package profile

import (
	"encoding/json"
	"fmt"

	"gateway/dmn"
	"gateway/feel"
	"gateway/model"
)

// A Result is a model, and what its files say besides.
type Result struct {
	Model model.Model
	// Names has the file's name for each word of the model that has one.
	Names map[string]string
	// Locals is like Names, for words that occur within one decision.
	Locals map[string]string
	// Types has a JSON Schema for each input and decision of the model, by its word.
	Types map[string]json.RawMessage
	// Domains has unary tests of constants for inputs and their components, by their paths in words, as applicant.age: the values that
	// each may have.
	Domains map[string]string
	// Required has the paths of the inputs and components that a caller has to give, and not as null.
	Required        []string
	unknownNullable []string
	// Places has the element that a part of the model came from, by the part's JSON Pointer (RFC 6901).
	Places map[string]Place
	// Origins has the places in the files of the same parts, and of those without an id or a name. The empty pointer is
	// the first file.
	Origins map[string]Origin
	// Diagram has the box of each input and decision in the file's diagram, by its word: corner, width and height. It
	// is nil if there are several files, or if the file doesn't draw all of them.
	Diagram map[string]dmn.Box
	// Language is the xml:lang of the first file, as "de"; empty if it has none.
	Language string
	// LeftOut are the names of the decisions that got no service, as the model would be too long with them.
	LeftOut []string
	// Notes are accepted places on which tools differ, with what the model does there.
	Notes []Refusal
}

// An Origin is where an element begins: the line and column of a file, as in dmn.Place.
type Origin struct {
	File         string
	Line, Column int
}

// A Place is an element of a file by its id and its name. Either may be empty.
type Place struct {
	ID   string `json:"id"`
	Name string `json:"name"`
	// Text is the file's text, if numbers are counted in units and the model has another one.
	Text string `json:"text,omitempty"`
	// Type is the JSON Schema of its values, if their numbers are counted in a unit. A quotient is over the value of
	// another entry of the same context: Over is its word, and Decimals how many more decimals the numerator has.
	Type     json.RawMessage `json:"type,omitempty"`
	Over     string          `json:"over,omitempty"`
	Decimals int             `json:"decimals,omitempty"`
	// Annotations are those of a rule, and its description.
	Annotations []string `json:"annotations,omitempty"`
}

// countedInputs finds which inputs have decimals, by a pass that finds what meets fractions.
func countedInputs(g *graph, trees map[*dmn.Text]*tree, said *Decimals) *cells {
	if said == nil {
		none := NoDecimals()
		said = &none
	}
	c := newCells(g, *said)
	g.said = c
	passOver(g, trees, true)
	c.begin()
	return c
}

// passOver makes a pass whose texts are not kept, and reports whether the files count fractions.
func passOver(g *graph, trees map[*dmn.Text]*tree, counts bool) bool {
	fractions := translate(g, trees, counts)
	for _, s := range g.sources {
		fractions = fractions || s.types.fractions
	}
	g.words.forgetFresh()
	g.forgetTypes()
	return fractions
}

// translate makes one pass: each decision after what it needs, then the business knowledge that none invoked. It
// reports whether something needs fractions.
func translate(g *graph, trees map[*dmn.Text]*tree, counts bool) (fractions bool) {
	files := make([]*dmn.File, len(g.sources))
	for i, s := range g.sources {
		files[i] = s.file
	}
	t := &translator{words: g.words, refusals: g.refusals, members: membersOf(files), trees: trees, frame: &frame{},
		active: map[*knowledge]bool{}, free: g.free, clock: g.clock, offsets: g.offsets, counts: counts, said: g.said, constants: g.constants, folds: g.folds,
		kept: newKept()}
	for _, n := range g.ordered {
		t.decision(n)
		if t.full {
			g.refusals.spoil(n.element())
		}
	}
	for _, k := range g.knowledge {
		if !k.used {
			t.unused(k)
		}
	}
	return t.fractions
}

// decision translates a decision after what it needs.
func (t *translator) decision(n *node) {
	n.logic, t.finest = boxOf(refused), 0
	t.types, t.near, t.node = n.file.types, n.element(), n
	if n.decision.Logic == nil {
		t.refusals.refuse(n.element(), n.name, "the decision has no logic", "an expression or a table")
		n.of = refusedType
		return
	}
	s := newScope(t.free.scope)
	for _, k := range n.known {
		s.bind(k.name, &binding{function: k})
	}
	for _, service := range n.services {
		s.bind(service, &binding{service: true})
	}
	for _, need := range n.needs {
		if need.free {
			continue
		}
		if s.find(feel.Canonical(need.name)) != nil {
			t.refusals.refuse(n.element(), need.name, "it needs a value and a function of this name", "another name for one of them")
		}
		of := need.of
		if of == nil {
			of = refusedType
		}
		s.bind(need.name, &binding{value: constant(need.word, of), input: need.input != nil, logic: need.logic})
	}
	n.logic, n.of = t.expression(n.decision.Logic, s)
	t.declared(n)
	t.asSaid(n)
	t.checkOffsets(n)
	t.noteRange(n)
}

// asSaid counts a decision's numbers with the decimals given for its name, since a request may bring that many for an
// input decision.
func (t *translator) asSaid(n *node) {
	if !t.counts || t.said == nil || n.of.kind != numberKind || n.of.hasQuotient() {
		return
	}
	scale, is := t.said.named(feel.Canonical(n.name))
	if !is {
		return
	}
	to := *n.of
	to.units.scale, to.units.cell = scale, nil
	n.logic = t.from(t.alignedBox(n.logic, n.of, &to, func(string, string) {
		t.refusals.refuse(n.element(), n.name, fmt.Sprintf("its value may have %d decimals, and %d are said of it", n.of.units.scale, scale),
			fmt.Sprintf("--decimals \"%s=%d\", or a rounding in it", spelled(n.name), n.of.units.scale))
	}), n.decision.Logic)
	n.of = &to
}

// declared checks a decision's logic against the type of its variable.
func (t *translator) declared(n *node) {
	v := n.decision.Variable
	if v == nil {
		return
	}
	due := t.types.resolve(v.Element, v.TypeRef)
	if due == nil {
		return
	}
	n.logic, n.of = t.conform(n.logic, n.of, due, func(why, instead string) {
		t.refusals.refuse(v.Element, textOf(n.decision.Logic), "the decision's value: "+why, instead)
	})
	n.logic = t.from(n.logic, n.decision.Logic)
}

// unused translates business knowledge that nothing invokes, to report its bad places too.
func (t *translator) unused(k *knowledge) {
	if k.Logic == nil || k.Logic.Body == nil || k.Logic.Kind != "FEEL" {
		return
	}
	arguments := make([]argument, len(k.Logic.Parameters))
	for i, p := range k.Logic.Parameters {
		of := k.types.resolve(p.Element, p.TypeRef)
		if of == nil {
			of = &valueType{kind: anyKind, open: true, unasked: true, changes: k.types.changes}
		}
		arguments[i] = argument{value: boxOf(constant("null", nullType)), of: of}
	}
	used := k.used
	t.types, t.near, t.node = k.types, k.Element, nil
	t.invoked(k, arguments, func(why, instead string) { t.refusals.refuse(k.Element, k.name, why, instead) })
	k.used = used
}
