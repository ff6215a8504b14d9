package profile

import (
	"fmt"
	"strings"

	"gateway/dmn"
	"gateway/feel"
)

// A node is an input or a decision of the model.
type node struct {
	name, word string
	file       *source
	input      *dmn.InputData
	decision   *dmn.Decision
	// of is the type of its values; for a decision, known once it is translated.
	of *valueType
	// needs are what a decision requires, known the business knowledge, services the names of decision services.
	needs    []*node
	known    []*knowledge
	services []string
	logic    *box
	needed   bool
	// free is true if nothing declares it: it is an input for the name of a column.
	free bool
	// freeNeeds are the undeclared inputs among what a decision needs.
	freeNeeds map[*node]bool
	// seen is the number of the last walk that visited it.
	seen int
}

// element returns the element of the node.
func (n *node) element() *dmn.Element {
	if n.input != nil {
		return n.input.Element
	}
	return n.decision.Element
}

// A source is one file with its types.
type source struct {
	file  *dmn.File
	types *types
}

// A graph has the parts of all files by their ids and names.
type graph struct {
	refusals *refusals
	words    *words
	sources  []*source
	inputs   []*node
	// decisions are in the order of the files; ordered has each one after all that it needs.
	decisions, ordered []*node
	knowledge          []*knowledge
	// byID finds parts by namespace and id.
	byID map[string]interface{}
	// walks counts the walks over the nodes.
	walks int
	free  *freeNames
	// said are the decimals given for names; nil if nothing is counted.
	said  *cells
	clock *clock
	// offsets say which times of inputs have an offset, and their units.
	offsets *offsets
	// constants are the numbers of texts, by their digits.
	constants map[string]phrase
	// folds are the calculations with literals only, which are the same in each pass.
	folds map[feel.Node]fold
	// changes counts the changes in the types of undeclared inputs.
	changes *changes
	// partsOfInputs counts the parts of the types of all inputs.
	partsOfInputs int
}

func newGraph(files []*dmn.File, r *refusals, w *words, options Options) *graph {
	g := &graph{refusals: r, words: w, byID: map[string]interface{}{}, constants: map[string]phrase{}, folds: map[feel.Node]fold{},
		changes: &changes{}}
	g.clock = newClock(g, options.Clock)
	for i, file := range files {
		r.know(file, i)
	}
	w.declare(namesOf(files))
	for _, file := range files {
		s := &source{file: file, types: newTypes(r, file, g.changes)}
		g.sources = append(g.sources, s)
		g.faults(file)
		g.parts(s)
	}
	for _, s := range g.sources {
		g.requirements(s)
	}
	g.refuseTwice()
	g.order()
	g.free = newFreeNames(g, options.FreeInputs)
	g.offsets = newOffsets(g, options)
	return g
}

// faults reports unknown content of a file.
func (g *graph) faults(file *dmn.File) {
	for _, fault := range file.Faults {
		g.refusals.refuse(fault.Element, fault.Text, fault.Why, fault.Instead)
	}
	for _, e := range file.Imports {
		g.refusals.refuse(e, e.Attribute("namespace"), "imports of other files are not followed",
			"the decisions of the other file in this one")
	}
}

// nameOf returns the name of a part in expressions: that of its variable, else its own.
func nameOf(e *dmn.Element, variable *dmn.Variable) string {
	if variable != nil && variable.Attribute("name") != "" {
		return variable.Attribute("name")
	}
	return e.Name()
}

// parts makes the nodes of a file.
func (g *graph) parts(s *source) {
	for _, input := range s.file.Inputs {
		n := g.node(s, input.Element, input.Variable)
		n.input = input
		n.of = g.boundedType(n, s.types.inputType(input))
		g.inputs = append(g.inputs, n)
	}
	for _, decision := range s.file.Decisions {
		n := g.node(s, decision.Element, decision.Variable)
		n.decision = decision
		g.decisions = append(g.decisions, n)
	}
	for _, k := range s.file.Knowledge {
		made := &knowledge{BusinessKnowledge: k, name: nameOf(k.Element, k.Variable), types: s.types}
		g.knowledge = append(g.knowledge, made)
		g.identify(s, k.Element, made)
		g.checkFunction(k)
	}
	for _, service := range s.file.Services {
		g.identify(s, service.Element, service)
	}
}

// mostPartsOfInputs is how many parts the types of all inputs may have. Each input's are counted, since each has a
// schema.
const mostPartsOfInputs = 100_000

// boundedType returns the type of an input, and refuses it if the types of the inputs have too many parts with it.
func (g *graph) boundedType(n *node, of *valueType) *valueType {
	before := g.partsOfInputs
	g.partsOfInputs += of.parts
	switch {
	case g.partsOfInputs <= mostPartsOfInputs:
		return of
	case before <= mostPartsOfInputs:
		g.refusals.refuse(n.element(), n.name, fmt.Sprintf("the types of the inputs up to here have over %d parts in all",
			mostPartsOfInputs), "smaller types, or fewer inputs")
	}
	return refusedType
}

func (g *graph) node(s *source, e *dmn.Element, variable *dmn.Variable) *node {
	n := &node{name: nameOf(e, variable), file: s}
	if n.name == "" {
		g.refusals.refuse(e, "", "it has no name", "a name")
		n.name = e.ID()
	}
	n.word = g.words.of(n.name)
	g.identify(s, e, n)
	return n
}

// identify notes a part by its id.
func (g *graph) identify(s *source, e *dmn.Element, part interface{}) {
	key := s.file.Namespace + "#" + e.ID()
	if e.ID() == "" {
		return
	}
	if before := g.byID[key]; before != nil {
		g.refusals.refuse(e, e.ID(), "the id stands twice", "another id", elementOf(before))
		return
	}
	g.byID[key] = part
}

// elementOf returns the element of a part.
func elementOf(part interface{}) *dmn.Element {
	switch part := part.(type) {
	case *node:
		return part.element()
	case *knowledge:
		return part.Element
	case *dmn.DecisionService:
		return part.Element
	}
	return nil
}

// checkFunction refuses all but FEEL functions with a body.
func (g *graph) checkFunction(k *dmn.BusinessKnowledge) {
	switch {
	case k.Logic == nil || k.Logic.Body == nil:
		g.refusals.refuse(k.Element, k.Name(), "the business knowledge has no body", "an expression")
	case k.Logic.Kind != "FEEL":
		g.refusals.refuse(k.Logic.Element, k.Logic.Kind, "functions of Java and of PMML are not called",
			"an expression of FEEL")
	default:
		seen := map[string]bool{}
		for _, p := range k.Logic.Parameters {
			if name := feel.Canonical(p.Name()); seen[name] {
				g.refusals.refuse(p.Element, p.Name(), "duplicate parameter name", "another name")
			} else {
				seen[name] = true
			}
		}
	}
}

// inputType returns the type of an input; an open one if none is declared.
func (t *types) inputType(input *dmn.InputData) *valueType {
	if input.Variable != nil {
		if of := t.resolve(input.Variable.Element, input.Variable.TypeRef); of != nil && of.kind != anyKind {
			own := *of
			return &own
		}
	}
	return &valueType{kind: anyKind, open: true, changes: t.changes}
}

// referred finds the part that a reference means. It reports a missing one and returns nil.
func (g *graph) referred(s *source, r *dmn.Reference) interface{} {
	key := r.Href
	if strings.HasPrefix(key, "#") {
		key = s.file.Namespace + key
	}
	part := g.byID[key]
	if part == nil {
		g.refusals.refuse(r.Element, r.Href, "no part of the model has this id", "the id of a part, after #")
	}
	return part
}

// requirements joins the decisions of a file with what they require.
func (g *graph) requirements(s *source) {
	for _, n := range g.decisions {
		if n.file != s {
			continue
		}
		g.walks++
		for _, r := range append(append([]*dmn.Reference(nil), n.decision.Inputs...), n.decision.Decisions...) {
			g.requires(s, n, r)
		}
		n.known, n.services = g.known(s, n.decision.Knowledge)
	}
	for _, k := range g.knowledge {
		if k.types == s.types {
			k.known, _ = g.known(s, k.Knowledge)
		}
	}
}

func (g *graph) requires(s *source, n *node, r *dmn.Reference) {
	part := g.referred(s, r)
	if part == nil {
		return
	}
	other, is := part.(*node)
	if !is {
		g.refusals.refuse(r.Element, r.Href, "it is neither an input nor a decision", "a knowledgeRequirement")
		return
	}
	if other.seen == g.walks {
		return
	}
	other.seen, other.needed = g.walks, true
	n.needs = append(n.needs, other)
}

// known finds required business knowledge, and the names of decision services.
func (g *graph) known(s *source, references []*dmn.Reference) (all []*knowledge, services []string) {
	for _, r := range references {
		switch part := g.referred(s, r).(type) {
		case *knowledge:
			all = append(all, part)
		case *dmn.DecisionService:
			services = append(services, nameOf(part.Element, part.Variable))
		case *node:
			g.refusals.refuse(r.Element, r.Href, "it is no business knowledge", "an informationRequirement")
		}
	}
	return all, services
}

// refuseTwice refuses inputs and decisions whose names FEEL doesn't distinguish, and business knowledge likewise.
func (g *graph) refuseTwice() {
	byName := map[string]*node{}
	all := append(append([]*node(nil), g.inputs...), g.decisions...)
	for _, n := range all {
		canonical := feel.Canonical(n.name)
		if before := byName[canonical]; before != nil {
			g.refusals.refuse(n.element(), n.name, fmt.Sprintf("its name is that of %q, at line %d: blanks round signs make no "+
				"other name", before.name, before.element().Place.Line), "another name", before.element())
			continue
		}
		byName[canonical] = n
	}
	functions := map[string]*knowledge{}
	for _, k := range g.knowledge {
		canonical := feel.Canonical(k.name)
		if before := functions[canonical]; before != nil {
			g.refusals.refuse(k.Element, k.name, fmt.Sprintf("its name is that of the business knowledge at line %d",
				before.Place.Line), "another name", before.Element)
			continue
		}
		functions[canonical] = k
	}
}

// forgetTypes makes types be resolved again, so that the second pass reports what is wrong with them.
func (g *graph) forgetTypes() {
	for _, s := range g.sources {
		s.types.resolved = map[*dmn.ItemDefinition]*valueType{}
	}
}

// order puts each decision after what it needs, and refuses cycles.
func (g *graph) order() {
	state := map[*node]int{}
	for _, n := range g.decisions {
		g.visit(n, state)
	}
}

const (
	visiting = 1
	visited  = 2
)

func (g *graph) visit(n *node, state map[*node]int) {
	if n.decision == nil || state[n] == visited {
		return
	}
	if state[n] == visiting {
		g.refusals.refuse(n.element(), n.name, "the decision needs itself, through others or directly",
			"requirements that end")
		n.of = refusedType
		return
	}
	state[n] = visiting
	for _, need := range n.needs {
		g.visit(need, state)
	}
	state[n] = visited
	g.ordered = append(g.ordered, n)
}

// namesOf returns all names that the files declare, in their order.
func namesOf(files []*dmn.File) []string {
	var names []string
	var walk func(e *dmn.Element)
	walk = func(e *dmn.Element) {
		if named[e.Tag] && e.Attribute("name") != "" {
			names = append(names, e.Attribute("name"))
		}
		for _, child := range e.Children {
			walk(child)
		}
	}
	for _, file := range files {
		walk(file.Root)
	}
	return names
}

// named are the tags whose names become words of the model.
var named = map[string]bool{"inputData": true, "decision": true, "decisionService": true, "variable": true,
	"column": true, "itemComponent": true, "output": true}

// membersOf returns the names that may follow a point.
func membersOf(files []*dmn.File) *feel.Scope {
	members := feel.NewScope(nil)
	var walk func(e *dmn.Element)
	walk = func(e *dmn.Element) {
		switch e.Tag {
		case "itemComponent", "output", "column":
			members.Add(e.Attribute("name"))
		case "contextEntry":
			for _, child := range e.Children {
				if child.Tag == "variable" {
					members.Add(child.Attribute("name"))
				}
			}
		}
		for _, child := range e.Children {
			walk(child)
		}
	}
	for _, file := range files {
		walk(file.Root)
	}
	return members
}
