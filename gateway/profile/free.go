package profile

import (
	"fmt"

	"gateway/dmn"
	"gateway/feel"
)

// A freeName is a name that no file declares, and that is the whole expression of a typed column.
type freeName struct {
	name string
	at   *dmn.Text
	of   *valueType
	// other is a second type that a column gives it, if any.
	other *valueType
	file  *source
}

// freeNames are undeclared names of columns. With the option they become inputs.
type freeNames struct {
	asked bool
	// declared has the names and ids of the files' parts, columns the decisions with an output column of a name.
	declared map[string]bool
	columns  map[string]map[*dmn.Element]bool
	found    map[string]*freeName
	order    []*freeName
	nodes    []*node
	// scope has the names that became inputs. It is outside the scopes of all decisions.
	scope *scope
}

func newFreeNames(g *graph, asked bool) *freeNames {
	f := &freeNames{asked: asked, declared: map[string]bool{}, columns: map[string]map[*dmn.Element]bool{},
		found: map[string]*freeName{}, scope: newScope(nil)}
	// The elements include those that aren't translated, wherever a file's part is.
	for _, source := range g.sources {
		for _, e := range source.file.Root.Children {
			f.declare(e)
			f.outputs(e, e)
		}
	}
	return f
}

// declare notes the names and the id of a part of a file.
func (f *freeNames) declare(e *dmn.Element) {
	switch e.Tag {
	case "inputData", "decision", "businessKnowledgeModel", "decisionService":
	default:
		return
	}
	f.declared[feel.Canonical(e.Name())], f.declared[feel.Canonical(e.ID())] = true, true
	for _, child := range e.Children {
		if child.Tag == "variable" {
			f.declared[feel.Canonical(child.Name())] = true
		}
	}
}

// outputs notes the output columns within a part of a file.
func (f *freeNames) outputs(decision, e *dmn.Element) {
	if e.Tag == "output" && e.Name() != "" {
		name := feel.Canonical(e.Name())
		if f.columns[name] == nil {
			f.columns[name] = map[*dmn.Element]bool{}
		}
		f.columns[name][decision] = true
	}
	for _, child := range e.Children {
		f.outputs(decision, child)
	}
}

// isDeclared reports whether a name in a decision is that of a part, or of another decision's output column.
func (f *freeNames) isDeclared(name string, decision *dmn.Element) bool {
	others := len(f.columns[name])
	if f.columns[name][decision] {
		others--
	}
	return f.declared[name] || others > 0
}

// propose notes a name that is the whole expression of a column, and the column's type.
func (t *translator) propose(x *dmn.Text) {
	kept := t.trees[x]
	if kept == nil || kept.fault != nil || len(t.active) > 0 {
		return
	}
	name, is := kept.nodes[0].(*feel.Name)
	of := t.types.resolve(x.Element, x.TypeRef)
	if !is || name.Known || x.Text[name.Start] == '`' || of == nil || of.kind == anyKind || t.free.isDeclared(name.Name, t.near) {
		return
	}
	before := t.free.found[name.Name]
	switch {
	case before == nil:
		made := &freeName{name: spelled(x.Text[name.Start:name.End]), at: x, of: of, file: t.node.file}
		t.free.found[name.Name] = made
		t.free.order = append(t.free.order, made)
	case !sameType(before.of, of):
		before.other = of
	}
}

// sameType reports whether two columns declare the same type.
func sameType(a, b *valueType) bool {
	return a == b || a.isScalar() && a.kind == b.kind && len(a.allowed.nodes()) == 0 && len(b.allowed.nodes()) == 0
}

// addFree makes inputs of undeclared names if the option asks for it. It reports whether there are any.
func (g *graph) addFree() bool {
	if !g.free.asked {
		return false
	}
	for _, f := range g.free.order {
		if f.other != nil {
			continue
		}
		of := *f.of
		n := &node{name: f.name, word: g.words.of(f.name), file: f.file, input: &dmn.InputData{Element: f.at.Element},
			of: &of, free: true}
		g.offsets.add(n)
		g.free.nodes = append(g.free.nodes, n)
		g.inputs = append(g.inputs, n)
		g.free.scope.bind(n.name, &binding{value: constant(n.word, n.of), input: true, free: n})
	}
	return len(g.free.nodes) > 0
}

// note notes each undeclared input.
func (f *freeNames) note(r *refusals) {
	for _, n := range f.nodes {
		if n.needed {
			r.note(n.element(), fmt.Sprintf("%s is declared nowhere: it is an input of the type %s", n.name, n.of), "")
		}
	}
}

// need adds an undeclared input to what a decision needs.
func (n *node) need(input *node) {
	if n.freeNeeds[input] {
		return
	}
	if n.freeNeeds == nil {
		n.freeNeeds = map[*node]bool{}
	}
	n.freeNeeds[input], input.needed = true, true
	n.needs = append(n.needs, input)
}

const (
	notInScope   = "it is no name in scope"
	scopeInstead = "a text stands in quotes; a decision or an input needs its requirement drawn, and is called by its name"
)

// unknown refuses a name that isn't in scope.
func (t *translator) unknown(n *feel.Name) phrase {
	f := t.free.found[n.Name]
	switch {
	case len(t.active) > 0 || t.free.isDeclared(n.Name, t.near):
	case f == nil && t.free.asked:
		return t.refuse(n, notInScope+", and no column that is this name alone has a type", scopeInstead)
	case f == nil:
	case t.free.asked && f.other != nil:
		return t.refuse(n, fmt.Sprintf("%s, and columns give it the types %s and %s", notInScope, f.of, f.other),
			"one type for it, or an input of this name, drawn and required")
	case f.other == nil:
		return t.refuse(n, notInScope, scopeInstead+"; or --free-inputs, which makes an input of it, with the type of its column")
	}
	return t.refuse(n, notInScope, scopeInstead)
}
