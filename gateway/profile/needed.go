package profile

import (
	"strings"

	"gateway/dmn"
	"gateway/feel"
)

// needed is what some services need from the files.
type needed struct {
	graph *graph
	nodes map[*node]bool
	known map[*knowledge]bool
	// parts are the elements of all that is needed: inputs, decisions, business knowledge, types and services.
	parts map[*dmn.Element]bool
	// clean keeps the results for nodes, business knowledge and types.
	clean map[interface{}]bool
}

// needed finds what services need.
func (g *graph) needed(services []service) *needed {
	n := &needed{graph: g, nodes: map[*node]bool{}, known: map[*knowledge]bool{}, parts: map[*dmn.Element]bool{},
		clean: map[interface{}]bool{}}
	for _, s := range services {
		if s.origin != nil {
			n.parts[s.origin] = true
		}
		for _, one := range s.nodes {
			n.node(one)
		}
	}
	return n
}

// node notes a node, and what it needs.
func (n *needed) node(one *node) {
	if n.nodes[one] {
		return
	}
	n.nodes[one], n.parts[one.element()] = true, true
	n.types(one.file.types, one.element())
	for _, k := range one.known {
		n.knowledge(k)
	}
	for _, need := range one.needs {
		n.node(need)
	}
}

func (n *needed) knowledge(k *knowledge) {
	if n.known[k] {
		return
	}
	n.known[k], n.parts[k.Element] = true, true
	n.types(k.types, k.Element)
	for _, other := range k.known {
		n.knowledge(other)
	}
}

// types notes the types that an element names, and the types within them.
func (n *needed) types(of *types, e *dmn.Element) {
	if ref := e.Attribute("typeRef"); ref != "" {
		n.item(of, of.item(ref))
	}
	for _, child := range e.Children {
		n.types(of, child)
	}
}

func (n *needed) item(of *types, item *dmn.ItemDefinition) {
	if item == nil || n.parts[item.Element] {
		return
	}
	n.parts[item.Element] = true
	n.item(of, of.item(item.TypeRef))
	for _, component := range item.Components {
		n.item(of, component)
	}
}

// item returns the definition of a name as resolve finds it; nil if there is none.
func (t *types) item(ref string) *dmn.ItemDefinition {
	if item := t.items[feel.Canonical(ref)]; item != nil || ref == "" {
		return item
	}
	return t.items[feel.Canonical(ref[strings.LastIndexByte(ref, ':')+1:])]
}

// isClean reports whether a service needs only parts that can be made.
func (n *needed) isClean(s service) bool {
	clean := s.origin == nil || !n.graph.refusals.spoiled[s.origin]
	for _, one := range s.nodes {
		clean = n.isCleanNode(one) && clean
	}
	return clean
}

// isCleanNode is isClean for a node. A node reached from itself is not clean.
func (n *needed) isCleanNode(one *node) bool {
	if known, found := n.clean[one]; found {
		return known
	}
	n.clean[one] = false
	clean := n.isCleanPart(one.file.types, one.element())
	for _, k := range one.known {
		clean = clean && n.isCleanKnowledge(k)
	}
	for _, need := range one.needs {
		clean = clean && n.isCleanNode(need)
	}
	n.clean[one] = clean
	return clean
}

func (n *needed) isCleanKnowledge(k *knowledge) bool {
	if known, found := n.clean[k]; found {
		return known
	}
	n.clean[k] = true
	clean := n.isCleanPart(k.types, k.Element)
	for _, other := range k.known {
		clean = clean && n.isCleanKnowledge(other)
	}
	n.clean[k] = clean
	return clean
}

// isCleanPart reports whether an element and the types that it names can be made.
func (n *needed) isCleanPart(of *types, e *dmn.Element) bool {
	if n.graph.refusals.spoiled[e] {
		return false
	}
	clean := n.isCleanItem(of, of.item(e.Attribute("typeRef")))
	for _, child := range e.Children {
		clean = clean && n.isCleanPart(of, child)
	}
	return clean
}

func (n *needed) isCleanItem(of *types, item *dmn.ItemDefinition) bool {
	if item == nil {
		return true
	}
	if known, found := n.clean[item]; found {
		return known
	}
	n.clean[item] = true
	clean := !n.graph.refusals.spoiled[item.Element] && n.isCleanItem(of, of.item(item.TypeRef))
	for _, component := range item.Components {
		clean = clean && n.isCleanItem(of, component)
	}
	n.clean[item] = clean
	return clean
}

// keep removes all that isn't needed from the graph.
func (g *graph) keep(n *needed) {
	keep := func(nodes []*node) (kept []*node) {
		for _, one := range nodes {
			if n.nodes[one] {
				kept = append(kept, one)
			}
		}
		return kept
	}
	g.inputs, g.decisions, g.ordered = keep(g.inputs), keep(g.decisions), keep(g.ordered)
	var known []*knowledge
	for _, k := range g.knowledge {
		if n.known[k] {
			known = append(known, k)
		}
	}
	g.knowledge = known
	for _, one := range append(append([]*node(nil), g.inputs...), g.decisions...) {
		one.needed = false
	}
	for _, one := range g.decisions {
		for _, need := range one.needs {
			need.needed = true
		}
	}
}

// only keeps the refusals that concern some parts.
func (r *refusals) only(parts map[*dmn.Element]bool) {
	var all []Refusal
	var owners [][]*dmn.Element
	for i, of := range r.owners {
		for _, part := range of {
			if parts[part] {
				all, owners = append(all, r.all[i]), append(owners, of)
				break
			}
		}
	}
	r.all, r.owners = all, owners
}
