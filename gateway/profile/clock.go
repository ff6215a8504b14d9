package profile

import (
	"fmt"

	"gateway/dmn"
	"gateway/feel"
)

// A clock has the inputs of a graph that a clock fills: today() and now().
type clock struct {
	// zone is the clock's time zone, if any.
	zone  string
	graph *graph
	nodes map[string]*node
	// order has the names in order of first use.
	order []string
}

func newClock(g *graph, zone string) *clock {
	return &clock{zone: zone, graph: g, nodes: map[string]*node{}}
}

// clockTypes are the types of the functions that a clock answers.
var clockTypes = map[string]*valueType{"today": dateType, "now": instantType}

// clockCall translates today() to an input that the caller doesn't send.
func (t *translator) clockCall(n *feel.Call, name string) phrase {
	of := clockTypes[name]
	switch {
	case len(n.Arguments) > 0:
		return t.refuse(n, name+" has no arguments", name+"()")
	case t.clock.zone == "":
		t.refuse(n, "the answer would depend on the day, and no clock is said", "--clock ZONE, as --clock Europe/Berlin; or an input of the "+
			"type "+of.String())
		return constant("null", &valueType{kind: of.kind, reported: true})
	}
	t.fractions = true
	input := t.clock.input(name, of, t.text.Element)
	if t.node != nil {
		t.node.need(input)
	}
	return constant(input.word, of)
}

// input returns the input for a function, and makes it the first time.
func (c *clock) input(name string, of *valueType, at *dmn.Element) *node {
	if c.nodes[name] == nil {
		own := *of
		own.clock = c.zone
		word := c.graph.words.ofClock(name)
		n := &node{name: name + "()", word: word, file: c.graph.sources[0], input: &dmn.InputData{Element: at}, of: &own, free: true}
		c.nodes[name], c.order = n, append(c.order, name)
		c.graph.inputs = append(c.graph.inputs, n)
	}
	return c.nodes[name]
}

// ofClock returns the word of an input that a clock fills, named like the function with its parentheses.
func (w *words) ofClock(name string) string {
	canonical := feel.Canonical(name + "()")
	if word, found := w.byName[canonical]; found {
		return word
	}
	word := w.free(name)
	w.byName[canonical], w.names[word] = word, name+"()"
	return word
}

// note notes each input that a clock fills.
func (c *clock) note(r *refusals) {
	for _, name := range c.order {
		if n := c.nodes[name]; n.needed {
			r.note(n.element(), fmt.Sprintf("%s is an input of the type %s: over HTTP it comes from the clock in %s, and no request brings it",
				n.name, n.of, c.zone), "")
		}
	}
}
