package profile

import (
	"fmt"
	"sort"
	"strings"

	"gateway/feel"
)

// Decimals say how many decimals the numbers of inputs have if the file doesn't.
type Decimals struct {
	// All is for each input that isn't named; -1 if not given.
	All int
	// Named is by the names of inputs, as the file spells them: "Amount", "Applicant.Income".
	Named map[string]int
}

// NoDecimals returns Decimals that say nothing.
func NoDecimals() Decimals { return Decimals{All: -1} }

// usualDecimals is how many decimals the numbers of an input have if they meet fractions and nothing else is given.
const usualDecimals = 2

// MostDecimals is the most decimals that numbers of an input may have.
const MostDecimals = 18

// cells are the places of numbers in the inputs of a graph.
type cells struct {
	graph *graph
	said  Decimals
	all   []*cell
	// canonical has the spelling in --decimals of each canonical name.
	canonical map[string]string
	// used are the names in --decimals that belong to a cell.
	used map[string]bool
}

// newCells returns each number of each input its own cell.
func newCells(g *graph, said Decimals) *cells {
	c := &cells{graph: g, said: said, used: map[string]bool{}, canonical: map[string]string{}}
	for name := range said.Named {
		c.canonical[feel.Canonical(name)] = name
	}
	for _, n := range g.inputs {
		n.of = c.of(n.of, n.name)
	}
	return c
}

// of returns the type of an input, with cells.
func (c *cells) of(of *valueType, name string) *valueType {
	own := *of
	own.fitting = nil
	if own.sort != nil {
		own.sort.types = append(own.sort.types, &own)
	}
	if own.isTimed() {
		c.named(feel.Canonical(name))
	}
	switch of.kind {
	case numberKind, anyKind:
		own.units = c.unitsOf(&own, name)
	case listKind:
		own.element, own.deepest = c.of(of.element, name), nil
	case contextKind:
		own.fields, own.order = map[string]*valueType{}, nil
		for _, field := range of.order {
			part := c.of(of.fields[field], name+"."+field)
			if part.parent == of {
				part.parent = &own
			}
			own.setField(field, part)
		}
	}
	return &own
}

// unitsOf makes the cell of a number.
func (c *cells) unitsOf(of *valueType, name string) units {
	made := &cell{name: name, meets: &meeting{}, types: []*valueType{of}}
	canonical := feel.Canonical(name)
	if scale, listed := listedScale(of); listed {
		made.scale, made.fixed = scale, true
	} else if scale, named := c.named(canonical); named {
		made.scale, made.fixed = scale, true
	} else if c.said.All >= 0 {
		made.scale, made.fixed = c.said.All, true
	}
	made.meets.fractional = made.scale > 0
	c.all = append(c.all, made)
	return units{scale: made.scale, cell: made, meets: made.meets}
}

// named returns the decimals given for a name, or for what it is part of.
func (c *cells) named(canonical string) (int, bool) {
	if name, said := c.canonical[canonical]; said {
		c.used[name] = true
		return c.said.Named[name], true
	}
	if dot := strings.LastIndexByte(canonical, '.'); dot > 0 {
		return c.named(strings.TrimSpace(canonical[:dot]))
	}
	return 0, false
}

// listedScale returns the most decimals of allowed values that are single numbers; false if there are no such values.
func listedScale(of *valueType) (scale int, listed bool) {
	allowed := of.allowed
	if len(allowed.nodes()) == 0 {
		allowed = of.noted
	}
	for _, value := range allowed.nodes() {
		literal := literalType(value)
		switch {
		case literal != nil && literal.kind == nullKind:
		case literal == nil || literal.kind != numberKind || rational(value) == nil || !ends(rational(value)):
			return 0, false
		default:
			scale, listed = maximum(scale, constantNumber(rational(value)).of.units.scale), true
		}
	}
	return scale, listed
}

// begin gives decimals to the cells that fractions meet, after the pass that found those.
func (c *cells) begin() {
	for _, each := range c.all {
		if !each.fixed && each.meets.root().fractional {
			each.set(maximum(each.wanted, usualDecimals))
		}
		each.wanted = 0
	}
}

func (c *cell) set(scale int) {
	c.scale = scale
	for _, of := range c.types {
		of.units.scale = scale
	}
}

// settle adopts the finer units that are wanted, and reports whether there were any.
func (c *cells) settle() bool {
	changed := false
	for _, each := range c.all {
		if each.wanted > each.scale && !each.fixed && each.wanted <= MostDecimals {
			each.set(each.wanted)
			changed = true
		}
		each.wanted = 0
	}
	return changed
}

// refuseUnused refuses names in --decimals that no input has, and reports whether there were any.
func (c *cells) refuseUnused() bool {
	var unused []string
	for name := range c.said.Named {
		if !c.used[name] {
			unused = append(unused, name)
		}
	}
	sort.Strings(unused)
	for _, name := range unused {
		c.graph.refusals.refuse(c.graph.sources[0].file.Root, name, "decimals are said of it, and no number of an input or a decision has this name",
			fmt.Sprintf("one of %s", c.someNames()))
	}
	return len(unused) > 0
}

// mostNames is how many names are listed in a message.
const mostNames = 10

func (c *cells) someNames() string {
	var names []string
	for _, each := range c.all {
		if len(names) < mostNames {
			names = append(names, each.name)
		}
	}
	return strings.Join(names, ", ")
}
