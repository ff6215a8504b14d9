package profile

import (
	"sort"
	"strings"

	"gateway/calendar"
	"gateway/feel"
)

// A timeSort says whether the times of an input have an offset: because the caller says so, or because they meet others
// that do.
type timeSort struct {
	name              string
	hasOffset, wanted bool
	// types are the types of the input.
	types []*valueType
}

// want notes that times of an input meet others with an offset.
func (s *timeSort) want() {
	if s != nil {
		s.wanted = true
	}
}

// either returns the one of two that isn't nil.
func either(a, b *timeSort) *timeSort {
	if a != nil {
		return a
	}
	return b
}

// take gives the types of an input an offset.
func (s *timeSort) take() {
	s.hasOffset = true
	for _, of := range s.types {
		of.kind = withOffset[of.kind]
	}
}

// offsets are the sorts of all times of inputs, and how many decimals of a second the files have.
type offsets struct {
	all []*timeSort
	// tick is the unit of times and of days and time durations, in all files; wanted is how many decimals literals
	// have.
	tick   calendar.Tick
	wanted int
	// timed are the names of inputs with such values, said the decimals given by the caller.
	timed []string
	said  *Decimals
	// asked has the spelling in --offset of each canonical name, used the ones that some input has.
	asked map[string]string
	used  map[string]bool
}

func newOffsets(g *graph, options Options) *offsets {
	o := &offsets{asked: map[string]string{}, used: map[string]bool{}, said: options.Decimals}
	for _, name := range options.Offsets {
		o.asked[feel.Canonical(name)] = name
	}
	for _, n := range g.inputs {
		o.add(n)
	}
	return o
}

// add gives each time of an input its own sort.
func (o *offsets) add(n *node) {
	if n.of.some((*valueType).isTimed) {
		n.of = o.of(n.of, n.name)
	}
}

// isTimed reports whether values are counted in parts of seconds.
func (t *valueType) isTimed() bool {
	return withOffset[t.kind] != 0 || t.kind == dayDurationKind || t.kind == offsetTimeKind || t.kind == offsetDateTimeKind
}

// timedDecimals returns the decimals that the caller gives for a timed name, or for what it is part of.
func (o *offsets) timedDecimals(name string) {
	o.timed = append(o.timed, name)
	if o.said == nil {
		return
	}
	decimals := maximum(o.said.All, 0)
	for said, number := range o.said.Named {
		canonical := feel.Canonical(said)
		if whole := feel.Canonical(name); whole == canonical || strings.HasPrefix(whole, canonical+" . ") {
			decimals = maximum(decimals, number)
		}
	}
	o.want(decimals)
	o.tick.Decimals = o.wanted
}

// want notes how many decimals of a second a text has.
func (o *offsets) want(decimals int) {
	if decimals <= calendar.MostDecimals {
		o.wanted = maximum(o.wanted, decimals)
	}
}

func (o *offsets) of(of *valueType, name string) *valueType {
	own := *of
	own.fitting = nil
	if of.isTimed() {
		o.timedDecimals(name)
	}
	switch {
	case withOffset[of.kind] != 0:
		own.sort = &timeSort{name: name, types: []*valueType{&own}}
		o.all = append(o.all, own.sort)
		if o.isAsked(feel.Canonical(name)) {
			own.sort.take()
		}
	case of.kind == listKind:
		own.element, own.deepest = o.of(of.element, name), nil
	case of.kind == contextKind:
		own.fields, own.order = map[string]*valueType{}, nil
		for _, field := range of.order {
			own.setField(field, o.of(of.fields[field], name+"."+field))
		}
	}
	return &own
}

// isAsked reports whether --offset has a name, or that of what it is part of.
func (o *offsets) isAsked(canonical string) bool {
	if name, is := o.asked[canonical]; is {
		o.used[name] = true
		return true
	}
	dot := strings.LastIndexByte(canonical, '.')
	return dot > 0 && o.isAsked(strings.TrimSpace(canonical[:dot]))
}

// names returns the names of the inputs whose times have an offset.
func (o *offsets) names() []string {
	var all []string
	for _, each := range o.all {
		if each.hasOffset {
			all = append(all, each.name)
		}
	}
	return all
}

// settle adopts the wanted offsets and decimals, and reports whether there were any.
func (o *offsets) settle() bool {
	changed := o.wanted > o.tick.Decimals
	o.tick.Decimals = maximum(o.tick.Decimals, o.wanted)
	for _, each := range o.all {
		if each.wanted && !each.hasOffset {
			each.take()
			changed = true
		}
	}
	return changed
}

// refuseUnused refuses names in --offset that no time of an input has, and reports whether there were any.
func (o *offsets) refuseUnused(g *graph) bool {
	var unused []string
	for _, name := range o.asked {
		if !o.used[name] {
			unused = append(unused, name)
		}
	}
	sort.Strings(unused)
	for _, name := range unused {
		g.refusals.refuse(g.sources[0].file.Root, name, "an offset is said of it, and no time of an input has this name", "the name of an input")
	}
	return len(unused) > 0
}

// checkOffsets refuses a decision whose value has a time with an offset, as its written form is no longer known.
func (t *translator) checkOffsets(n *node) {
	if n.of.some(func(part *valueType) bool { return part.kind == offsetTimeKind || part.kind == offsetDateTimeKind }) {
		t.refusals.refuse(n.element(), textOf(n.decision.Logic), "its value has a time with an offset, which comparisons and differences "+
			"alone may have", "a comparison, a duration, or times without an offset")
	}
}
