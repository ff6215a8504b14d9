package domain

import (
	"encoding/json"
	"sort"

	"gateway/lines"
)

// Kinds are the values of a domain, kind by kind.
type Kinds struct {
	Null, True, False, Contexts bool
	Numbers                     []Interval
	Texts, Lists                Some
}

// An Interval has numbers in a row. An end is nil if there is none but that of all numbers; an open one isn't in it.
type Interval struct {
	Low, High         any
	LowOpen, HighOpen bool
}

// Some are texts or lists.
type Some struct {
	// Others is true if all lie in the domain but those that are listed, and false if no others do.
	Others bool
	// ByOrder is true if more than a list decides: the order of texts. There is no list then.
	ByOrder bool
	Listed  []any
}

// IsNone reports whether there is surely no such value.
func (s Some) IsNone() bool { return !s.Others && !s.ByOrder && len(s.Listed) == 0 }

// Kinds returns the values of the domain; of nil it is every value.
func (d *Domain) Kinds() Kinds {
	if d == nil {
		d = &Domain{isAny: true, takesContexts: true}
	}
	return Kinds{Null: d.has(null), True: d.has(booleanOf(true)), False: d.has(booleanOf(false)), Contexts: d.takesContexts,
		Numbers: d.numbers(), Texts: d.texts(), Lists: d.someLists()}
}

// constants returns the numbers or texts that the tests name, in order and each once. A domain doesn't change between two of them.
func (d *Domain) constants(of kind) (all []value) {
	add := func(v value) {
		if v.kind == of {
			all = append(all, v)
		}
	}
	for _, it := range d.tests {
		for _, one := range it.ends {
			add(one.limit)
		}
		if it.ends == nil {
			for _, one := range it.equals() {
				add(one)
			}
		}
	}
	sort.Slice(all, func(i, j int) bool { return less(all[i], all[j]) == yes })
	kept := all[:0]
	for at, v := range all {
		if at == 0 || equal(v, all[at-1]) != yes {
			kept = append(kept, v)
		}
	}
	return kept
}

// A gap is what lies between two constants; after the last one, until is nil.
type gap struct {
	until *value
	isIn  bool
}

// gaps returns those before each constant, and after the last. One without a value is nil.
func (d *Domain) gaps(constants []value, first value, next func(v value) (after value, is bool)) []*gap {
	all := make([]*gap, len(constants)+1)
	least, is := first, true
	for at := range all {
		var until *value
		if at < len(constants) {
			until = &constants[at]
		}
		if is && (until == nil || less(least, *until) == yes) {
			all[at] = &gap{until, d.has(least)}
		}
		if until != nil {
			least, is = next(*until)
		}
	}
	return all
}

// numbers returns the numbers of the domain. Numbers that are named next to each other are an interval each.
func (d *Domain) numbers() (all []Interval) {
	constants := d.constants(ofNumber)
	gaps := d.gaps(constants, numberOf(-lines.MaxNumber), func(v value) (value, bool) { return numberOf(v.number + 1), v.number < lines.MaxNumber })
	var open *Interval
	end := func(at any, isOpen bool) {
		if open != nil {
			open.High, open.HighOpen = at, isOpen
			all, open = append(all, *open), nil
		}
	}
	var before any
	for at, between := range gaps {
		switch {
		case between == nil || !between.isIn:
			end(before, false)
		case open == nil:
			open = &Interval{Low: before, LowOpen: before != nil}
		}
		if at == len(constants) {
			break
		}
		before = constants[at].tree()
		switch {
		case !d.has(constants[at]):
			end(before, true)
		case open == nil:
			open = &Interval{Low: before}
		}
	}
	end(nil, false)
	for at := range all {
		all[at].widen()
	}
	return all
}

// widen leaves out an end that all numbers have.
func (i *Interval) widen() {
	if least := numberOf(-lines.MaxNumber).tree(); i.Low == least && !i.LowOpen {
		i.Low = nil
	}
	if most := numberOf(lines.MaxNumber).tree(); i.High == most && !i.HighOpen {
		i.High = nil
	}
}

// One returns the number of an interval that has only one.
func (i Interval) One() (number json.Number, is bool) {
	low, _ := i.Low.(json.Number)
	return low, i.Low != nil && i.Low == i.High
}

func (d *Domain) texts() Some {
	constants := d.constants(ofText)
	isIn, isOut := false, false
	for _, between := range d.gaps(constants, textOf(""), func(v value) (value, bool) { return textOf(v.text + "\x00"), true }) {
		isIn, isOut = isIn || between != nil && between.isIn, isOut || between != nil && !between.isIn
	}
	if isIn && isOut {
		return Some{ByOrder: true}
	}
	return d.some(constants, isIn)
}

// someLists returns the lists of the domain: one that the tests don't name lies in it if each such list does.
func (d *Domain) someLists() Some {
	longest := 0
	for _, list := range d.lists {
		if len(list.items) > longest {
			longest = len(list.items)
		}
	}
	return d.some(d.lists, d.has(listOf(make([]value, longest+1))))
}

// some lists those of the constants that differ from others.
func (d *Domain) some(constants []value, others bool) Some {
	made := Some{Others: others}
	for _, v := range constants {
		if d.has(v) != others {
			made.Listed = append(made.Listed, v.tree())
		}
	}
	return made
}
