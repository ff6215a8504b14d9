package types

import (
	"math/bits"
	"sort"
	"strings"

	"gateway/lines"
)

// Needs are the members that an object has to have, and not as null; and those that an object which one of them is has to have in turn.
type Needs struct {
	members map[string]need
	// order has their keys, sorted by bytes.
	order []string
}

// A need is a member's place among all, and what its own value has to have; nil if it may be any value but null.
type need struct {
	at     int
	within *Needs
}

// NeedsOf returns the needs of paths, which have dots between keys; nil if there are none.
func NeedsOf(paths []string) *Needs {
	if len(paths) == 0 {
		return nil
	}
	below := map[string][]string{}
	for _, path := range paths {
		key, rest, isPath := strings.Cut(path, ".")
		all := below[key]
		if isPath {
			all = append(all, rest)
		}
		below[key] = all
	}
	made := &Needs{members: make(map[string]need, len(below))}
	for key := range below {
		made.order = append(made.order, key)
	}
	sort.Strings(made.order)
	for at, key := range made.order {
		made.members[key] = need{at, NeedsOf(below[key])}
	}
	return made
}

// AreMet reports whether a value visibly has all that is needed, without reading its text into a tree. If not, Lacking decides. The text
// is valid JSON without blanks around it.
func (n *Needs) AreMet(text []byte) bool {
	r := lines.PlainOf(text)
	return n.areMet(&r) && r.IsAtEnd()
}

// areMet reads a value. Each member of a repeated key has to have what is needed.
func (n *Needs) areMet(r *lines.Plain) bool {
	switch r.Peek() {
	case '{':
		seen := newPlaces(n.count())
		return r.Parts('}', func() bool { return n.isMember(r, seen) }) && seen.count() == n.count()
	case '[':
		return n == nil && r.Parts(']', func() bool { return n.areMet(r) })
	}
	return len(r.Scalar()) > 0 && n == nil
}

func (n *Needs) isMember(r *lines.Plain, seen places) bool {
	key, isSeen := r.Key()
	if !isSeen {
		return false
	}
	it, isNeeded := n.member(key)
	if !isNeeded {
		return (*Needs)(nil).areMet(r)
	}
	seen.add(it.at)
	return r.Peek() != 'n' && it.within.areMet(r)
}

func (n *Needs) member(key []byte) (it need, is bool) {
	if n == nil {
		return it, false
	}
	it, is = n.members[string(key)]
	return it, is
}

func (n *Needs) count() int {
	if n == nil {
		return 0
	}
	return len(n.order)
}

// Lacking returns the keys on the way to the first member that a value lacks, or has as null; nil if it has all.
func (n *Needs) Lacking(value any) (path []string, isNull bool) {
	if n == nil {
		return nil, false
	}
	object, _ := value.(map[string]any)
	for _, key := range n.order {
		part, is := object[key]
		if part == nil {
			return []string{key}, is
		}
		if below, isNull := n.members[key].within.Lacking(part); below != nil {
			return append([]string{key}, below...), isNull
		}
	}
	return nil, false
}

// Each calls of with each key that is needed, and with what its value has to have in turn: nil if it may be any value but null.
func (n *Needs) Each(of func(key string, within *Needs)) {
	if n == nil {
		return
	}
	for _, key := range n.order {
		of(key, n.members[key].within)
	}
}

// places are a set of whole numbers from 0 on.
type places []uint64

func newPlaces(most int) places { return make(places, (most+63)/64) }

func (p places) add(at int) { p[at/64] |= 1 << (at % 64) }

func (p places) count() (all int) {
	for _, some := range p {
		all += bits.OnesCount64(some)
	}
	return all
}
