package domain

import (
	"strconv"
	"strings"

	"gateway/lines"
)

// A Place is an input, or a component of one, with the domains of its values and of its components.
type Place struct {
	// own is nil if it may have each value.
	own   *Domain
	parts map[string]*Place
	// order has the keys of the parts, in the order of their paths.
	order []string
	// isNeeded is true if it can't be null: its own domain, or that of a component, has no null.
	isNeeded bool
}

// Places reads domains by their paths, which have dots between keys. It returns the places of the inputs by their words, and the paths of
// the domains that can't be read, or that have an empty key, in their order.
func Places(domains map[string]string) (places map[string]*Place, unread []string) {
	whole := &Place{}
	paths := make(map[string]any, len(domains))
	for path := range domains {
		paths[path] = nil
	}
	for _, path := range lines.Keys(paths) {
		own, is := Read(domains[path])
		keys := strings.Split(path, ".")
		if !is || hasEmpty(keys) {
			unread = append(unread, path)
			continue
		}
		it := whole
		for _, key := range keys {
			it = it.part(key)
		}
		it.own = own
	}
	whole.need()
	return whole.parts, unread
}

func hasEmpty(keys []string) bool {
	for _, key := range keys {
		if key == "" {
			return true
		}
	}
	return false
}

// need notes of the place and its parts which can't be null.
func (p *Place) need() {
	p.isNeeded = p.own != nil && !p.own.has(null)
	for _, part := range p.parts {
		part.need()
		p.isNeeded = p.isNeeded || part.isNeeded
	}
}

// part returns the place of a component, and makes it if need be.
func (p *Place) part(key string) *Place {
	if p.parts == nil {
		p.parts = map[string]*Place{}
	}
	it := p.parts[key]
	if it == nil {
		it = &Place{}
		p.parts[key], p.order = it, append(p.order, key)
	}
	return it
}

// Domain returns the domain of the place's own values; nil if it may have each.
func (p *Place) Domain() *Domain { return p.own }

// Part returns the place of a component; nil if it has no domain.
func (p *Place) Part(key string) *Place { return p.parts[key] }

// Keys returns the keys of the components that have places, in the order of their paths.
func (p *Place) Keys() []string { return p.order }

// IsNeeded reports whether null lies outside of the domain, or lacks a component that can't be null.
func (p *Place) IsNeeded() bool { return p != nil && p.isNeeded }

// NeedsParts reports whether a component can't be null.
func (p *Place) NeedsParts() bool {
	for _, part := range p.parts {
		if part.isNeeded {
			return true
		}
	}
	return false
}

// MayBeList reports whether a list may lie in the domain, and what its members have in those of the components.
func (p *Place) MayBeList() bool {
	if p.own != nil && p.own.someLists().IsNone() {
		return false
	}
	for _, part := range p.parts {
		if !part.MayBeList() {
			return false
		}
	}
	return true
}

// Needed returns the paths within a place of the components that can't be null.
func (p *Place) Needed() (paths []string) {
	for _, key := range p.order {
		part := p.parts[key]
		if !part.isNeeded {
			continue
		}
		paths = append(paths, key)
		for _, path := range part.Needed() {
			paths = append(paths, key+"."+path)
		}
	}
	return paths
}

// A Lack is a value that is missing or null, and can't be.
type Lack struct {
	// Path leads to it, and Of to what can't be null: the same, or a component of it, whose domain this is.
	Path, Of []string
	IsNull   bool
	Domain   *Domain
}

// Lacking returns the first value, in the order of paths, that is missing or null and can't be; nil if there is none. It is one that
// lines.Tree returns.
func (p *Place) Lacking(tree any) *Lack { return p.lacking(tree, true, nil) }

func (p *Place) lacking(tree any, isThere bool, path []string) *Lack {
	if !p.isNeeded {
		return nil
	}
	if tree == nil {
		return p.lack(&Lack{Path: path, Of: path, IsNull: isThere})
	}
	if _, isList := tree.([]any); isList {
		return nil
	}
	members, _ := tree.(map[string]any)
	for _, key := range p.order {
		member, is := members[key]
		if found := p.parts[key].lacking(member, is, append(path[:len(path):len(path)], key)); found != nil {
			return found
		}
	}
	return nil
}

// Missing is what Lacking returns of an input that isn't there.
func (p *Place) Missing() *Lack { return p.lacking(nil, false, nil) }

// lack completes a lack: with the first domain that has no null.
func (p *Place) lack(of *Lack) *Lack {
	if p.own != nil && !p.own.has(null) {
		of.Domain = p.own
		return of
	}
	for _, key := range p.order {
		if part := p.parts[key]; part.isNeeded {
			of.Of = append(of.Of[:len(of.Of):len(of.Of)], key)
			return part.lack(of)
		}
	}
	return of
}

// Holds reports whether each value visibly lies in its domain, without reading its text into a tree. If not, Outside decides. The text is
// valid JSON without blanks around it.
func (p *Place) Holds(text []byte) bool {
	r := lines.PlainOf(text)
	return p.holds(&r) && r.IsAtEnd()
}

// holds reads a value. Each member of a repeated key has to lie in its domain.
func (p *Place) holds(r *lines.Plain) bool {
	switch r.Peek() {
	case '{':
		return p.takes(func(of *Domain) bool { return of.takesContexts }) && r.Parts('}', func() bool { return p.holdsMember(r) })
	case '[':
		return p.takes(func(of *Domain) bool { return of.takesLists }) && (p == nil || len(p.parts) == 0) &&
			r.Parts(']', func() bool { return (*Place)(nil).holds(r) })
	}
	text := r.Scalar()
	return len(text) > 0 && p.takes(func(of *Domain) bool { return of.hasPlain(text) })
}

// takes reports whether a condition is met by the domain, if there is one.
func (p *Place) takes(is func(of *Domain) bool) bool { return p == nil || p.own == nil || is(p.own) }

func (p *Place) holdsMember(r *lines.Plain) bool {
	key, isSeen := r.Key()
	if !isSeen {
		return false
	}
	if p == nil {
		return p.holds(r)
	}
	return p.parts[string(key)].holds(r)
}

// mostDigits is the length up to which a whole number is surely in range.
const mostDigits = 18

// hasPlain reports whether a scalar as written visibly lies in the domain, or is null.
func (d *Domain) hasPlain(text []byte) bool {
	switch text[0] {
	case 'n':
		return true
	case 't', 'f':
		return d.has(booleanOf(text[0] == 't'))
	case '"':
		return d.has(textOf(string(text[1 : len(text)-1])))
	}
	if len(text) > mostDigits {
		return false
	}
	number, err := strconv.ParseInt(string(text), 10, 64)
	return err == nil && d.has(numberOf(number))
}

// An Outside is a value that lies outside of its domain.
type Outside struct {
	// Through has the keys of the domain's path, which leads to the value; Path is the same up to the first list on the way.
	Through, Path []string
	Value         any
	Domain        *Domain
}

// Outside returns the first value, in the order of paths, that isn't null and lies outside of its domain; nil if there is none.
func (p *Place) Outside(tree any) *Outside {
	v, isTaken := valueOf(tree)
	if !isTaken {
		return nil
	}
	return p.outside(v, nil, 0)
}

// outside looks at a value that a path leads to, of which as many keys don't lead through a list.
func (p *Place) outside(v value, path []string, open int) *Outside {
	if v.kind == ofNull {
		return nil
	}
	if p.own != nil && !p.own.has(v) {
		return &Outside{path, path[:open:open], v.tree(), p.own}
	}
	if v.kind < ofList {
		return nil
	}
	for _, key := range p.order {
		next := open
		if v.kind == ofContext && open == len(path) {
			next++
		}
		if found := p.parts[key].outside(v.entry(key), append(path[:len(path):len(path)], key), next); found != nil {
			return found
		}
	}
	return nil
}
