package profile

import (
	"fmt"
	"sort"
)

// mostComponents is how many components of inputs callers promise something of, in all: of an input that has more than are left, they
// promise nothing of its components. mostLevels is how many levels below an input have promises.
const (
	mostComponents = 5_000
	mostLevels     = 20
)

// A promise is what callers promise of an input, or of a component of one.
type promise struct {
	// path has the words of the input and of the components on the way, with dots between them, as applicant.address.city.
	path string
	of   *valueType
	// isRequired is true if it has to be there, and not as null. takesNull is true if it may be null, or missing.
	isRequired, takesNull bool
}

// promises returns those of each input, with those of its components after it. nullable has the paths of what may be null though its
// type doesn't list it. It notes the inputs with too many components.
func (g *graph) promises(nullable map[string]bool) (all []promise) {
	left := mostComponents
	for _, n := range g.inputs {
		if n.of == nil {
			continue
		}
		isClock := n.of.clock != ""
		whole := promise{path: n.word, of: n.of, isRequired: !isClock && n.of.isPromised() && !nullable[n.word]}
		whole.takesNull = !isClock && !whole.isRequired
		all = append(all, whole)
		f := &follower{words: g.words, nullable: nullable, most: left}
		if !f.follow(whole, 0) {
			g.refusals.note(n.element(), fmt.Sprintf("its components bring those of all inputs over %d: they have no domains, and HTTP requires none of them",
				mostComponents), "")
			continue
		}
		left -= len(f.found)
		all = append(all, f.found...)
	}
	return all
}

// A follower finds the promises of an input's components.
type follower struct {
	words    *words
	nullable map[string]bool
	most     int
	found    []promise
}

// follow adds those of a structure's components, in the order of the file. It returns false once there are too many.
func (f *follower) follow(whole promise, level int) bool {
	if !whole.of.isStructure() || level == mostLevels {
		return true
	}
	for _, name := range whole.of.order {
		if len(f.found) == f.most {
			return false
		}
		it := promise{path: whole.path + "." + f.words.of(name), of: whole.of.fields[name]}
		it.isRequired = !whole.takesNull && it.of.isPromised() && !f.nullable[it.path]
		it.takesNull = !it.isRequired
		f.found = append(f.found, it)
		if !f.follow(it, level+1) {
			return false
		}
	}
	return true
}

// isStructure tells whether a type has the components of an item definition.
func (t *valueType) isStructure() bool { return t.kind == contextKind && !t.open }

// isPromised tells whether callers promise a value that isn't null, unless they say otherwise: the type is known, and its values don't
// list null. A context of which no more is known than the entries that are taken of it is no such type.
func (t *valueType) isPromised() bool {
	switch t.kind {
	case anyKind, refusedKind:
		return false
	case contextKind:
		return !t.open && !t.promised().listsNull()
	}
	return !t.promised().listsNull()
}

// required are the paths of what has to be there, and not as null.
func required(all []promise) (paths []string) {
	for _, it := range all {
		if it.isRequired {
			paths = append(paths, it.path)
		}
	}
	sort.Strings(paths)
	return paths
}
