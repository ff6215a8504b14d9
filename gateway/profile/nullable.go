package profile

import (
	"fmt"
	"strings"

	"gateway/feel"
)

// nullablePaths returns the paths of the inputs and components that these names are of, and the names that are of none.
func (g *graph) nullablePaths(names []string) (paths map[string]bool, unknown []string) {
	paths = map[string]bool{}
	for _, name := range names {
		f := &pathFinder{words: g.words, paths: paths, seen: map[pathPlace]bool{}}
		canonical := feel.Canonical(name)
		for _, n := range g.inputs {
			f.enter(canonical, feel.Canonical(n.name), n.word, n.word, n.of)
		}
		if !f.found {
			unknown = append(unknown, name)
		}
	}
	return paths, unknown
}

// canonicalDot is between the parts of a canonical name.
const canonicalDot = " . "

// A pathFinder finds what a canonical name is of. Each part is a name of the file or a word of the model.
type pathFinder struct {
	words *words
	paths map[string]bool
	found bool
	// seen are the places that were looked at: names may have dots, so that one name may have several readings.
	seen map[pathPlace]bool
}

// A pathPlace is a path, and how much of the name is left for the components below it.
type pathPlace struct {
	path string
	left int
}

// enter looks at an input or component of this canonical name and word.
func (f *pathFinder) enter(left, name, word, path string, of *valueType) {
	for _, spelled := range [2]string{name, word} {
		if left == spelled {
			f.paths[path], f.found = true, true
		}
		if strings.HasPrefix(left, spelled+canonicalDot) {
			f.within(left[len(spelled)+len(canonicalDot):], path, of)
		}
	}
}

// within looks at the components of a structure.
func (f *pathFinder) within(left, path string, of *valueType) {
	place := pathPlace{path, len(left)}
	if of == nil || !of.isStructure() || f.seen[place] {
		return
	}
	f.seen[place] = true
	for _, name := range of.order {
		word := f.words.of(name)
		f.enter(left, name, word, path+"."+word, of.fields[name])
	}
}

// UnknownNullable reports the first name in Options.Nullable that no input and no component of one has; nil if there is none.
func (r *Result) UnknownNullable() error {
	if len(r.unknownNullable) == 0 {
		return nil
	}
	return fmt.Errorf("--nullable %s: there is no such input, and no such component of one; there are %s", r.unknownNullable[0],
		strings.Join(r.inputNames(), ", "))
}

func (r *Result) inputNames() []string {
	names := make([]string, len(r.Model.Inputs))
	for at, word := range r.Model.Inputs {
		names[at] = word
		if name, is := r.Names[word]; is {
			names[at] = name
		}
	}
	return names
}
