package profile

import (
	"fmt"
	"strings"
)

// renamed notes the names that requests and answers spell differently from the file: of inputs, of services, of the
// decisions that they answer, and of the entries of their contexts.
func (r *run) renamed(result *Result) {
	used := map[string]bool{}
	var order []string
	add := func(word string) {
		if !used[word] {
			used[word] = true
			order = append(order, word)
		}
	}
	g, seen := r.graph, map[*valueType]bool{}
	keys := func(of *valueType) {
		for _, name := range keysOf(of, seen) {
			add(g.words.of(name))
		}
	}
	for _, n := range g.inputs {
		if n.of.clock == "" {
			add(n.word)
			keys(n.of)
		}
	}
	answered := map[string]bool{}
	for _, s := range result.Model.Services {
		add(s.Name)
		for _, word := range append(append([]string(nil), s.Outputs...), s.InputDecisions...) {
			answered[word] = true
		}
	}
	for _, n := range g.decisions {
		if answered[n.word] {
			add(n.word)
			keys(n.of)
		}
	}
	var all []string
	for _, word := range order {
		if name := g.words.names[word]; name != word && name != "" {
			all = append(all, fmt.Sprintf("%q is %s", name, word))
		}
	}
	if len(all) > 0 {
		why := "in requests and answers " + strings.Join(shortList(all), ", ")
		r.refusals.notes = append(r.refusals.notes, Refusal{File: r.files[0].Path, Why: why})
	}
}

// keysOf returns the names of the entries of a type's contexts.
func keysOf(of *valueType, seen map[*valueType]bool) []string {
	if of == nil || seen[of] {
		return nil
	}
	seen[of] = true
	if of.kind == listKind {
		return keysOf(of.element, seen)
	}
	var all []string
	for _, name := range of.order {
		all = append(all, name)
		all = append(all, keysOf(of.fields[name], seen)...)
	}
	return all
}
