package service

import (
	"fmt"
	"strings"

	"gateway/lines"
	"gateway/types"
)

// whyRequired says why null isn't taken where a file declares a type.
const whyRequired = "the file declares its type; its allowed values may list null, or desk import may have --nullable"

// require finds the inputs that callers have to give, and what these need.
func (m *served) require() {
	below, isThere := map[string][]string{}, map[string]bool{}
	for _, path := range m.source.Required {
		word, rest, isPath := strings.Cut(path, ".")
		if !isThere[word] {
			m.required, isThere[word] = append(m.required, word), true
		}
		if isPath {
			below[word] = append(below[word], rest)
		}
	}
	m.needs = make(map[string]*types.Needs, len(below))
	for word, paths := range below {
		m.needs[word] = types.NeedsOf(paths)
	}
}

// components refuses a missing or null component of an input, if the file requires it.
func (m *served) components(service *decisionService, whole []byte, members []lines.Member) *problem {
	if !m.isStrict || !service.isStrict || len(m.needs) == 0 {
		return nil
	}
	last := lastMembers(members)
	for at, member := range members {
		needs, text := m.needs[member.Key], whole[member.Value.Start:member.Value.End]
		if needs == nil || !service.parameters[member.Key] || comesAgain(members, last, at) || needs.AreMet(text) {
			continue
		}
		value, err := lines.Tree(text)
		if err != nil {
			return problemInside.with(err.Error())
		}
		if path, isNull := needs.Lacking(value); path != nil {
			return m.lacking(append([]string{member.Key}, path...), isNull, whyRequired)
		}
	}
	return nil
}

// lacking is the problem of a value that is missing or null, and why it can't be.
func (m *served) lacking(path []string, isNull bool, why string) *problem {
	pointer, state := "", "missing"
	for _, word := range path {
		pointer += "/" + lines.Token(word)
	}
	if isNull {
		state = "null"
	}
	return problemValue.at(m.pointer(pointer), fmt.Sprintf("%q is %s, and %s", m.pathName(path), state, why))
}

// pathName returns a path with the file's names.
func (m *served) pathName(path []string) string {
	names := make([]string, len(path))
	for at, word := range path {
		names[at] = m.nameOf(word)
	}
	return strings.Join(names, ".")
}
