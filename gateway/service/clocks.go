package service

import (
	"fmt"

	"gateway/lines"
)

// addInput adds a parameter to those that requests bring, or to those that the clock fills.
func (m *served) addInput(service *decisionService, word string) {
	if !m.types[word].HasClock() {
		service.inputs = append(service.inputs, word)
		return
	}
	service.clocks = append(service.clocks, word)
	m.clocks[word], m.clocks[m.nameOf(word)] = word, word
}

// addClocks adds the inputs that the clock fills to those of a request, unless it has them.
func (m *served) addClocks(inputs []byte, service *decisionService, members []lines.Member) []byte {
	if len(service.clocks) == 0 {
		return inputs
	}
	last, now := lastMembers(members), m.now()
	for _, word := range service.clocks {
		if hasMember(members, last, word) {
			continue
		}
		if len(inputs) > 1 {
			inputs = append(inputs, ',')
		}
		inputs = append(lines.AppendQuoted(inputs, word), ':')
		inputs = append(inputs, m.types[word].At(now)...)
	}
	return inputs
}

// clockProblem refuses a request that has an input that the clock fills; nil for others.
func (m *served) clockProblem(text []byte) *problem {
	if len(m.clocks) == 0 || !lines.HasKey(text, m.clocks) {
		return nil
	}
	tree, err := lines.Tree(text)
	inputs, is := tree.(map[string]any)
	if err != nil || !is {
		return nil
	}
	for _, key := range lines.Keys(inputs) {
		if word := m.clocks[key]; word != "" {
			return problemValue.at("/"+lines.Token(m.nameOf(word)), fmt.Sprintf("%q comes from the clock of the service, and no request brings it",
				m.nameOf(word)))
		}
	}
	return nil
}
