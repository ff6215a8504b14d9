package tck

import (
	"strings"

	"gateway/dmn"
	"gateway/feel"
)

// without returns a copy of a file with only these decisions and their needs, and no services, so that a refused part only
// affects what needs it.
func without(file *dmn.File, wanted ...*dmn.Decision) *dmn.File {
	c := closure{file: file, kept: map[*dmn.Element]bool{}}
	for _, decision := range wanted {
		c.decision(decision)
	}
	part := *file
	part.Services, part.Decisions, part.Inputs, part.Knowledge = nil, nil, nil, nil
	for _, decision := range file.Decisions {
		if c.kept[decision.Element] {
			part.Decisions = append(part.Decisions, decision)
		}
	}
	for _, input := range file.Inputs {
		if c.kept[input.Element] {
			part.Inputs = append(part.Inputs, input)
		}
	}
	for _, knowledge := range file.Knowledge {
		if c.kept[knowledge.Element] {
			part.Knowledge = append(part.Knowledge, knowledge)
		}
	}
	return &part
}

// A closure is the needs of some decisions, by element.
type closure struct {
	file *dmn.File
	kept map[*dmn.Element]bool
}

// keep notes an element, and reports whether it is new.
func (c closure) keep(e *dmn.Element) bool {
	known := c.kept[e]
	c.kept[e] = true
	return !known
}

func (c closure) decision(decision *dmn.Decision) {
	if !c.keep(decision.Element) {
		return
	}
	for _, reference := range decision.Inputs {
		if input := inputOf(c.file, reference); input != nil {
			c.keep(input.Element)
		}
	}
	for _, reference := range decision.Decisions {
		if needed := decisionOf(c.file, reference); needed != nil {
			c.decision(needed)
		}
	}
	c.knowledge(decision.Knowledge)
}

func (c closure) knowledge(references []*dmn.Reference) {
	for _, reference := range references {
		for _, knowledge := range c.file.Knowledge {
			if refersTo(reference, knowledge.Element) && c.keep(knowledge.Element) {
				c.knowledge(knowledge.Knowledge)
			}
		}
	}
}

func inputOf(file *dmn.File, reference *dmn.Reference) *dmn.InputData {
	for _, input := range file.Inputs {
		if refersTo(reference, input.Element) {
			return input
		}
	}
	return nil
}

func decisionOf(file *dmn.File, reference *dmn.Reference) *dmn.Decision {
	for _, decision := range file.Decisions {
		if refersTo(reference, decision.Element) {
			return decision
		}
	}
	return nil
}

func refersTo(reference *dmn.Reference, e *dmn.Element) bool {
	return reference.Href[strings.LastIndexByte(reference.Href, '#')+1:] == e.ID()
}

// decisionNamed returns the decision with a name, or nil.
func decisionNamed(file *dmn.File, name string) *dmn.Decision {
	for _, decision := range file.Decisions {
		if feel.Canonical(decision.Name()) == feel.Canonical(name) {
			return decision
		}
	}
	return nil
}

func serviceNamed(file *dmn.File, name string) *dmn.DecisionService {
	for _, service := range file.Services {
		if feel.Canonical(service.Name()) == feel.Canonical(name) {
			return service
		}
	}
	return nil
}
