package export

import (
	"fmt"

	"gateway/model"
)

// A knowledge is business knowledge of the first file. In the model each call of it is a context: its parameters are entries,
// its body the result.
type knowledge struct {
	id, name string
	// pointer is the place of one of its calls, call what is there.
	pointer string
	call    model.Context
	// needs is the business knowledge that the body calls.
	needs []*knowledge
}

// key returns its name in the diagram, which no word of a model can be.
func (k *knowledge) key() string { return "#" + k.id }

// calls finds the business knowledge that an expression calls, if the first file's texts are written.
func (p *page) calls(pointer string, e model.Expression) (found []*knowledge) {
	if !p.IsWritten {
		return nil
	}
	switch e := e.(type) {
	case model.List:
		for i, member := range e {
			found = append(found, p.calls(fmt.Sprintf("%s/list/%d", pointer, i), member)...)
		}
	case model.Context:
		for i, entry := range e.Entries {
			at := fmt.Sprintf("%s/context/%d/expr", pointer, i)
			if p.isCall(entry) {
				found = append(found, p.called(entry.Name, at, entry.Expr.(model.Context)))
			} else {
				found = append(found, p.calls(at, entry.Expr)...)
			}
		}
		found = append(found, p.calls(pointer+"/result", e.Result)...)
	}
	return found
}

// isCall reports whether an entry is a call: within a decision, the entry and its parameters have names of the file.
func (p *page) isCall(entry model.Entry) bool {
	call, is := entry.Expr.(model.Context)
	_, isLocal := p.File.Locals[entry.Name]
	for i := 0; isLocal && is && i < len(call.Entries); i++ {
		_, isLocal = p.File.Locals[call.Entries[i].Name]
	}
	return is && isLocal && call.Result != nil && len(call.Entries) > 0
}

// called returns the business knowledge of a call.
func (p *page) called(word, pointer string, call model.Context) *knowledge {
	name := p.File.Name(word)
	for _, k := range p.knowledge {
		if k.name == name {
			return k
		}
	}
	k := &knowledge{id: fmt.Sprintf("knowledge_%d", len(p.knowledge)+1), name: name, pointer: pointer, call: call}
	p.knowledge = append(p.knowledge, k)
	k.needs = p.calls(pointer+"/result", call.Result)
	return k
}

// requiresKnowledge returns the requirements of a caller of business knowledge, each once.
func (p *page) requiresKnowledge(all []*knowledge, by string) (made []*element) {
	seen := map[*knowledge]bool{}
	for _, k := range all {
		if seen[k] {
			continue
		}
		seen[k] = true
		r := requirement{p.id("requirement"), k.key(), by}
		p.requirements = append(p.requirements, r)
		made = append(made, tag("knowledgeRequirement", "id", r.id).add(tag("requiredKnowledge", "href", "#"+k.id)))
	}
	return made
}

// business returns the element of business knowledge.
func (p *page) business(k *knowledge) *element {
	logic := tag("encapsulatedLogic", "id", p.id("logic"))
	s := newScope(p.words)
	for _, parameter := range k.call.Entries {
		logic.add(tag("formalParameter", "id", p.id("parameter"), "name", p.File.Name(parameter.Name)))
		s.bind(parameter.Name, anything)
	}
	logic.add(p.boxed(k.pointer+"/result", k.call.Result, s))
	variable := tag("variable", "id", p.id("variable"), "name", k.name)
	return tag("businessKnowledgeModel", "id", k.id, "name", k.name).add(variable, logic).add(p.requiresKnowledge(k.needs, k.key())...)
}
