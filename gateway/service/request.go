package service

import (
	"fmt"
	"strings"

	"gateway/engine"
	"gateway/lines"
)

// lineOverhead is the most bytes on a request's line before its inputs' key.
const lineOverhead = len(`{"client":"lane99",`)

// inputsKey is the key of its inputs.
const inputsKey = `"inputs":`

// request makes the request of a service from the text of its inputs, or says why the engine would not take it. It
// appends the line to room, and returns that.
func (m *served) request(service *decisionService, text []byte, job *engine.Job, room []byte) ([]byte, *problem) {
	if lines.Begins(text) != '{' {
		return room, m.noObject(text)
	}
	members, _, fault := lines.Members(text, lines.MaxNesting-1)
	if fault != nil {
		return room, syntaxProblem(fault)
	}
	if service.toWords != nil && lines.HasKey(text, m.words) {
		return m.renamed(service, text, job, room)
	}
	return m.worded(service, text, text, members, job, room)
}

// renamed makes a request from inputs with the file's names.
func (m *served) renamed(service *decisionService, text []byte, job *engine.Job, room []byte) ([]byte, *problem) {
	text, p := service.worded(text)
	if p != nil {
		return room, p
	}
	members, _, fault := lines.Members(text, lines.MaxNesting-1)
	if fault != nil {
		return room, syntaxProblem(fault)
	}
	return m.worded(service, text, text, members, job, room)
}

// worded makes a request from inputs with the model's words. Their members are spans of whole.
func (m *served) worded(service *decisionService, text, whole []byte, members []lines.Member, job *engine.Job,
	room []byte) ([]byte, *problem) {
	if p := m.undeclared(service, whole, members); p != nil {
		return room, p
	}
	if m.counts {
		counted, p := m.countedInputs(service, whole, members)
		if p != nil {
			return room, p
		}
		text = counted
	} else if p := m.values(service, whole, members); p != nil {
		return room, p
	}
	if p := m.components(service, whole, members); p != nil {
		return room, p
	}
	if p := m.lacked(service, whole, members); p != nil {
		return room, p
	}
	most := lines.MaxLine - lineOverhead - len(inputsKey) - len(service.tail)
	text = lines.OneLine(text, most)
	if len(text) > most {
		return room, problemLong.with(fmt.Sprintf("the inputs have %d bytes, and at most %d are taken for this service",
			len(text), most))
	}
	start := len(room)
	room = append(room, inputsKey...)
	room = append(room, text...)
	room = append(room, service.tail...)
	job.Model, job.Rest = m.engine, room[start:len(room):len(room)]
	return room, nil
}

// undeclared refuses an input that no service of the model takes, and says which one is missing, if the model has the
// types of its inputs.
func (m *served) undeclared(service *decisionService, whole []byte, members []lines.Member) *problem {
	if !m.isStrict {
		return nil
	}
	for _, member := range members {
		if !service.parameters[member.Key] && !m.isKnown[member.Key] {
			return problemUnknown.at(m.pointer("/"+lines.Token(member.Key)), fmt.Sprintf("%q is no input of this service%s",
				lines.Brief([]byte(member.Key), 60), meant(member.Key, m.names(service.inputs))))
		}
	}
	last := lastMembers(members)
	for at, member := range members {
		value := whole[member.Value.Start:member.Value.End]
		if service.notNull[member.Key] && string(value) == "null" && !comesAgain(members, last, at) {
			return problemValue.at(m.pointer("/"+lines.Token(member.Key)), fmt.Sprintf("%q is null, and %s", m.nameOf(member.Key), whyRequired))
		}
	}
	for _, input := range service.required {
		if !hasMember(members, last, input) {
			why := "its type doesn't admit null"
			if service.notNull[input] {
				why = whyRequired
			}
			return problemValue.at(m.pointer("/"+lines.Token(input)), fmt.Sprintf("%q is missing, and %s", m.nameOf(input), why))
		}
	}
	return nil
}

// hasMember reports whether a key is one of the members; last is what lastMembers returns for them.
func hasMember(members []lines.Member, last map[string]int, key string) bool {
	if last != nil {
		_, is := last[key]
		return is
	}
	for _, member := range members {
		if member.Key == key {
			return true
		}
	}
	return false
}

func (m *served) noObject(text []byte) *problem {
	if _, fault := lines.Whole(text, lines.MaxNesting-1); fault != nil {
		return syntaxProblem(fault)
	}
	return problemShape.at("", "the inputs are a JSON object, and this is "+lines.Brief(text, 60))
}

func syntaxProblem(fault *lines.SyntaxFault) *problem {
	p := problemSyntax.with(fault.Error())
	p.Line, p.Column = fault.Line, fault.Column
	return p
}

// values checks the values of a service's parameters against the engine's limits, the file's types and the domains.
func (m *served) values(service *decisionService, text []byte, members []lines.Member) *problem {
	last := lastMembers(members)
	for at, member := range members {
		if !service.parameters[member.Key] || comesAgain(members, last, at) {
			continue
		}
		fault, written := lines.Value(text, member.Value), text[member.Value.Start:member.Value.End]
		if of := m.types[member.Key]; of != nil && fault == nil && !of.HoldsPlain(written) {
			value, err := lines.Tree(written)
			if err != nil {
				return problemInside.with(err.Error())
			}
			fault = of.Check(value)
		}
		if fault != nil {
			return problemValue.at(m.pointer("/"+lines.Token(member.Key)+fault.Pointer), fault.Reason)
		}
		if p := m.outside(member.Key, written); p != nil {
			return p
		}
	}
	return nil
}

// fewMembers is up to how many members are compared pair by pair.
const fewMembers = 16

// lastMembers returns the place of the last member of each key. It returns nil for few members, which are compared pair
// by pair.
func lastMembers(members []lines.Member) map[string]int {
	if len(members) <= fewMembers {
		return nil
	}
	last := make(map[string]int, len(members))
	for at := range members {
		last[members[at].Key] = at
	}
	return last
}

// comesAgain reports whether a member's key comes again later. The engine keeps only the last member of a key.
func comesAgain(members []lines.Member, last map[string]int, at int) bool {
	if last != nil {
		return last[members[at].Key] != at
	}
	for _, other := range members[at+1:] {
		if other.Key == members[at].Key {
			return true
		}
	}
	return false
}

// pointer returns a JSON Pointer with the file's names.
func (m *served) pointer(pointer string) string {
	if len(m.words) == 0 {
		return pointer
	}
	tokens := strings.Split(pointer, "/")
	for at, token := range tokens {
		tokens[at] = lines.Token(m.nameOf(lines.Untoken(token)))
	}
	return strings.Join(tokens, "/")
}
