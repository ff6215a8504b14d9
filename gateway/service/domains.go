package service

import (
	"encoding/json"
	"fmt"
	"strings"

	"gateway/domain"
	"gateway/engine"
	"gateway/lines"
	"gateway/openapi"
	"gateway/tell"
	"gateway/types"
)

// domainFault is the engine's word for a domain that can't be read.
const domainFault = "domain"

// declare reads the domains of inputs and of their components. Those of other names have no effect. If one can't be read the error is an
// *engine.FaultyModel.
func (m *served) declare() error {
	isInput, declared := make(map[string]bool, len(m.lawful.Inputs)), map[string]string{}
	for _, input := range m.lawful.Inputs {
		isInput[input] = true
	}
	for path, text := range m.source.Domains {
		if word, _, _ := strings.Cut(path, "."); isInput[word] {
			declared[path] = text
		}
	}
	places, unread := domain.Places(declared)
	m.domains = places
	if len(unread) == 0 {
		return nil
	}
	found := make([]json.RawMessage, len(unread))
	for at, path := range unread {
		found[at] = lines.Compact(nil, map[string]any{"fault": domainFault, "pointer": "/domains/" + lines.Token(path)})
	}
	text, err := plainJSON(imported{Model: m.source.Text, Domains: m.source.Domains})
	if err != nil {
		return fmt.Errorf("writing the domains: %w", err)
	}
	if worded, err := tell.Findings(text, domainFault, found); err == nil {
		found = worded
	}
	return &engine.FaultyModel{Fault: domainFault, Places: found}
}

// outside refuses an input, in the engine's form, with a value outside of its domain. What is required says where null is refused.
func (m *served) outside(word string, text []byte) *problem {
	place := m.domains[word]
	if place == nil || place.Holds(text) {
		return nil
	}
	tree, err := lines.Tree(text)
	if err != nil {
		return problemInside.with(err.Error())
	}
	found := place.Outside(tree)
	if found == nil {
		return nil
	}
	of, pointer := m.typeOf(word), "/"+lines.Token(word)
	for _, key := range found.Through {
		of = of.Property(key)
	}
	for _, key := range found.Path {
		pointer += "/" + lines.Token(key)
	}
	shown := lines.Compact(nil, of.Decimals(found.Value))
	return problemValue.at(m.pointer(pointer), fmt.Sprintf("%s is not allowed: it has to be %s", lines.Brief(shown, 120),
		lines.Brief([]byte(found.Domain.Words(of.Decimals)), 240)))
}

// schemas returns the JSON Schema of an input with the file's names: of its type and its domains. The second takes null everywhere, and what
// is missing; nil if it is the same.
func (m *served) schemas(word string) (schema, lenient json.RawMessage) {
	schema = m.schema(word)
	if m.domains[word] == nil {
		return schema, nil
	}
	lenient = m.restricted(word, schema, true)
	if m.isLenient {
		return lenient, nil
	}
	return m.restricted(word, schema, false), lenient
}

// restricted is a schema of an input with its domains.
func (m *served) restricted(word string, schema json.RawMessage, isLenient bool) json.RawMessage {
	if schema == nil {
		schema = json.RawMessage("{}")
	}
	tree, err := lines.Tree(schema)
	made, is := tree.(map[string]any)
	if err != nil || !is {
		return schema
	}
	openapi.Restriction{Name: m.nameOf, Lenient: isLenient}.Add(made, m.domains[word], m.typeOf(word))
	return lines.Compact(nil, made)
}

// A need is what an input has to have by its domains, beyond what is required: the place of the domains, and the components.
type need struct {
	place      *domain.Place
	components *types.Needs
}

// needByDomains finds the inputs that can't be null by their domains, or lack a component, where what is required doesn't say so.
func (m *served) needByDomains() {
	isRequired := map[string]bool{}
	for _, path := range m.source.Required {
		for at := range path {
			if path[at] == '.' {
				isRequired[path[:at]] = true
			}
		}
		isRequired[path] = true
	}
	m.needed = map[string]need{}
	for word, place := range m.domains {
		if !place.IsNeeded() {
			continue
		}
		paths := place.Needed()
		isMore := !m.isStrict || !isRequired[word]
		for _, path := range paths {
			isMore = isMore || !isRequired[word+"."+path]
		}
		if isMore {
			m.needed[word] = need{place, types.NeedsOf(paths)}
		}
	}
}

// lacked refuses an input that is missing or null, or lacks a component, and whose domain has no null.
func (m *served) lacked(service *decisionService, whole []byte, members []lines.Member) *problem {
	if len(service.needed) == 0 {
		return nil
	}
	last := lastMembers(members)
	for _, word := range service.needed {
		of, text := m.needed[word], lastOf(whole, members, last, word)
		if text == nil {
			return m.lack(word, of.place.Missing())
		}
		if string(text) != "null" && (of.components == nil || of.components.AreMet(text)) {
			continue
		}
		value, err := lines.Tree(text)
		if err != nil {
			return problemInside.with(err.Error())
		}
		if found := of.place.Lacking(value); found != nil {
			return m.lack(word, found)
		}
	}
	return nil
}

// lastOf returns the text of a key's last member; nil if there is none.
func lastOf(whole []byte, members []lines.Member, last map[string]int, key string) []byte {
	at, is := last[key]
	for n := len(members) - 1; last == nil && n >= 0 && !is; n-- {
		at, is = n, members[n].Key == key
	}
	if !is {
		return nil
	}
	return whole[members[at].Value.Start:members[at].Value.End]
}

// lack is the problem of an input, or a component of it, that is missing or null.
func (m *served) lack(word string, found *domain.Lack) *problem {
	of := m.typeOf(word)
	for _, key := range found.Of {
		of = of.Property(key)
	}
	due := "it has"
	if len(found.Of) > len(found.Path) {
		due = fmt.Sprintf("%q has", m.pathName(append([]string{word}, found.Of...)))
	}
	return m.lacking(append([]string{word}, found.Path...), found.IsNull,
		fmt.Sprintf("%s to be %s", due, lines.Brief([]byte(found.Domain.Words(of.Decimals)), 240)))
}
