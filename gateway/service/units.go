package service

import (
	"gateway/lines"
	"gateway/types"
)

// isCounted reports whether some number of the model is counted in a unit.
func (m *served) isCounted() bool {
	for _, of := range m.types {
		if of.IsCounted() {
			return true
		}
	}
	return false
}

// countedInputs returns the inputs of a request in the engine's form, or says why a value is refused. Their members are
// spans of whole.
func (m *served) countedInputs(service *decisionService, whole []byte, members []lines.Member) ([]byte, *problem) {
	last := lastMembers(members)
	made := []byte{'{'}
	for at, member := range members {
		if comesAgain(members, last, at) {
			continue
		}
		value := whole[member.Value.Start:member.Value.End]
		if of := m.types[member.Key]; service.parameters[member.Key] {
			units, fault := unitsOf(of, whole, member.Value)
			if fault != nil {
				return nil, problemValue.at(m.pointer("/"+lines.Token(member.Key)+fault.Pointer), fault.Reason)
			}
			if p := m.outside(member.Key, units); p != nil {
				return nil, p
			}
			value = units
		}
		if len(made) > 1 {
			made = append(made, ',')
		}
		made = append(lines.AppendQuoted(made, member.Key), ':')
		made = append(made, value...)
	}
	return append(m.addClocks(made, service, members), '}'), nil
}

// unitsOf returns one input in the engine's form.
func unitsOf(of *types.Type, text []byte, span lines.Span) ([]byte, *lines.ValueFault) {
	if of == nil || !of.IsCounted() && span.Bad < 0 && of.HoldsPlain(text[span.Start:span.End]) {
		return text[span.Start:span.End], lines.Value(text, span)
	}
	if units, isSeen := of.PlainUnits(text[span.Start:span.End]); isSeen {
		return units, nil
	}
	if fault := lines.Size(text, span); fault != nil {
		return nil, fault
	}
	tree, err := lines.Tree(text[span.Start:span.End])
	if err != nil {
		return nil, &lines.ValueFault{Reason: err.Error()}
	}
	units, fault := of.Units(tree)
	if fault != nil {
		return nil, fault
	}
	return lines.Compact(nil, units), nil
}
