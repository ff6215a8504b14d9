package tck

import (
	"encoding/json"
	"errors"
	"fmt"
	"strings"

	"gateway/types"
)

// count reads how the model counts the numbers of inputs and results.
func (s *subject) count(schemas map[string]json.RawMessage) {
	s.types = make(map[string]*types.Type, len(schemas))
	for word, schema := range schemas {
		of, err := types.Read(schema)
		if err != nil {
			s.refused = fmt.Sprintf("the type of %s: %v", word, err)
			return
		}
		s.types[word] = of
	}
	for _, service := range s.model.Services {
		if service.Name != s.service {
			continue
		}
		if len(service.Outputs) == 1 {
			s.result = s.types[service.Outputs[0]]
			return
		}
		outputs := map[string]*types.Type{}
		for _, output := range service.Outputs {
			if of := s.types[output]; of != nil {
				outputs[output] = of
			}
		}
		s.result = types.Object(outputs)
	}
}

// has reports whether the model has an input or decision, as it has only a part of the file.
func (s *subject) has(word string) bool { return len(s.types) == 0 || s.types[word] != nil }

// counted returns an input's value as the engine has it, or an error.
func (s *subject) counted(word string, value any) (any, error) {
	of := s.types[word]
	if of == nil {
		of = types.Any
	}
	value, err := placed(of, value)
	if err != nil {
		return nil, err
	}
	units, fault := of.Counted(value)
	if fault != nil {
		return nil, errors.New(strings.TrimPrefix(strings.ReplaceAll(fault.Pointer, "/", ": ")+": "+fault.Reason, ": "))
	}
	return units, nil
}

// decimals returns a result of the engine as the file has it.
func (s *subject) decimals(result any) any {
	if s.result == nil {
		return result
	}
	return s.result.Decimals(result)
}
