package export

import (
	"encoding/json"
	"sort"

	"gateway/decimal"
)

// findUnits notes the inputs and decisions that the model counts in units, as it does dates and durations.
func (s *Source) findUnits() {
	for word, schema := range s.Types {
		if schema.isCounted() {
			s.Counted = append(s.Counted, word)
		}
	}
	sort.Strings(s.Counted)
}

// CountedNames returns the first file's names of what is counted.
func (s *Source) CountedNames() []string {
	names := make([]string, len(s.Counted))
	for at, word := range s.Counted {
		names[at] = s.File.Name(word)
	}
	return names
}

// wholeTypes returns the types for a file with whole numbers of units. It drops the allowed values, which are decimals.
func (s *Source) wholeTypes() map[string]Schema {
	types := make(map[string]Schema, len(s.Types))
	for word, schema := range s.Types {
		if types[word] = schema; schema.isCounted() {
			types[word] = schema.withoutValues()
		}
	}
	return types
}

// Decimals returns the number of decimals of each input by its name in the file, and of its parts by a.b.
func (s *Source) Decimals() map[string]int {
	found := map[string]int{}
	for _, word := range s.Model.Inputs {
		s.decimals(found, s.File.Name(word), s.Types[word])
	}
	return found
}

func (s *Source) decimals(to map[string]int, name string, of Schema) {
	if of.Items != nil {
		s.decimals(to, name, *of.Items)
	}
	for word, part := range of.Properties {
		s.decimals(to, name+"."+s.File.Name(word), part)
	}
	if of.shape().kinds&^isNull == isNumber {
		_, exponent, _ := decimal.Parse(of.MultipleOf.String())
		to[name] = -exponent
	}
}

func (s Schema) isCounted() bool {
	if s.MultipleOf != "" && s.MultipleOf != json.Number("1") || s.Per != "" || s.Format != "" || s.Items != nil && s.Items.isCounted() {
		return true
	}
	for _, part := range s.Properties {
		if part.isCounted() {
			return true
		}
	}
	return false
}

// withoutValues returns a schema whose counted numbers have no allowed values.
func (s Schema) withoutValues() Schema {
	if s.MultipleOf != "" || s.Per != "" || s.Format != "" {
		s.Enum, s.Minimum, s.Above, s.Maximum, s.Below = nil, "", "", "", ""
	}
	if s.Items != nil {
		items := s.Items.withoutValues()
		s.Items = &items
	}
	parts := make(map[string]Schema, len(s.Properties))
	for name, part := range s.Properties {
		parts[name] = part.withoutValues()
	}
	if s.Properties != nil {
		s.Properties = parts
	}
	return s
}
