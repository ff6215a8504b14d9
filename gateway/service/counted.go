package service

import (
	"encoding/json"
	"fmt"
	"math/big"
	"strings"

	"gateway/decimal"
	"gateway/lines"
	"gateway/types"
)

// A countedPart says how the values of a part of a model are counted.
type countedPart struct {
	of *types.Type
	// over is the entry of the same context with the divisor of a quotient; decimals is how many more the numerator
	// has.
	over     string
	decimals int
}

// countParts reads how the values at the model's places are counted.
func (m *served) countParts() error {
	m.parts, m.fromFile = map[string]countedPart{}, map[string]bool{}
	if err := m.pointTo(); err != nil {
		return err
	}
	var places map[string]struct {
		Text     string          `json:"text"`
		Type     json.RawMessage `json:"type"`
		Over     string          `json:"over"`
		Decimals int             `json:"decimals"`
	}
	if len(m.source.Places) > 0 && json.Unmarshal(m.source.Places, &places) != nil {
		return nil
	}
	m.isTranslated = m.counts
	for pointer, place := range places {
		m.isTranslated = m.isTranslated || place.Text != ""
		expression, _, _ := strings.Cut(pointer, "/table/")
		m.fromFile[expression] = true
		part := countedPart{over: place.Over, decimals: place.Decimals}
		if place.Type != nil {
			var err error
			if part.of, err = types.Read(place.Type); err != nil {
				return fmt.Errorf("%w: the type at %s: %v", ErrNoModel, pointer, err)
			}
		}
		if part.of != nil || part.over != "" {
			m.parts[pointer] = part
		}
	}
	return nil
}

// pointTo notes where the expressions of decisions are.
func (m *served) pointTo() error {
	m.pointers = map[string]string{}
	var form struct {
		Decisions []struct {
			Name string `json:"name"`
		} `json:"decisions"`
	}
	if err := json.Unmarshal(m.source.Text, &form); err != nil {
		return fmt.Errorf("%w: %v", ErrNoModel, err)
	}
	for at, decision := range form.Decisions {
		m.pointers[decision.Name] = fmt.Sprintf("/decisions/%d/expr", at)
	}
	return nil
}

// countDecisions gives the values of an explanation's decisions their decimals, and drops the entries that the file
// doesn't have.
func (m *served) countDecisions(explained any) {
	decisions, _ := explained.([]any)
	for _, decision := range decisions {
		members, is := decision.(map[string]any)
		word, named := members["name"].(string)
		if is && named {
			m.countPart(members, m.pointers[word], m.types[word], nil)
		}
	}
}

// countPart does the same for a part, whose values have a type; entries are those of the context that it is the result
// of.
func (m *served) countPart(part map[string]any, pointer string, of *types.Type, entries map[string]any) {
	if of == nil {
		of = types.Any
	}
	for _, key := range []string{"value", "given"} {
		if value, is := part[key]; is {
			part[key] = of.Decimals(value)
		}
	}
	if list, is := part["members"].([]any); is {
		for at, member := range list {
			if member, is := member.(map[string]any); is {
				m.countPart(member, fmt.Sprintf("%s/list/%d", pointer, at), of.Item(), nil)
			}
		}
	}
	if table, is := part["table"].(map[string]any); is {
		m.countTable(table, pointer, of, entries)
	}
	m.countContext(part, pointer, of)
}

// countContext does the same for the entries and the result of a part. It drops what only the translation has. If
// nothing is left, the result replaces the part.
func (m *served) countContext(part map[string]any, pointer string, of *types.Type) {
	list, _ := part["entries"].([]any)
	values := map[string]any{}
	var kept []any
	var hidden hiddenTable
	for at, entry := range list {
		entry, is := entry.(map[string]any)
		word, named := entry["name"].(string)
		if !is || !named {
			continue
		}
		values[word] = entry["value"]
		at := fmt.Sprintf("%s/context/%d", pointer, at)
		if !m.isOfFile(word) {
			hidden = m.hidden(entry, at, hidden)
			continue
		}
		m.countPart(entry, at+"/expr", m.parts[at].of, nil)
		kept = append(kept, entry)
	}
	result, isResult := part["result"].(map[string]any)
	if isResult {
		m.countPart(result, pointer+"/result", of, values)
	}
	if list == nil {
		return
	}
	if part["entries"] = kept; len(kept) > 0 || !isResult {
		return
	}
	delete(part, "entries")
	delete(part, "result")
	for key, value := range result {
		part[key] = value
	}
	if part["table"] == nil && part["entries"] == nil && part["members"] == nil && hidden.table != nil {
		m.countHidden(hidden, values)
		part["table"] = hidden.table
	}
}

// A hiddenTable is a table of the file that the translation moved to an entry: its value is tested after it, or counted
// again.
type hiddenTable struct {
	table   map[string]any
	pointer string
}

// hidden returns the table of an entry that the translation made from one in the file; else that of an earlier entry.
func (m *served) hidden(entry map[string]any, pointer string, before hiddenTable) hiddenTable {
	if table, is := entry["table"].(map[string]any); is && m.fromFile[pointer+"/expr"] {
		return hiddenTable{table, pointer + "/expr"}
	}
	return before
}

// countHidden gives the inputs of such a table their decimals. The unit of its rules' results isn't known here.
func (m *served) countHidden(hidden hiddenTable, entries map[string]any) {
	m.countTable(hidden.table, hidden.pointer, types.Any, entries)
	hits, _ := hidden.table["hits"].([]any)
	for _, hit := range hits {
		if hit, is := hit.(map[string]any); is {
			delete(hit, "value")
		}
	}
}

// isOfFile reports whether the file has a name for a word.
func (m *served) isOfFile(word string) bool {
	_, named := m.source.Names[word]
	_, local := m.source.Locals[word]
	return named || local
}

// countTable does the same for a table.
func (m *served) countTable(table map[string]any, pointer string, of *types.Type, entries map[string]any) {
	if inputs, is := table["inputs"].([]any); is {
		for at, value := range inputs {
			part := m.parts[fmt.Sprintf("%s/table/inputs/%d", pointer, at)]
			switch {
			case part.over != "":
				inputs[at] = quotientOf(value, entries[part.over], part.decimals)
			case part.of != nil:
				inputs[at] = part.of.Decimals(value)
			}
		}
	}
	policy, _ := table["policy"].(string)
	switch policy {
	case "C", "R", "O":
		of = of.Item()
	case "C#":
		return
	}
	hits, _ := table["hits"].([]any)
	for _, hit := range hits {
		if hit, is := hit.(map[string]any); is {
			hit["value"] = of.Decimals(hit["value"])
		}
	}
}

// quotientOf returns the quotient of two whole numbers of the engine, whose numerator has more decimals.
func quotientOf(numerator, divisor any, decimals int) any {
	n, isNumber := numerator.(json.Number)
	d, isAlso := divisor.(json.Number)
	if !isNumber || !isAlso {
		return nil
	}
	over, fine := new(big.Int).SetString(n.String(), 10)
	by, also := new(big.Int).SetString(d.String(), 10)
	if !fine || !also || by.Sign() == 0 {
		return nil
	}
	if decimals < 0 {
		over.Mul(over, decimal.Power(-decimals))
	} else {
		by.Mul(by, decimal.Power(decimals))
	}
	return json.Number(decimal.Quotient(over, by))
}

// countedNames returns an explanation the decimals and the names of the file.
func (m *served) countedNames(explained json.RawMessage) json.RawMessage {
	tree, err := lines.Tree(explained)
	if err != nil {
		return explained
	}
	m.countDecisions(tree)
	m.nameDecisions(tree)
	return lines.Compact(nil, tree)
}
