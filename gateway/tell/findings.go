package tell

import (
	"bytes"
	"encoding/json"
)

// Findings words what `desk check --json` found in a model. found holds the lines after the engine's first. fault is that of
// the model, or "" if it is valid.
func Findings(text []byte, fault string, found []json.RawMessage) ([]json.RawMessage, error) {
	first := object(nil).raw("lawful", "true").line()
	if fault != "" {
		first = object(nil).text("fault", fault).line()
	}
	output := []byte(first)
	for _, line := range found {
		output = append(append(output, line...), '\n')
	}
	reported, err := Told(CheckOptions{Format: JSON}, text, output)
	if err != nil {
		return nil, err
	}
	lines := []json.RawMessage{}
	for _, line := range bytes.Split(bytes.TrimSuffix(reported, []byte("\n")), []byte("\n"))[1:] {
		lines = append(lines, line)
	}
	return lines, nil
}
