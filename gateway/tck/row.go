package tck

import (
	"fmt"

	"gateway/lines"
)

// Row returns a case's inputs as an object, with the file's names, or says which value is not in the profile.
func (c *Case) Row() ([]byte, error) {
	row := make(map[string]any, len(c.Inputs))
	for at := range c.Inputs {
		value, err := c.Inputs[at].Value.json(nil)
		if err != nil {
			return nil, fmt.Errorf("input %s: %w", c.Inputs[at].Name, err)
		}
		row[c.Inputs[at].Name] = value
	}
	return lines.Compact(nil, row), nil
}
