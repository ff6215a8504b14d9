package tell

import (
	"fmt"
	"io"

	"gateway/model"
)

// Rows writes explanations of answers as text.
type Rows struct{ explainer explainer }

// RowsOf explains answers of a model, whose names it uses.
func RowsOf(m *model.Model) *Rows {
	r := &Rows{explainer{decisions: map[string]*model.Decision{}}}
	for at := range m.Decisions {
		r.explainer.decisions[m.Decisions[at].Name] = &m.Decisions[at]
	}
	return r
}

// Write writes a line that has the form of `desk explain`, without client, ticket and model.
func (r *Rows) Write(line []byte, out io.Writer) error {
	if err := r.explainer.worded(line, out); err != nil {
		return fmt.Errorf("wording an explanation: %w", err)
	}
	return nil
}
