package tck

import (
	"bytes"
	"context"
	"encoding/json"
	"fmt"

	"gateway/engine"
	"gateway/model"
	"gateway/types"
)

// A subject is a service of a model that tests ask.
type subject struct {
	model   model.Model
	words   words
	service string
	refused string
	// types has the types of inputs and decisions, result the type of the answer; nil if unknown.
	types     map[string]*types.Type
	result    *types.Type
	questions []map[string]any
	answers   []answer
}

// An answer is a line of the engine.
type answer struct {
	Client  string `json:"client"`
	Result  any    `json:"result"`
	Fault   string `json:"fault"`
	Refused string `json:"refused"`
}

// ask asks the engine all questions.
func (s *subject) ask(ctx context.Context) error {
	if len(s.questions) == 0 {
		return nil
	}
	lines, err := s.lines()
	if err != nil {
		return err
	}
	output, _, err := engine.Once(ctx, lines, "serve", "--clients", "1", "--workers", "1")
	if err != nil {
		return err
	}
	decoder := json.NewDecoder(bytes.NewReader(output))
	decoder.UseNumber()
	for decoder.More() {
		var a answer
		if err := decoder.Decode(&a); err != nil {
			return fmt.Errorf("reading the engine's answers: %w", err)
		}
		if a.Client != "" {
			a.Result = s.decimals(a.Result)
			s.answers = append(s.answers, a)
		} else if a.Refused != "" {
			s.refused = fmt.Sprintf("the engine refuses the %s: %s", a.Refused, a.Fault)
		}
	}
	return nil
}

func (s *subject) lines() ([]byte, error) {
	text, err := s.model.JSON()
	if err != nil {
		return nil, err
	}
	var lines bytes.Buffer
	fmt.Fprintf(&lines, "{\"model\":%s}\n", text)
	encoder := json.NewEncoder(&lines)
	encoder.SetEscapeHTML(false)
	for _, inputs := range s.questions {
		request := map[string]any{"client": "test", "service": s.service, "inputs": inputs}
		if err := encoder.Encode(request); err != nil {
			return nil, fmt.Errorf("writing a request: %w", err)
		}
	}
	return lines.Bytes(), nil
}
