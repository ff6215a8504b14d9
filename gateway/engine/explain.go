package engine

import (
	"context"
	"encoding/json"
	"errors"
	"fmt"
)

// An Explanation says how an answer came about, as `desk explain` reports it.
type Explanation struct {
	// Decisions is the list of them, as JSON; nil if they are too long, or the request was refused.
	Decisions json.RawMessage
	// IsLong is true if the decisions take more bytes than `desk explain` writes, or than are kept.
	IsLong bool
	// Outcome is the outcome of the request.
	Outcome Outcome
}

// errShort means that `desk explain` reported on fewer requests than it was asked.
var errShort = errors.New("the engine did not explain each request")

// An Explainer asks `desk explain`, each time in a new process.
type Explainer struct {
	// Path is the engine's file, Memory the limit of its address space in bytes; 0 means none.
	Path   string
	Memory uint64
	// Misses asks for each rule that missed, too.
	Misses bool
}

// Explain returns how the answers of requests under one model came about. Room reports whether that many bytes of decisions may
// be kept; those of a line over MaxAnswer bytes never are. When the context ends, so does the process.
func (e *Explainer) Explain(ctx context.Context, model *Model, jobs []*Job, room func(size int) bool) ([]Explanation, error) {
	all := make([]Explanation, 0, len(jobs))
	err := e.Tell(ctx, model, jobs, room, func(it *Explanation) error {
		all = append(all, *it)
		return nil
	})
	return all, err
}

// Tell does the same, and passes the explanation of each request to take, in order.
func (e *Explainer) Tell(ctx context.Context, model *Model, jobs []*Job, room func(size int) bool, take func(*Explanation) error) error {
	return e.Each(ctx, model, jobs, func(line []byte, cut bool) error {
		it, err := readExplanation(line, cut, room)
		if err != nil {
			return err
		}
		return take(&it)
	})
}

// Each does the same, and passes the line of each request to take, in order: of one over MaxAnswer bytes the beginning,
// and that it was cut. The bytes are valid until take returns.
func (e *Explainer) Each(ctx context.Context, model *Model, jobs []*Job, take func(line []byte, cut bool) error) error {
	size := len(model.Text) + len(`{"model":}`) + 1
	for _, job := range jobs {
		size += len(job.Rest) + len(`{"client":"x",`) + 1
	}
	text := model.AppendLine(make([]byte, 0, size))
	for _, job := range jobs {
		text = append(text, `{"client":"x",`...)
		text = append(text, job.Rest...)
		text = append(text, '\n')
	}
	words := []string{"explain"}
	if e.Misses {
		words = append(words, "--misses")
	}
	// The first line is that of the model.
	count := -1
	err := ask(ctx, e.Path, e.Memory, text, func(line []byte, cut bool) error {
		count++
		if count == 0 {
			return nil
		}
		return take(line, cut)
	}, words...)
	if err == nil && count != len(jobs) {
		err = errShort
	}
	if err != nil {
		return fmt.Errorf("explaining: %w", err)
	}
	return nil
}

func readExplanation(text []byte, cut bool, room func(size int) bool) (Explanation, error) {
	if cut {
		return Explanation{IsLong: true, Outcome: Outcome{Kind: Huge}}, nil
	}
	if len(text) == 0 || text[0] != '{' || text[len(text)-1] != '}' {
		return Explanation{}, fmt.Errorf("reading an explanation: it is no object: %.40q", text)
	}
	var it Explanation
	var refused, fault, explained, decisions []byte
	eachMember(text, func(key, value []byte) {
		switch string(key) {
		case "result":
			it.Outcome.Value = append([]byte(nil), value...)
		case "decisions":
			decisions = value
		case "refused":
			refused = value
		case "fault":
			fault = value
		case "explained":
			explained = value
		}
	})
	switch {
	case refused != nil:
		it.Outcome.Kind, it.Outcome.Word = Refused, unquoted(refused)
	case fault != nil:
		it.Outcome.Kind = Limit
	}
	if explained != nil || !room(len(decisions)) {
		it.IsLong = true
	} else if decisions != nil {
		it.Decisions = append(json.RawMessage(nil), decisions...)
	}
	return it, nil
}
