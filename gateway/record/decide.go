package record

import (
	"context"
	"encoding/json"
	"errors"
	"fmt"
	"sync"

	"gateway/engine"
	"gateway/service"
)

// An Asker decides cases again. It caches the models.
type Asker struct {
	// Path is the engine's file, Memory the limit of its address space in bytes; 0 means none.
	Path   string
	Memory uint64
	mu     sync.Mutex
	asked  map[*service.Source]*service.Asked
}

// A Decision is the outcome of a case.
type Decision struct {
	Result json.RawMessage
	// Refused is why there is no result, or nil.
	Refused *service.Refusal
	Rules   json.RawMessage
}

// Same reports whether it equals the case's answer: the result, or a problem of the same kind.
func (d *Decision) Same(c *Case) bool {
	if d.Refused != nil || c.Problem != nil {
		return d.Refused != nil && c.Problem != nil && d.Refused.Kind == c.Problem.Type
	}
	return c.Result == nil || string(d.Result) == string(c.Result)
}

// String returns the result, or the kind of the problem.
func (d *Decision) String() string {
	if d.Refused != nil {
		return "problem " + d.Refused.Kind + ": " + d.Refused.Error()
	}
	return string(d.Result)
}

// ErrUndecidable means that a case has no inputs for an engine.
var ErrUndecidable = errors.New("it can't be decided again")

// Model reads a model, once.
func (a *Asker) Model(ctx context.Context, source *service.Source) (*service.Asked, error) {
	a.mu.Lock()
	defer a.mu.Unlock()
	if it := a.asked[source]; it != nil {
		return it, nil
	}
	it, err := service.Ask(ctx, a.Path, a.Memory, source)
	if err != nil {
		return nil, err
	}
	if a.asked == nil {
		a.asked = map[*service.Source]*service.Asked{}
	}
	a.asked[source] = it
	return it, nil
}

// Inputs returns a case's inputs with the names and decimals of its file.
func (a *Asker) Inputs(ctx context.Context, c *Case) (json.RawMessage, error) {
	if c.asked == nil || c.Head == nil || c.Head.Source == nil {
		return c.Inputs, nil
	}
	model, err := a.Model(ctx, c.Head.Source)
	if err != nil {
		return nil, err
	}
	return model.Inputs(c.word, c.asked), nil
}

// request makes the request of a case. inputs have the names of its file.
func (c *Case) request(model *service.Asked, inputs []byte, job *engine.Job) *service.Refusal {
	if c.isOld {
		return model.EngineRequest(c.word, c.asked, job)
	}
	_, refused := model.Request(c.Service, inputs, job, nil)
	return refused
}

// Decide asks a model about a case. With the original model, the inputs are those that its engine got.
func (a *Asker) Decide(ctx context.Context, c *Case, source *service.Source) (*Decision, error) {
	if c.asked == nil {
		return nil, ErrUndecidable
	}
	inputs, err := a.Inputs(ctx, c)
	if err != nil {
		return nil, err
	}
	model, err := a.Model(ctx, source)
	if err != nil {
		return nil, err
	}
	job := &engine.Job{}
	if refused := c.request(model, inputs, job); refused != nil {
		return &Decision{Refused: refused}, nil
	}
	explainer := &engine.Explainer{Path: a.Path, Memory: a.Memory}
	explanations, err := explainer.Explain(ctx, model.Model(), []*engine.Job{job}, func(int) bool { return true })
	if err != nil {
		return nil, fmt.Errorf("deciding a case again: %w", err)
	}
	return decisionOf(model, c.Service, &explanations[0]), nil
}
