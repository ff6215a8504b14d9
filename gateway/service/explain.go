package service

import (
	"context"
	"encoding/json"
	"errors"
	"time"

	"gateway/engine"
	"gateway/lines"
)

const (
	// maxExplained is the most requests of a list whose answers are explained.
	maxExplained = 100
	// ExplainPatience is how long that may take in addition to the deadline: it starts a process, which reads the
	// model.
	ExplainPatience = 20 * time.Second
)

// explain explains the answers of a call: its results, and those that exceeded a limit. If no engine was asked before,
// it also gives the answers.
func (c *call) explain(ctx context.Context, misses bool) *problem {
	var asked []*engine.Job
	for _, job := range c.jobs {
		if kind := c.outcomes[job.Place].Kind; kind == engine.Result || kind == engine.Limit {
			asked = append(asked, job)
		}
	}
	if len(asked) == 0 {
		return nil
	}
	explainer := c.service.explainer(misses)
	room := func(size int) bool { return c.hold(size) == nil }
	var explained []engine.Explanation
	p := c.service.explained(ctx, theExplanation, func(ctx context.Context) (err error) {
		explained, err = explainer.Explain(ctx, c.model.engine, asked, room)
		return err
	})
	if p != nil {
		return p
	}
	c.explained = make([]engine.Explanation, len(c.outcomes))
	for at, job := range asked {
		explained[at].Decisions = c.model.named(explained[at].Decisions)
		c.explained[job.Place] = explained[at]
		if c.isUnasked {
			c.outcomes[job.Place] = explained[at].Outcome
		}
	}
	return nil
}

func (s *Service) explainer(misses bool) *engine.Explainer {
	return &engine.Explainer{Path: s.options.Engine, Memory: s.options.Memory, Misses: misses}
}

// What is asked of an engine outside the pool.
const (
	theExplanation = "the explanation"
	theTables      = "the check of the tables"
)

// explained runs explain when there is a place, and limits how long it takes. What says what is asked.
func (s *Service) explained(ctx context.Context, what string, explain func(ctx context.Context) error) *problem {
	select {
	case s.explaining <- struct{}{}:
		defer func() { <-s.explaining }()
	case <-ctx.Done():
		return problemLeft.with("")
	}
	ctx, stop := context.WithTimeout(ctx, s.options.Deadline+ExplainPatience)
	defer stop()
	err := explain(ctx)
	switch {
	case err == nil:
		return nil
	case errors.Is(err, context.DeadlineExceeded):
		return problemLate.with(what + " takes longer than it may")
	case errors.Is(err, context.Canceled):
		return problemLeft.with("")
	}
	s.options.Log("%v", err)
	return problemDied.with(what + " failed")
}

// explanation returns the explanation of a request; empty if not asked for.
func (c *call) explanation(at int) engine.Explanation {
	if c.explained == nil {
		return engine.Explanation{}
	}
	return c.explained[at]
}

// named returns the decisions of an explanation the names of the file.
func (m *served) named(explained json.RawMessage) json.RawMessage {
	if m.isTranslated && explained != nil {
		return m.countedNames(explained)
	}
	if len(m.words) == 0 || explained == nil {
		return explained
	}
	tree, err := lines.Tree(explained)
	if err != nil {
		return explained
	}
	m.nameDecisions(tree)
	return lines.Compact(nil, tree)
}

// nameDecisions names the decisions of an explanation, with their parts.
func (m *served) nameDecisions(explained any) {
	decisions, _ := explained.([]any)
	for _, decision := range decisions {
		members, is := decision.(map[string]any)
		word, named := members["name"].(string)
		if !is || !named {
			continue
		}
		kept := map[string]any{}
		for _, key := range []string{"value", "given"} {
			if value, is := members[key]; is {
				kept[key] = m.toNames[word].Write(value)
				delete(members, key)
			}
		}
		m.namePart(members)
		for key, value := range kept {
			members[key] = value
		}
	}
}

// namePart names a part of an explanation: a decision, an entry, a member, a result, or a list of these.
func (m *served) namePart(part any) {
	if parts, is := part.([]any); is {
		for _, part := range parts {
			m.namePart(part)
		}
		return
	}
	members, is := part.(map[string]any)
	if !is {
		return
	}
	if name, is := members["name"].(string); is {
		members["name"] = m.nameOf(name)
	}
	m.nameValues(members, "value", "given")
	for _, key := range []string{"entries", "members", "result"} {
		m.namePart(members[key])
	}
	if table, is := members["table"].(map[string]any); is {
		m.nameValues(table, "inputs")
		hits, _ := table["hits"].([]any)
		for _, hit := range hits {
			hit, _ := hit.(map[string]any)
			m.nameValues(hit, "value")
		}
	}
}

// nameValues names the entries of the values of some keys.
func (m *served) nameValues(members map[string]any, keys ...string) {
	for _, key := range keys {
		if value, is := members[key]; is {
			members[key] = lines.Renamed(value, m.source.Names)
		}
	}
}
