package cases

import (
	"bytes"
	"context"
	"errors"
	"fmt"
	"io"
	"sync"
	"time"

	"gateway/engine"
	"gateway/lines"
	"gateway/service"
)

// A Side is one of two models that are asked the same.
type Side struct {
	Plan  *Plan
	Asked *service.Asked
	Asker *Asker
}

// An Answered is a row with its answer; both stay valid.
type Answered struct {
	Line    int
	Service string
	Inputs  []byte
	Answer
}

// errUneven means that a file was read differently for two models.
var errUneven = errors.New("the files of the two models have other rows")

// Pairs asks two models about the rows of a file, which each side has opened, and calls take with both answers to each row.
func Pairs(ctx context.Context, old, new *Side, take func(old, new *Answered) error) error {
	ctx, stop := context.WithCancel(ctx)
	defer stop()
	var running sync.WaitGroup
	errs := make([]error, 2)
	rows := [2]chan *Answered{make(chan *Answered, 1024), make(chan *Answered, 1024)}
	for at, side := range []*Side{old, new} {
		at, side := at, side
		running.Add(1)
		go func() {
			defer running.Done()
			defer close(rows[at])
			if errs[at] = side.each(ctx, rows[at]); errs[at] != nil {
				stop()
			}
		}()
	}
	err := zip(rows[0], rows[1], take)
	stop()
	for range rows[0] {
	}
	for range rows[1] {
	}
	running.Wait()
	for _, fault := range errs {
		if err == nil || errors.Is(err, errUneven) {
			if fault != nil && !errors.Is(fault, context.Canceled) {
				err = fault
			}
		}
	}
	return err
}

func zip(old, new <-chan *Answered, take func(old, new *Answered) error) error {
	for {
		one, isOne := <-old
		other, isOther := <-new
		switch {
		case isOne != isOther:
			return errUneven
		case !isOne:
			return nil
		}
		if err := take(one, other); err != nil {
			return err
		}
	}
}

// each sends the rows of one side.
func (s *Side) each(ctx context.Context, to chan<- *Answered) error {
	return s.Asker.Each(ctx, s.Plan, s.Asked, func(row *Row, answer *Answer) error {
		if row.IsSkipped {
			return nil
		}
		it := &Answered{Line: row.Line, Service: row.Service, Inputs: append([]byte(nil), row.Inputs...), Answer: *answer}
		select {
		case to <- it:
			return nil
		case <-ctx.Done():
			return ctx.Err()
		}
	})
}

// SameResult reports whether two answers are the same. Numbers are compared by value.
func SameResult(old, new *Answer) bool {
	if old.Result == nil || new.Result == nil {
		return old.Result == nil && new.Result == nil && old.Fault == new.Fault
	}
	if bytes.Equal(old.Result, new.Result) {
		return true
	}
	one, err := lines.Tree(old.Result)
	if err != nil {
		return false
	}
	other, err := lines.Tree(new.Result)
	return err == nil && same(one, other)
}

// Rules asks for the rules that decide some rows.
func (s *Side) Rules(ctx context.Context, rows []*Answered) ([]string, error) {
	var jobs []*engine.Job
	var at []int
	for i, row := range rows {
		name := row.Service
		if name == "" {
			name = s.Plan.question.Service
		}
		job := &engine.Job{}
		if _, refused := s.Asked.Request(name, row.Inputs, job, nil); refused == nil {
			jobs, at = append(jobs, job), append(at, i)
		}
	}
	rules := make([]string, len(rows))
	if len(jobs) == 0 {
		return rules, nil
	}
	ctx, stop := context.WithTimeout(ctx, s.Asker.Deadline*time.Duration(len(jobs))+time.Minute)
	defer stop()
	explainer := &engine.Explainer{Path: s.Asker.Path, Memory: s.Asker.Memory}
	explanations, err := explainer.Explain(ctx, s.Asked.Model(), jobs, func(int) bool { return true })
	if err != nil {
		return nil, fmt.Errorf("asking for the rules: %w", err)
	}
	for i := range explanations {
		rules[at[i]] = ShownRules(rulesOf(s.Asked.Explained(explanations[i].Decisions)))
	}
	return rules, nil
}

// RowsOf returns a file of JSON lines with these rows.
func RowsOf(rows [][]byte) io.Reader {
	return bytes.NewReader(append(bytes.Join(rows, []byte("\n")), '\n'))
}
