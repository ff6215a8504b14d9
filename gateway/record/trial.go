package record

import (
	"context"
	"encoding/json"
	"fmt"
	"runtime"
	"sort"
	"strings"
	"sync"
	"sync/atomic"
	"time"

	"gateway/engine"
	"gateway/service"
)

// A Trial asks two models about the cases of a journal.
type Trial struct {
	Asker    *Asker
	Old, New *service.Source
	// Asked is called with the number of cases asked so far, and ends the trial with an error; it may be nil.
	Asked func(count int) error
	// AtOnce is how many pieces are asked at once, with two engines each; 0 means one for each processor.
	AtOnce int
	// Patience is how long an engine may take for one case; 0 means DefaultPatience.
	Patience time.Duration
	// givenUp counts the cases for which an engine was given up.
	givenUp atomic.Int64
}

// A Difference is a case with another answer.
type Difference struct {
	Case   *Case
	Inputs json.RawMessage
	// Old and New are the results, or why there is none; of a long one its beginning, size and SHA-256.
	Old, New string
	// Where says by which rules: those that decide in only one of the models.
	Where string
}

// Tried is the result of a trial.
type Tried struct {
	// Asked is how many cases both models were asked, Differing how many get another answer, Left how many can't be decided
	// again.
	Asked, Differing, Left int
	// By counts the differing cases by Where; after mostKinds of these the others are counted together.
	By map[string]int
}

const (
	// mostKinds limits the texts by which differing cases are counted; otherKinds is the text for all others.
	mostKinds  = 1000
	otherKinds = "other rules"
)

// add counts cases that differ by some rules.
func (t *Tried) add(where string, count int) {
	if _, is := t.By[where]; !is && len(t.By) >= mostKinds {
		where = otherKinds
	}
	t.By[where] += count
}

// Counts lists the differences by count, most first.
func (t *Tried) Counts() (all []string) {
	for where := range t.By {
		all = append(all, where)
	}
	sort.Slice(all, func(i, j int) bool {
		if t.By[all[i]] != t.By[all[j]] {
			return t.By[all[i]] > t.By[all[j]]
		}
		return all[i] < all[j]
	})
	return all
}

// pieceCases limits the cases asked at once, pieceBytes about the bytes of their inputs.
const (
	pieceCases = 2500
	pieceBytes = 1 << 20
)

// A piece is some consecutive cases, with their differences.
type piece struct {
	cases []*Case
	size  int
	found []*Difference
	err   error
	done  chan struct{}
}

// Run asks both models about the selected cases, and calls take with those that differ, in order.
func (t *Trial) Run(ctx context.Context, folder string, filter Filter, take func(*Difference) error) (*Tried, error) {
	ctx, stop := context.WithCancel(ctx)
	defer stop()
	var models [2]*service.Asked
	for at, source := range []*service.Source{t.Old, t.New} {
		var err error
		if models[at], err = t.Asker.Model(ctx, source); err != nil {
			return nil, err
		}
	}
	if t.AtOnce == 0 {
		t.AtOnce = runtime.NumCPU()
	}
	// One more piece is waited for.
	pieces, tried := make(chan *piece, t.AtOnce-1), &Tried{By: map[string]int{}}
	var failed error
	go func() {
		failed = t.read(ctx, folder, filter, tried, models, pieces)
		close(pieces)
	}()
	for it := range pieces {
		<-it.done
		if err := t.count(it, tried, take); err != nil {
			stop()
			for range pieces {
				// The context ends the reader.
			}
			return nil, err
		}
	}
	return tried, failed
}

// count adds the findings of a piece.
func (t *Trial) count(it *piece, tried *Tried, take func(*Difference) error) error {
	if it.err != nil {
		return it.err
	}
	tried.Asked += len(it.cases)
	for _, found := range it.found {
		tried.Differing++
		tried.add(found.Where, 1)
		if err := take(found); err != nil {
			return err
		}
	}
	if t.Asked != nil {
		return t.Asked(tried.Asked)
	}
	return nil
}

// read passes the cases on in pieces, each of which is asked at once.
func (t *Trial) read(ctx context.Context, folder string, filter Filter, tried *Tried, models [2]*service.Asked, to chan<- *piece) error {
	next := &piece{done: make(chan struct{})}
	hand := func() error {
		it := next
		next = &piece{done: make(chan struct{})}
		select {
		case to <- it:
		case <-ctx.Done():
			return ctx.Err()
		}
		go func() {
			defer close(it.done)
			it.found, it.err = t.ask(ctx, it.cases, models)
		}()
		return nil
	}
	err := Each(folder, filter, func(c *Case) error {
		if !c.CanDecide() {
			tried.Left++
			return nil
		}
		// Both models are asked for the outcome.
		c.Result, c.Rules = nil, nil
		next.cases, next.size = append(next.cases, c), next.size+len(c.asked)
		if len(next.cases) == pieceCases || next.size >= pieceBytes {
			return hand()
		}
		return nil
	})
	if err == nil && len(next.cases) > 0 {
		err = hand()
	}
	return err
}

// ask asks both models, and returns the cases that differ.
func (t *Trial) ask(ctx context.Context, cases []*Case, models [2]*service.Asked) ([]*Difference, error) {
	inputs := make([]json.RawMessage, len(cases))
	for at, c := range cases {
		var err error
		if inputs[at], err = t.Asker.Inputs(ctx, c); err != nil {
			return nil, err
		}
	}
	var answers [2][]answer
	var errs [2]error
	var both sync.WaitGroup
	for side := range models {
		side := side
		both.Add(1)
		go func() {
			defer both.Done()
			answers[side], errs[side] = t.answers(ctx, cases, inputs, models[side])
		}()
	}
	both.Wait()
	for _, err := range errs {
		if err != nil {
			return nil, err
		}
	}
	var found []*Difference
	for at, c := range cases {
		old, new := &answers[0][at], &answers[1][at]
		if old.text != new.text {
			found = append(found, &Difference{Case: c, Inputs: inputs[at], Old: old.text, New: new.text, Where: where(old, new)})
		}
	}
	return found, nil
}

// answers returns the answers of one model.
func (t *Trial) answers(ctx context.Context, cases []*Case, inputs []json.RawMessage, model *service.Asked) ([]answer, error) {
	all, jobs, places := make([]answer, len(cases)), []*engine.Job{}, []int{}
	for at, c := range cases {
		job := &engine.Job{}
		if refused := c.request(model, inputs[at], job); refused != nil {
			all[at] = answerOf(&Decision{Refused: refused})
			continue
		}
		jobs, places = append(jobs, job), append(places, at)
	}
	for len(jobs) > 0 {
		count := 0
		given, err := t.explain(ctx, model.Model(), jobs, func(explanation *engine.Explanation) error {
			if count < len(places) {
				at := places[count]
				all[at] = answerOf(decisionOf(model, cases[at].Service, explanation))
			}
			count++
			return nil
		})
		if err != nil {
			return nil, fmt.Errorf("asking a model: %w", err)
		}
		if given == nil || count >= len(jobs) {
			break
		}
		at := places[count]
		all[at] = answerOf(decisionOf(model, cases[at].Service, given))
		jobs, places = jobs[count+1:], places[count+1:]
	}
	return all, nil
}

// where says by which rules two answers differ.
func where(old, new *answer) string {
	before, after := old.byTable(), new.byTable()
	var all []string
	for _, key := range keys(before, after) {
		if one, other := before[key], after[key]; one != other {
			all = append(all, fmt.Sprintf("%s: %s -> %s", key, orNone(one), orNone(other)))
		}
	}
	if len(all) > 0 {
		return shortened(strings.Join(all, "; "), mostWhere)
	}
	for _, key := range keys(after, nil) {
		all = append(all, key+": "+after[key])
	}
	if len(all) == 0 {
		return "no table"
	}
	return shortened(strings.Join(all, "; "), mostWhere) + ", as before"
}

func orNone(rules string) string {
	if rules == "" {
		return "none"
	}
	return rules
}

func keys(one, other map[string]string) (all []string) {
	for key := range one {
		all = append(all, key)
	}
	for key := range other {
		if _, is := one[key]; !is {
			all = append(all, key)
		}
	}
	sort.Strings(all)
	return all
}

// Add adds another trial's findings.
func (t *Tried) Add(other *Tried) {
	t.Asked, t.Differing, t.Left = t.Asked+other.Asked, t.Differing+other.Differing, t.Left+other.Left
	for where, count := range other.By {
		t.add(where, count)
	}
}
