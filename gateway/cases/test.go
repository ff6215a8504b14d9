package cases

import (
	"context"
	"encoding/json"
	"errors"
	"fmt"
	"io"
	"math/big"
	"time"

	"gateway/engine"
	"gateway/lines"
	"gateway/service"
)

// Dues returns the words of the decisions with expected values in a file's rows. For JSON it reads all rows.
func (f *File) Dues(s *Subject) (words []string, err error) {
	isSeen := map[string]bool{}
	add := func(name string) {
		if it, reason := s.due(canonical(name)); reason == "" && !isSeen[it.word] {
			isSeen[it.word] = true
			words = append(words, it.word)
		}
	}
	for _, name := range f.Header {
		if name != "" && name[0] == dueMark {
			add(name[1:])
		}
	}
	if f.Form == CSV {
		return words, nil
	}
	var b Batch
	for {
		if err := f.Read(&b); errors.Is(err, io.EOF) {
			return words, nil
		} else if err != nil {
			return nil, err
		}
		for _, record := range b.Records {
			members, _, _ := lines.Members(record.Text, lines.MaxNesting)
			for _, member := range members {
				if member.Key != "" && member.Key[0] == dueMark {
					add(member.Key[1:])
				}
			}
		}
	}
}

// Given returns the words of the decisions whose values a CSV file's columns bring.
func (f *File) Given(s *Subject) (words []string) {
	for _, name := range f.Header {
		if _, is := s.inputs[name]; is || name == "" || isMarked(name) {
			continue
		}
		if word, _ := found(name, s.decisions); word != "" && !contains(words, word) {
			words = append(words, word)
		}
	}
	return words
}

// Came returns the actual value for an expected one, as JSON, or nil.
func (p *Plan) Came(due *Due, row *Row, answer *Answer) []byte {
	if answer.Result == nil || due.Decision == "" {
		return answer.Result
	}
	tree, err := lines.Tree(answer.Result)
	if err != nil {
		return nil
	}
	s := p.question.subject
	outputs := p.question.Outputs
	if row.Service != "" {
		outputs = s.form.Services[s.service(row.Service)].Outputs
	}
	if len(outputs) > 1 {
		tree = within(tree, []string{s.Name(due.Decision)})
	}
	return lines.Compact(nil, within(tree, due.Path))
}

// IsOfSeveral reports whether a row asks for several decisions at once.
func (p *Plan) IsOfSeveral() bool { return len(p.question.Outputs) > 1 }

// IsDue reports whether the actual value is the expected one. Numbers are compared by value; a CSV cell of unknown type also
// matches its text.
func (p *Plan) IsDue(d *Due, came []byte) bool {
	if came == nil {
		return false
	}
	got, err := lines.Tree(came)
	if err != nil {
		return false
	}
	if text, is := got.(string); is && d.Text != nil && text == string(d.Text) {
		return true
	}
	wanted, err := lines.Tree(d.Value)
	return err == nil && same(lines.Renamed(wanted, p.question.subject.source.Names), got)
}

// same reports whether two values are equal.
func same(one, other any) bool {
	switch one := one.(type) {
	case json.Number:
		number, is := other.(json.Number)
		return is && sameNumbers(one, number)
	case []any:
		items, is := other.([]any)
		if !is || len(items) != len(one) {
			return false
		}
		for at := range one {
			if !same(one[at], items[at]) {
				return false
			}
		}
		return true
	case map[string]any:
		members, is := other.(map[string]any)
		if !is || len(members) != len(one) {
			return false
		}
		for key := range one {
			if it, is := members[key]; !is || !same(one[key], it) {
				return false
			}
		}
		return true
	}
	return one == other
}

// mostDigits limits the length of numbers that are compared by value: with an exponent a short text can be a huge number.
const mostDigits = 100

func sameNumbers(one, other json.Number) bool {
	if one == other {
		return true
	}
	if len(one) > mostDigits || len(other) > mostDigits || hasExponent(one) || hasExponent(other) {
		return false
	}
	a, isA := new(big.Rat).SetString(one.String())
	b, isB := new(big.Rat).SetString(other.String())
	return isA && isB && a.Cmp(b) == 0
}

func hasExponent(number json.Number) bool {
	for _, c := range []byte(number) {
		if c|0x20 == 'e' {
			return true
		}
	}
	return false
}

// A Single asks for one decision at a time, if a row that asks for several has no result because of a limit.
type Single struct {
	Asker   *Asker
	Subject *Subject
	// Given are the decisions whose values the rows bring.
	Given []string
	// asked has the model for each decision.
	asked map[string]single
}

type single struct {
	question *Question
	asked    *service.Asked
}

// Came asks for the decision of an expected value, and returns the actual one.
func (o *Single) Came(ctx context.Context, row *Row, due *Due) ([]byte, Answer, error) {
	it, err := o.single(ctx, due.Decision)
	if err != nil {
		return nil, Answer{}, err
	}
	job := &engine.Job{}
	if _, refused := it.asked.Request(it.question.Service, row.Inputs, job, nil); refused != nil {
		return nil, Answer{Fault: refused.Error()}, nil
	}
	ctx, stop := context.WithTimeout(ctx, o.Asker.Deadline+time.Minute)
	defer stop()
	explainer := &engine.Explainer{Path: o.Asker.Path, Memory: o.Asker.Memory}
	explanations, err := explainer.Explain(ctx, it.asked.Model(), []*engine.Job{job}, func(int) bool { return true })
	if err != nil {
		return nil, Answer{}, fmt.Errorf("asking for %s: %w", o.Subject.Name(due.Decision), err)
	}
	r := run{asked: it.asked, plan: &Plan{question: it.question}}
	one := &task{rows: []Row{{Record: row.Record}}, answers: make([]Answer, 1)}
	r.note(one, 0, explanations[0].Outcome)
	one.answers[0].Rules = rulesOf(it.asked.Explained(explanations[0].Decisions))
	return r.plan.Came(due, &one.rows[0], &one.answers[0]), one.answers[0], nil
}

// single returns the model that answers one decision.
func (o *Single) single(ctx context.Context, decision string) (it single, err error) {
	if it, is := o.asked[decision]; is {
		return it, nil
	}
	if it.question, err = o.Subject.QuestionOf([]string{decision}, o.Given); err != nil {
		return it, err
	}
	if it.asked, err = service.Ask(ctx, o.Asker.Path, o.Asker.Memory, it.question.Source); err != nil {
		return it, err
	}
	if o.asked == nil {
		o.asked = map[string]single{}
	}
	o.asked[decision] = it
	return it, nil
}
