package tck

import (
	"context"
	"encoding/json"
	"fmt"
	"strings"
	"sync/atomic"
	"time"

	"gateway/dmn"
	"gateway/feel"
	"gateway/model"
)

// An Outcome is the outcome of a test.
type Outcome string

const (
	Pass Outcome = "PASS"
	Fail Outcome = "FAIL"
	// Unsupported tests need something outside the profile.
	Unsupported Outcome = "UNSUPPORTED"
)

// A Verdict is the result for one result node of a test case.
type Verdict struct {
	Case, Node string
	Outcome    Outcome
	// Said says what was expected and what came, or what is not supported; it is empty if the test passed.
	Said string
}

func (v Verdict) String() string {
	line := fmt.Sprintf("%s/%s %s", v.Case, v.Node, v.Outcome)
	if v.Said != "" {
		line += " " + v.Said
	}
	return line
}

// A Translation is the import of a file: a model with the words for its names, or the refused places, one line each.
type Translation struct {
	Model *model.Model
	Names map[string]string
	// Types has the JSON Schemas of inputs and decisions by word; they say how the model counts numbers.
	Types    map[string]json.RawMessage
	Refusals []string
}

// A Translator imports a file.
type Translator func(*dmn.File) Translation

// StepsOfAResult is how many steps Run takes for each result node: plan and ask.
const StepsOfAResult = 2

// Run runs all cases, and returns a verdict for each result node, in file order. It counts its steps in done. An error means
// that the engine could not be asked.
func Run(ctx context.Context, file *dmn.File, cases *Cases, translate Translator, done *atomic.Int64) ([]Verdict, error) {
	r := &runner{file: file, translate: translate, subjects: map[string]*subject{}}
	var tests []*test
	for i := range cases.Cases {
		c := &cases.Cases[i]
		for j := range c.Results {
			tests = append(tests, r.plan(c, &c.Results[j]))
			done.Add(1)
		}
	}
	for _, s := range r.order {
		if err := s.ask(ctx); err != nil {
			return nil, err
		}
		done.Add(int64(len(s.questions)))
	}
	verdicts := make([]Verdict, 0, len(tests))
	for _, t := range tests {
		verdicts = append(verdicts, t.verdict())
	}
	return verdicts, nil
}

// A test is one result node: the question and the expected answer.
type test struct {
	at       Verdict
	due      any
	inputs   map[string]any
	of       *subject
	question int
}

// refuse makes a test unsupported.
func (t *test) refuse(said string) *test {
	t.at.Outcome, t.at.Said = Unsupported, said
	return t
}

// A runner plans the tests of a file.
type runner struct {
	file      *dmn.File
	translate Translator
	subjects  map[string]*subject
	order     []*subject
}

// plan finds what a test asks, and translates its values.
func (r *runner) plan(c *Case, result *Result) *test {
	t := &test{at: Verdict{Case: c.ID, Node: result.Name}}
	s, refused := r.subject(c, result.Name)
	if refused != "" {
		return t.refuse(refused)
	}
	t.inputs = map[string]any{}
	for i := range c.Inputs {
		value, err := c.Inputs[i].Value.json(s.words)
		if err != nil {
			return t.refuse(fmt.Sprintf("input %s: %v", c.Inputs[i].Name, err))
		}
		word := s.words.of(c.Inputs[i].Name)
		if !s.has(word) {
			continue
		}
		if value, err = s.counted(word, value); err != nil {
			return t.refuse(fmt.Sprintf("input %s: %v", c.Inputs[i].Name, err))
		}
		t.inputs[word] = value
	}
	for word, of := range s.types {
		if _, brought := t.inputs[word]; of.HasClock() && !brought {
			t.inputs[word] = of.At(time.Now())
		}
	}
	if !result.Error {
		t.due = asDue(s.result, result.Expected.due(s.words))
	}
	t.of, t.question = s, len(s.questions)
	s.questions = append(s.questions, t.inputs)
	return t
}

// subject returns the service that a result node asks, or why there is none.
func (r *runner) subject(c *Case, node string) (*subject, string) {
	key := c.Type + "\x00" + c.Invocable + "\x00" + node
	given := r.givenDecisions(c)
	for _, decision := range given {
		key += "\x00" + decision.Name()
	}
	s, known := r.subjects[key]
	if !known {
		s = r.newSubject(c, node, given)
		r.subjects[key] = s
		if s.refused == "" {
			r.order = append(r.order, s)
		}
	}
	return s, s.refused
}

// givenDecisions returns the decisions whose values a case brings.
func (r *runner) givenDecisions(c *Case) []*dmn.Decision {
	var given []*dmn.Decision
	for _, input := range c.Inputs {
		if decision := decisionNamed(r.file, input.Name); decision != nil {
			given = append(given, decision)
		}
	}
	return given
}

func (r *runner) newSubject(c *Case, node string, given []*dmn.Decision) *subject {
	if c.Type == "bkm" {
		return &subject{refused: "a business knowledge model is not asked by itself"}
	}
	name := c.asked(node)
	decision, service := decisionNamed(r.file, name), serviceNamed(r.file, name)
	if service != nil && (c.Type == "decisionService" || decision == nil) {
		return r.ofService(service)
	}
	if decision == nil {
		return &subject{refused: fmt.Sprintf("%s has no decision %q", r.file.Path, name)}
	}
	return r.ofDecision(decision, given)
}

// ofDecision returns a subject that answers one decision.
func (r *runner) ofDecision(decision *dmn.Decision, given []*dmn.Decision) *subject {
	wanted := append([]*dmn.Decision{decision}, given...)
	made := r.translate(without(r.file, wanted...))
	if len(made.Refusals) > 0 {
		return &subject{refused: strings.Join(made.Refusals, "; ")}
	}
	s := &subject{model: *made.Model, words: wordsOf(made.Names)}
	asked := model.Service{Name: "asked", Outputs: []string{s.words.of(decision.Name())}, InputData: made.Model.Inputs}
	isGiven := map[string]bool{}
	for _, d := range given {
		if d != decision {
			isGiven[s.words.of(d.Name())] = true
		}
	}
	for _, d := range made.Model.Decisions {
		if isGiven[d.Name] {
			asked.InputDecisions = append(asked.InputDecisions, d.Name)
		} else if d.Name != asked.Outputs[0] {
			asked.Encapsulated = append(asked.Encapsulated, d.Name)
		}
	}
	s.model.Services, s.service = []model.Service{asked}, "asked"
	s.count(made.Types)
	return s
}

// ofService returns a subject that answers a service of the file.
func (r *runner) ofService(service *dmn.DecisionService) *subject {
	var wanted []*dmn.Decision
	for _, list := range [][]*dmn.Reference{service.Outputs, service.Encapsulated, service.Decisions} {
		for _, reference := range list {
			if decision := decisionOf(r.file, reference); decision != nil {
				wanted = append(wanted, decision)
			}
		}
	}
	part := without(r.file, wanted...)
	part.Services = []*dmn.DecisionService{service}
	part.Inputs = r.file.Inputs
	made := r.translate(part)
	if len(made.Refusals) > 0 {
		return &subject{refused: strings.Join(made.Refusals, "; ")}
	}
	if len(made.Model.Services) != 1 {
		return &subject{refused: fmt.Sprintf("the service %q is not imported", service.Name())}
	}
	s := &subject{model: *made.Model, words: wordsOf(made.Names), service: made.Model.Services[0].Name}
	s.count(made.Types)
	return s
}

// wordsOf inverts the names of words.
func wordsOf(names map[string]string) words {
	w := words{}
	for word, name := range names {
		w[feel.Canonical(name)] = word
	}
	return w
}

// of returns the word of a name.
func (w words) of(name string) string {
	if word, found := w[feel.Canonical(name)]; found {
		return word
	}
	return name
}

// verdict compares the expected value with the answer.
func (t *test) verdict() Verdict {
	if t.at.Outcome != "" {
		return t.at
	}
	if t.of.refused != "" {
		return t.refuse(t.of.refused).at
	}
	if t.question >= len(t.of.answers) {
		return t.refuse("the engine gave no answer").at
	}
	a := t.of.answers[t.question]
	switch {
	case a.Refused != "":
		return t.refuse("the engine refuses the values: " + a.Refused).at
	case a.Fault != "":
		t.at.Outcome, t.at.Said = Fail, fmt.Sprintf("due %s, came a value past the limits", said(t.due))
	case same(t.due, a.Result):
		t.at.Outcome = Pass
	default:
		t.at.Outcome, t.at.Said = Fail, fmt.Sprintf("due %s, came %s", said(t.due), said(a.Result))
	}
	return t.at
}
