package service

import (
	"context"
	"fmt"

	"gateway/engine"
	"gateway/lines"
)

// An Asked is a model that is asked without HTTP. It reads requests and writes results as over HTTP, with the same
// names, types and limits.
type Asked struct {
	model *served
}

// Ask reads a model. If it has a fault the error is an *engine.FaultyModel. Memory limits the engine, in bytes; 0 is no
// limit.
func Ask(ctx context.Context, path string, memory uint64, source *Source) (*Asked, error) {
	s := &Service{options: Options{Engine: path, Memory: memory}}
	model, err := s.read(ctx, source, "")
	if err != nil {
		return nil, err
	}
	if err := model.noteRules(); err != nil {
		return nil, err
	}
	return &Asked{model}, nil
}

// A Refusal says why a request is refused.
type Refusal struct {
	// Kind is the word of the problem, as in the addresses of /problems/.
	Kind string
	// Pointer is the JSON Pointer of the value within the inputs, or empty.
	Pointer string
	// Line and Column are where reading stopped in the text of the inputs, or 0.
	Line, Column int
	Detail       string
}

func (r *Refusal) Error() string {
	if r.Pointer != "" {
		return fmt.Sprintf("%s: %s", r.Pointer, r.Detail)
	}
	return r.Detail
}

func refusalOf(p *problem) *Refusal {
	r := &Refusal{Kind: p.kind.word, Line: p.Line, Column: p.Column, Detail: p.Detail}
	if p.Pointer != nil {
		r.Pointer = *p.Pointer
	}
	if r.Detail == "" {
		r.Detail = p.Title
	}
	return r
}

// Model returns the model as engines take it.
func (a *Asked) Model() *engine.Model { return a.model.engine }

// Form returns the engine's description of the model: its inputs, decisions and services by their words.
func (a *Asked) Form() *engine.Lawful { return a.model.lawful }

// Name returns the file's name for a word.
func (a *Asked) Name(word string) string { return a.model.nameOf(word) }

// Word returns the word of a name in the file, and any other text unchanged.
func (a *Asked) Word(name string) string {
	if word, is := a.model.words[name]; is {
		return word
	}
	return name
}

// Has reports whether there is a service with this word or name.
func (a *Asked) Has(service string) bool { return a.model.services[service] != nil }

// Request makes the request of a service from the text of its inputs. It appends the line to room, and returns that.
func (a *Asked) Request(service string, inputs []byte, job *engine.Job, room []byte) ([]byte, *Refusal) {
	of := a.model.services[service]
	if of == nil {
		return room, refusalOf(problemService.with(fmt.Sprintf("%q is no service of the model", service)))
	}
	room, p := a.model.request(of, inputs, job, room)
	if p != nil {
		return room, refusalOf(p)
	}
	return room, nil
}

// EngineRequest makes the request of a service, by its word, from inputs in the engine's form.
func (a *Asked) EngineRequest(service string, inputs []byte, job *engine.Job) *Refusal {
	of := a.model.services[service]
	if of == nil {
		return refusalOf(problemService.with(fmt.Sprintf("%q is no service of the model", service)))
	}
	rest := append([]byte(inputsKey), inputs...)
	job.Model, job.Rest = a.model.engine, append(rest, of.tail...)
	return nil
}

// Refused says why an outcome has no result; nil if it has one.
func (a *Asked) Refused(outcome engine.Outcome) *Refusal {
	if p := problemOf(outcome); p != nil {
		return refusalOf(p)
	}
	return nil
}

// Result returns a result with the names and decimals of the file.
func (a *Asked) Result(service string, value []byte) []byte {
	if of := a.model.services[service]; of != nil {
		return of.shown(value)
	}
	return value
}

// Explained returns an explanation with the names of the file.
func (a *Asked) Explained(explained []byte) []byte { return a.model.named(explained) }

// Rules returns the deciding rules as JSON, with the file's notes on them.
func (a *Asked) Rules(decided []engine.Decided) []byte { return a.model.appendRules(nil, decided) }

// Inputs returns the inputs of a request in the engine's form, with the names and decimals of the file.
func (a *Asked) Inputs(service string, inputs []byte) []byte {
	if a.model.services[service] == nil {
		return inputs
	}
	return a.model.shownInputs(inputs)
}

// shownInputs returns inputs in the engine's form with the names and decimals of the file.
func (m *served) shownInputs(inputs []byte) []byte {
	if len(m.words) == 0 && !m.counts {
		return inputs
	}
	tree, err := lines.Tree(inputs)
	members, is := tree.(map[string]any)
	if err != nil || !is {
		return inputs
	}
	shown := make(map[string]any, len(members))
	for word, value := range members {
		if of := m.types[word]; of != nil && of.IsCounted() {
			value = of.Decimals(value)
		}
		shown[m.nameOf(word)] = m.toNames[word].Write(value)
	}
	return lines.Compact(nil, shown)
}
