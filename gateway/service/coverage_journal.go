package service

import (
	"bytes"
	"context"
	"fmt"

	"gateway/engine"
	"gateway/lines"
)

// recordedLines is what is known about the lines of a journal in a body.
type recordedLines struct {
	// read reads the model of a file, and find looks for a checked one.
	read func(*Source) (*served, error)
	find func(sum string) *served
	// known has models by their sums, sources those of the files whose beginnings were read.
	known   map[string]*served
	sources map[string]*Source
	// release is the sum of the last line's release, or empty.
	release string
}

func (s *Service) recordedLines(ctx context.Context, model *served) recordedLines {
	inForce := s.model.Load()
	return recordedLines{
		read:    func(source *Source) (*served, error) { return s.read(ctx, source, "journal") },
		find:    s.shelf.find,
		known:   map[string]*served{inForce.wholeSum: inForce, model.wholeSum: model},
		sources: map[string]*Source{},
	}
}

var (
	beginsKey  = []byte(`,"begins":true,`)
	releaseKey = []byte(`,"release":"`)
	// recordedStart is how the line of a request begins in a journal.
	recordedStart = []byte(`{"client":"`)
)

// RecordedSource returns the model of a journal file, from its first line with the model and the one about it with the
// rest.
func RecordedSource(model, about []byte) (*Source, error) {
	model, about = bytes.TrimSpace(model), bytes.TrimSpace(about)
	if len(model) == 0 || len(about) == 0 {
		return nil, ErrNoModel
	}
	// Both in one object are what desk import writes.
	text := append(append([]byte(nil), model[:len(model)-1]...), ',')
	return ReadSource(append(text, about[1:]...))
}

// model returns the model of a release; nil if it isn't known.
func (r *recordedLines) model(sum string) (*served, error) {
	if it := r.known[sum]; it != nil {
		return it, nil
	}
	it := r.find(sum)
	if source := r.sources[sum]; it == nil && source != nil {
		var err error
		if it, err = r.read(source); err != nil {
			return nil, err
		}
	}
	if it != nil {
		r.known[sum] = it
	}
	return it, nil
}

// heldLine reads a line without one about it; text may be nil.
func (c *covering) heldLine(number int, text []byte) {
	if text != nil {
		c.line(number, text)
	}
}

// aboutLine reads a line of a journal with the one about it. An answer may only have the one about it, and in a
// truncated body there may be none.
func (c *covering) aboutLine(number int, text, about []byte) {
	if at := bytes.IndexByte(about, ','); at > 0 && bytes.HasPrefix(about[at:], beginsKey) {
		if source, err := RecordedSource(text, about); err == nil {
			c.recorded.sources[source.Sum()] = source
		}
		return
	}
	if sum := releaseIn(about); sum != "" {
		c.recorded.release = sum
	}
	if text == nil {
		return
	}
	object, other, fault := c.reader.Read(text, lines.MaxNesting)
	if fault == nil && !other {
		if found, is := requestIn(text, object.Members); is && found.service[0] == '"' && found.inputs[0] == '{' {
			c.lines = append(c.lines, c.recordedLine(number, found))
			return
		}
	}
	c.line(number, text)
}

// releaseIn returns the sum of the release in the line about an answer, or empty.
func releaseIn(about []byte) string {
	_, rest, is := bytes.Cut(about, releaseKey)
	end := bytes.IndexByte(rest, '"')
	if !is || end < 0 {
		return ""
	}
	return string(rest[:end])
}

// recordedLine makes the request of a line, whose service and inputs are in the engine's form.
func (c *covering) recordedLine(number int, found askedLine) lineAsked {
	it := lineAsked{number: number, client: found.client, service: found.service}
	word := lines.Text(found.service)
	then, err := c.recorded.model(c.recorded.release)
	switch {
	case err != nil:
		it.problem = faultProblem(err)
		return it
	case then == nil && c.model.counts:
		it.problem = problemUnkept.with("the line was recorded under a release that isn't known here; the first two lines of its file tell it")
		return it
	case then == nil:
		then = c.model
	}
	if it.of = c.model.services[then.nameOf(word)]; it.of == nil {
		it.of = c.model.services[word]
	}
	if it.of == nil {
		it.problem = problemService.with(fmt.Sprintf("the model has no service %q", then.nameOf(word)))
		return it
	}
	job := &engine.Job{}
	if then == c.model {
		start := len(c.room)
		c.room = append(append(append(c.room, inputsKey...), found.inputs...), it.of.tail...)
		job.Model, job.Rest = c.model.engine, c.room[start:len(c.room):len(c.room)]
	} else {
		c.room, it.problem = c.model.request(it.of, (&Asked{then}).Inputs(word, found.inputs), job, c.room)
	}
	if it.problem == nil {
		it.job = job
	}
	return it
}
