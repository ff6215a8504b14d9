package service

import (
	"context"
	"errors"
	"fmt"
	"sync/atomic"

	"gateway/engine"
	"gateway/lines"
)

// maxAnswers is the most bytes of results and explanations of one call.
const maxAnswers = 64 << 20

// A call is the content of one body: a single request, or a list.
type call struct {
	service *Service
	model   *served
	// decision is the service of the model that is asked.
	decision *decisionService
	client   *client
	isList   bool
	// isUnasked is true if the pool isn't asked: the answers come with their explanations.
	isUnasked bool
	// problems has those of the requests that no engine is asked, outcomes the outcomes of the others.
	problems []*problem
	outcomes []engine.Outcome
	jobs     []*engine.Job
	// sent has the inputs of requests that were refused before an engine was asked, if they are recorded; asked has the
	// job of each request once that was needed.
	sent  map[int][]byte
	asked []*engine.Job
	// explained has the explanation of each answer that has one.
	explained []engine.Explanation
	// left is how many jobs are unanswered, users how many of the jobs and the handler still hold the bytes.
	left, users atomic.Int32
	// bytes is the call's share of the service's budget, answers how much of that are results and explanations.
	bytes, answers atomic.Int64
	done           chan struct{}
	// one has the storage of a single request, so that it is allocated with the call.
	one struct {
		problem [1]*problem
		outcome [1]engine.Outcome
		job     engine.Job
		jobs    [1]*engine.Job
	}
}

// newCall reads the body of a call to a service, named by its word or its name in the file. It enforces the file's
// required inputs if decides is true.
func (s *Service) newCall(model *served, name string, body []byte, decides bool) (*call, *problem) {
	service := model.services[name]
	if service != nil && decides {
		service = service.ofCallers()
	}
	if service == nil {
		p := problemService.with(fmt.Sprintf("%q is no service of the model", name))
		p.Services = model.serviceNames()
		return nil, p
	}
	c := &call{service: s, model: model, decision: service, done: make(chan struct{})}
	if lines.Begins(body) != '[' {
		c.problems, c.outcomes, c.jobs = c.one.problem[:], c.one.outcome[:], c.one.jobs[:0]
		p := model.clockProblem(body)
		if p == nil {
			_, p = model.request(service, body, &c.one.job, service.room(1, len(body)))
		}
		if p != nil {
			c.note(0, body, p)
			return c, p
		}
		c.add(0, &c.one.job, c.settle)
		return c, nil
	}
	c.isList = true
	return c, c.readList(service, body)
}

// readList makes a request of each item of a list.
func (c *call) readList(service *decisionService, body []byte) *problem {
	items, fault := lines.Items(body, lines.MaxNesting)
	if fault != nil {
		return syntaxProblem(fault)
	}
	if len(items) > MaxList {
		return problemLong.with(fmt.Sprintf("the list has %d requests, and at most %d are taken", len(items), MaxList))
	}
	c.problems, c.outcomes = make([]*problem, len(items)), make([]engine.Outcome, len(items))
	c.jobs = make([]*engine.Job, 0, len(items))
	jobs, room := make([]engine.Job, len(items)), service.room(len(items), len(body))
	settle := c.settle
	for at, item := range items {
		text := body[item.Start:item.End]
		if c.problems[at] = c.model.clockProblem(text); c.problems[at] == nil {
			room, c.problems[at] = c.model.request(service, text, &jobs[at], room)
		}
		if c.problems[at] == nil {
			c.add(at, &jobs[at], settle)
		} else {
			c.note(at, text, c.problems[at])
		}
	}
	return nil
}

// note keeps the inputs of a refused request if they are recorded.
func (c *call) note(at int, inputs []byte, p *problem) {
	c.problems[at] = p
	if c.service.recorder == nil || !p.isRecorded() {
		return
	}
	if c.sent == nil {
		c.sent = map[int][]byte{}
	}
	c.sent[at] = oneLine(inputs)
}

// add adds a request, whose outcome goes to settle.
func (c *call) add(at int, job *engine.Job, settle func(*engine.Job, engine.Outcome)) {
	job.Place = at
	job.Done = settle
	c.jobs = append(c.jobs, job)
}

// settle notes the outcome of a request.
func (c *call) settle(job *engine.Job, outcome engine.Outcome) {
	switch c.hold(len(outcome.Value)) {
	case problemHuge:
		outcome = engine.Outcome{Kind: engine.Huge}
	case problemFull:
		c.problems[job.Place] = problemFull.with("the bytes of the result are too many to be held")
		outcome = engine.Outcome{Kind: engine.Dropped}
	}
	c.outcomes[job.Place] = outcome
	if c.left.Add(-1) == 0 {
		c.service.clients.answered(c.client, len(c.jobs))
		close(c.done)
	}
	c.release()
}

// hold takes bytes of a result or an explanation from the budgets of the call and of the service, or says which is
// exhausted.
func (c *call) hold(size int) *problemKind {
	switch {
	case size == 0:
	case c.answers.Add(int64(size)) > maxAnswers:
		c.answers.Add(-int64(size))
		return problemHuge
	case !c.service.bodies.take(int64(size)):
		return problemFull
	default:
		c.bytes.Add(int64(size))
	}
	return nil
}

// release gives the bytes back once neither the handler nor a job holds them.
func (c *call) release() {
	if c.users.Add(-1) == 0 {
		c.service.bodies.give(c.bytes.Load())
	}
}

// put puts the requests in, after those of earlier calls. On engine.ErrSwitched the call has to be made again, as
// another model is in force.
func (c *call) put(asked *asking) (*problem, error) {
	n := len(c.jobs)
	if n == 0 {
		close(c.done)
		return nil, nil
	}
	name := asked.who.client
	it, refused := c.service.clients.enter(name, n)
	if refused != nil {
		return refused.with(""), nil
	}
	c.client = it
	c.left.Store(int32(n))
	c.users.Add(int32(n))
	for _, job := range c.jobs {
		job.Owner = asked.who.owner
	}
	asked.turn.waitToPut()
	if err := c.hand(name, asked.id); err != nil {
		c.users.Add(-int32(n))
		c.service.clients.answered(it, n)
		c.service.clients.leave(it)
		return nil, err
	}
	c.service.turns.put(asked.turn)
	return nil, nil
}

// errGone says that the caller went away.
var errGone = errors.New("the caller went away")

// wait waits for all outcomes.
func (c *call) wait(ctx context.Context) error {
	if c.service.partitions != nil {
		return c.waitPartitions(ctx)
	}
	select {
	case <-c.done:
		return nil
	case <-ctx.Done():
		for _, job := range c.jobs {
			job.Drop()
		}
		return errGone
	}
}

// problemOf returns the problem of an outcome; nil for a result.
func problemOf(outcome engine.Outcome) *problem {
	switch outcome.Kind {
	case engine.Result:
		return nil
	case engine.Limit:
		return problemLimit.with("")
	case engine.Huge:
		return problemHuge.with("")
	case engine.Late:
		return problemLate.with("")
	case engine.Died:
		return problemDied.with("")
	case engine.Waited, engine.Dropped:
		return problemWaited.with("")
	}
	return problemInside.with("the engine refused the request: " + outcome.Word)
}

// appendResult appends a result as an object, with its explanation if asked for.
func (c *call) appendResult(to []byte, at int) []byte {
	to = append(to, `{"result":`...)
	to = append(to, c.decision.shown(c.outcomes[at].Value)...)
	switch explained := c.explanation(at); {
	case explained.IsLong:
		to = append(to, `,"explained":"long"`...)
	case explained.Decisions != nil:
		to = append(to, `,"decisions":`...)
		to = append(to, explained.Decisions...)
	}
	return append(to, '}')
}

// problemAt returns the problem of a request; nil if it has a result.
func (c *call) problemAt(at int) *problem {
	if c.problems[at] != nil {
		return c.problems[at]
	}
	p := problemOf(c.outcomes[at])
	if p == nil {
		return nil
	}
	explained := c.explanation(at)
	p.Decisions = explained.Decisions
	if explained.IsLong {
		p.Explained = "long"
	}
	return p
}

// appendList adds all answers of a list.
func (c *call) appendList(to []byte) []byte {
	to = append(to, '[')
	for at := range c.outcomes {
		if at > 0 {
			to = append(to, ',')
		}
		if p := c.problemAt(at); p != nil {
			to = append(to, p.text()...)
			continue
		}
		to = c.appendResult(to, at)
	}
	return append(to, ']', '\n')
}
