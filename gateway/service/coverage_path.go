package service

import (
	"bytes"
	"context"
	"net/http"
	"strconv"
	"sync"

	"gateway/coverage"
	"gateway/engine"
	"gateway/journal"
	"gateway/lines"
)

// A lineAsked is a line of a file of requests, and its answer.
type lineAsked struct {
	number          int
	client, service []byte
	problem         *problem
	job             *engine.Job
	answer          []byte
	// of is the service that is asked.
	of *decisionService
}

// A covering is a count over the lines of one body.
type covering struct {
	model *served
	// service is for lines that are only inputs; nil if such lines are refused.
	service *decisionService
	reader  lines.Reader
	// count is how many lines the body has, including blank and skipped ones.
	count int
	lines []lineAsked
	jobs  []*engine.Job
	room  []byte
	// recorded is what is known about the lines of a journal.
	recorded recordedLines
	// mu guards counts, to which the counts of each engine are added at the end.
	mu     sync.Mutex
	counts *coverage.Counts
}

// A counting has the counts over one engine's lines.
type counting struct {
	*covering
	counts *coverage.Counts
	// shown has results in the file's terms. Mostly, few differ.
	shown map[serviceResult][]byte
}

// coveragePath answers POST /v1/coverage: how often each rule hit and decided over the lines of the body, and the
// answer to each. The body has lines as `desk serve` reads them, those of a journal, or inputs alone if the parameter
// service names a service.
func (s *Service) coveragePath(w http.ResponseWriter, r *http.Request) {
	text, p := s.covered(w, r)
	if p != nil {
		limitWrite(r, longAnswer+1)
		p.write(w, w.Header().Get("X-Request-Id"))
		return
	}
	limitWrite(r, len(text))
	writeJSON(w, http.StatusOK, text)
}

func (s *Service) covered(w http.ResponseWriter, r *http.Request) ([]byte, *problem) {
	body, p := s.askedBody(w, r)
	if p != nil {
		return nil, p
	}
	defer s.bodies.give(int64(len(body)))
	model, p := s.asked(r)
	if p != nil {
		return nil, p
	}
	c := &covering{model: model, service: model.services[r.URL.Query().Get("service")], counts: coverage.New(),
		reader: lines.Reader{Within: "inputs", Names: model.words}, recorded: s.recordedLines(r.Context(), model)}
	c.read(body)
	if p := c.ask(r.Context(), s); p != nil {
		return nil, p
	}
	w.Header()["Desk-Model"] = model.sum
	text, err := c.text()
	if err != nil {
		return nil, problemInside.with(err.Error())
	}
	return text, nil
}

// fewBytes is the least size of most requests.
const fewBytes = 100

// read makes a request from each line of a body.
func (c *covering) read(body []byte) {
	requests := len(body)/fewBytes + 1
	c.room, c.lines, c.jobs = make([]byte, 0, len(body)+len(body)/4), make([]lineAsked, 0, requests), make([]*engine.Job, 0, requests)
	// A line of a journal is recognized by the one about it, which follows it.
	var held []byte
	at, isBehind := 0, false
	for ; len(body) > 0; c.count++ {
		line, rest, _ := bytes.Cut(body, []byte("\n"))
		body = rest
		switch {
		case len(bytes.TrimSpace(line)) == 0:
		case journal.IsAbout(line):
			c.aboutLine(at, held, line)
			held, isBehind = nil, true
		default:
			isBehind = isBehind && held == nil
			c.heldLine(at, held)
			held, at = line, c.count+1
		}
	}
	if isBehind && bytes.HasPrefix(held, recordedStart) {
		// The line about it is cut off.
		c.aboutLine(at, held, nil)
	} else {
		c.heldLine(at, held)
	}
	for at := range c.lines {
		if job := c.lines[at].job; job != nil {
			job.Place = at
			c.jobs = append(c.jobs, job)
		}
	}
}

// line reads one line: a request, the inputs of one, or another line of `desk serve`, which is skipped.
func (c *covering) line(number int, text []byte) {
	it := lineAsked{number: number}
	object, other, fault := c.reader.Read(text, lines.MaxNesting)
	if fault != nil || other {
		it.problem = problemShape.with("it is no request: a JSON object is due")
		if fault != nil {
			it.problem = syntaxProblem(fault)
		}
		c.lines = append(c.lines, it)
		return
	}
	found, isRequest := requestIn(text, object.Members)
	inputs, members, service := text, object.Members, c.service
	switch {
	case isRequest:
		inputs, members, it.client, it.service = found.inputs, object.Inner, found.client, found.service
		if service = c.serviceOf(found.service); service == nil {
			it.problem = problemService.with("the model has no service " + lines.Brief(found.service, 60))
		}
	case isOther(text, object.Members):
		return
	case service == nil:
		it.problem = problemShape.with("it is no request: it has not just client, service and inputs")
	}
	if it.problem == nil {
		job := &engine.Job{}
		switch {
		case inputs[0] != '{' || object.HasName || object.Depth >= lines.MaxNesting:
			c.room, it.problem = c.model.request(service, inputs, job, c.room)
		default:
			c.room, it.problem = c.model.worded(service, inputs, text, members, job, c.room)
		}
		if it.problem == nil {
			it.job, it.of = job, service
		}
	}
	c.lines = append(c.lines, it)
}

// An askedLine has the client, the service and the inputs of a line, as written.
type askedLine struct{ client, service, inputs []byte }

// requestIn returns the parts of a line that has a service and inputs, and at most a client besides, and reports
// whether it is one.
func requestIn(text []byte, members []lines.Member) (it askedLine, is bool) {
	for _, member := range members {
		value := text[member.Value.Start:member.Value.End]
		switch member.Key {
		case "client":
			it.client = value
		case "service":
			it.service = value
		case "inputs":
			it.inputs = value
		default:
			return it, false
		}
	}
	return it, it.service != nil && it.inputs != nil
}

// serviceOf returns the service with a quoted name, or nil.
func (c *covering) serviceOf(quoted []byte) *decisionService {
	if quoted[0] != '"' {
		return nil
	}
	return c.model.services[lines.Text(quoted)]
}

// isOther reports whether a line is one of a model, a close or a resize.
func isOther(text []byte, members []lines.Member) bool {
	keys := map[string]byte{}
	for _, member := range members {
		switch member.Key {
		case "model", "client", "close", "resize", "capacity":
			keys[member.Key] = text[member.Value.Start]
		default:
			return false
		}
	}
	has := func(one, other string) bool { return len(keys) == 2 && keys[one] != 0 && keys[other] != 0 }
	return len(keys) == 1 && keys["model"] == '{' || has("client", "close") || has("resize", "capacity")
}

// leastSlice is the least number of requests for each engine when several are asked at once.
const leastSlice = 2500

// slices returns the requests, divided among several engines if they are many.
func (c *covering) slices(most int) (slices [][]*engine.Job) {
	count := len(c.jobs) / leastSlice
	if count > most {
		count = most
	}
	jobs := c.jobs
	for ; count > 1; count-- {
		size := len(jobs) / count
		slices, jobs = append(slices, jobs[:size]), jobs[size:]
	}
	if len(jobs) > 0 {
		slices = append(slices, jobs)
	}
	return slices
}

// ask returns the requests explained, and counts the results.
func (c *covering) ask(ctx context.Context, s *Service) (first *problem) {
	ctx, stop := context.WithCancel(ctx)
	defer stop()
	slices := c.slices(s.options.Processes)
	problems := make(chan *problem, len(slices))
	for _, jobs := range slices {
		jobs := jobs
		go func() {
			p := s.explained(ctx, theExplanation, func(ctx context.Context) error {
				return c.explain(ctx, s.explainer(false), jobs)
			})
			problems <- p
			if p != nil {
				stop()
			}
		}()
	}
	for range slices {
		if p := <-problems; first == nil {
			first = p
		}
	}
	return first
}

// explain asks one engine for some of the requests.
func (c *covering) explain(ctx context.Context, explainer *engine.Explainer, jobs []*engine.Job) error {
	at, of := 0, &counting{covering: c, counts: coverage.New(), shown: map[serviceResult][]byte{}}
	err := explainer.Each(ctx, c.model.engine, jobs, func(text []byte, cut bool) error {
		if at == len(jobs) {
			return nil
		}
		it := &c.lines[jobs[at].Place]
		at++
		if cut {
			it.problem = problemHuge.with("its explanation has over 16 MiB")
			return nil
		}
		return of.tally(it, text)
	})
	c.mu.Lock()
	defer c.mu.Unlock()
	c.counts.Merge(of.counts)
	return err
}

// tally counts the explanation of a line, and keeps its answer.
func (c *counting) tally(it *lineAsked, text []byte) error {
	answer, err := c.counts.Add(text)
	switch {
	case err != nil:
		return err
	case answer.Refused != "":
		it.problem = problemInside.with("the engine refused the request: " + answer.Refused)
	case answer.Fault != "":
		it.problem = problemLimit.with("")
	default:
		it.answer = c.named(it.of, answer.Result)
	}
	return nil
}

// A serviceResult is a result of a service, as the engine writes it.
type serviceResult struct {
	of   *decisionService
	text string
}

// mostShown is how many results are kept in the file's terms, and how long each may be.
const mostShown = 1000

// named returns a result in the file's terms.
func (c *counting) named(of *decisionService, result []byte) []byte {
	if shown, is := c.shown[serviceResult{of, string(result)}]; is {
		return shown
	}
	shown := append([]byte(nil), of.shown(result)...)
	if len(c.shown) < mostShown && len(result) <= mostShown {
		c.shown[serviceResult{of, string(result)}] = shown
	}
	return shown
}

// aroundAnswers and aroundAnswer are about how many bytes surround the lists of an answer, and each line in it.
const aroundAnswers, aroundAnswer = 64, 64

// text returns the answer: the counts of each table, and the result of each line.
func (c *covering) text() ([]byte, error) {
	var names []string
	for _, decision := range c.model.lawful.Decisions {
		names = append(names, decision.Name)
	}
	tables, err := plainJSON(c.counts.Tables(names))
	if err != nil {
		return nil, err
	}
	room := len(tables) + aroundAnswers
	for at := range c.lines {
		it := &c.lines[at]
		room += aroundAnswer + len(it.client) + len(it.service) + len(it.answer)
	}
	text := append(append(append(make([]byte, 0, room), `{"tables":`...), tables...), `,"lines":`...)
	text = append(strconv.AppendInt(text, int64(c.count), 10), `,"answers":[`...)
	for at := range c.lines {
		if at > 0 {
			text = append(text, ',')
		}
		text = c.lines[at].append(text)
	}
	return append(text, "]}\n"...), nil
}

func (l *lineAsked) append(to []byte) []byte {
	to = strconv.AppendInt(append(to, `{"line":`...), int64(l.number), 10)
	if l.client != nil {
		to = append(append(to, `,"client":`...), l.client...)
	}
	if l.service != nil {
		to = append(append(to, `,"service":`...), l.service...)
	}
	if l.problem == nil {
		return append(append(append(to, `,"result":`...), l.answer...), '}')
	}
	to = lines.AppendQuoted(append(to, `,"problem":`...), l.problem.kind.word)
	return append(lines.AppendQuoted(append(to, `,"detail":`...), l.problem.Detail), '}')
}
