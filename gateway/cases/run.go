package cases

import (
	"context"
	"encoding/json"
	"errors"
	"fmt"
	"io"
	"strings"
	"sync"
	"sync/atomic"
	"time"

	"gateway/coverage"
	"gateway/engine"
	"gateway/lines"
	"gateway/service"
)

// An Asker asks engines about the rows of a file.
type Asker struct {
	// Path is the engine's file, Memory the limit of its address space in bytes; 0 means none.
	Path   string
	Memory uint64
	// Processes is the number of engines.
	Processes int
	// Deadline limits an engine's time for one row.
	Deadline time.Duration
	// Explain asks for the deciding rules.
	Explain bool
	// Wants selects rows whose deciding rules are requested after their answer; nil selects none.
	Wants func(*Row, *Answer) bool
	// Tells asks for explanations of answers.
	Tells bool
	// Counts, unless nil, gets the counts of each table's rules.
	Counts *coverage.Counts
	// Misses means that it also counts where each rule missed.
	Misses bool
	// Log is called when an engine ends.
	Log func(form string, words ...any)
}

// isExplained reports whether all rows are asked with explanations.
func (a *Asker) isExplained() bool { return a.Explain || a.Tells || a.Counts != nil }

// A task is a batch in progress.
type task struct {
	batch   Batch
	rows    []Row
	answers []Answer
	jobs    []engine.Job
	asked   []*engine.Job
	room    []byte
	left    atomic.Int32
	done    chan error
}

// patience is how long a row may wait for an engine. The file is read no faster than the engines answer.
const patience = time.Hour

// Each asks about each row of a file, and calls take in row order. An error of take ends the reading.
func (a *Asker) Each(ctx context.Context, plan *Plan, asked *service.Asked, take func(*Row, *Answer) error) (err error) {
	within, stop := context.WithCancel(ctx)
	defer stop()
	r := &run{asker: a, plan: plan, asked: asked, ctx: within, todo: make(chan *task), order: make(chan *task, 8*a.Processes)}
	r.free, r.taken = make(chan *task, cap(r.order)), make(chan struct{}, 1)
	if !a.isExplained() {
		r.pool = engine.Start(engine.Options{Path: a.Path, Processes: a.Processes, Memory: a.Memory, Deadline: a.Deadline, Patience: patience,
			Died: func(number int, err error) { a.Log("engine %d: %v", number, err) }}, asked.Model())
		defer func() {
			end, stop := context.WithTimeout(context.Background(), a.Deadline+time.Minute)
			defer stop()
			if closed := r.pool.Close(end); err == nil {
				err = closed
			}
		}()
	}
	var workers sync.WaitGroup
	for n := 0; n < a.Processes; n++ {
		workers.Add(1)
		go func() {
			defer workers.Done()
			r.work()
		}()
	}
	go r.read()
	if err = r.takeAll(take); err == nil {
		err = ctx.Err()
	}
	stop()
	for j := range r.order {
		<-j.done
	}
	workers.Wait()
	return err
}

// A run is the reading of one file.
type run struct {
	asker *Asker
	plan  *Plan
	asked *service.Asked
	pool  *engine.Pool
	ctx   context.Context
	// todo has batches to ask, order all that were read, free those to refill.
	todo, order, free chan *task
	fault             error
	// counting guards the counts.
	counting sync.Mutex
	// out is the number of batches in progress; taken is sent to when one is finished. rowBytes is the most that a batch's rows
	// have held on average; 0 before the first.
	out, rowBytes atomic.Int64
	taken         chan struct{}
}

const (
	// mostHeld is about the most bytes held in rows and results, firstRows a batch's rows before anything is known about the
	// results.
	mostHeld  = 32 << 20
	firstRows = 16
)

// rows returns the most rows in the next batch.
func (r *run) rows() int {
	most, size := int64(batchRows), r.rowBytes.Load()
	if r.asker.isExplained() {
		most = explainedRows
	}
	switch room := mostHeld / int64(cap(r.order)); {
	case size == 0:
		return firstRows
	case room/size < 1:
		return 1
	case room/size < most:
		return int(room / size)
	}
	return int(most)
}

// mayRead waits until another batch may be read; false if the context ended. Until something is known about the results, few
// are in progress.
func (r *run) mayRead() bool {
	for {
		most := int64(cap(r.order))
		if r.rowBytes.Load() == 0 {
			most = int64(r.asker.Processes)
		}
		if r.out.Load() < most {
			return true
		}
		select {
		case <-r.taken:
		case <-r.ctx.Done():
			return false
		}
	}
}

// over notes that a batch was taken.
func (r *run) over(j *task) {
	size := int64(len(j.batch.room) + len(j.room))
	for at := range j.answers {
		size += int64(len(j.answers[at].Result) + len(j.answers[at].Told))
	}
	if size /= int64(len(j.answers)); size > r.rowBytes.Load() {
		r.rowBytes.Store(size)
	}
	r.out.Add(-1)
	select {
	case r.taken <- struct{}{}:
	default:
	}
}

// read reads batches until the file or the context ends.
func (r *run) read() {
	defer close(r.order)
	defer close(r.todo)
	for r.mayRead() {
		var j *task
		select {
		case j = <-r.free:
		default:
			j = &task{}
		}
		j.done = make(chan error, 1)
		if err := r.plan.file.read(&j.batch, r.rows()); err != nil {
			if !errors.Is(err, io.EOF) {
				r.fault = err
			}
			return
		}
		select {
		case r.todo <- j:
			r.out.Add(1)
			r.order <- j
		case <-r.ctx.Done():
			return
		}
	}
}

func (r *run) work() {
	parser := r.plan.Parser()
	explainer := &engine.Explainer{Path: r.asker.Path, Memory: r.asker.Memory, Misses: r.asker.Misses}
	for j := range r.todo {
		j.prepare(r, parser)
		switch {
		case len(j.asked) == 0:
			j.done <- nil
		case r.asker.isExplained():
			j.done <- r.explain(explainer, j)
		default:
			j.left.Store(int32(len(j.asked)))
			if err := r.pool.Put("", j.asked); err != nil {
				j.done <- fmt.Errorf("asking the engines: %w", err)
			}
		}
	}
}

// prepare makes a request for each row.
func (j *task) prepare(r *run, parser *Parser) {
	count := len(j.batch.Records)
	if cap(j.rows) < count {
		j.rows, j.answers, j.jobs = make([]Row, count), make([]Answer, count), make([]engine.Job, count)
	}
	j.rows, j.answers, j.jobs, j.asked, j.room = j.rows[:count], j.answers[:count], make([]engine.Job, count), j.asked[:0], nil
	settle := j.settle(r)
	for at := range j.batch.Records {
		row, answer := &j.rows[at], &j.answers[at]
		parser.Row(&j.batch.Records[at], row)
		*answer = Answer{}
		if row.fault == nil && !row.IsSkipped {
			var refused *service.Refusal
			if j.room, refused = r.asked.Request(r.service(row), row.Inputs, &j.jobs[at], j.room); refused != nil {
				parser.refuse(row, refused)
			}
		}
		switch {
		case row.fault != nil:
			answer.Fault, answer.IsRefused = row.fault.Reason, true
			if row.fault.Name != "" {
				answer.Fault = row.fault.Name + ": " + answer.Fault
			}
		case !row.IsSkipped:
			j.jobs[at].Place, j.jobs[at].Done = at, settle
			j.asked = append(j.asked, &j.jobs[at])
		}
	}
}

func (r *run) service(row *Row) string {
	if row.Service != "" {
		return row.Service
	}
	return r.plan.question.Service
}

// refuse notes why the service refuses a request.
func (p *Parser) refuse(row *Row, refused *service.Refusal) {
	name := strings.ReplaceAll(strings.TrimPrefix(refused.Pointer, "/"), "/", ".")
	for at := range row.cells {
		if column := &p.plan.columns[at]; name != "" && column.use == input && column.name == name {
			row.faultAt(row.cells[at].start, name, refused.Detail)
			return
		}
	}
	row.fault = &Fault{Line: row.Line, Name: name, Reason: refused.Detail}
	if refused.Line > 1 {
		row.fault.Line += refused.Line - 1
	}
}

// settle notes a row's outcome, and reports the batch when it was its last.
func (j *task) settle(r *run) func(*engine.Job, engine.Outcome) {
	return func(of *engine.Job, outcome engine.Outcome) {
		r.note(j, of.Place, outcome)
		if j.left.Add(-1) == 0 {
			j.done <- nil
		}
	}
}

func (r *run) note(j *task, at int, outcome engine.Outcome) {
	answer := &j.answers[at]
	if refused := r.asked.Refused(outcome); refused != nil {
		answer.Fault, answer.IsFailed = refused.Detail, outcome.Kind != engine.Limit
		if !answer.IsFailed {
			answer.Fault = "a value breaks a limit on the way"
		}
		return
	}
	answer.Result = r.asked.Result(r.service(&j.rows[at]), outcome.Value)
}

// explain asks about a batch's rows with the deciding rules.
func (r *run) explain(explainer *engine.Explainer, j *task) error {
	at := 0
	return explainer.Each(r.ctx, r.asked.Model(), j.asked, func(line []byte, cut bool) error {
		if at == len(j.asked) {
			return nil
		}
		place := j.asked[at].Place
		at++
		if cut {
			r.note(j, place, engine.Outcome{Kind: engine.Huge})
			return nil
		}
		return r.reported(j, place, line)
	})
}

// reported notes what a line of `desk explain` says about a row.
func (r *run) reported(j *task, at int, line []byte) error {
	reported, err := r.counted(line)
	if err != nil {
		return fmt.Errorf("reading an explanation: %w", err)
	}
	outcome := engine.Outcome{Value: append([]byte(nil), reported.Result...)}
	switch {
	case reported.Refused != "":
		outcome = engine.Outcome{Kind: engine.Refused, Word: reported.Refused}
	case reported.Fault != "":
		outcome = engine.Outcome{Kind: engine.Limit}
	}
	r.note(j, at, outcome)
	if r.asker.Explain || r.asker.Wants != nil && r.asker.Wants(&j.rows[at], &j.answers[at]) {
		var it struct{ Decisions json.RawMessage }
		if err := json.Unmarshal(line, &it); err != nil {
			return fmt.Errorf("reading an explanation: %w", err)
		}
		j.answers[at].Rules = rulesOf(r.asked.Explained(it.Decisions))
	}
	if r.asker.Tells {
		return r.explained(&j.rows[at], &j.answers[at], line)
	}
	return nil
}

// explained keeps what a line says about a row, with the file's names and values.
func (r *run) explained(row *Row, answer *Answer, line []byte) error {
	var it struct{ Decisions json.RawMessage }
	if err := json.Unmarshal(line, &it); err != nil {
		return fmt.Errorf("reading an explanation: %w", err)
	}
	text := lines.AppendQuoted([]byte(fmt.Sprintf(`{"line":%d,"service":`, row.Line)), r.plan.question.nameOf(row))
	text = append(append(text, `,"inputs":`...), r.plan.Named(row.Inputs)...)
	if it.Decisions != nil {
		text = append(append(text, `,"decisions":`...), r.asked.Explained(it.Decisions)...)
	} else {
		text = append(text, `,"explained":"long"`...)
	}
	if answer.Result != nil {
		text = append(append(text, `,"result":`...), answer.Result...)
	}
	answer.Told = append(text, '}')
	return nil
}

// counted counts what a line says.
func (r *run) counted(line []byte) (coverage.Answer, error) {
	if r.asker.Counts == nil {
		return coverage.New().Add(line)
	}
	r.counting.Lock()
	defer r.counting.Unlock()
	return r.asker.Counts.Add(line)
}

// explainSome asks for the deciding rules of some rows.
func (r *run) explainSome(j *task) error {
	var asked []*engine.Job
	for _, of := range j.asked {
		if r.asker.Wants != nil && !r.asker.isExplained() && r.asker.Wants(&j.rows[of.Place], &j.answers[of.Place]) {
			asked = append(asked, of)
		}
	}
	if len(asked) == 0 {
		return nil
	}
	explainer := &engine.Explainer{Path: r.asker.Path, Memory: r.asker.Memory}
	reported, err := explainer.Explain(r.ctx, r.asked.Model(), asked, func(int) bool { return true })
	if err != nil {
		return err
	}
	for at, of := range asked {
		j.answers[of.Place].Rules = rulesOf(r.asked.Explained(reported[at].Decisions))
	}
	return nil
}

// takeAll passes the rows on in order.
func (r *run) takeAll(take func(*Row, *Answer) error) error {
	for j := range r.order {
		if err := <-j.done; err != nil {
			return err
		}
		if err := r.explainSome(j); err != nil {
			return err
		}
		for at := range j.rows {
			if err := take(&j.rows[at], &j.answers[at]); err != nil {
				return err
			}
		}
		r.over(j)
		select {
		case r.free <- j:
		default:
		}
	}
	return r.fault
}
