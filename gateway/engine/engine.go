package engine

import (
	"bufio"
	"errors"
	"fmt"
	"io"
	"runtime"
	"sort"
	"strconv"
	"sync"
	"time"
)

// Lanes is the number of lanes of each engine.
const Lanes = 16

const (
	lanePrefix = "lane"
	// anyTicket stands for a ticket that was not read.
	anyTicket = ^uint64(0)
	// windowJobs and windowBytes are the most that a process has unanswered. A lane has more places in the engine than
	// that, so no line ever waits there for one.
	windowJobs  = 128
	windowBytes = 4 << 20
	laneRoom    = "256"
	// pieceBytes is about how much is written at once.
	pieceBytes = 64 << 10
	// modelPatience is how long reading a model may take, if the deadline is shorter.
	modelPatience = 20 * time.Second
	// endPatience is how long a process may take to end once it has written everything.
	endPatience = 5 * time.Second
	// Pauses between processes that end at once.
	firstPause   = 50 * time.Millisecond
	longestPause = 5 * time.Second
)

// Reasons for which we end an engine.
var (
	errLate  = errors.New("a request took longer than the deadline")
	errClose = errors.New("it did not end after its input")
	// errEvicted ends a process at a slow request of an owner that has other engines for those.
	errEvicted = errors.New("it is needed for others than the one whose request is slow")
)

// A lane is the requests of one name.
type lane struct {
	waiting, sent queue
	ticket        uint64
}

// A modelLine is a model that a process was sent and has not answered.
type modelLine struct {
	line  uint64
	model *Model
}

// An engine is a place of the pool, held by one process after another.
type engine struct {
	number int
	pool   *Pool

	mu   sync.Mutex
	wake *sync.Cond
	// lanes has the requests that wait and those that are out.
	lanes [Lanes]lane
	// again are the requests that were out when a process ended; alone is the one of them that is out now.
	again queue
	alone *Job
	// Counts of the requests that wait in lanes and that are out, and of the latter's bytes; turn is the next lane.
	waiting, sent, sentBytes, turn int
	// target is the model in force, given the last one that the process was sent, taken the last one that it took.
	target, given, taken *Model
	models               []modelLine
	process              *process
	// Counters of each process's lines and answers, and the number of requests sent by all of them.
	lines, answers, order uint64
	// moved is when the process last answered, or was asked while idle.
	moved time.Time
	// age is how long the process has been at its present work, by the ticks seen.
	age   time.Duration
	seen  uint64
	ended error
	// evicted is the owner whose requests go elsewhere once the process has ended for that.
	evicted string
	// isStillDue is true if an idle process should be asked whether it responds; still is the line of that question, or
	// 0.
	isStillDue bool
	still      uint64
	// closing is true once no more comes, over once all is answered and the process's input is closed.
	closing, over bool
	// fault is why the last process didn't end well at the end.
	fault error
}

func newEngine(number int, pool *Pool, model *Model) *engine {
	e := &engine{number: number, pool: pool, target: model}
	e.wake = sync.NewCond(&e.mu)
	return e
}

// run keeps a process in this place until the pool closes.
func (e *engine) run() {
	pause := firstPause
	for {
		answered, err := e.live()
		if e.isDone(err) {
			return
		}
		e.pool.options.Died(e.number, err)
		if answered {
			pause = firstPause
			continue
		}
		e.pool.sleep(pause)
		if pause *= 2; pause > longestPause {
			pause = longestPause
		}
	}
}

// isDone reports whether nothing is left to ask, and nothing comes. The error is that of the ended process.
func (e *engine) isDone(err error) bool {
	e.mu.Lock()
	defer e.mu.Unlock()
	if e.over {
		e.fault = err
	}
	return e.closing && e.waiting == 0 && e.sent == 0 && e.again.len() == 0
}

// live runs one process, and reports whether it answered a request, and how it ended: without an error if it was meant
// to end and did so with status 0.
func (e *engine) live() (bool, error) {
	words := []string{"serve", "--clients", strconv.Itoa(Lanes), "--workers", "1", "--capacity", laneRoom}
	if e.pool.options.Tells {
		words[0] = "explain"
	}
	p, err := begin(e.pool.options.Path, e.pool.options.Memory, words...)
	if err != nil {
		return false, err
	}
	e.mu.Lock()
	e.process, e.ended = p, nil
	e.given, e.taken, e.models = nil, nil, nil
	e.lines, e.answers, e.seen, e.age = 0, 0, 0, 0
	e.still, e.isStillDue = 0, false
	for at := range e.lanes {
		e.lanes[at].ticket = 0
	}
	e.mu.Unlock()
	written := make(chan struct{})
	go func() {
		e.write(p)
		close(written)
	}()
	strange := e.read(p)
	if strange != nil {
		p.kill()
	}
	// Its output has ended, so it is about to end too.
	stuck := time.AfterFunc(endPatience, p.kill)
	answered, given := e.leave()
	<-written
	err = p.wait()
	stuck.Stop()
	e.mu.Lock()
	defer e.mu.Unlock()
	if given != nil && (e.ended != nil || !wasKilled(err)) {
		// A process that is killed from outside doesn't incriminate its request.
		e.pool.fair.died(given)
	}
	switch {
	case e.ended != nil:
		err = e.ended
	case strange != nil:
		err = strange
	case err == nil && !e.over:
		err = errors.New("it ended by itself")
	}
	return answered, err
}

// write writes lines to the process, until it ends or nothing more comes. Then it closes its input.
func (e *engine) write(p *process) {
	defer p.in.Close()
	var text []byte
	for {
		var dropped []*Job
		text, dropped = e.collect(p, text[:0])
		for _, job := range dropped {
			job.Done(job, Outcome{Kind: Dropped})
		}
		if len(text) == 0 && len(dropped) == 0 {
			return
		}
		if _, err := p.in.Write(text); err != nil {
			return
		}
	}
}

// collect waits for lines to write, and returns none if there will be no more.
func (e *engine) collect(p *process, text []byte) ([]byte, []*Job) {
	e.mu.Lock()
	defer e.mu.Unlock()
	for {
		if e.process != p {
			return nil, nil
		}
		var dropped []*Job
		text, dropped = e.fill(text)
		if len(text) > 0 || len(dropped) > 0 {
			return text, dropped
		}
		if e.closing && e.waiting == 0 && e.again.len() == 0 && e.sent == 0 {
			e.over = true
			return nil, nil
		}
		e.wake.Wait()
		e.mu.Unlock()
		// Let others put their requests in first, so that an engine is woken once for all of them.
		runtime.Gosched()
		e.mu.Lock()
	}
}

// fill adds what may be asked now.
func (e *engine) fill(text []byte) ([]byte, []*Job) {
	var dropped []*Job
	for len(text) < pieceBytes {
		job := e.pick()
		if job == nil {
			break
		}
		if job.gone.Load() {
			dropped = append(dropped, job)
			if e.alone == job {
				e.alone = nil
			}
			continue
		}
		text = e.ask(text, job)
	}
	if e.waiting == 0 && e.again.len() == 0 && e.alone == nil && e.given != e.target {
		text = e.give(text, e.target)
	}
	if e.isStillDue {
		e.isStillDue = false
		if len(text) == 0 && e.sent == 0 {
			e.lines++
			e.still, e.moved = e.lines, time.Now()
			text = append(text, stillLine...)
		}
	}
	return text, dropped
}

// pick returns the next request to ask: first those that were out before, alone; then those of the oldest model, lane
// by lane.
func (e *engine) pick() *Job {
	if e.alone != nil || e.sent >= windowJobs || e.sentBytes >= windowBytes {
		return nil
	}
	if e.sent > 0 && time.Since(e.moved) > slowAfter {
		// What waits here may still be asked elsewhere.
		return nil
	}
	if e.again.len() > 0 {
		if e.sent > 0 {
			return nil
		}
		e.alone = e.again.pop()
		return e.alone
	}
	if e.waiting == 0 {
		return nil
	}
	best := -1
	for step := 0; step < Lanes; step++ {
		at := (e.turn + step) % Lanes
		waiting := &e.lanes[at].waiting
		if waiting.len() == 0 {
			continue
		}
		if best < 0 || waiting.first().Model.epoch < e.lanes[best].waiting.first().Model.epoch {
			best = at
		}
	}
	e.turn = (best + 1) % Lanes
	e.waiting--
	return e.lanes[best].waiting.pop()
}

// ask appends the line of a request, after that of its model if the process has another.
func (e *engine) ask(text []byte, job *Job) []byte {
	if job.Model != e.given {
		text = e.give(text, job.Model)
	}
	text = append(text, `{"client":"`+lanePrefix...)
	text = strconv.AppendInt(text, int64(job.lane), 10)
	text = append(text, '"', ',')
	text = append(text, job.Rest...)
	text = append(text, '\n')
	e.lines++
	e.order++
	job.line, job.order = e.lines, e.order
	e.lanes[job.lane].sent.push(job)
	if e.pool.options.Measures {
		job.asked = time.Now()
	}
	if e.sent == 0 {
		e.age, e.moved = 0, time.Now()
	}
	e.sent++
	e.sentBytes += len(job.Rest)
	return text
}

// give appends the line of a model.
func (e *engine) give(text []byte, model *Model) []byte {
	e.lines++
	e.given = model
	e.models = append(e.models, modelLine{e.lines, model})
	e.age = 0
	return model.AppendLine(text)
}

// read reads what the process writes, to its end. It returns an error for a line that no engine would write.
func (e *engine) read(p *process) error {
	from, read := bufio.NewReaderSize(p.out, 256<<10), lineReader(readLine)
	if e.pool.options.Tells {
		read = readExplainedLine
	}
	var replies []reply
	var jobs []*Job
	for {
		var err, strange error
		replies, err = repliesBy(read, from, replies[:0])
		jobs, strange = e.settle(replies, jobs[:0])
		for at, job := range jobs {
			if job != nil {
				job.Done(job, replies[at].outcome)
			}
			jobs[at], replies[at] = nil, reply{}
		}
		switch {
		case strange != nil:
			return strange
		case errors.Is(err, io.EOF):
			return nil
		case err != nil:
			return fmt.Errorf("reading what the engine writes: %w", err)
		}
	}
}

// settle finds the requests of replies, and appends them to jobs. A reply to a model has none: for that it appends nil.
func (e *engine) settle(replies []reply, jobs []*Job) ([]*Job, error) {
	e.mu.Lock()
	defer e.mu.Unlock()
	e.moved = time.Now()
	// One signal is enough for all: each one waiting checks everything again.
	isDue := false
	for _, r := range replies {
		e.answers++
		job, err := e.answered(r)
		if err != nil {
			e.wake.Signal()
			return jobs, err
		}
		jobs = append(jobs, job)
		if job == nil {
			isDue = true
			continue
		}
		e.sent--
		e.sentBytes -= len(job.Rest)
		if e.pool.options.Measures {
			job.Queue, job.Work = job.asked.Sub(job.entered), e.moved.Sub(job.asked)
		}
		if e.alone == job {
			e.alone = nil
		}
	}
	if isDue || e.waiting > 0 || e.again.len() > 0 || e.given != e.target || e.closing {
		e.wake.Signal()
	}
	return jobs, nil
}

func (e *engine) answered(r reply) (*Job, error) {
	if r.lane < 0 {
		return e.answeredLine(r)
	}
	sent := &e.lanes[r.lane].sent
	if sent.len() == 0 {
		return nil, fmt.Errorf("the engine answered a request that it was not asked, in lane %d", r.lane)
	}
	job := sent.first()
	if r.line > 0 {
		if job.line != r.line {
			return nil, fmt.Errorf("the engine refused line %d, and line %d was due", r.line, job.line)
		}
		return sent.pop(), nil
	}
	ticket := &e.lanes[r.lane].ticket
	if r.ticket != *ticket && r.ticket != anyTicket {
		return nil, fmt.Errorf("the engine answered ticket %d, and ticket %d was due", r.ticket, *ticket)
	}
	*ticket++
	return sent.pop(), nil
}

// answeredLine settles a reply that names no lane: to a model, or to a line that the engine could not read.
func (e *engine) answeredLine(r reply) (*Job, error) {
	if e.still > 0 && e.still == r.line {
		e.still = 0
		return nil, nil
	}
	if len(e.models) > 0 && e.models[0].line == r.line {
		due := e.models[0]
		e.models = e.models[1:]
		if !r.model {
			return nil, fmt.Errorf("the engine refused a model that was checked: %s", r.outcome.Word)
		}
		e.taken = due.model
		e.pool.moved()
		return nil, nil
	}
	for at := range e.lanes {
		if job := e.lanes[at].sent.take(r.line); job != nil {
			return job, nil
		}
	}
	return nil, fmt.Errorf("the engine answered line %d, which has an answer", r.line)
}

// leave takes back the requests of a process that ended, to be asked again. The one it was working on alone is given
// up, unless the process was still at its model; dead is then the outcome of its line.
func (e *engine) leave() (answered bool, dead *deadEnd) {
	e.pool.moving.Lock()
	e.mu.Lock()
	var out []*Job
	for at := range e.lanes {
		out = append(out, e.lanes[at].sent.all()...)
	}
	given, outcome := e.alone, Outcome{Kind: Died}
	if e.ended == errLate {
		outcome.Kind = Late
	}
	if given != nil && (len(e.models) > 0 || e.ended == errEvicted) {
		given = nil
	}
	if given == nil {
		sort.Slice(out, func(a, b int) bool { return out[a].order < out[b].order })
		e.again = queue{jobs: append(out, e.again.all()...)}
	}
	var moved []*Job
	if e.ended == errEvicted && !e.pool.isClosing {
		moved = e.again.of(e.evicted)
	}
	e.process, e.given, e.taken, e.models, e.alone = nil, nil, nil, nil, nil
	e.sent, e.sentBytes = 0, 0
	answered = e.answers > 1
	e.wake.Broadcast()
	e.mu.Unlock()
	e.pool.elsewhere(e.number, moved)
	e.pool.moving.Unlock()
	e.pool.moved()
	if given != nil {
		dead = &deadEnd{lineOf(given), outcome.Kind}
		given.Done(given, outcome)
	}
	return answered, dead
}

// put makes requests wait in a lane; a lane below 0 means the one with the fewest.
func (e *engine) put(jobs []*Job, at int) {
	now := time.Now()
	e.mu.Lock()
	if at < 0 {
		at = e.shortest()
	}
	for _, job := range jobs {
		job.lane, job.entered = at, now
		e.lanes[at].waiting.push(job)
	}
	e.waiting += len(jobs)
	e.wake.Signal()
	e.mu.Unlock()
}

func (e *engine) shortest() int {
	best, least := 0, -1
	for at := range e.lanes {
		out := e.lanes[at].waiting.len() + e.lanes[at].sent.len()
		if out == 0 {
			return at
		}
		if least < 0 || out < least {
			best, least = at, out
		}
	}
	return best
}

// A state says how well an engine could take one more request.
type state struct {
	// out is how many requests wait or are out.
	out int
	// ready is true if a process has taken a model, slow if it has been at one request for a while.
	ready, slow bool
}

// slowAfter is how long an engine may be at one request before others are better sent elsewhere.
const slowAfter = 5 * time.Millisecond

func (e *engine) state() state {
	e.mu.Lock()
	defer e.mu.Unlock()
	return state{
		out:   e.waiting + e.sent + e.again.len(),
		ready: e.process != nil && e.taken != nil,
		slow:  (e.sent > 0 || e.still > 0) && time.Since(e.moved) > slowAfter,
	}
}

// isBefore reports whether a request is better sent to this engine than to the other.
func (s state) isBefore(other state) bool {
	if s.ready != other.ready {
		return s.ready
	}
	if s.slow != other.slow {
		return other.slow
	}
	return s.out < other.out
}

// tick checks whether the process is at one thing for too long, and takes out what has waited too long.
func (e *engine) tick(step time.Duration) {
	e.mu.Lock()
	limit := e.pool.options.Deadline
	if len(e.models) > 0 && limit < modelPatience {
		limit = modelPatience
	}
	if e.process != nil && e.answers == e.seen && (e.sent+len(e.models) > 0 || e.still > 0) {
		e.age += step
	} else {
		e.age, e.seen = 0, e.answers
	}
	if e.age > limit && e.ended == nil {
		e.ended = errLate
		e.process.kill()
	}
	if e.isIdle() && time.Since(e.moved) > stillPatience {
		e.isStillDue = true
		e.wake.Signal()
	}
	waited := e.overdue(time.Now().Add(-e.pool.options.Patience))
	e.mu.Unlock()
	for _, job := range waited {
		job.Done(job, Outcome{Kind: Waited})
	}
}

// isIdle reports whether a process is running with nothing to do.
func (e *engine) isIdle() bool {
	return e.process != nil && e.taken != nil && e.sent == 0 && e.waiting == 0 && len(e.models) == 0 && e.still == 0 && !e.closing
}

// overdue takes out the requests that have waited since before a time.
func (e *engine) overdue(before time.Time) []*Job {
	var waited []*Job
	for at := range e.lanes {
		waiting := &e.lanes[at].waiting
		for waiting.len() > 0 && waiting.first().entered.Before(before) {
			waited = append(waited, waiting.pop())
			e.waiting--
		}
	}
	for e.process == nil && e.again.len() > 0 && e.again.first().entered.Before(before) {
		waited = append(waited, e.again.pop())
	}
	return waited
}

// aim sets the model in force.
func (e *engine) aim(model *Model) {
	e.mu.Lock()
	e.target = model
	e.wake.Signal()
	e.mu.Unlock()
}

// close notes that no more comes.
func (e *engine) close() {
	e.mu.Lock()
	e.closing = true
	e.wake.Signal()
	e.mu.Unlock()
}

// abort ends an engine's process that doesn't end after its input.
func (e *engine) abort() {
	e.mu.Lock()
	defer e.mu.Unlock()
	if e.process != nil && e.ended == nil {
		e.ended = errClose
		e.process.kill()
	}
}
