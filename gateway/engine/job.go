package engine

import (
	"crypto/sha256"
	"encoding/hex"
	"sync/atomic"
	"time"
)

// A Model is a model in the form that engines take.
type Model struct {
	// Text is its compact text: JSON without blanks, keys in byte order.
	Text []byte
	// Sum is the SHA-256 of the text, in hexadecimal.
	Sum string
	// epoch orders models by age.
	epoch uint64
}

// NewModel returns the model of a compact text.
func NewModel(text []byte) *Model {
	sum := sha256.Sum256(text)
	return &Model{Text: text, Sum: hex.EncodeToString(sum[:])}
}

// AppendLine appends the line that puts a model in force, with its newline.
func (m *Model) AppendLine(to []byte) []byte {
	to = append(to, `{"model":`...)
	to = append(to, m.Text...)
	return append(to, "}\n"...)
}

// A Kind is the kind of an outcome.
type Kind int

// The kinds of outcomes.
const (
	// Result: it has a result.
	Result Kind = iota
	// Limit: a value exceeds a limit of the engine. This is the model's answer.
	Limit
	// Refused: the engine refuses its line.
	Refused
	// Huge: its result has over MaxAnswer bytes.
	Huge
	// Late: an engine took longer than the deadline, twice.
	Late
	// Died: an engine ended at it twice, perhaps for want of memory.
	Died
	// Waited: no engine was free in time.
	Waited
	// Dropped: its caller gave it up before an engine had it.
	Dropped
)

// An Outcome is the outcome of a request.
type Outcome struct {
	Kind Kind
	// Value is the text of a result.
	Value []byte
	// Word is the reason of a refusal.
	Word string
	// Decided has the tables on the way, if the pool reports them. IsLong is true if the engine's list of them is too
	// long.
	Decided []Decided
	IsLong  bool
}

// A Job is a request on its way.
type Job struct {
	// Model is the one that should answer it.
	Model *Model
	// Rest is its line after the client's name: `"inputs":{..},"service":"s"}`, without a newline. It doesn't change
	// before Done is called.
	Rest []byte
	// Place is for the caller's own use.
	Place int
	// Owner is who asks, or empty: an owner's slow requests keep an engine free for others.
	Owner string
	// Done gets the outcome, once, from a goroutine of the pool. It must not wait.
	Done func(*Job, Outcome)

	// Queue is how long it waited, and Work how long an engine had it, if the pool measures that. They are set before
	// Done.
	Queue, Work time.Duration

	asked   time.Time
	gone    atomic.Bool
	lane    int
	line    uint64
	order   uint64
	entered time.Time
}

// Drop notes that nobody waits for it any more. Done is called all the same.
func (j *Job) Drop() {
	j.gone.Store(true)
}

// A queue is first in, first out.
type queue struct {
	jobs []*Job
	head int
}

func (q *queue) len() int {
	return len(q.jobs) - q.head
}

func (q *queue) first() *Job {
	return q.jobs[q.head]
}

func (q *queue) push(job *Job) {
	if q.head > 32 && q.head*2 > len(q.jobs) {
		left := copy(q.jobs, q.jobs[q.head:])
		for at := left; at < len(q.jobs); at++ {
			q.jobs[at] = nil
		}
		q.jobs, q.head = q.jobs[:left], 0
	}
	q.jobs = append(q.jobs, job)
}

func (q *queue) pop() *Job {
	job := q.jobs[q.head]
	q.jobs[q.head] = nil
	q.head++
	if q.head == len(q.jobs) {
		q.jobs, q.head = q.jobs[:0], 0
	}
	return job
}

// take removes and returns the job of a line, or nil.
func (q *queue) take(line uint64) *Job {
	for at := q.head; at < len(q.jobs); at++ {
		if job := q.jobs[at]; job.line == line {
			q.jobs = append(q.jobs[:at], q.jobs[at+1:]...)
			return job
		}
	}
	return nil
}

// all removes and returns every job.
func (q *queue) all() []*Job {
	jobs := q.jobs[q.head:]
	q.jobs, q.head = nil, 0
	return jobs
}
