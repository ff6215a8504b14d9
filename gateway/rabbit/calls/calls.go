// Package calls sends service calls to the partitions. Each request of a call is a line, and its answer is found by its id.
// Answers are kept for a while, also those of other processes, so any process can be asked for them later.
package calls

import (
	"context"
	"encoding/json"
	"errors"
	"fmt"
	"sync"
	"time"

	"gateway/engine"
	"gateway/rabbit/answer"
	"gateway/rabbit/bus"
	"gateway/rabbit/logs"
	"gateway/rabbit/metrics"
	"gateway/rabbit/receiver"
	"gateway/rabbit/sender"
)

// Options says where calls are sent, and with which model.
type Options struct {
	Bus      bus.Bus
	Settings bus.Settings // if the brokers don't have the number of partitions
	Log      *logs.Log
	Model    []byte        // the line that loads the model for all calls of this process
	Keep     time.Duration // how long an answer is kept
	Bytes    int           // how many bytes of answers are kept
	Now      func() time.Time
}

// A Calls holds the calls of one process.
type Calls struct {
	options Options
	done    chan struct{} // is closed once nothing more is sent
	err     error         // why
	end     context.CancelFunc
	sends   *metrics.Partitions
	gets    *receiver.Gauges
	looks   looks
	scale   *bus.Watch // set once the number of partitions is known
	mutex   sync.Mutex
	input   *feed
	closed  bool  // whether no more calls are accepted
	reached bool  // whether the number of partitions is known
	epoch   int64 // of that number
	count   int64 // of accepted requests
	waiting map[request]*waiter
	answers kept
}

// A request is a request of a call.
type request struct {
	call string
	at   int
}

// A waiter waits for one answer.
type waiter struct {
	job       *engine.Job
	since     time.Time
	confirmed bool
	line      []byte
	order     int64 // its number among all requests
	partition int
	number    int64 // among the lines sent to its partition, or -1 if it wasn't
}

// A name is the id of a request's line, as JSON.
type name struct {
	Call    string `json:"call"`
	At      int    `json:"at"`
	Of      int    `json:"of"`
	IsList  bool   `json:"list,omitempty"`
	Service string `json:"service"`
}

// A Call is what all its requests share.
type Call struct {
	ID      string // unique
	Key     string // of its partition: answers for one key come in the order of its requests
	Service string // the called service of the model
	IsList  bool
}

// Start starts reading answers, and sends the model.
func Start(ctx context.Context, options Options) (*Calls, error) {
	if options.Now == nil {
		options.Now = time.Now
	}
	ctx, end := context.WithCancel(ctx)
	c := &Calls{options: options, input: newFeed(), done: make(chan struct{}), end: end, waiting: map[request]*waiter{},
		answers: kept{most: options.Bytes, byCall: map[string]*Kept{}}, sends: sender.NewGauges(), gets: receiver.NewGauges()}
	c.input.add(options.Model)
	go func() {
		c.err = c.work(ctx)
		close(c.done)
	}()
	go c.expire(ctx)
	return c, nil
}

// work starts reading answers once the number of partitions is known, and sends until the context or the input ends.
func (c *Calls) work(ctx context.Context) error {
	scale, err := bus.StartWatch(ctx, c.options.Bus, c.options.Log, "desk http", c.options.Settings)
	if err != nil {
		return err
	}
	c.mutex.Lock()
	c.scale = scale
	c.mutex.Unlock()
	go c.receive(ctx, scale)
	return c.send(ctx, scale)
}

// receive takes answers until the context ends, including those from before the process started.
func (c *Calls) receive(ctx context.Context, scale *bus.Watch) {
	from := bus.From{Place: bus.Since, Since: c.options.Now().Add(-c.options.Keep)}
	err := receiver.Receive(ctx, receiver.Options{Bus: c.options.Bus, Scale: scale, From: from, Log: c.options.Log, Gauges: c.gets, Each: c.take})
	if err != nil && ctx.Err() == nil {
		c.options.Log.Error("no more answers are read: %v", err)
	}
}

// Ready reports whether each partition can be reached, and words it.
func (c *Calls) Ready() (bool, string) {
	c.mutex.Lock()
	reached := c.reached
	c.mutex.Unlock()
	if !reached {
		return false, "no broker is reached"
	}
	if is, said := c.sends.Ready(); !is {
		return false, said
	}
	if is, said := c.gets.Ready(); !is {
		return false, said
	}
	return true, "each partition is reached"
}

// Done returns a channel that is closed once nothing more is sent; Err says why.
func (c *Calls) Done() <-chan struct{} { return c.done }

// Err returns why. Call it once Done is closed.
func (c *Calls) Err() error {
	if c.err == nil {
		return errors.New("the sender has ended")
	}
	return c.err
}

// Close sends the accepted requests, and ends.
func (c *Calls) Close(ctx context.Context) error {
	defer c.end()
	c.mutex.Lock()
	c.closed = true
	c.input.close()
	c.mutex.Unlock()
	select {
	case <-c.done:
		return c.err
	case <-ctx.Done():
		return fmt.Errorf("sending to the partitions: %w", ctx.Err())
	}
}

// Put accepts the requests of a call. Each job gets its answer.
func (c *Calls) Put(call Call, jobs []*engine.Job) error {
	key, err := json.Marshal(call.Key)
	if err != nil {
		return fmt.Errorf("asking the partitions: %w", err)
	}
	of := name{Call: call.ID, Of: len(jobs), IsList: call.IsList, Service: call.Service}
	lines := make([][]byte, len(jobs))
	for at, job := range jobs {
		of.At = at
		id, err := json.Marshal(of)
		if err != nil {
			return fmt.Errorf("asking the partitions: %w", err)
		}
		line := append(append(append(append([]byte(`{"id":`), id...), `,"key":`...), key...), ',')
		lines[at] = append(append(line, job.Rest...), '\n')
	}
	now := c.options.Now()
	c.mutex.Lock()
	defer c.mutex.Unlock()
	for at, job := range jobs {
		c.count++
		c.waiting[request{call.ID, at}] = &waiter{job: job, since: now, line: lines[at], order: c.count, number: -1}
		c.input.add(lines[at])
	}
	return nil
}

// confirm notes that a line is in its partition's log.
func (c *Calls) confirm(line []byte) {
	asked, is := idOf(line)
	c.mutex.Lock()
	defer c.mutex.Unlock()
	if w := c.waiting[asked]; is && w != nil {
		w.confirmed = true
	}
}

// IsSent reports whether the partitions have each request of a call. If so it is answered, whatever happens to this process.
func (c *Calls) IsSent(id string, requests int) bool {
	epoch, is := c.isConfirmed(id, requests)
	return is && c.looks.isSame(epoch, c.look)
}

// isConfirmed reports whether each request of a call is confirmed, and returns the epoch.
func (c *Calls) isConfirmed(id string, requests int) (epoch int64, is bool) {
	c.mutex.Lock()
	defer c.mutex.Unlock()
	for at := 0; at < requests; at++ {
		if w := c.waiting[request{id, at}]; w != nil && !w.confirmed {
			return 0, false
		}
	}
	return c.epoch, true
}

// Find returns what is kept of a call, or nil.
func (c *Calls) Find(id string) *Kept {
	c.mutex.Lock()
	defer c.mutex.Unlock()
	return c.answers.find(id)
}

// IsOver reports whether the answer to a call made then is no longer kept.
func (c *Calls) IsOver(made time.Time) bool { return c.options.Now().Sub(made) > c.options.Keep }

// take takes an answer.
func (c *Calls) take(text []byte, _ answer.Record) error {
	key, id, outcome, is := read(text)
	if !is {
		return nil
	}
	c.mutex.Lock()
	asked := request{id.Call, id.At}
	w := c.waiting[asked]
	delete(c.waiting, asked)
	c.answers.add(key, id, outcome, c.options.Now())
	c.mutex.Unlock()
	if w != nil {
		w.job.Done(w.job, outcome)
	}
	return nil
}

// expire drops old answers, and requests that have waited as long: these are lost.
func (c *Calls) expire(ctx context.Context) {
	look := time.NewTicker(time.Second)
	defer look.Stop()
	for {
		select {
		case <-look.C:
		case <-ctx.Done():
			return
		}
		for _, job := range c.late(c.options.Now().Add(-c.options.Keep)) {
			job.Done(job, engine.Outcome{Kind: engine.Waited})
		}
	}
}

// late removes the requests that have waited since a time or before, and the answers kept since then.
func (c *Calls) late(since time.Time) []*engine.Job {
	c.mutex.Lock()
	defer c.mutex.Unlock()
	c.answers.forget(since)
	var jobs []*engine.Job
	for asked, w := range c.waiting {
		if w.since.Before(since) {
			jobs = append(jobs, w.job)
			delete(c.waiting, asked)
		}
	}
	return jobs
}
