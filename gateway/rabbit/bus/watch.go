package bus

import (
	"context"
	"sync"
	"time"

	"gateway/rabbit/logs"
)

// A Watch knows the number of partitions, with some delay.
type Watch struct {
	on        Bus
	log       *logs.Log
	name      string
	otherwise Settings
	mutex     sync.Mutex
	keeps     bool // whether it writes down the state
	scaling   Scaling
	changed   chan struct{} // is closed at the next change
	fault     error
}

// StartWatch reads the number of partitions until the context ends. At brokers declared by an older program no stream has it,
// and the number is the one otherwise known.
func StartWatch(ctx context.Context, on Bus, log *logs.Log, name string, otherwise Settings) (*Watch, error) {
	return start(ctx, &Watch{on: on, log: log, name: name, otherwise: otherwise})
}

// StartKeeping is StartWatch for an owner. It also writes down the state from time to time, so that later readers read little.
func StartKeeping(ctx context.Context, on Bus, log *logs.Log, name string, otherwise Settings) (*Watch, error) {
	return start(ctx, &Watch{on: on, log: log, name: name, otherwise: otherwise, keeps: true})
}

func start(ctx context.Context, w *Watch) (*Watch, error) {
	w.changed = make(chan struct{})
	first := w.changed
	go w.work(ctx)
	select {
	case <-first:
		return w, w.err()
	case <-ctx.Done():
		return nil, ctx.Err()
	}
}

// Scaling returns what is known.
func (w *Watch) Scaling() Scaling {
	w.mutex.Lock()
	defer w.mutex.Unlock()
	return w.scaling
}

// Look returns everything in the stream so far; Scaling may lag.
func (w *Watch) Look(ctx context.Context) (Scaling, error) {
	found := w.Scaling()
	err := Again(ctx, w.on, w.log, func(ctx context.Context) error {
		link, err := w.on.Connect(ctx, w.name, "")
		if err != nil {
			return err
		}
		defer link.Close()
		scale, err := LookAtScale(link, w.Scaling())
		if err != nil && w.on.Judge(err) == Missing {
			return nil // no stream has it
		}
		if err == nil {
			found = scale.copied()
		}
		return err
	})
	return found, err
}

// Newest returns the newest number of partitions, and a channel that is closed once more is known.
func (w *Watch) Newest() (Settings, <-chan struct{}) {
	w.mutex.Lock()
	defer w.mutex.Unlock()
	newest, _ := w.scaling.Newest()
	return newest, w.changed
}

func (w *Watch) err() error {
	w.mutex.Lock()
	defer w.mutex.Unlock()
	return w.fault
}

// set notes what is known now.
func (w *Watch) set(scaling Scaling, fault error) {
	w.mutex.Lock()
	defer w.mutex.Unlock()
	w.scaling, w.fault = scaling, fault
	close(w.changed)
	w.changed = make(chan struct{})
}

// passed notes that all messages before an offset were read.
func (w *Watch) passed(next int64) {
	w.mutex.Lock()
	defer w.mutex.Unlock()
	w.scaling.next = next
}

// absence is the pause after the stream was missing.
const absence = 30 * time.Second

// work reads until the context ends.
func (w *Watch) work(ctx context.Context) {
	err := Again(ctx, w.on, w.log, func(ctx context.Context) error {
		for {
			err := w.run(ctx)
			if err == nil || w.on.Judge(err) != Missing {
				return err
			}
			if len(w.Scaling().All) == 0 {
				w.set(Scaling{All: []Settings{w.otherwise}}, nil)
			}
			w.on.Pause(ctx, absence)
			if ctx.Err() != nil {
				return ctx.Err()
			}
		}
	})
	if err != nil && ctx.Err() == nil {
		w.set(w.Scaling(), err)
	}
}

// run reads over one connection.
func (w *Watch) run(ctx context.Context) error {
	link, err := w.on.Connect(ctx, w.name, "")
	if err != nil {
		return err
	}
	defer link.Close()
	r, err := ReadScale(link)
	if err != nil {
		return err
	}
	if len(r.All) > 0 { // otherwise the partitions are being declared
		w.set(r.copied(), nil)
	}
	for {
		if err := w.keep(link, r); err != nil {
			return err
		}
		select {
		case message, open := <-r.Arrivals():
			if !open {
				return r.reader.Ended()
			}
			if r.Take(message) {
				w.set(r.copied(), nil)
			} else {
				w.passed(r.next)
			}
		case <-link.Done():
			return link.Err()
		case <-ctx.Done():
			return ctx.Err()
		}
	}
}

// keep writes down the state if it is time to.
func (w *Watch) keep(link Link, r *ScaleReader) error {
	if !w.keeps || !r.isLong() {
		return nil
	}
	appender, err := link.Appender()
	if err != nil {
		return err
	}
	if err := appender.Append(ScaleRoute, StateHeaders(r.Scaling), nil); err != nil {
		return err
	}
	r.stated = r.next
	if err := appender.Settle(); err != nil {
		return err
	}
	return appender.Close()
}
