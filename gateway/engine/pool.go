package engine

import (
	"context"
	"errors"
	"fmt"
	"hash/fnv"
	"sync"
	"sync/atomic"
	"time"
)

// Options says how a pool runs its engines.
type Options struct {
	// Path is the engine's file.
	Path string
	// Processes is how many engines there are, at least one.
	Processes int
	// Measures gives jobs their times.
	Measures bool
	// Tells makes the engines report which rules decided: outcomes have them.
	Tells bool
	// Memory is the limit of each engine's address space in bytes; 0 is none.
	Memory uint64
	// Deadline is how long an engine may take for one request.
	Deadline time.Duration
	// Patience is how long a request may wait for an engine.
	Patience time.Duration
	// Died is called when an engine ends unexpectedly, with how it ended.
	Died func(number int, err error)
}

// ErrSwitched means that the model in force isn't that of the requests.
var ErrSwitched = errors.New("another model is in force")

// A Pool is several engines with one model in force.
type Pool struct {
	options Options
	engines []*engine
	// model is the one in force. Requests are put in under the read lock, so a switch is never in the middle of that.
	modelLock sync.RWMutex
	model     *Model
	next      atomic.Uint32
	// change is closed, and made again, whenever an engine took a model or ended.
	changeLock sync.Mutex
	change     chan struct{}
	fair       fairness
	// moving is held while requests go from one engine to another, and when the pool begins to close: isClosing ends
	// that.
	moving    sync.Mutex
	isClosing bool
	closing   chan struct{}
	running   sync.WaitGroup
}

// Start starts the engines, each with this model.
func Start(options Options, model *Model) *Pool {
	model.epoch = 1
	p := &Pool{options: options, model: model, change: make(chan struct{}), closing: make(chan struct{})}
	for number := 0; number < options.Processes; number++ {
		p.engines = append(p.engines, newEngine(number, p, model))
	}
	for _, e := range p.engines {
		e := e
		p.running.Add(1)
		go func() {
			defer p.running.Done()
			e.run()
		}()
	}
	go p.watch()
	return p
}

// watch checks deadlines from time to time. A time in which this program didn't run counts as one look.
func (p *Pool) watch() {
	step := p.options.Deadline / 10
	if step > 200*time.Millisecond {
		step = 200 * time.Millisecond
	}
	if step < 5*time.Millisecond {
		step = 5 * time.Millisecond
	}
	ticker := time.NewTicker(step)
	defer ticker.Stop()
	stopped := make(chan struct{})
	go func() {
		p.running.Wait()
		close(stopped)
	}()
	for {
		select {
		case <-ticker.C:
			for _, e := range p.engines {
				e.tick(step)
			}
			p.police()
		case <-stopped:
			return
		}
	}
}

func (p *Pool) sleep(pause time.Duration) {
	select {
	case <-time.After(pause):
	case <-p.closing:
		// An engine that ends at once is not restarted more often than this.
		time.Sleep(firstPause)
	}
}

// moved wakes those who wait for an engine to take a model or to end.
func (p *Pool) moved() {
	p.changeLock.Lock()
	close(p.change)
	p.change = make(chan struct{})
	p.changeLock.Unlock()
}

func (p *Pool) changed() <-chan struct{} {
	p.changeLock.Lock()
	defer p.changeLock.Unlock()
	return p.change
}

// Put puts requests in, which all have one model. Those of a client go to one lane of one engine, the same for each
// call. Without a client they go where least is out. If another model is in force nothing is put in. Lines at which
// engines ended of late get that outcome at once, and slow owners leave one engine to others.
func (p *Pool) Put(client string, jobs []*Job) error {
	p.modelLock.RLock()
	defer p.modelLock.RUnlock()
	if len(jobs) == 0 {
		return nil
	}
	if jobs[0].Model != p.model {
		return ErrSwitched
	}
	if jobs = p.fair.alive(jobs); len(jobs) == 0 {
		return nil
	}
	spared := p.spared(jobs[0].Owner)
	if client != "" {
		at, lane := p.place(client)
		if at == spared {
			at = (at + 1) % len(p.engines)
		}
		p.engines[at].put(jobs, lane)
		return nil
	}
	for len(jobs) > 0 {
		n := len(jobs)
		if n > pieceJobs {
			n = pieceJobs
		}
		p.least(spared).put(jobs[:n], -1)
		jobs = jobs[n:]
	}
	return nil
}

// pieceJobs is how many requests of a list go to one engine together.
const pieceJobs = 64

// place returns the engine and the lane of a client.
func (p *Pool) place(client string) (at, lane int) {
	sum := fnv.New64a()
	_, _ = sum.Write([]byte(client))
	h := sum.Sum64()
	// The low bits of this sum differ little between names that only differ at their end.
	h ^= h >> 32
	n := uint64(len(p.engines))
	return int(h % n), int(h / n % Lanes)
}

// least returns the engine with the fewest requests out, preferably a ready one that isn't slow; never the spared one,
// unless that is -1.
func (p *Pool) least(spared int) *engine {
	n := len(p.engines)
	start := int(p.next.Add(1) % uint32(n))
	if start == spared {
		start = (start + 1) % n
	}
	best := p.engines[start]
	least := best.state()
	for step := 1; step < n && (!least.ready || least.out > 0); step++ {
		e := p.engines[(start+step)%n]
		if e.number == spared {
			continue
		}
		if it := e.state(); it.isBefore(least) {
			best, least = e, it
		}
	}
	return best
}

// Model returns the one in force.
func (p *Pool) Model() *Model {
	p.modelLock.RLock()
	defer p.modelLock.RUnlock()
	return p.model
}

// Switch puts a model in force for everything put in from now on. It calls meanwhile at that moment, while nothing can be put in.
func (p *Pool) Switch(model *Model, meanwhile func()) {
	p.modelLock.Lock()
	defer p.modelLock.Unlock()
	model.epoch = p.model.epoch + 1
	p.model = model
	meanwhile()
	for _, e := range p.engines {
		e.aim(model)
	}
}

// Ready returns how many engines have taken a model.
func (p *Pool) Ready() int {
	ready := 0
	for _, e := range p.engines {
		if e.state().ready {
			ready++
		}
	}
	return ready
}

// Processes returns how many engines there should be.
func (p *Pool) Processes() int {
	return len(p.engines)
}

// Settle waits until every engine has taken the model in force.
func (p *Pool) Settle(ctx context.Context) error {
	for {
		changed := p.changed()
		if p.settled() {
			return nil
		}
		select {
		case <-changed:
		case <-ctx.Done():
			return fmt.Errorf("waiting for the engines: %w", ctx.Err())
		}
	}
}

func (p *Pool) settled() bool {
	for _, e := range p.engines {
		e.mu.Lock()
		settled := e.taken == e.target
		e.mu.Unlock()
		if !settled {
			return false
		}
	}
	return true
}

// Close waits until everything put in is answered, closes each engine's input and waits for its end, which must have status 0.
// Nothing may be put in any more. If the context ends first, the engines are ended.
func (p *Pool) Close(ctx context.Context) error {
	p.moving.Lock()
	p.isClosing = true
	for _, e := range p.engines {
		e.close()
	}
	p.moving.Unlock()
	close(p.closing)
	ended := make(chan struct{})
	go func() {
		p.running.Wait()
		close(ended)
	}()
	select {
	case <-ended:
		return p.fault()
	case <-ctx.Done():
	}
	for _, e := range p.engines {
		e.abort()
	}
	return fmt.Errorf("closing the engines: %w", ctx.Err())
}

// fault returns why an engine didn't end well, or nil.
func (p *Pool) fault() error {
	for _, e := range p.engines {
		e.mu.Lock()
		fault := e.fault
		e.mu.Unlock()
		if fault != nil {
			return fmt.Errorf("closing the engines: engine %d did not end well: %w", e.number, fault)
		}
	}
	return nil
}
