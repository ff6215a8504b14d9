package engine

import (
	"crypto/sha256"
	"hash/fnv"
	"sync"
	"sync/atomic"
	"time"
)

const (
	// deadPatience is how long a line is refused at which an engine ended twice, mostDead how many such lines are kept.
	deadPatience = time.Minute
	mostDead     = 1000
	// slowPatience is how long a slow owner leaves an engine to others.
	slowPatience = 10 * time.Second
	// leastSlow is the shortest time at one request that makes its owner slow.
	leastSlow = 100 * time.Millisecond
	// stillPatience is how long an engine may be idle before it is asked whether it responds.
	stillPatience = 2 * time.Second
)

// stillLine is a line that engines refuse at once.
const stillLine = "{}\n"

// A deadLine is a line at which engines ended, under a model.
type deadLine struct{ model, rest [sha256.Size]byte }

// A deadEnd is the outcome of a line at which engines ended twice.
type deadEnd struct {
	line deadLine
	kind Kind
}

func lineOf(job *Job) deadLine {
	return deadLine{sha256.Sum256([]byte(job.Model.Sum)), sha256.Sum256(job.Rest)}
}

// fairness keeps the lines at which engines ended, and the slow owners.
type fairness struct {
	// known is how many of both there are: mostly none.
	known atomic.Int64
	mu    sync.Mutex
	dead  map[deadLine]death
	slow  map[string]time.Time
}

// A death is the outcome of a line, and until when it is refused.
type death struct {
	kind  Kind
	until time.Time
}

// forget drops what has expired. The lock is held.
func (f *fairness) forget(now time.Time) {
	for line, it := range f.dead {
		if now.After(it.until) {
			delete(f.dead, line)
		}
	}
	for owner, until := range f.slow {
		if now.After(until) {
			delete(f.slow, owner)
		}
	}
	f.known.Store(int64(len(f.dead) + len(f.slow)))
}

// died notes a line at which engines ended twice.
func (f *fairness) died(it *deadEnd) {
	now := time.Now()
	f.mu.Lock()
	defer f.mu.Unlock()
	f.forget(now)
	if f.dead == nil {
		f.dead = map[deadLine]death{}
	}
	if len(f.dead) < mostDead {
		f.dead[it.line] = death{it.kind, now.Add(deadPatience)}
	}
	f.known.Store(int64(len(f.dead) + len(f.slow)))
}

// alive returns the jobs that may be asked; the others get their outcomes.
func (f *fairness) alive(jobs []*Job) []*Job {
	if f.known.Load() == 0 {
		return jobs
	}
	kinds := make(map[*Job]Kind)
	f.mu.Lock()
	f.forget(time.Now())
	if len(f.dead) > 0 {
		for _, job := range jobs {
			if it, is := f.dead[lineOf(job)]; is {
				kinds[job] = it.kind
			}
		}
	}
	f.mu.Unlock()
	if len(kinds) == 0 {
		return jobs
	}
	alive := make([]*Job, 0, len(jobs))
	for _, job := range jobs {
		if kind, is := kinds[job]; is {
			job.Done(job, Outcome{Kind: kind})
		} else {
			alive = append(alive, job)
		}
	}
	return alive
}

// isSlow reports whether an owner asked slowly of late.
func (f *fairness) isSlow(owner string) bool {
	if owner == "" || f.known.Load() == 0 {
		return false
	}
	f.mu.Lock()
	defer f.mu.Unlock()
	f.forget(time.Now())
	_, is := f.slow[owner]
	return is
}

// slowed notes that an owner asks slowly, and reports whether that is new.
func (f *fairness) slowed(owner string) bool {
	now := time.Now()
	f.mu.Lock()
	defer f.mu.Unlock()
	f.forget(now)
	if f.slow == nil {
		f.slow = map[string]time.Time{}
	}
	_, was := f.slow[owner]
	f.slow[owner] = now.Add(slowPatience)
	f.known.Store(int64(len(f.dead) + len(f.slow)))
	return !was
}

// spared returns the engine that a slow owner leaves to others, or -1.
func (p *Pool) spared(owner string) int {
	if len(p.engines) < 2 || !p.fair.isSlow(owner) {
		return -1
	}
	sum := fnv.New64a()
	_, _ = sum.Write([]byte(owner))
	return int(sum.Sum64() % uint64(len(p.engines)))
}

// slowAt returns how long an engine may be at one request before its owner is slow.
func (p *Pool) slowAt() time.Duration {
	if at := p.options.Deadline / 4; at > leastSlow {
		return at
	}
	return leastSlow
}

// police looks for engines at slow requests. It moves their owners' requests away from the spared engine, and to that
// engine the requests of others that wait after slow ones.
func (p *Pool) police() {
	p.moving.Lock()
	defer p.moving.Unlock()
	if len(p.engines) < 2 || p.isClosing {
		return
	}
	for _, e := range p.engines {
		if owner := e.slowOwner(); owner != "" {
			p.fair.slowed(owner)
			spared := p.engines[p.spared(owner)]
			spared.evict(owner)
			if e != spared {
				spared.take(e.others(owner, spared.number))
			}
		}
	}
}

// slowOwner returns the owner of what an engine has been at for long; empty if unknown.
func (e *engine) slowOwner() string {
	e.mu.Lock()
	defer e.mu.Unlock()
	if e.sent == 0 || e.age < e.pool.slowAt() || len(e.models) > 0 {
		return ""
	}
	if e.alone != nil {
		return e.alone.Owner
	}
	owner := ""
	for at := range e.lanes {
		for _, job := range e.lanes[at].sent.jobs[e.lanes[at].sent.head:] {
			if owner != "" && owner != job.Owner {
				return ""
			}
			owner = job.Owner
		}
	}
	return owner
}

// evict moves an owner's requests elsewhere, and ends the process if it has been at one of them for long.
func (e *engine) evict(owner string) {
	e.mu.Lock()
	var moved []*Job
	for at := range e.lanes {
		moved = append(moved, e.lanes[at].waiting.of(owner)...)
	}
	e.waiting -= len(moved)
	if e.isAt(owner) && e.age >= e.pool.slowAt() && e.ended == nil {
		e.ended, e.evicted = errEvicted, owner
		e.process.kill()
	}
	e.mu.Unlock()
	e.pool.elsewhere(e.number, moved)
}

// others removes the waiting requests of other owners, except those that leave the other engine to others too.
func (e *engine) others(owner string, other int) (found []*Job) {
	isOne := func(job *Job) bool { return job.Owner != owner && e.pool.spared(job.Owner) != other }
	e.mu.Lock()
	defer e.mu.Unlock()
	for at := range e.lanes {
		found = append(found, e.lanes[at].waiting.part(isOne)...)
	}
	e.waiting -= len(found)
	return append(found, e.again.part(isOne)...)
}

// isAt reports whether an owner has everything that is out.
func (e *engine) isAt(owner string) bool {
	for at := range e.lanes {
		for _, job := range e.lanes[at].sent.jobs[e.lanes[at].sent.head:] {
			if job.Owner != owner {
				return false
			}
		}
	}
	return e.sent > 0 && e.process != nil && len(e.models) == 0
}

// elsewhere puts requests in at the next engine. The lock of moving is held.
func (p *Pool) elsewhere(number int, jobs []*Job) {
	p.engines[(number+1)%len(p.engines)].take(jobs)
}

// take takes requests of another engine, perhaps none.
func (e *engine) take(jobs []*Job) {
	if len(jobs) > 0 {
		e.put(jobs, -1)
	}
}

// of removes the jobs of an owner.
func (q *queue) of(owner string) []*Job {
	return q.part(func(job *Job) bool { return job.Owner == owner })
}

// part removes some jobs.
func (q *queue) part(isOne func(*Job) bool) (found []*Job) {
	kept := q.jobs[:q.head:q.head]
	for _, job := range q.jobs[q.head:] {
		if isOne(job) {
			found = append(found, job)
		} else {
			kept = append(kept, job)
		}
	}
	if len(found) > 0 {
		q.jobs = kept
	}
	return found
}
