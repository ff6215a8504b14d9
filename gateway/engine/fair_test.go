package engine

import (
	"os"
	"path/filepath"
	"sync/atomic"
	"syscall"
	"testing"
	"time"

	"gateway/engine/enginetest"
)

// A line at which engines ended twice is refused at once for a minute; others are answered.
func TestDeadLines(t *testing.T) {
	model := adding(1)
	var deaths atomic.Int64
	p := start(t, Options{Path: enginetest.Waiting(t, desk()), Processes: 2, Deadline: 200 * time.Millisecond,
		Died: func(int, error) { deaths.Add(1) }}, model)
	poison := waits(filepath.Join(t.TempDir(), "never"))
	var all asked
	ask := func(rest string) Outcome {
		job := all.job(model, rest)
		put(t, p, "", job)
		all.left.Wait()
		return all.outcomes[job.Place]
	}
	if it := ask(poison); it.Kind != Late {
		t.Fatalf("%+v", it)
	}
	for deaths.Load() < 2 {
		time.Sleep(time.Millisecond)
	}
	before := deaths.Load()
	for n := 0; n < 3; n++ {
		if it := ask(poison); it.Kind != Late {
			t.Errorf("again: %+v", it)
		}
	}
	if deaths.Load() != before {
		t.Errorf("%d engines ended at a line that was refused", deaths.Load()-before)
	}
	if it := ask(waits(filepath.Join(t.TempDir(), "other"))); it.Kind != Late {
		t.Errorf("another line: %+v", it)
	}
	for deaths.Load() < before+2 {
		time.Sleep(time.Millisecond)
	}
	before = deaths.Load()
	if it := ask(adds(1)); it.Kind != Result {
		t.Errorf("another line: %+v", it)
	}
	if alive := p.fair.alive([]*Job{{Model: adding(2), Rest: []byte(poison)}}); len(alive) != 1 {
		t.Error("it is refused under another model")
	}
	p.fair.mu.Lock()
	for line, it := range p.fair.dead {
		p.fair.dead[line] = death{it.kind, time.Now().Add(-time.Second)}
	}
	p.fair.mu.Unlock()
	if it := ask(poison); it.Kind != Late || deaths.Load() == before {
		t.Errorf("a minute later: %+v, and no engine was asked", it)
	}
	end(t, p)
}

// An owner that asks slowly at all engines leaves one to others. Its requests are answered all the same, also those
// with a name.
func TestSlowOwners(t *testing.T) {
	model := adding(1)
	p := start(t, Options{Path: enginetest.Waiting(t, desk()), Processes: 2, Deadline: 8 * time.Second}, model)
	file := filepath.Join(t.TempDir(), "there")
	var slow, others asked
	for n := 0; n < 6; n++ {
		job := slow.job(model, waits(file))
		job.Owner = "slow"
		put(t, p, []string{"", "a", "b"}[n%3], job)
	}
	for !p.engines[0].state().slow || !p.engines[1].state().slow {
		time.Sleep(time.Millisecond)
	}
	other := others.job(model, adds(1))
	other.Owner = "other"
	put(t, p, "", other)
	others.left.Wait()
	slow.mu.Lock()
	if others.outcomes[0].Kind != Result || len(slow.order) > 0 {
		t.Errorf("%+v came, after %d slow ones", others.outcomes[0], len(slow.order))
	}
	slow.mu.Unlock()
	for _, owner := range []string{"slow", "other"} {
		if is := p.spared(owner) >= 0; is != (owner == "slow") {
			t.Errorf("%s leaves an engine to others: %v", owner, is)
		}
	}
	if err := os.WriteFile(file, nil, 0o600); err != nil {
		t.Fatal(err)
	}
	slow.once(t)
	for n, it := range slow.outcomes {
		if it.Kind != Result {
			t.Errorf("the slow request %d: %+v", n, it)
		}
	}
	end(t, p)
}

// An idle engine that hangs is ended, and another takes its place.
func TestStillEngines(t *testing.T) {
	p := start(t, Options{Processes: 2, Deadline: 500 * time.Millisecond}, adding(1))
	e := p.engines[0]
	e.mu.Lock()
	pid := e.process.command.Process.Pid
	e.mu.Unlock()
	if err := syscall.Kill(pid, syscall.SIGSTOP); err != nil {
		t.Fatal(err)
	}
	for until := time.Now().Add(2 * time.Minute); ; time.Sleep(10 * time.Millisecond) {
		e.mu.Lock()
		isAnother := e.process != nil && e.process.command.Process.Pid != pid && e.taken != nil
		e.mu.Unlock()
		if isAnother {
			break
		}
		if time.Now().After(until) {
			t.Fatal("it stands still, and nobody notices")
		}
	}
	end(t, p)
}

func TestQueueOf(t *testing.T) {
	var q queue
	for n, owner := range []string{"a", "b", "a", "c", "a"} {
		q.push(&Job{Owner: owner, Place: n})
	}
	q.pop()
	if found := q.of("a"); len(found) != 2 || found[0].Place != 2 || found[1].Place != 4 || q.len() != 2 || q.pop().Place != 1 || q.pop().Place != 3 {
		t.Errorf("%v, and %d stay", found, q.len())
	}
	if q.of("x") != nil {
		t.Error("an empty queue has some")
	}
}
