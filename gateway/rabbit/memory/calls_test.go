package memory_test

import (
	"context"
	"fmt"
	"io"
	"strings"
	"sync"
	"testing"
	"time"

	asked "gateway/engine"
	"gateway/rabbit/bus"
	"gateway/rabbit/calls"
	"gateway/rabbit/logs"
	"gateway/rabbit/partition"
	engines "gateway/rabbit/process"
)

// A steadyEngine hands over answers of the histories' engine by itself.
type steadyEngine struct {
	*engine
	mutex sync.Mutex
}

func (e *steadyEngine) Give(lines [][]byte) {
	e.mutex.Lock()
	e.engine.Give(lines)
	answers := e.waiting
	e.waiting = nil
	e.mutex.Unlock()
	go func() { e.answers <- answers }()
}

// own owns the partitions one after another, each with its own process, until stopped.
func own(on *live) (stop func()) {
	ctx, cancel := context.WithCancel(context.Background())
	var running sync.WaitGroup
	running.Add(1)
	go func() {
		defer running.Done()
		partition.Run(ctx, partition.Options{Bus: on, Settings: on.Settings, Deadline: time.Hour, Log: logs.New(io.Discard, "test"),
			Gauges: partition.NewGauges(), Begin: func(engines.Options) (partition.Evaluator, error) {
				return &steadyEngine{engine: &engine{tickets: map[string]int64{}, answers: make(chan []engines.Answer, 1)}}, nil
			}})
	}()
	return func() { cancel(); running.Wait() }
}

// asking starts calls with a model that adds 10.
func asking(t *testing.T, on *live, now func() time.Time) *calls.Calls {
	t.Helper()
	c, err := calls.Start(context.Background(), calls.Options{Bus: on, Settings: on.Settings, Log: logs.New(io.Discard, "test"),
		Model: []byte(`{"model":{"addend":10}}` + "\n"), Keep: time.Hour, Bytes: 1 << 20, Now: now})
	if err != nil {
		t.Fatal(err)
	}
	return c
}

// put sends a call with one request, and returns the channel of its answer.
func put(t *testing.T, c *calls.Calls, id string, number int) <-chan asked.Outcome {
	t.Helper()
	outcomes := make(chan asked.Outcome, 2)
	job := &asked.Job{Rest: []byte(fmt.Sprintf(`"inputs":{"a":%d},"service":"s"}`, number)), Done: func(_ *asked.Job, o asked.Outcome) { outcomes <- o }}
	if err := c.Put(calls.Call{ID: id, Key: "ann", Service: "s"}, []*asked.Job{job}); err != nil {
		t.Fatal(err)
	}
	return outcomes
}

func end(t *testing.T, c *calls.Calls) {
	t.Helper()
	ctx, cancel := context.WithTimeout(context.Background(), time.Minute)
	defer cancel()
	if err := c.Close(ctx); err != nil {
		t.Error(err)
	}
}

// A call is answered. One sent while nobody owns the partition waits, and the next owner answers it: once, in order, and also
// to a process that starts later.
func TestCallsAreAnsweredAfterATakeover(t *testing.T) {
	on := newLive(1, -1)
	c := asking(t, on, nil)
	stop := own(on)
	if got := <-put(t, c, "first", 1); string(got.Value) != "13" {
		t.Errorf("%+v", got)
	}
	stop()
	second, third := put(t, c, "second", 2), put(t, c, "third", 3)
	until(func() bool { return c.IsSent("second", 1) && c.IsSent("third", 1) })
	if c.Find("second") != nil || len(second)+len(third) > 0 {
		t.Error("answered, and nobody owns the partition")
	}
	stop = own(on)
	defer stop()
	for number, of := range map[int]<-chan asked.Outcome{2: second, 3: third} {
		if got := <-of; string(got.Value) != fmt.Sprint(number*3+10) {
			t.Errorf("%d: %+v", number, got)
		}
	}
	other := asking(t, on, nil)
	for _, at := range []*calls.Calls{c, other} {
		until(func() bool { return at.Find("third") != nil })
		if kept := at.Find("third"); !kept.IsWhole() || kept.Key != "ann" || string(kept.Outcomes[0].Value) != "19" {
			t.Errorf("%+v", kept)
		}
	}
	end(t, c)
	end(t, other)
	if answered := strings.Count(strings.Join(on.bodies(on.Settings.Queue(bus.Answers, 0)), "\n"), `"call":"third"`); answered != 1 || len(third) > 0 {
		t.Errorf("answered %d times", answered)
	}
}

// Answers are forgotten after a while, and unanswered requests then get an outcome.
func TestCallsAreForgotten(t *testing.T) {
	on := newLive(1, -1)
	var mutex sync.Mutex
	clock := time.Now()
	now := func() time.Time { mutex.Lock(); defer mutex.Unlock(); return clock }
	c := asking(t, on, now)
	stop := own(on)
	if got := <-put(t, c, "answered", 1); string(got.Value) != "13" {
		t.Errorf("%+v", got)
	}
	stop()
	lost := put(t, c, "lost", 2)
	until(func() bool { return c.IsSent("lost", 1) })
	before := now()
	mutex.Lock()
	clock = clock.Add(2 * time.Hour)
	mutex.Unlock()
	if got := <-lost; got.Kind != asked.Waited {
		t.Errorf("%+v", got)
	}
	if c.Find("answered") != nil || !c.IsOver(before) || c.IsOver(now()) {
		t.Error("an answer is kept for too long")
	}
	end(t, c)
}
