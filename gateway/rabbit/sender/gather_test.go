package sender

import (
	"testing"
	"time"

	"gateway/rabbit/bus"
)

// Lines wait for others while the last message is recent. A full message, the end of the input and an earlier pause end that.
func TestLinesWaitForOthers(t *testing.T) {
	l := newLane(New(Options{Settings: bus.Settings{Partitions: 1}}), 0)
	waits := func(due bool, when string) {
		t.Helper()
		if l.gathers() > 0 != due {
			t.Error(when)
		}
	}
	waits(false, "nothing is there")
	l.put(pending{text: []byte("x")})
	waits(false, "no message was before")
	l.last = time.Now().Add(-time.Minute)
	waits(false, "a minute after the message before")
	l.last = time.Now().Add(time.Minute)
	waits(true, "right after the message before")
	for len(l.pending) < bus.MessageLines {
		l.put(pending{text: []byte("x")})
	}
	waits(false, "a message is full")
	l.pending = l.pending[:1]
	l.close()
	waits(false, "no more lines come")
}

// After several vain waits in a row lines don't wait, except one now and then; once one isn't vain, they do.
func TestLinesDoNotWaitInVain(t *testing.T) {
	var g gathering
	last := time.Unix(1_700_000_000, 0)
	// A line comes right after the last message, and another after part of its wait.
	send := func(another time.Duration) (waited bool) {
		first := last.Add(time.Millisecond)
		rest := g.rest(first, last)
		came := first
		if another < rest {
			came = first.Add(another)
		}
		last = first.Add(rest)
		g.sent(last, came)
		return rest > 0
	}
	const late, early = bus.LineGather * 3 / 4, bus.LineGather / 4
	for _, c := range []struct {
		another time.Duration
		waits   bool
	}{{late, true}, {0, true}, {late, true}, {early, true}, {0, true}} {
		if waited := send(c.another); waited != c.waits {
			t.Fatalf("%v: %v", c, waited)
		}
	}
	for round := 0; round < 3; round++ {
		for at := 0; at < tryAfter; at++ {
			if send(late) {
				t.Fatalf("round %d: line %d waited", round, at)
			}
		}
		if !send(early) {
			t.Fatalf("round %d: it wasn't tried", round)
		}
	}
	for at := 0; at < tryAfter; at++ {
		send(0)
	}
	if !send(late) || !send(late) {
		t.Error("lines don't wait though it isn't in vain any more")
	}
	if g.rest(last.Add(time.Hour), last) > 0 || !g.begun.IsZero() {
		t.Error("a line waits after a pause")
	}
}
