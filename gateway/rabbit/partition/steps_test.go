package partition

import (
	"errors"
	"fmt"
	"regexp"
	"testing"
	"time"

	"gateway/rabbit/bus"
	"gateway/rabbit/ledger"
	"gateway/rabbit/process"
)

// A takeover in which nothing moves is late; one that moves isn't, however long it lasts. If the machine itself pauses for
// longer than the patience that shows nothing, so more patience is tried.
func TestATakeoverThatDoesNotMove(t *testing.T) {
	for patience := 50 * time.Millisecond; ; patience *= 2 {
		late, begun := make(chan struct{}, 10), time.Now()
		s := beginSteps(patience, func() { late <- struct{}{} })
		isLate, pause := moved(s, late, begun, 4*patience)
		if isLate && pause < patience {
			t.Fatalf("it is late after pauses of at most %v, with a patience of %v", pause, patience)
		}
		if isLate {
			s.end()
			continue
		}
		s.Passed("the streams are there")
		<-late // it comes, or the test's deadline ends it
		s.end()
		if text := s.String(); !regexp.MustCompile(`^[\d.]+m?s \(the streams are there [\d.]+m?s\)$`).MatchString(text) {
			t.Error(text)
		}
		return
	}
}

// moved moves again and again until this much time has passed or it is late. It returns the longest pause between two moves, or
// between the last one and the check whether it is late.
func moved(s *steps, late <-chan struct{}, begun time.Time, length time.Duration) (isLate bool, longest time.Duration) {
	for last := begun; ; time.Sleep(time.Millisecond) {
		isLate = len(late) > 0
		if pause := time.Since(last); pause > longest {
			longest = pause
		}
		if isLate || time.Since(begun) > length {
			return isLate, longest
		}
		last = time.Now()
		s.Moved()
	}
}

// Patience grows from one takeover to the next, for slow brokers, up to a limit.
func TestPatience(t *testing.T) {
	patience := firstPatience
	for range make([]int, 20) {
		next := longer(patience)
		if next < patience || next > longestPatience {
			t.Errorf("%v, and then %v", patience, next)
		}
		patience = next
	}
	if patience != longestPatience || firstPatience >= 5*time.Second {
		t.Errorf("from %v to %v", firstPatience, patience)
	}
}

// An engine that failed to start is started again soon, and later more rarely.
func TestPausesBetweenEngines(t *testing.T) {
	w := &work{log: silent, options: process.Options{}, queue: &queue{}, ledger: ledger.New(0), restarts: func() {}}
	last := time.Duration(0)
	for failure := 0; failure < 100; failure++ {
		w.greeting = 1
		before := time.Now()
		w.ended(errors.New("it is killed"))
		most, least := w.pause.Sub(before), time.Until(w.pause) // the pause is between them
		if most < last || failure == 0 && least > shortestPause || least > longestPause {
			t.Errorf("after failure %d: %v", failure, most)
		}
		last = least
	}
	if most := time.Until(w.pause); most > longestPause || w.failed < 100 {
		t.Errorf("at last %v, after %d failures", most, w.failed)
	}
}

// A reader of the log is lost if nothing comes though messages are there, and not if there are none.
func TestAReaderThatIsLost(t *testing.T) {
	var i idle
	now := time.Now()
	for seconds := 0; seconds < 300; seconds++ {
		if err := i.late(now.Add(time.Duration(seconds)*time.Second), seconds < 20); err != nil {
			t.Fatalf("after %d s: %v", seconds, err)
		}
	}
	last := now.Add(300 * time.Second)
	if err := i.late(last, true); err != nil {
		t.Error(err)
	}
	if err := i.late(last.Add(bus.Patience+2*time.Second), true); err == nil {
		t.Error("nothing is late")
	}
}

// A snapshot comes soon after a model, but not after each of many models.
func TestSnapshotsAfterModels(t *testing.T) {
	l := &log{}
	for number := int64(0); number < 200; number++ {
		l.send(number, fmt.Sprintf(model, number+1))
	}
	h := take(t, l, 0, process.Options{Path: enginePath(t), Workers: 1, Longest: 1 << 20}, 1000)
	defer h.work.end()
	h.read(t, 1)
	snapshots := func() (count int) {
		for _, message := range l.answers {
			if part, _, err := bus.ReadPart(message); err == nil && part.Snapshot {
				count++
			}
		}
		return count
	}
	if got := snapshots(); got != 1 {
		t.Fatalf("%d snapshots after a model", got)
	}
	h.read(t, 100)
	if got := snapshots(); got != 1 {
		t.Errorf("%d snapshots after 101 models", got)
	}
	h.output.tick(time.Now().Add(modelPause))
	if err := h.Step(); err != nil || snapshots() != 2 {
		t.Errorf("%d snapshots after a while, %v", snapshots(), err)
	}
}

// A small snapshot comes after few messages, and a large one after more of them.
func TestSnapshotsByMessages(t *testing.T) {
	for size, messages := range map[int]int{0: smallMessages, smallSnapshot: smallMessages, smallSnapshot + 1: snapshotMessages} {
		out := &output{ledger: ledger.New(0), size: size, sinceMessages: messages - 1}
		out.ledger.Place = ledger.Place{}
		before := out.snapshotDue()
		out.sinceMessages++
		if before || !out.snapshotDue() {
			t.Errorf("size %d: after %d messages", size, messages)
		}
	}
}
