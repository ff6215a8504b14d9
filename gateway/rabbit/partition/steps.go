package partition

import (
	"fmt"
	"strings"
	"sync"
	"time"
)

// How long a takeover waits for a broker before it begins again at another one: at first, and at most.
const (
	firstPatience   = 3 * time.Second
	longestPatience = 30 * time.Second
)

// longer returns the patience of the next takeover after a failed one.
func longer(patience time.Duration) time.Duration {
	if patience *= 2; patience > longestPatience {
		return longestPatience
	}
	return patience
}

// A steps has a takeover's steps, and how long each took. If nothing moves for too long, late is called.
type steps struct {
	mutex    sync.Mutex
	begun    time.Time
	last     time.Time
	text     []string
	late     *time.Timer
	patience time.Duration
}

func beginSteps(patience time.Duration, late func()) *steps {
	now := time.Now()
	return &steps{begun: now, last: now, late: time.AfterFunc(patience, late), patience: patience}
}

// Moved notes that the broker did something.
func (s *steps) Moved() { s.late.Reset(s.patience) }

// Passed notes that a step is done.
func (s *steps) Passed(what string) {
	s.Moved()
	s.mutex.Lock()
	defer s.mutex.Unlock()
	now := time.Now()
	s.text = append(s.text, fmt.Sprintf("%s %v", what, now.Sub(s.last).Round(time.Millisecond)))
	s.last = now
}

// end stops watching the steps.
func (s *steps) end() { s.late.Stop() }

// String returns how long everything took, and each step.
func (s *steps) String() string {
	s.mutex.Lock()
	defer s.mutex.Unlock()
	return fmt.Sprintf("%v (%s)", time.Since(s.begun).Round(time.Millisecond), strings.Join(s.text, ", "))
}
