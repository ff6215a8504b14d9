package bus

import (
	"errors"
	"fmt"
	"testing"
	"time"
)

// Pauses grow to 10 s while no broker is there, and from the start to 2 s once one is reached.
func TestPauses(t *testing.T) {
	var p pace
	away, other := fmt.Errorf("%w: refused", ErrAway), errors.New("a channel ended")
	var last time.Duration
	for failure := 0; failure < 20; failure++ {
		pause := p.pause(away, time.Second)
		if pause < last || failure == 0 && pause != firstPause {
			t.Errorf("after failure %d: %v", failure, pause)
		}
		last = pause
	}
	if last != longestPause {
		t.Errorf("at last %v", last)
	}
	for failure := 0; failure < 20; failure++ {
		if last = p.pause(other, time.Second); failure == 0 && last != firstPause {
			t.Errorf("once a broker was reached: %v", last)
		}
	}
	if last != reachedPause {
		t.Errorf("at last, with a broker: %v", last)
	}
	if pause := p.pause(other, time.Minute); pause != firstPause {
		t.Errorf("after a minute of work: %v", pause)
	}
}

// What can't pass is final: at once, or if it is doubted five times in a row.
func TestWhatIsFinal(t *testing.T) {
	failure := errors.New("no")
	for is, due := range map[Judgement]int{Refused: 1, Wrong: 1, Doubted: doubtful, Untrusted: doubtful} {
		var d doubts
		for count := 1; count <= due; count++ {
			if err := d.final(is, failure); (err != nil) != (count == due) || err != nil && !errors.Is(err, failure) {
				t.Errorf("%d, failure %d: %v", is, count, err)
			}
		}
	}
	var d doubts
	for count := 0; count < 4*doubtful; count++ {
		if err := d.final([]Judgement{Doubted, Untrusted, Passing}[count%3], failure); err != nil {
			t.Error(err)
		}
	}
}
