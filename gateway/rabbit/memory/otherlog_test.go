package memory_test

import (
	"strings"
	"testing"

	"gateway/rabbit/memory"
)

// An owner notices that the log was made again, though it reads from after the new one's end.
func TestALogThatWasMadeAgain(t *testing.T) {
	for seed := int64(1); seed <= 5; seed++ {
		w := newWorld(t.TempDir(), seed, false, flaws{})
		if err := w.run(historySteps); err != nil {
			t.Fatal(err)
		}
		for _, isNewLog := range []bool{false, true} {
			if isNewLog {
				*w.lines() = memory.Stream{}
			}
			o, err := w.takeOver(settings.Each()[0])
			if err != nil {
				t.Fatal(err)
			}
			err = o.CheckLog()
			if got := err != nil && strings.Contains(err.Error(), "made anew"); got != isNewLog || err != nil && !isNewLog {
				t.Errorf("seed %d, made anew %v: %v", seed, isNewLog, err)
			}
			o.link.Close()
		}
	}
}
