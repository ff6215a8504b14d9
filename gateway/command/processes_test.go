package command

import (
	"runtime"
	"strconv"
	"testing"
)

// TestDefaultOfProcesses expects as many engines as processors, up to the limit.
func TestDefaultOfProcesses(t *testing.T) {
	for processors, due := range map[int]int{1: 1, 4: 4, 64: 64, 65: 64, 1024: 64} {
		if got := enginesFor(processors); got != due {
			t.Errorf("%d engines on %d processors", got, processors)
		}
	}
	for _, words := range [][]string{{"http"}, {"run"}, {"test"}, {"compare"}} {
		c, _, err := newRoot().Find(words)
		if err != nil {
			t.Fatal(err)
		}
		if got := c.Flags().Lookup("processes").Value.String(); got != strconv.Itoa(enginesFor(runtime.NumCPU())) {
			t.Errorf("%s begins with %s engines", c.Name(), got)
		}
	}
}
