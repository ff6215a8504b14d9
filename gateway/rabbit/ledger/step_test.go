package ledger

import (
	"reflect"
	"strings"
	"testing"
)

// A copy of the senders with steps from another one ends in the same state. A wrong step is not used.
func TestKnownSteps(t *testing.T) {
	one, other, wrong := New(0).Senders, New(0).Senders, New(0).Senders
	from := Origin{Kind: Lines, Sender: "a", Named: true, Batch: "x"}
	var before Step
	for number := int64(0); number < 20; number++ {
		line := []byte(strings.Repeat("x", int(number)*50))
		step := one.Take(from, number, line, false).Step
		other.TakeKnown(from, number, line, false, step)
		wrong.TakeKnown(from, number, line, false, before)
		before = step
	}
	due := one.Find("a").Batch("x")
	for _, copied := range []*Senders{other, wrong} {
		if found := copied.Find("a").Batch("x"); !reflect.DeepEqual(found, due) {
			t.Errorf("%+v, and not %+v", found, due)
		}
	}
}
