package sender

import (
	"fmt"
	"strings"
	"testing"

	"gateway/rabbit/ledger"
)

// batchOf returns what a partition knows of a batch with these lines.
func batchOf(ended bool, lines ...string) *ledger.Batch {
	senders := ledger.New(0).Senders
	from := ledger.Origin{Kind: ledger.Lines, Sender: "a", Named: true, Batch: "x"}
	for number, text := range lines {
		senders.Take(from, int64(number), []byte(text), false)
	}
	if ended {
		from.Kind = ledger.End
		senders.Control(from)
	}
	return senders.Find("a").Batch("x")
}

func TestRepeats(t *testing.T) {
	for _, c := range []struct {
		ended           bool
		lines           []string
		repeated, fresh int
		fault           bool
	}{
		{false, []string{"m", "a", "b", "c", "d", "e"}, 6, 0, false},
		{false, []string{"m", "a", "b", "c", "d", "e", "f"}, 6, 1, false},
		{true, []string{"m", "a", "b", "c", "d", "e"}, 6, 0, false},
		{true, []string{"m", "a", "b", "c", "d", "e", "f"}, 6, 0, true},
		{false, []string{"x"}, 0, 0, true},
		{false, []string{"m", "x"}, 1, 0, true},
		{false, []string{"m", "a", "b", "c", "d", "x", "y"}, 5, 0, true},
		{false, []string{"m", "a", "b"}, 3, 0, true}, // some are missing
	} {
		k := known{batch: batchOf(c.ended, "m", "a", "b", "c", "d", "e")}
		repeated, fresh := 0, 0
		var fault error
		for _, text := range c.lines {
			is, err := k.take([]byte(text))
			if fault = err; err != nil {
				break
			}
			if is {
				repeated++
			} else {
				fresh++
			}
		}
		if fault == nil {
			fault = k.end()
		}
		if repeated != c.repeated || fresh != c.fresh || (fault != nil) != c.fault {
			t.Errorf("%v: %d repeated, %d new, %v", c.lines, repeated, fresh, fault)
		}
	}
}

// An unknown batch is new, however long it is.
func TestANewBatch(t *testing.T) {
	var k known
	for number := 0; number < 100; number++ {
		if repeated, err := k.take([]byte(fmt.Sprint(number))); repeated || err != nil {
			t.Errorf("line %d: %v, %v", number, repeated, err)
		}
	}
	if err := k.end(); err != nil {
		t.Error(err)
	}
}

// A batch that lost lines at the broker can't be sent again under its id, as it isn't known which.
func TestABatchWithLostLines(t *testing.T) {
	batch := batchOf(false, "m", "a")
	batch.Missing = 3
	k := known{batch: batch}
	if _, err := k.take([]byte("m")); err == nil || !strings.Contains(err.Error(), "lost 3 of its lines") {
		t.Error(err)
	}
}
