package partition

import (
	"testing"
	"time"

	"gateway/rabbit/bus"
	"gateway/rabbit/ledger"
)

// An openPublisher has this many unconfirmed messages.
type openPublisher int

func (p openPublisher) Open() int                                   { return int(p) }
func (p openPublisher) Append(bus.Route, bus.Headers, []byte) error { return nil }

// Answers wait for others for a while: for those that come soon after the first of them, and otherwise after the last message.
func TestAnswersWaitForOthers(t *testing.T) {
	now := time.Unix(1_700_000_000, 0)
	out := &output{publisher: openPublisher(0), now: func() time.Time { return now }, gather: bus.AnswerGather, ledger: ledger.New(0)}
	for step, c := range []struct {
		begun, sent time.Duration // ago
		lines       int
		soon, waits bool
	}{
		{0, 0, 0, true, false},
		{0, time.Hour, 1, true, true},
		{0, time.Hour, 1, false, false},
		{time.Hour, 0, 1, true, false},
		{0, 0, 1, false, true},
		{0, bus.AnswerGather, 1, false, false},
		{0, 0, bus.MessageLines, true, false},
	} {
		out.lines, out.begun, out.sent = c.lines, now.Add(-c.begun), now.Add(-c.sent)
		if waits := out.gathers(c.soon); waits > 0 != c.waits || waits > bus.AnswerGather {
			t.Errorf("step %d: %v", step, waits)
		}
	}
	out.publisher, out.lines = openPublisher(1), 1
	if published, err := out.publish(false); published || err != nil || out.gathers(true) != 0 {
		t.Error(published, err)
	}
}
