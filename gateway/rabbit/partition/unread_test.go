package partition

import (
	"bytes"
	"context"
	"math/rand"
	"strings"
	"testing"
	"time"

	"gateway/rabbit/bus"
	"gateway/rabbit/ledger"
	"gateway/rabbit/logs"
	"gateway/rabbit/memory"
)

// A takeover skips an unreadable snapshot for the one before, and logs and counts it.
func TestASnapshotThatCanNotBeRead(t *testing.T) {
	b := memory.New(rand.New(rand.NewSource(1)), settings)
	b.Steady = true
	link, err := b.Connect(context.Background(), "", "")
	if err != nil {
		t.Fatal(err)
	}
	l := ledger.New(0)
	l.Skip(ledger.Place{Offset: 3})
	whole, err := l.Snapshot("0.1.2")
	if err != nil {
		t.Fatal(err)
	}
	appender, err := link.Appender()
	if err != nil {
		t.Fatal(err)
	}
	for at, body := range [][]byte{whole, []byte(`{"version":99}`)} {
		part := bus.Part{Snapshot: true, Upto: ledger.Place{Offset: int64(3 + 6*at)}, SnapshotAt: -1}
		if err := appender.Append(settings.Route(bus.AnswersExchange, bus.TopicAnswers, 0), bus.PartHeaders(part), body); err != nil {
			t.Fatal(err)
		}
	}
	if err := appender.Settle(); err != nil {
		t.Fatal(err)
	}
	var log bytes.Buffer
	options := Options{Bus: b, Settings: settings, Log: logs.New(&log, "test"), Gauges: NewGauges(), Now: time.Now}
	o, err := Begin(options, link, settings.Each()[0], bus.Scaling{})
	if err != nil {
		t.Fatal(err)
	}
	if o.intake.upto.Offset != 3 || options.Gauges.unreads != 1 || !strings.Contains(log.String(), "a snapshot is left out, and the one before it counts") {
		t.Errorf("it goes on behind %v; %d are counted; %s", o.intake.upto, options.Gauges.unreads, &log)
	}
}
