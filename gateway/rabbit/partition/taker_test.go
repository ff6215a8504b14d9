package partition

import (
	"bytes"
	"context"
	"errors"
	"strings"
	"testing"
	"time"

	"gateway/rabbit/broker"
	"gateway/rabbit/brokertest"
	"gateway/rabbit/bus"
	"gateway/rabbit/logs"
)

// A fixed is a number of partitions that doesn't change.
type fixed bus.Settings

func (f fixed) Scaling() bus.Scaling                    { return bus.Scaling{All: []bus.Settings{bus.Settings(f)}} }
func (f fixed) Newest() (bus.Settings, <-chan struct{}) { return bus.Settings(f), nil }

// partitions returns the partitions with these numbers.
func partitions(numbers ...int) (found []bus.Partition) {
	for _, number := range numbers {
		found = append(found, bus.Partition{Of: bus.Settings{Partitions: 8}, Number: number})
	}
	return found
}

// taken tries to take a partition over at this broker, which fails, and returns the taker and the log.
func taken(t *testing.T, b *brokertest.Broker, patience time.Duration) (*taker, string) {
	t.Helper()
	var log bytes.Buffer
	on := broker.Broker{Addresses: []string{b.Address}}
	taker := newTaker(Options{Bus: on, Log: logs.New(&log, "test"), Gauges: NewGauges()}, fixed(settings))
	taker.patience = patience
	link, err := on.Connect(context.Background(), "test", "")
	if err != nil {
		t.Fatal(err)
	}
	defer link.Close()
	if _, err := taker.take(link, settings.Each()[0]); err == nil {
		t.Fatal("it is taken over")
	}
	if taker.last != b.Address {
		t.Errorf("%q is the last", taker.last)
	}
	return taker, log.String()
}

// A takeover at a broker that delivers no message ends when its patience does, reports the step, and tries another broker with
// more patience.
func TestATakeoverAtABrokerThatDoesNothing(t *testing.T) {
	taker, text := taken(t, brokertest.Start(t), firstPatience)
	if taker.patience != longer(firstPatience) {
		t.Errorf("then %v of patience", taker.patience)
	}
	if !strings.Contains(text, "its end is read from") || !strings.Contains(text, "did nothing for 3s") {
		t.Error(text)
	}
}

// A broker that refuses says nothing about how slow others are.
func TestATakeoverAtABrokerThatRefuses(t *testing.T) {
	b := brokertest.Start(t)
	b.Refuses = func(queue string) bool { return brokertest.Is(queue, "answers", "0") }
	taker, text := taken(t, b, longestPatience)
	if taker.patience != longestPatience {
		t.Errorf("then %v of patience", taker.patience)
	}
	if !strings.Contains(text, "no copy is here") {
		t.Error(text)
	}
}

// A partition that can't be taken over for long is reported, with what to do.
func TestAPartitionWhoseLogMayBeLost(t *testing.T) {
	b := brokertest.Start(t)
	b.Refuses = func(queue string) bool { return brokertest.Is(queue, "answers", "0") }
	taker, _ := taken(t, b, firstPatience)
	reason := errors.New("no copy is here")
	if err := taker.failed(settings.Each()[0], reason); strings.Contains(err.Error(), "repair") {
		t.Error(err)
	}
	taker.fails[settings.Each()[0]] = time.Now().Add(-2 * lasting)
	if err := taker.failed(settings.Each()[0], reason); !errors.Is(err, reason) || !strings.Contains(err.Error(), "desk partition repair 0") {
		t.Error(err)
	}
	taker.options.Gauges.setConnected(true)
	if is, said := taker.options.Gauges.Ready(); is || !strings.Contains(said, "desk partition repair 0") {
		t.Error(said)
	}
}
