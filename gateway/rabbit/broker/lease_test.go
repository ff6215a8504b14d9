package broker

import (
	"context"
	"errors"
	"testing"
	"time"

	amqp "github.com/rabbitmq/amqp091-go"

	"gateway/rabbit/brokertest"
	"gateway/rabbit/bus"
)

func linked(t *testing.T, b *brokertest.Broker, partitions int) (*Link, bus.Settings) {
	t.Helper()
	ctx, stop := context.WithCancel(context.Background())
	t.Cleanup(stop)
	link, err := Broker{Addresses: []string{b.Address}}.connect(ctx, "test", "")
	if err != nil {
		t.Fatal(err)
	}
	t.Cleanup(link.Close)
	return link, bus.Settings{Partitions: partitions}
}

// A free partition is taken at once even if other queues don't confirm, and these are given up.
func TestALeaseNextToQueuesThatDoNotConfirm(t *testing.T) {
	b := brokertest.Start(t)
	b.Confirms = func(queue string) bool { return brokertest.Is(queue, "lease", "3") }
	b.Full = b.Confirms
	b.Counts = b.Confirms
	link, settings := linked(t, b, 8)
	held, err := link.Own(context.Background(), settings.Each(), func([]bus.Partition) {})
	if err != nil || held.Number != 3 {
		t.Fatalf("%+v, %v", held, err)
	}
	given := time.Now()
	givenUp(t, b)
	if waited := time.Since(given); waited >= bus.Patience {
		t.Errorf("the others were given up after %v", waited)
	}
}

// A queue without a leader confirms nothing, and ends the connection of its consumer: the lease of another partition is kept.
func TestALeaseNextToQueuesWithoutALeader(t *testing.T) {
	b := brokertest.Start(t)
	b.Confirms = func(queue string) bool { return brokertest.Is(queue, "lease", "3") }
	b.Full = b.Confirms
	b.Dies = func(queue string) bool { return !b.Confirms(queue) }
	b.Stands = b.Dies
	link, settings := linked(t, b, 8)
	held, err := link.Own(context.Background(), settings.Each(), func([]bus.Partition) {})
	if err != nil || held.Number != 3 {
		t.Fatalf("%+v, %v", held, err)
	}
	channel, err := link.channel()
	if err != nil {
		t.Fatal(err)
	}
	if err := link.end(channel); err != nil { // earlier requests are answered
		t.Error(err)
	}
	if consumed := b.Consumed(); len(consumed) != 1 {
		t.Errorf("%v are read", consumed)
	}
}

// A channel without a consumer that hangs in the broker keeps no lease, and ends no link.
func TestGivingUpAChannelThatHangs(t *testing.T) {
	b := brokertest.Start(t)
	b.Confirms = func(string) bool { return false }
	b.Stands = func(string) bool { return true }
	link, settings := linked(t, b, 1)
	w := &waiting{link: link, over: make(chan struct{})}
	lease := &held{link: link, partition: settings.Each()[0], route: settings.Route(bus.AnswersExchange, bus.TopicLease, 0)}
	go func() {
		for len(b.Published()) == 0 {
			time.Sleep(time.Millisecond)
		}
		close(w.over)
	}()
	if err := w.ask(lease); err != nil {
		t.Fatal(err)
	}
	begun := time.Now()
	if lease.giveUp(); time.Since(begun) >= bus.Patience {
		t.Error("it was waited for")
	}
	select {
	case <-link.Done():
		t.Error(link.Err())
	default:
	}
}

// givenUp waits until all requested leases are given up, except the held one.
func givenUp(t *testing.T, b *brokertest.Broker) {
	t.Helper()
	for len(b.GivenUp()) != len(b.Consumed())-1 {
		time.Sleep(10 * time.Millisecond)
	}
}

// A partition without queues is reported, and delays no other.
func TestALeaseNextToAQueueThatIsMissing(t *testing.T) {
	b := brokertest.Start(t)
	b.Missing = func(queue string) bool { return !brokertest.Is(queue, "lease", "1") }
	link, settings := linked(t, b, 2)
	reported := make(chan []bus.Partition, 1)
	waited := make(chan bus.Partition, 1)
	go func() {
		held, _ := link.Own(context.Background(), settings.Each(), func(missing []bus.Partition) { reported <- missing })
		waited <- held
	}()
	if missing := <-reported; len(missing) != 1 || missing[0].Number != 0 {
		t.Errorf("%v are missing", missing)
	}
	select {
	case held := <-waited:
		t.Errorf("%+v", held)
	default:
	}
}

// The other requested partitions are given up once one is held.
func TestTheOthersAreGivenUp(t *testing.T) {
	b := brokertest.Start(t)
	b.Full = func(queue string) bool {
		return brokertest.Is(queue, "lease", "1") || brokertest.Is(queue, "lease", "2")
	}
	link, settings := linked(t, b, 4)
	if _, err := link.Own(context.Background(), settings.Each(), func([]bus.Partition) {}); err != nil {
		t.Fatal(err)
	}
	givenUp(t, b)
}

// If the broker ends the waiting for a lease, it is requested again.
func TestAWaitingThatTheBrokerEnds(t *testing.T) {
	b := brokertest.Start(t)
	b.Ends = func(queue string) bool { return brokertest.Is(queue, "lease", "1") && len(b.GivenUp()) == 0 }
	b.Full = func(queue string) bool { return brokertest.Is(queue, "lease", "1") && len(b.GivenUp()) > 0 }
	link, settings := linked(t, b, 2)
	if held, err := link.Own(context.Background(), settings.Each(), func([]bus.Partition) {}); err != nil || held.Number != 1 {
		t.Errorf("%v, %v", held, err)
	}
}

// A missing permission ends the waiting, and so do repeated failures to request a lease.
func TestALeaseThatCanNotBeAskedFor(t *testing.T) {
	silent := errors.New("no confirm")
	for _, c := range []struct {
		asked
		isFinal bool
	}{
		{asked{bus.Partition{}, nil, 0}, false},
		{asked{bus.Partition{}, silent, mostAsks - 1}, false},
		{asked{bus.Partition{}, silent, mostAsks}, true},
		{asked{bus.Partition{}, bus.ErrMissing, mostAsks}, false},
		{asked{bus.Partition{}, &amqp.Error{Code: amqp.AccessRefused, Server: true}, 1}, true},
	} {
		if is := c.final() != nil; is != c.isFinal {
			t.Errorf("%+v: %v", c.asked, is)
		}
	}
}
