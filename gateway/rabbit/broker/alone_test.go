package broker

import (
	"context"
	"os"
	"strconv"
	"strings"
	"testing"
	"time"

	amqp "github.com/rabbitmq/amqp091-go"

	"gateway/rabbit/bus"
)

// aloneVariable gives the number of messages for each partition, and their bytes, such as 1000,143360.
const aloneVariable = "DESK_TEST_ALONE"

// aloneOpen is how many messages of a partition are unconfirmed.
const aloneOpen = 16

// aloneKind is the kind of the streams made for this test, and deleted after.
const aloneKind bus.Kind = "alone"

// TestBrokersAlone measures only the brokers: one connection publishes to a stream for each partition, another reads them.
// ops/rabbitmq/test/figures runs it.
func TestBrokersAlone(t *testing.T) {
	words := strings.Split(os.Getenv(aloneVariable), ",")
	if len(words) != 2 {
		t.Skip(aloneVariable + " is not set")
	}
	messages, err := strconv.Atoi(words[0])
	if err != nil {
		t.Fatal(err)
	}
	size, err := strconv.Atoi(words[1])
	if err != nil {
		t.Fatal(err)
	}
	b, settings, err := Read()
	if err != nil {
		t.Fatal(err)
	}
	ctx, stop := context.WithCancel(context.Background())
	defer stop()
	writing, reading := connected(t, ctx, b), connected(t, ctx, b)
	removed := declareAlone(t, writing, settings)
	defer removed()
	time.Sleep(5 * time.Second) // the brokers copy a stream once it is declared
	read := make(chan error, settings.Partitions)
	for partition := 0; partition < settings.Partitions; partition++ {
		go func(queue string) { read <- readAlone(reading, queue, messages) }(settings.Queue(aloneKind, partition))
	}
	begun := time.Now()
	if err := writeAlone(writing, settings, messages, make([]byte, size)); err != nil {
		t.Fatal(err)
	}
	for partition := 0; partition < settings.Partitions; partition++ {
		if err := <-read; err != nil {
			t.Fatal(err)
		}
	}
	seconds := time.Since(begun).Seconds()
	t.Logf("alone: %.1f messages a second", float64(messages*settings.Partitions)/seconds)
}

func connected(t *testing.T, ctx context.Context, b Broker) *Link {
	t.Helper()
	link, err := b.connect(ctx, "desk test", "")
	if err != nil {
		t.Fatal(err)
	}
	return link
}

// declareAlone makes the streams, and returns what deletes them.
func declareAlone(t *testing.T, link *Link, settings bus.Settings) (remove func()) {
	t.Helper()
	channel, err := link.channel()
	if err != nil {
		t.Fatal(err)
	}
	for partition := 0; partition < settings.Partitions; partition++ {
		stream := amqp.Table{"x-queue-type": "stream", "x-queue-leader-locator": "least-leaders"}
		if _, err := channel.QueueDeclare(settings.Queue(aloneKind, partition), true, false, false, false, stream); err != nil {
			t.Fatal(err)
		}
	}
	return func() {
		for partition := 0; partition < settings.Partitions; partition++ {
			if _, err := channel.QueueDelete(settings.Queue(aloneKind, partition), false, false, false); err != nil {
				t.Error(err)
			}
		}
	}
}

func writeAlone(link *Link, settings bus.Settings, messages int, body []byte) error {
	publisher, err := link.publisher()
	if err != nil {
		return err
	}
	for number := 0; number < messages*settings.Partitions; number++ {
		if err := publisher.Append(bus.Route{Key: settings.Queue(aloneKind, number%settings.Partitions)}, nil, body); err != nil {
			return err
		}
		if publisher.Open() < aloneOpen*settings.Partitions {
			continue
		}
		confirmation, is := <-publisher.Confirms()
		if err := publisher.Take(confirmation, is); err != nil {
			return err
		}
	}
	return publisher.Settle()
}

func readAlone(link *Link, queue string, messages int) error {
	stream, err := link.Read(bus.Reading{Stream: queue, Window: bus.MostOpen})
	if err != nil {
		return err
	}
	for ; messages > 0; messages-- {
		if _, err := stream.Next(); err != nil {
			return err
		}
	}
	return nil
}
