package broker

import (
	"context"
	"errors"
	"testing"
	"time"

	"gateway/rabbit/brokertest"
	"gateway/rabbit/bus"
)

// Brokers that don't answer delay a connection no longer than their turns.
func TestConnectingNextToSilentBrokers(t *testing.T) {
	var b Broker
	for range make([]int, 5) {
		b.Addresses = append(b.Addresses, brokertest.Silent(t))
	}
	b.Addresses = append(b.Addresses, brokertest.Start(t).Address)
	begun := time.Now()
	link, err := b.Connect(context.Background(), "test", "")
	if err != nil {
		t.Fatal(err)
	}
	if took := time.Since(begun); took >= dialTimeout {
		t.Errorf("it took %v", took)
	}
	link.Close()
}

// The error if no broker is reached.
func TestNoBroker(t *testing.T) {
	b := Broker{Addresses: []string{"amqp://127.0.0.1:1", "amqp://127.0.0.1:2"}}
	if _, err := b.Connect(context.Background(), "test", ""); !errors.Is(err, bus.ErrAway) {
		t.Errorf("%v", err)
	}
}

// Streams whose leader doesn't report the number of messages delay nothing.
func TestStreamsThatAreNotCounted(t *testing.T) {
	b := brokertest.Start(t)
	b.Counts = func(string) bool { return false }
	link, err := Broker{Addresses: []string{b.Address}}.connect(context.Background(), "test", "")
	if err != nil {
		t.Fatal(err)
	}
	defer link.Close()
	done := make(chan error, 1)
	go func() { done <- link.declare(bus.Settings{Partitions: 1}, 0, SegmentBytes) }()
	select {
	case err := <-done:
		if err != nil {
			t.Error(err)
		}
	case <-time.After(5 * time.Second):
		t.Error("it waits")
	}
}
