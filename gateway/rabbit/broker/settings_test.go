package broker

import (
	"strings"
	"testing"

	"gateway/rabbit/bus"
)

func TestSettings(t *testing.T) {
	b, settings, err := Read()
	if err != nil || len(b.Addresses) != 1 || settings.Partitions != 1 {
		t.Errorf("without the environment: %+v, %v", settings, err)
	}
	t.Setenv(bus.BrokersVariable, "amqp://a:1,amqps://user:secret@b")
	t.Setenv(bus.PartitionsVariable, "8")
	b, settings, err = Read()
	if err != nil || len(b.Addresses) != 2 || settings.Queue(bus.Lines, 3) != "desk.2.lines.3.of.8" {
		t.Errorf("%+v, %v", settings, err)
	}
	for _, number := range []string{"0", "1025", "x"} {
		t.Setenv(bus.PartitionsVariable, number)
		if _, _, err := Read(); err == nil {
			t.Errorf("%s partitions", number)
		}
	}
}

// A wrong address is reported before anything is tried, and without its text.
func TestAWrongAddress(t *testing.T) {
	for _, addresses := range []string{"http://user:secret@a", "amqp://a,b", "amqp://user:secret@a:port", "amqp://a, amqp://b"} {
		t.Setenv(bus.BrokersVariable, addresses)
		if _, _, err := Read(); err == nil || strings.Contains(err.Error(), "secret") {
			t.Errorf("%s: %v", addresses, err)
		}
	}
}

// A broker that failed is tried last.
func TestTheOrderOfBrokers(t *testing.T) {
	b := Broker{Addresses: []string{"a", "b", "c"}}
	first := make(map[string]bool)
	for range make([]int, 100) {
		order := b.order("b")
		if len(order) != 3 || order[2] != "b" {
			t.Fatal(order)
		}
		first[order[0]] = true
	}
	if len(first) != 2 {
		t.Error(first)
	}
}
