package broker

import (
	"sync/atomic"
	"testing"

	"gateway/rabbit/brokertest"
	"gateway/rabbit/bus"
)

// A stream's end is found without a reader, except for the first message's offset, which is looked up once, and again if there
// are fewer messages than before.
func TestTheEndIsAskedForWithOneReader(t *testing.T) {
	b := brokertest.Start(t)
	b.Full = func(string) bool { return true }
	length := uint32(7)
	b.Length = func(string) uint32 { return atomic.LoadUint32(&length) }
	link, settings := linked(t, b, 1)
	end, err := link.End(settings.Queue(bus.Lines, 0))
	if err != nil {
		t.Fatal(err)
	}
	for at, messages := range []uint32{7, 5} {
		atomic.StoreUint32(&length, messages)
		for range make([]int, 20) {
			if offset, err := end.Offset(); err != nil || offset != brokertest.FirstOffset+int64(messages)-1 {
				t.Fatalf("of %d messages the last is at %d: %v", messages, offset, err)
			}
		}
		if readers := len(b.Consumed()); readers != at+1 {
			t.Errorf("%d readers", readers)
		}
	}
}

// An end that was too high is corrected without a reader, until there are fewer messages than before.
func TestAnEndIsCorrected(t *testing.T) {
	b := brokertest.Start(t)
	b.Full = func(string) bool { return true }
	length := uint32(52)
	b.Length = func(string) uint32 { return atomic.LoadUint32(&length) }
	link, settings := linked(t, b, 1)
	end, err := link.End(settings.Queue(bus.Lines, 0))
	if err != nil {
		t.Fatal(err)
	}
	for _, step := range []struct {
		length         uint32
		offset, atMost int64
		readers        int
	}{
		{length: 52, offset: 91, atMost: 95, readers: 1}, // has no effect
		{length: 52, offset: 91, atMost: 90, readers: 1},
		{length: 52, offset: 90, atMost: 90, readers: 1},
		{length: 53, offset: 91, atMost: 91, readers: 1},
		{length: 50, offset: 89, atMost: 89, readers: 2},
	} {
		atomic.StoreUint32(&length, step.length)
		offset, err := end.Offset()
		if readers := len(b.Consumed()); err != nil || offset != step.offset || readers != step.readers {
			t.Fatalf("%+v: %d after %d readers: %v", step, offset, readers, err)
		}
		end.AtMost(step.atMost)
	}
}
