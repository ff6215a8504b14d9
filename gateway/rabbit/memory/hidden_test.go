package memory_test

import (
	"context"
	"fmt"
	"io"
	"strings"
	"sync"
	"sync/atomic"
	"testing"

	"gateway/rabbit/answer"
	"gateway/rabbit/bus"
	"gateway/rabbit/logs"
	"gateway/rabbit/receiver"
	"gateway/rabbit/sender"
)

// A hiding bus pretends that the answers of one number of partitions are missing, until it shows them, and counts how often.
type hiding struct {
	*live
	of     bus.Settings
	hidden int32
	asked  *int32
}

type hidingLink struct {
	bus.Link
	on *hiding
}

func (h *hiding) Connect(ctx context.Context, name, last string) (bus.Link, error) {
	link, err := h.live.Connect(ctx, name, last)
	return hidingLink{link, h}, err
}

func (l hidingLink) Read(what bus.Reading) (bus.Reader, error) {
	for _, partition := range l.on.of.Each() {
		if what.Stream == partition.Queue(bus.Answers) && atomic.LoadInt32(&l.on.hidden) > 0 {
			atomic.AddInt32(l.on.asked, 1)
			return nil, fmt.Errorf("%s: %w", what.Stream, bus.ErrMissing)
		}
	}
	return l.Link.Read(what)
}

// A receiver that has read the earlier partitions misses no later answers, even if their streams are missing for a while and
// there is a later number of partitions.
func TestAReceiverLeavesNoPartitionOut(t *testing.T) {
	const count = 20
	on := newLive(2, -1)
	for range make([]int, 4) {
		defer own(on)()
	}
	of := &hiding{live: on, of: bus.Settings{Partitions: 4, Epoch: 1}, hidden: 1, asked: new(int32)}
	var mutex sync.Mutex
	var came []string
	receiving, stop := context.WithCancel(context.Background())
	defer stop()
	done, watch := make(chan error, 1), watching(t, on)
	go func() {
		done <- receiver.Receive(receiving, receiver.Options{Bus: of, Scale: watch, Log: logs.New(io.Discard, "test"), Each: func(line []byte, _ answer.Record) error {
			mutex.Lock()
			defer mutex.Unlock()
			if _, id, is := strings.Cut(string(line), `"id":`); is {
				id, _, _ = strings.Cut(id, ",")
				came = append(came, id)
			}
			return nil
		}})
	}()
	heard := func() []string {
		mutex.Lock()
		defer mutex.Unlock()
		return append([]string(nil), came...)
	}
	text, _ := requests(t, count, 2)
	send := func(round int) {
		again := strings.ReplaceAll(text, `"id":`, fmt.Sprintf(`"id":%d`, round))
		if _, err := sender.Send(context.Background(), sendingNow(t, on, "a", fmt.Sprint("batch ", round), strings.NewReader(again))); err != nil {
			t.Fatal(err)
		}
	}
	send(1)
	until(func() bool { return len(heard()) == count })
	changed(t, on, 4)
	send(2)
	changed(t, on, 2)
	send(3)
	before := atomic.LoadInt32(of.asked)
	until(func() bool { return atomic.LoadInt32(of.asked) > before+8 })
	if len(heard()) != count {
		t.Errorf("%d answers came before those of before", len(heard())-count)
	}
	atomic.StoreInt32(&of.hidden, 0)
	until(func() bool { return len(heard()) == 3*count })
	stop()
	if err := <-done; err != nil {
		t.Error(err)
	}
	seen := map[string]int{}
	for _, id := range heard() {
		if seen[id]++; seen[id] > 1 {
			t.Errorf("%s is answered twice", id)
		}
	}
}
