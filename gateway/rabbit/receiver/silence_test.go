package receiver

import (
	"context"
	"errors"
	"io"
	"sync"
	"testing"
	"time"

	"gateway/rabbit/bus"
	"gateway/rabbit/logs"
)

// A stuckBus has one stream, whose copy hangs at the first broker: its reader gets no more messages.
type stuckBus struct {
	bus.Bus
	bus.Link
	first, other []int64 // the offsets of the messages that the first reader gets, and of those at another broker
	end          int64
	asked        chan struct{} // lets the end be requested once, or always if closed
	done         <-chan struct{}
	mutex        sync.Mutex
	from         []bus.From // where the readers began
	left         []string   // the brokers to try last
}

func (b *stuckBus) Connect(_ context.Context, _, left string) (bus.Link, error) {
	b.mutex.Lock()
	defer b.mutex.Unlock()
	b.left = append(b.left, left)
	return b, nil
}

func (b *stuckBus) Address() string                 { return "stuck" }
func (b *stuckBus) Done() <-chan struct{}           { return b.done }
func (b *stuckBus) Err() error                      { return errors.New("it has ended") }
func (b *stuckBus) Close()                          {}
func (b *stuckBus) End(string) (bus.End, error)     { return stuckEnd{b}, nil }
func (b *stuckBus) Appender() (bus.Appender, error) { return stuckAppender{}, nil }

type stuckEnd struct{ *stuckBus }

func (e stuckEnd) AtMost(int64) {}

func (e stuckEnd) Offset() (int64, error) {
	select {
	case <-e.asked:
	case <-e.done:
	}
	return e.end, nil
}

type stuckAppender struct{ bus.Appender }

func (stuckAppender) Append(bus.Route, bus.Headers, []byte) error { return nil }
func (stuckAppender) Settle() error                               { return nil }
func (stuckAppender) Close() error                                { return nil }

func (b *stuckBus) Read(what bus.Reading) (bus.Reader, error) {
	b.mutex.Lock()
	defer b.mutex.Unlock()
	offsets := b.other
	if b.from = append(b.from, what.From); len(b.from) == 1 {
		offsets = b.first
	}
	arrivals := make(stuckReader, len(offsets))
	for _, offset := range offsets {
		arrivals <- bus.Message{Offset: offset}
	}
	return arrivals, nil
}

func (b *stuckBus) began() []bus.From {
	b.mutex.Lock()
	defer b.mutex.Unlock()
	return append([]bus.From(nil), b.from...)
}

type stuckReader chan bus.Message

func (r stuckReader) Arrivals() <-chan bus.Message { return r }
func (r stuckReader) Ended() error                 { return errors.New("it has ended") }
func (r stuckReader) Next() (bus.Message, error)   { return <-r, nil }
func (r stuckReader) Close() error                 { return nil }

// reading runs a reader of that bus, which begins there, and returns what it passes on. It ends with the test.
func reading(t *testing.T, b *stuckBus, from bus.From, last int64) <-chan message {
	messages := make(chan message)
	r := &Reader{options: Options{Bus: b, Gauges: NewGauges(), Log: logs.New(io.Discard, "test")},
		partition: bus.Partition{Of: bus.Settings{Partitions: 1}}, begin: from, streams: 1, pause: time.Millisecond, last: last, end: -1, messages: messages}
	ctx, cancel := context.WithCancel(context.Background())
	b.done = ctx.Done()
	ended := make(chan struct{})
	go func() {
		defer close(ended)
		r.work(ctx)
	}()
	t.Cleanup(func() {
		cancel()
		<-ended
	})
	return messages
}

// If a broker sends nothing more though there are messages, another one is tried, and each message comes.
func TestAReaderLeavesABrokerThatIsSilent(t *testing.T) {
	b := &stuckBus{first: []int64{0, 1, 2}, other: []int64{2, 3, 9}, end: 9, asked: make(chan struct{})}
	close(b.asked)
	messages := reading(t, b, bus.From{}, -1)
	for _, due := range []int64{0, 1, 2, 2, 3, 9} {
		if got := <-messages; got.Offset != due {
			t.Errorf("offset %d, and %d is due", got.Offset, due)
		}
	}
	if from := b.began(); len(from) != 2 || from[1] != bus.FromOffset(2) || b.left[1] != "stuck" {
		t.Error(from, b.left)
	}
}

// If the end is too high, another broker is tried once. If it isn't higher, or nothing was read of a stream read from now on,
// none is.
func TestAReaderThatIsIdleStays(t *testing.T) {
	for name, it := range map[string]struct {
		end, last int64
		from      bus.From
		due       int
	}{"too high": {end: 5, last: 2, due: 2}, "at the end": {end: 2, last: 2, due: 1}, "from now on": {end: 5, last: -1, from: bus.From{Place: bus.Next}, due: 1}} {
		b := &stuckBus{end: it.end, asked: make(chan struct{})}
		reading(t, b, it.from, it.last)
		for range make([]int, 5) {
			b.asked <- struct{}{}
		}
		if from := b.began(); len(from) != it.due {
			t.Errorf("%s: read from %v", name, from)
		}
	}
}
