package memory_test

import (
	"context"
	"io"
	"math/rand"
	"reflect"
	"testing"
	"time"

	"gateway/rabbit/bus"
	"gateway/rabbit/logs"
	"gateway/rabbit/memory"
)

// A scaleStream is a scale stream, with what all its messages say, and how many of them were read.
type scaleStream struct {
	*testing.T
	*memory.Bus
	bus.Scaling
	before []bus.Scaling // what all messages before one say
	read   int
}

func newScaleStream(t *testing.T, seed int64) *scaleStream {
	b := memory.New(rand.New(rand.NewSource(seed)), bus.Settings{Partitions: 2})
	b.Steady = true
	w := &scaleStream{T: t, Bus: b}
	w.takeIn()
	b.Alter = func(message bus.Message) bus.Message {
		w.read++
		return message
	}
	return w
}

// takeIn takes what was appended.
func (w *scaleStream) takeIn() {
	for _, message := range w.Stream(bus.Scale).Messages[len(w.before):] {
		w.before = append(w.before, copied(w.Scaling))
		w.Take(message)
	}
}

func copied(s bus.Scaling) bus.Scaling {
	s.All = append([]bus.Settings(nil), s.All...)
	return s
}

func (w *scaleStream) append(to bus.Route, headers bus.Headers) {
	link, _ := w.Connect(context.Background(), "test", "")
	defer link.Close()
	appender, err := link.Appender()
	if err == nil {
		err = appender.Append(to, headers, nil)
	}
	if err == nil {
		err = appender.Settle()
	}
	if err != nil {
		w.Fatal(err)
	}
	w.takeIn()
}

// look looks at the stream, and returns how many messages it read.
func (w *scaleStream) look() int {
	w.read = 0
	link, _ := w.Connect(context.Background(), "test", "")
	defer link.Close()
	found, err := bus.LookAtScale(link, bus.Scaling{})
	if err != nil {
		w.Fatal(err)
	}
	if w.takeIn(); !reflect.DeepEqual(found.All, w.All) || found.Open != w.Open {
		w.Fatalf("%+v, not %+v", *found, w.Scaling)
	}
	return w.read
}

// change adds a record that changes the number, or one that doesn't count.
func (w *scaleStream) change(random *rand.Rand) {
	next := bus.Settings{Partitions: 1 + random.Intn(9), Epoch: int64(len(w.All) - random.Intn(2))}
	if random.Intn(2) == 0 {
		w.append(bus.ScaleRoute, bus.BeginHeaders(next))
	} else {
		w.append(bus.ScaleRoute, bus.DoneHeaders(next.Epoch-1))
	}
}

// state lets an owner write down its state, which may be that before some earlier message.
func (w *scaleStream) state(random *rand.Rand) {
	known := w.Scaling
	if random.Intn(3) == 0 {
		known = w.before[1+random.Intn(len(w.before)-1)]
	}
	w.append(bus.ScaleRoute, bus.StateHeaders(known))
}

// Whatever was written down, early or late, a look finds what all messages say.
func TestALookFindsAllThatIsSaid(t *testing.T) {
	for seed := int64(0); seed < 10; seed++ {
		random := rand.New(rand.NewSource(seed))
		w := newScaleStream(t, seed)
		for step := 0; step < 2000; step++ {
			switch random.Intn(60) {
			case 0:
				w.change(random)
			case 1:
				if seed%2 == 0 || step < 1000 { // otherwise there is no owner any more
					w.state(random)
				}
			default:
				w.append(bus.LookRoute, bus.Headers{bus.MarkHeader: "x"})
			}
			if step%300 == 299 {
				w.look()
			}
		}
	}
}

// A look reads as much after many looks as after some, while there are owners.
func TestALookReadsTheEnd(t *testing.T) {
	on := newLive(2, -1)
	ctx, stop := context.WithTimeout(context.Background(), 5*time.Minute)
	defer stop()
	for range make([]int, 3) {
		if _, err := bus.StartKeeping(ctx, on, logs.New(io.Discard, "test"), "test", on.Settings); err != nil {
			t.Fatal(err)
		}
	}
	link, err := on.Connect(ctx, "test", "")
	if err != nil {
		t.Fatal(err)
	}
	appender, err := link.Appender()
	if err != nil {
		t.Fatal(err)
	}
	for endOf(on) < 1500 {
		if err := appender.Append(bus.LookRoute, bus.Headers{bus.MarkHeader: "x"}, nil); err != nil {
			t.Fatal(err)
		}
		if err := appender.Settle(); err != nil {
			t.Fatal(err)
		}
	}
	for endOf(on)-stated(on) > 600 && ctx.Err() == nil {
		time.Sleep(time.Millisecond)
	}
	end := endOf(on)
	first := end
	on.with(func() {
		on.Alter = func(message bus.Message) bus.Message {
			if message.Offset < first {
				first = message.Offset
			}
			return message
		}
	})
	found, err := bus.LookAtScale(link, bus.Scaling{})
	if err != nil || !reflect.DeepEqual(found.All, []bus.Settings{on.Settings}) {
		t.Fatal(found, err)
	}
	on.with(func() {
		if first < end-1100 {
			t.Errorf("it was read from %d on, and ended at %d", first, end)
		}
	})
}

// stated returns how much of the stream is written down, endOf its last offset.
func stated(on *live) (upto int64) {
	on.with(func() {
		for _, message := range on.Stream(bus.Scale).Messages {
			if message.Headers["kind"] == "state" && message.Headers["upto"].(int64) > upto {
				upto = message.Headers["upto"].(int64)
			}
		}
	})
	return upto
}

func endOf(on *live) (end int64) {
	on.with(func() {
		messages := on.Stream(bus.Scale).Messages
		end = messages[len(messages)-1].Offset
	})
	return end
}
