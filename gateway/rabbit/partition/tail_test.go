package partition

import (
	"context"
	"math/rand"
	"testing"
	"time"

	"gateway/rabbit/bus"
	"gateway/rabbit/memory"
)

// A high end is too high until it is corrected.
type high struct {
	bus.End
	over, said int64
}

func (h *high) Offset() (int64, error) {
	last, err := h.End.Offset()
	h.said = last + h.over
	return h.said, err
}

func (h *high) AtMost(offset int64) {
	if h.said > offset {
		h.over -= h.said - offset
	}
}

// owned returns an owner in memory; the test moves its tail.
func owned(t *testing.T) (o *Owner, link *memory.Link, log *memory.Stream) {
	t.Helper()
	b := memory.New(rand.New(rand.NewSource(1)), settings)
	b.Steady = true
	opened, err := b.Connect(context.Background(), "", "")
	if err != nil {
		t.Fatal(err)
	}
	options := Options{Bus: b, Settings: settings, Log: silent, Gauges: NewGauges(), Now: time.Now}
	if o, err = Begin(options, opened, settings.Each()[0], bus.Scaling{}); err != nil {
		t.Fatal(err)
	}
	o.tail = newTail(o.markEnd)
	return o, opened.(*memory.Link), b.Stream(o.lines)
}

// readAll lets the owner read what is there.
func readAll(o *Owner, link *memory.Link) {
	for link.Due() {
		link.Deliver()
		o.intake.take(<-o.stream.Arrivals())
	}
	o.reportLag()
}

func looks(t *testing.T, o *Owner, end bus.End, count int) {
	t.Helper()
	for ; count > 0; count-- {
		if err := o.tail.look(end); err != nil {
			t.Fatal(err)
		}
	}
}

// If the bus reports the log's end too high, as RabbitMQ does after retention, the owner marks it once, and has then read
// everything.
func TestAnEndThatIsTooHigh(t *testing.T) {
	o, link, log := owned(t)
	readAll(o, link)
	end, before := &high{End: log, over: 3}, len(log.Messages)
	looks(t, o, end, 1)
	if unread := o.unread(); unread != 3 {
		t.Fatalf("%d messages seem to be there", unread)
	}
	for range make([]int, 5) {
		looks(t, o, end, 1)
		readAll(o, link)
	}
	if marks := len(log.Messages) - before; o.unread() != 0 || o.gauges.unread != 0 || marks != 1 {
		t.Errorf("%d messages seem to be there, %v are reported, after %d marks", o.unread(), o.gauges.unread, marks)
	}
}

// An owner that has read everything marks nothing, however long it is idle.
func TestAnEndThatIsRight(t *testing.T) {
	o, link, log := owned(t)
	readAll(o, link)
	before := len(log.Messages)
	looks(t, o, log, 20)
	if marks := len(log.Messages) - before; marks != 0 {
		t.Errorf("%d marks", marks)
	}
}

// An owner with a lost reader marks the end once, and its unread messages stay known.
func TestUnreadMessagesStayKnown(t *testing.T) {
	o, link, log := owned(t)
	readAll(o, link)
	if _, err := o.markEnd(); err != nil { // a message that it doesn't read
		t.Fatal(err)
	}
	before := len(log.Messages)
	looks(t, o, log, 20)
	if marks := len(log.Messages) - before; marks != 1 || o.unread() == 0 {
		t.Errorf("%d marks, %d messages are there", marks, o.unread())
	}
}
