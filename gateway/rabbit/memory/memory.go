// Package memory is a bus in memory. A seeded scheduler decides what happens to each message: it is in its stream and
// confirmed, or there without a confirm, or comes later, or never; and what retention cuts. It delivers nothing by itself: the
// mover of a process lets its link have one confirm or message at a time, so a history is reproducible.
package memory

import (
	"context"
	"errors"
	"fmt"
	"math/rand"
	"time"

	"gateway/rabbit/bus"
)

// A Bus is a bus in memory.
type Bus struct {
	Settings bus.Settings
	Clock    time.Time
	Steady   bool // whether nothing fails any more
	// Older means that an older program declared the partitions, so no stream has their number.
	Older bool
	// Rewrite changes what is appended, Alter what is read; nil changes nothing. Tests use them to break a rule.
	Rewrite func(bus.Route, bus.Headers) bus.Headers
	Alter   func(bus.Message) bus.Message
	random  *rand.Rand
	streams map[string]*Stream
	led     map[bus.Route][]string // the streams to which each route leads
	late    []func()               // appends late messages
}

// A Stream has all messages ever appended. Those before Cut are cut.
type Stream struct {
	Messages []bus.Message
	Cut      int
	next     int64 // the next offset
}

// New returns a bus with empty streams, except for a mark in each answer stream and the number of partitions. The seed decides
// everything.
func New(random *rand.Rand, settings bus.Settings) *Bus {
	b := &Bus{Settings: settings, Clock: time.Unix(1_700_000_000, 0), random: random, streams: map[string]*Stream{}, led: map[bus.Route][]string{}}
	b.Declare(settings)
	b.append(bus.ScaleRoute, bus.DeclaredHeaders(settings.Partitions), nil)
	return b
}

// Declare makes the missing streams of partitions.
func (b *Bus) Declare(settings bus.Settings) {
	for _, partition := range settings.Each() {
		for _, binding := range settings.Bindings(partition.Number) {
			b.Stream(binding.Queue)
			b.lead(binding)
		}
		b.append(partition.Route(bus.AnswersExchange, bus.TopicMarks), bus.Headers{bus.MarkHeader: "declared"}, nil)
	}
}

// Leave unbinds the logs of partitions.
func (b *Bus) Leave(settings bus.Settings) {
	for _, partition := range settings.Each() {
		for _, topic := range []bus.Topic{bus.TopicLines, bus.TopicModels} {
			delete(b.led, partition.Route(bus.RequestsExchange, topic))
		}
	}
}

// lead binds a route to a stream.
func (b *Bus) lead(binding bus.Binding) {
	for _, queue := range b.led[binding.Route] {
		if queue == binding.Queue {
			return
		}
	}
	b.led[binding.Route] = append(b.led[binding.Route], binding.Queue)
}

// Stream returns the stream of this name.
func (b *Bus) Stream(name string) *Stream {
	if b.streams[name] == nil {
		b.streams[name] = &Stream{}
	}
	return b.streams[name]
}

// IsMissing reports whether a stream is missing.
func (b *Bus) IsMissing(name string) bool {
	return b.streams[name] == nil || b.Older && name == bus.Scale
}

// Chance is true once in of times.
func (b *Bus) Chance(of int) bool { return b.random.Intn(of) == 0 }

// append appends a message to the streams of its route. Like RabbitMQ, the bus uses an offset itself now and then.
func (b *Bus) append(to bus.Route, headers bus.Headers, body []byte) {
	b.Clock = b.Clock.Add(time.Second)
	for _, queue := range b.led[to] {
		s := b.Stream(queue)
		if len(s.Messages) > 0 && b.Chance(30) {
			s.next++
		}
		s.Messages = append(s.Messages, bus.Message{Offset: s.next, At: to, Headers: headers, Body: body, Sent: b.Clock})
		s.next++
	}
}

// Late returns how many messages come later; Come lets the first of them come.
func (b *Bus) Late() int { return len(b.late) }

// Come appends the first late message.
func (b *Bus) Come() {
	first := b.late[0]
	b.late = b.late[1:]
	first()
}

// Connect opens a connection.
func (b *Bus) Connect(ctx context.Context, name, last string) (bus.Link, error) {
	return &Link{bus: b, done: make(chan struct{})}, nil
}

// Judge lets each failure pass, except a missing stream.
func (b *Bus) Judge(failure error) bus.Judgement {
	if errors.Is(failure, bus.ErrMissing) {
		return bus.Missing
	}
	return bus.Passing
}

// Pause advances the clock.
func (b *Bus) Pause(_ context.Context, long time.Duration) { b.Clock = b.Clock.Add(long) }

// ErrLink means that a connection was lost.
var ErrLink = errors.New("the connection was lost")

// A Link is a connection.
type Link struct {
	bus       *Bus
	done      chan struct{}
	err       error
	appenders []*Appender
	readers   []*Reader
}

// Appender opens a way to append.
func (l *Link) Appender() (bus.Appender, error) {
	if l.err != nil {
		return nil, l.err
	}
	a := &Appender{link: l, confirms: make(chan error, 64)}
	l.appenders = append(l.appenders, a)
	return a, nil
}

// Read reads a stream.
func (l *Link) Read(what bus.Reading) (bus.Reader, error) {
	if l.err != nil {
		return nil, l.err
	}
	if l.bus.IsMissing(what.Stream) {
		l.Fail(fmt.Errorf("%s: %w", what.Stream, bus.ErrMissing))
		return nil, l.err
	}
	s := l.bus.Stream(what.Stream)
	r := &Reader{link: l, stream: s, arrivals: make(chan bus.Message, 1)}
	switch what.From.Place {
	case bus.At:
		r.next = what.From.Offset
	case bus.Next:
		r.next = s.next
	case bus.Last:
		if r.next = s.next; len(s.Messages) > s.Cut {
			together := 1 + l.bus.random.Intn(min(4, len(s.Messages)-s.Cut))
			r.next = s.Messages[len(s.Messages)-together].Offset
		}
	}
	l.readers = append(l.readers, r)
	return r, nil
}

func min(a, b int) int {
	if a < b {
		return a
	}
	return b
}

// First returns the offset of the first message that is left.
func (l *Link) First(stream string) (int64, error) {
	s := l.bus.Stream(stream)
	if l.err != nil || len(s.Messages) == s.Cut {
		return 0, errors.New("there is no message")
	}
	return s.Messages[s.Cut].Offset, nil
}

// End watches the end of a stream.
func (l *Link) End(stream string) (bus.End, error) { return l.bus.Stream(stream), l.err }

// Offset returns the offset of the last message.
func (s *Stream) Offset() (int64, error) { return s.next - 1, nil }

// AtMost has nothing to correct.
func (s *Stream) AtMost(int64) {}

// Own returns one of the partitions, no matter who else owns it.
func (l *Link) Own(_ context.Context, partitions []bus.Partition, _ func([]bus.Partition)) (bus.Partition, error) {
	return partitions[l.bus.random.Intn(len(partitions))], l.err
}

// Address returns where the link leads to.
func (l *Link) Address() string { return "memory" }

// Done returns a channel that is closed once the link has ended.
func (l *Link) Done() <-chan struct{} { return l.done }

// Err returns why the link ended.
func (l *Link) Err() error { return l.err }

// Fail ends the link. Unconfirmed messages are there, come later, or never.
func (l *Link) Fail(reason error) {
	if l.err != nil {
		return
	}
	l.err = reason
	close(l.done)
	for _, a := range l.appenders {
		for _, message := range a.open[a.confirmed:] {
			l.bus.lose(message)
		}
	}
}

// Close ends the link.
func (l *Link) Close() { l.Fail(errors.New("it was closed")) }

// lose decides what happens to a message whose link has ended.
func (b *Bus) lose(m appended) {
	named, isLine := m.headers["named"].(bool)
	switch choice := b.random.Intn(3); {
	case choice == 0:
		b.append(m.to, m.headers, m.body)
	case choice == 1 && !b.Steady && (named || !isLine): // a sender without a name is forgotten after its end
		b.late = append(b.late, func() { b.append(m.to, m.headers, m.body) })
	}
}

// Confirm appends and confirms the first unconfirmed message, or the link is lost.
func (l *Link) Confirm(lost int) {
	for _, a := range l.appenders {
		if a.waits() {
			a.one(lost)
			return
		}
	}
}

// Waits reports whether a message is unconfirmed.
func (l *Link) Waits() bool {
	for _, a := range l.appenders {
		if l.err == nil && a.waits() {
			return true
		}
	}
	return false
}

// IsTold reports whether the link has ended, or has a confirm that wasn't taken.
func (l *Link) IsTold() bool {
	for _, a := range l.appenders {
		if a.confirmed > 0 {
			return true
		}
	}
	return l.err != nil
}

// Due reports whether there is a message for a reader of the link.
func (l *Link) Due() bool {
	for _, r := range l.readers {
		if l.err == nil && !r.closed && r.at() < len(r.stream.Messages) {
			return true
		}
	}
	return false
}

// Deliver gives the link's reader its next message.
func (l *Link) Deliver() {
	for _, r := range l.readers {
		if !r.closed && r.at() < len(r.stream.Messages) {
			r.arrivals <- r.take()
			return
		}
	}
}

type appended struct {
	to      bus.Route
	headers bus.Headers
	body    []byte
}

// An Appender appends to streams in memory.
type Appender struct {
	link      *Link
	open      []appended
	confirmed int // how many of the first open messages have a confirm that isn't taken yet
	confirms  chan error
}

// waits reports whether a message is unconfirmed and each confirm before it is taken.
func (a *Appender) waits() bool { return len(a.open) > 0 && a.confirmed == 0 }

// Append appends a message, soon.
func (a *Appender) Append(to bus.Route, headers bus.Headers, body []byte) error {
	if a.link.err != nil {
		return a.link.err
	}
	copied := bus.Headers{}
	for name, value := range headers {
		copied[name] = value
	}
	if a.link.bus.Rewrite != nil {
		copied = a.link.bus.Rewrite(to, copied)
	}
	a.open = append(a.open, appended{to, copied, append([]byte(nil), body...)})
	return nil
}

// one appends and confirms the first message, or loses the link, once in lost times.
func (a *Appender) one(lost int) {
	if !a.link.bus.Steady && a.link.bus.Chance(lost) {
		a.link.Fail(ErrLink)
		return
	}
	m := a.open[0]
	a.confirmed++
	if len(a.link.bus.led[m.to]) == 0 {
		a.confirms <- fmt.Errorf("no queue for %s: %w", m.to.Key, bus.ErrMissing)
		return
	}
	a.link.bus.append(m.to, m.headers, m.body)
	a.confirms <- nil
}

// Open returns how many messages are unconfirmed.
func (a *Appender) Open() int { return len(a.open) }

// Confirms has a value for each message.
func (a *Appender) Confirms() <-chan error { return a.confirms }

// Take takes a confirm.
func (a *Appender) Take(confirm error, _ bool) error {
	a.open, a.confirmed = a.open[1:], a.confirmed-1
	return confirm
}

// seldom is how rarely a link is lost during a wait.
const seldom = 60

// Settle waits until all messages are confirmed.
func (a *Appender) Settle() error {
	for len(a.open) > 0 {
		if a.waits() && a.link.err == nil {
			a.one(seldom)
		}
		if a.link.err != nil {
			return a.link.err
		}
		if err := a.Take(<-a.confirms, true); err != nil {
			return err
		}
	}
	return nil
}

// Late never reports a late message.
func (a *Appender) Late() error { return nil }

// Close ends the appender.
func (a *Appender) Close() error { return a.link.err }

// A Reader reads a stream in memory.
type Reader struct {
	link     *Link
	stream   *Stream
	next     int64
	arrivals chan bus.Message
	closed   bool
}

// at returns the index of the next message that is left, or their number.
func (r *Reader) at() int {
	at := len(r.stream.Messages)
	for at > r.stream.Cut && r.stream.Messages[at-1].Offset >= r.next {
		at--
	}
	return at
}

func (r *Reader) take() bus.Message {
	message := r.stream.Messages[r.at()]
	r.next = message.Offset + 1
	copied := bus.Headers{}
	for name, value := range message.Headers {
		copied[name] = value
	}
	message.Headers = copied
	if r.link.bus.Alter != nil {
		return r.link.bus.Alter(message)
	}
	return message
}

// Arrivals has what is delivered.
func (r *Reader) Arrivals() <-chan bus.Message { return r.arrivals }

// Ended returns why no more comes.
func (r *Reader) Ended() error { return r.link.err }

// Next returns the next message. If there is none, what its link has appended comes, or the link is lost.
func (r *Reader) Next() (bus.Message, error) {
	if r.link.err == nil && !r.link.bus.Steady && r.link.bus.Chance(10*seldom) {
		r.link.Fail(ErrLink)
	}
	for r.link.err == nil && r.at() == len(r.stream.Messages) {
		if !r.link.Waits() {
			r.link.Fail(fmt.Errorf("no message: %w", ErrLink))
			break
		}
		r.link.Confirm(seldom)
	}
	if r.link.err != nil {
		return bus.Message{}, r.link.err
	}
	return r.take(), nil
}

// Close ends the reader.
func (r *Reader) Close() error {
	r.closed = true
	return r.link.err
}
