// Package brokertest is a broker for tests. It opens connections and channels, declares queues, confirms messages, and gives
// each consumer the message that a test puts into its queue.
package brokertest

import (
	"bufio"
	"encoding/binary"
	"io"
	"net"
	"strings"
	"sync"
	"testing"
)

// A Broker is a test broker. Its functions set what it does with a queue.
type Broker struct {
	Address string
	// Confirms reports whether messages to a queue are confirmed.
	Confirms func(queue string) bool
	// Full reports whether a queue's first consumer gets a message.
	Full func(queue string) bool
	// Other reports whether a queue exists with other arguments.
	Other func(queue string) bool
	// Counts reports whether the broker answers requests for a queue's number of messages.
	Counts func(queue string) bool
	// Length is the reported number of messages of a queue.
	Length func(queue string) uint32
	// Refuses reports whether a queue can't be read, like a stream without a copy at this broker.
	Refuses func(queue string) bool
	// Ends reports whether a queue's consumers are ended, as if it were deleted.
	Ends func(queue string) bool

	// Missing reports whether a queue is missing.
	Missing func(queue string) bool
	// Dies reports whether the connection of a queue's consumer is ended, as for a quorum queue without a leader.
	Dies func(queue string) bool
	// Stands reports whether a channel that published to a queue hangs, and isn't closed.
	Stands func(queue string) bool
	// Nacks reports whether a queue rejects messages, like a quorum queue without members.
	Nacks func(queue string) bool

	mutex     sync.Mutex
	deleted   []string
	published []string
	consumed  []string
	givenUp   []string
}

// Start starts a broker that ends with the test.
func Start(t *testing.T) *Broker {
	always, never := func(string) bool { return true }, func(string) bool { return false }
	b := &Broker{Confirms: always, Counts: always, Full: never, Refuses: never, Ends: never, Other: never, Missing: never, Dies: never,
		Stands: never, Nacks: never, Length: func(string) uint32 { return 0 }}
	b.Address = "amqp://" + listen(t, b.serve)
	return b
}

// Silent returns an address that accepts connections and never answers.
func Silent(t *testing.T) string {
	return "amqp://" + listen(t, func(connection net.Conn) { io.Copy(io.Discard, connection) })
}

func listen(t *testing.T, serve func(net.Conn)) string {
	t.Helper()
	listener, err := net.Listen("tcp", "127.0.0.1:0")
	if err != nil {
		t.Fatal(err)
	}
	t.Cleanup(func() { listener.Close() })
	go func() {
		for {
			connection, err := listener.Accept()
			if err != nil {
				return
			}
			go func() {
				defer connection.Close()
				serve(connection)
			}()
		}
	}()
	return listener.Addr().String()
}

// GivenUp returns the tags of the consumers whose channels were closed.
func (b *Broker) GivenUp() []string {
	b.mutex.Lock()
	defer b.mutex.Unlock()
	return append([]string(nil), b.givenUp...)
}

// Published returns the queues to which messages were published.
func (b *Broker) Published() []string {
	b.mutex.Lock()
	defer b.mutex.Unlock()
	return append([]string(nil), b.published...)
}

// Deleted returns the deleted queues, in order.
func (b *Broker) Deleted() []string {
	b.mutex.Lock()
	defer b.mutex.Unlock()
	return append([]string(nil), b.deleted...)
}

// Consumed returns the tags of all consumers so far.
func (b *Broker) Consumed() []string {
	b.mutex.Lock()
	defer b.mutex.Unlock()
	return append([]string(nil), b.consumed...)
}

// A method is a class and a number in it.
type method struct{ class, number uint16 }

const (
	frameMethod = 1
	frameHeader = 2
	frameEnd    = 0xCE
	noWait      = 16   // bit of a queue's declaration
	hasHeaders  = 0x20 // bit of a message's properties
)

// A session is a connection.
type session struct {
	broker    *Broker
	to        net.Conn
	queues    map[uint16]string // the queue of the message that is coming on each channel
	hangs     map[uint16]bool   // the channels that hang
	published map[uint16]uint64
	delivered map[uint16]uint64
	tags      map[uint16]string // the consumer's tag of each channel
}

func (b *Broker) serve(connection net.Conn) {
	from := bufio.NewReader(connection)
	s := &session{broker: b, to: connection, queues: map[uint16]string{}, published: map[uint16]uint64{},
		delivered: map[uint16]uint64{}, tags: map[uint16]string{}, hangs: map[uint16]bool{}}
	if _, err := io.ReadFull(from, make([]byte, 8)); err != nil { // AMQP and its version
		return
	}
	s.send(0, method{10, 10}, []byte{0, 9, 0, 0, 0, 0}, long("PLAIN"), long("en_US"))
	for {
		head := make([]byte, 7)
		if _, err := io.ReadFull(from, head); err != nil {
			return
		}
		body := make([]byte, binary.BigEndian.Uint32(head[3:])+1)
		if _, err := io.ReadFull(from, body); err != nil {
			return
		}
		channel := binary.BigEndian.Uint16(head[1:])
		switch head[0] {
		case frameMethod:
			s.take(channel, method{binary.BigEndian.Uint16(body), binary.BigEndian.Uint16(body[2:])}, body[4:])
		case frameHeader: // messages in these tests are empty
			s.publish(channel)
		}
	}
}

// publish notes that a message has come.
func (s *session) publish(channel uint16) {
	queue := s.queues[channel]
	s.published[channel]++
	s.hangs[channel] = s.broker.Stands(queue)
	s.broker.mutex.Lock()
	s.broker.published = append(s.broker.published, queue)
	s.broker.mutex.Unlock()
	switch {
	case s.broker.Nacks(queue):
		s.send(channel, method{60, 120}, number(s.published[channel]), []byte{0})
	case s.broker.Confirms(queue):
		s.send(channel, method{60, 80}, number(s.published[channel]), []byte{0})
	}
}

// take answers a method.
func (s *session) take(channel uint16, m method, rest []byte) {
	switch m {
	case method{10, 11}: // the client says who it is
		s.send(0, method{10, 30}, []byte{0, 0, 0, 2, 0, 0, 0, 10})
	case method{10, 40}, method{20, 10}: // a connection, a channel
		s.send(channel, method{m.class, m.number + 1}, make([]byte, []int{1, 4}[m.class/10-1]))
	case method{20, 40}: // the end of a channel, whose number may be reused
		if s.hangs[channel] {
			return
		}
		s.close(channel)
		s.published[channel], s.delivered[channel] = 0, 0
		s.send(channel, method{20, 41})
	case method{85, 10}, method{60, 10}, method{10, 50}: // confirms, a window, an end
		s.send(channel, method{m.class, m.number + 1})
	case method{50, 10}: // a queue
		queue := text(rest[2:])
		if s.broker.Other(queue) {
			s.send(channel, method{20, 40}, []byte{406 >> 8, 406 & 255}, short("PRECONDITION_FAILED - inequivalent arg"), []byte{0, 50, 0, 10})
			return
		}
		if isWaiting := rest[3+len(queue)]&noWait == 0; isWaiting && !s.broker.Counts(queue) {
			return
		} else if isWaiting {
			s.send(channel, method{50, 11}, short(queue), number(uint64(s.broker.Length(queue))<<32))
		}
	case method{50, 40}: // the end of a queue
		s.broker.mutex.Lock()
		s.broker.deleted = append(s.broker.deleted, text(rest[2:]))
		s.broker.mutex.Unlock()
		s.send(channel, method{50, 41}, []byte{0, 0, 0, 0})
	case method{60, 40}: // a message
		exchange := text(rest[2:])
		s.queues[channel] = text(rest[3+len(exchange):])
		if exchange != "" { // the routing key is the queue's name without its prefix
			s.queues[channel] = prefix + s.queues[channel]
		}
	case method{60, 20}: // a consumer
		queue := text(rest[2:])
		s.consume(channel, queue, text(rest[3+len(queue):]))
	}
}

// consume lets a channel read a queue.
func (s *session) consume(channel uint16, queue, tag string) {
	b := s.broker
	if b.Missing(queue) {
		s.send(channel, method{20, 40}, []byte{404 >> 8, 404 & 255}, short("NOT_FOUND"), []byte{0, 60, 0, 20})
		return
	}
	b.mutex.Lock()
	b.consumed = append(b.consumed, tag)
	s.tags[channel] = tag
	b.mutex.Unlock()
	if b.Refuses(queue) {
		s.send(channel, method{20, 40}, []byte{406 >> 8, 406 & 255}, short("no copy is here"), []byte{0, 60, 0, 20})
		return
	}
	s.send(channel, method{60, 21}, short(tag))
	if b.Dies(queue) {
		s.send(0, method{10, 50}, []byte{541 >> 8, 541 & 255}, short("INTERNAL_ERROR"), []byte{0, 0, 0, 0})
		return
	}
	if b.Full(queue) {
		s.deliver(channel, tag, queue)
	}
	if b.Ends(queue) {
		s.send(channel, method{60, 30}, short(tag), []byte{1})
	}
}

// close gives up the consumer of a channel.
func (s *session) close(channel uint16) {
	b := s.broker
	b.mutex.Lock()
	defer b.mutex.Unlock()
	if tag, is := s.tags[channel]; is {
		b.givenUp = append(b.givenUp, tag)
		delete(s.tags, channel)
	}
}

// FirstOffset is the offset of the message that a consumer gets.
const FirstOffset = 40

func (s *session) deliver(channel uint16, tag, queue string) {
	s.delivered[channel]++
	s.send(channel, method{60, 60}, short(tag), number(s.delivered[channel]), []byte{0}, short(""), short(queue))
	table := append(append(short("x-stream-offset"), 'l'), number(FirstOffset)...)
	head := []byte{0, 60, 0, 0, 0, 0, 0, 0, 0, 0, 0, 0, hasHeaders, 0, 0, 0, 0, byte(len(table))}
	s.frame(frameHeader, channel, append(head, table...))
}

func (s *session) send(channel uint16, m method, parts ...[]byte) {
	head := []byte{byte(m.class >> 8), byte(m.class), byte(m.number >> 8), byte(m.number)}
	for _, part := range parts {
		head = append(head, part...)
	}
	s.frame(frameMethod, channel, head)
}

func (s *session) frame(kind byte, channel uint16, payload []byte) {
	frame := []byte{kind, byte(channel >> 8), byte(channel), 0, 0, 0, 0}
	binary.BigEndian.PutUint32(frame[3:], uint32(len(payload)))
	s.to.Write(append(append(frame, payload...), frameEnd))
}

func text(at []byte) string { return string(at[1 : 1+at[0]]) }

func short(text string) []byte { return append([]byte{byte(len(text))}, text...) }

func long(text string) []byte {
	return append([]byte{0, 0, 0, byte(len(text))}, text...)
}

func number(value uint64) []byte {
	bytes := make([]byte, 8)
	binary.BigEndian.PutUint64(bytes, value)
	return bytes
}

// prefix begins the name of each queue.
const prefix = "desk.2."

// Is reports whether a queue belongs to a partition and has this kind.
func Is(queue, kind, partition string) bool {
	return strings.HasPrefix(queue, prefix+kind+"."+partition+".of.")
}
