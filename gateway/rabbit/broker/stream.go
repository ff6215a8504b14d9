package broker

import (
	"errors"
	"fmt"
	"sync"
	"time"

	amqp "github.com/rabbitmq/amqp091-go"

	"gateway/rabbit/bus"
)

// offsetHeader is the header with a message's offset, and with the offset at which a reader begins.
const offsetHeader = "x-stream-offset"

// A Stream is a reader of a stream.
type Stream struct {
	link     *Link
	channel  *amqp.Channel
	arrivals chan bus.Message
	together int // how many messages are acknowledged together, which is less work for the broker
	taken    int // since the last of them
	last     amqp.Delivery
	closed   chan struct{}
	mutex    sync.Mutex // is held while a message is acknowledged or the channel is closed
	isClosed bool
}

// offsetOf returns where a reader begins, in the broker's form.
func offsetOf(from bus.From) interface{} {
	switch from.Place {
	case bus.Last:
		return "last"
	case bus.Next:
		return "next"
	case bus.At:
		return from.Offset
	case bus.Since:
		return from.Since
	}
	return "first"
}

// Read reads a stream.
func (l *Link) Read(what bus.Reading) (bus.Reader, error) {
	stream, err := l.read(what)
	if err != nil {
		return nil, err
	}
	return stream, nil
}

func (l *Link) read(what bus.Reading) (*Stream, error) {
	channel, err := l.channel()
	if err != nil {
		return nil, err
	}
	if err := channel.Qos(what.Window, 0, false); err != nil {
		return nil, l.Because(fmt.Errorf("reading %s: %w", what.Stream, err))
	}
	deliveries, err := channel.Consume(what.Stream, "", false, false, false, false, amqp.Table{offsetHeader: offsetOf(what.From)})
	if err != nil {
		return nil, l.Because(fmt.Errorf("reading %s: %w", what.Stream, err))
	}
	s := &Stream{link: l, channel: channel, arrivals: make(chan bus.Message), together: 1, closed: make(chan struct{})}
	if what.Window >= 8 {
		s.together = what.Window / 4
	}
	go s.handOn(deliveries)
	return s, nil
}

// handOn passes the messages on one by one, and acknowledges them so that more come.
func (s *Stream) handOn(deliveries <-chan amqp.Delivery) {
	defer close(s.arrivals)
	rest := time.NewTimer(acknowledgePause)
	defer rest.Stop()
	for {
		var err error
		select {
		case delivery, open := <-deliveries:
			if !open {
				return
			}
			message, fault := messageOf(delivery)
			if fault != nil {
				s.link.Fail(fault)
				return
			}
			select {
			case s.arrivals <- message:
			case <-s.closed:
				return
			case <-s.link.Done():
				return
			}
			if s.taken == 0 {
				rest.Reset(acknowledgePause)
			}
			s.taken, s.last = s.taken+1, delivery
			if s.taken >= s.together {
				err = s.acknowledge()
			}
		case <-rest.C:
			err = s.acknowledge()
		}
		if err != nil {
			s.link.Fail(s.link.Because(fmt.Errorf("reading a stream: %w", err)))
			return
		}
	}
}

// acknowledgePause limits how long a message waits to be acknowledged with others: the broker ends a reader that leaves one for
// too long.
const acknowledgePause = time.Second

// acknowledge lets the broker send more messages. Nothing may be sent on a channel that is being closed.
func (s *Stream) acknowledge() error {
	s.mutex.Lock()
	defer s.mutex.Unlock()
	if s.isClosed || s.taken == 0 {
		return nil
	}
	err := s.last.Ack(s.taken > 1)
	s.taken = 0
	return err
}

// messageOf returns a delivery as a message.
func messageOf(delivery amqp.Delivery) (bus.Message, error) {
	offset, is := delivery.Headers[offsetHeader].(int64)
	if !is {
		return bus.Message{}, fmt.Errorf("reading a stream: a message without an offset")
	}
	return bus.Message{Offset: offset, At: bus.Route{Exchange: delivery.Exchange, Key: delivery.RoutingKey},
		Headers: bus.Headers(delivery.Headers), Body: delivery.Body, Sent: delivery.Timestamp}, nil
}

// Arrivals has the messages.
func (s *Stream) Arrivals() <-chan bus.Message { return s.arrivals }

// Ended returns why no more come.
func (s *Stream) Ended() error { return s.link.Because(errors.New("the stream's reader ended")) }

// Next waits for the next message.
func (s *Stream) Next() (bus.Message, error) {
	late := time.NewTimer(bus.Patience)
	defer late.Stop()
	select {
	case message, open := <-s.arrivals:
		if !open {
			return bus.Message{}, s.Ended()
		}
		return message, nil
	case <-s.link.Done():
		return bus.Message{}, s.link.Err()
	case <-late.C:
		return bus.Message{}, fmt.Errorf("no message for %v", bus.Patience)
	}
}

// Close ends the reading.
func (s *Stream) Close() error {
	s.mutex.Lock()
	s.isClosed = true
	close(s.closed)
	s.mutex.Unlock()
	return s.link.end(s.channel)
}

// An end asks how many messages a stream has, which costs the broker almost nothing. The offset of the first message is looked
// up at the start, and whenever there are fewer messages than before: a reader costs the broker more the more files the stream
// has.
//
// The broker also counts entries that no reader gets: each file but the first begins with one. It counts from the start of the
// leader's copy, while a reader gets the first message of its own broker's copy. So after retention the end may be too high.
type end struct {
	link          *Link
	queue         string
	channel       *amqp.Channel
	first, before int64
}

// End opens a channel for the requests. The broker may ask the stream's leader, and wait for it without end.
func (l *Link) End(stream string) (bus.End, error) {
	channel, err := l.loose()
	if err != nil {
		return nil, err
	}
	return &end{link: l, queue: stream, channel: channel}, nil
}

// Offset returns the offset of the last message, some seconds ago.
func (e *end) Offset() (int64, error) {
	state, err := e.channel.QueueDeclarePassive(e.queue, true, false, false, false, nil)
	if err != nil {
		return 0, fmt.Errorf("counting the messages of %s: %w", e.queue, err)
	}
	count := int64(state.Messages)
	if e.before == 0 || count < e.before {
		if e.first, err = e.link.First(e.queue); err != nil {
			return 0, err
		}
	}
	if e.before = count; count == 0 {
		return -1, nil
	}
	return e.last(), nil
}

func (e *end) last() int64 { return e.first + e.before - 1 }

// AtMost corrects the offset from which messages are counted.
func (e *end) AtMost(offset int64) {
	if over := e.last() - offset; over > 0 {
		e.first -= over
	}
}

// First returns the offset of the first message of a non-empty stream.
func (l *Link) First(queue string) (int64, error) {
	stream, err := l.read(bus.Reading{Stream: queue, Window: 1, Brief: true})
	if err != nil {
		return 0, err
	}
	first, err := stream.Next()
	if err != nil {
		return 0, err
	}
	return first.Offset, stream.Close()
}
