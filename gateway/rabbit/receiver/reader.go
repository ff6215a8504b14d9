package receiver

import (
	"context"
	"errors"
	"fmt"
	"sync"
	"time"

	"gateway/rabbit/bus"
)

// A message is a message of one partition.
type message struct {
	partition bus.Partition
	over      bool // it is no message: the partition has ended
	bus.Message
}

// A Reader reads one partition's answers over its own connection. If one partition can't be read, the others continue.
type Reader struct {
	options   Options
	partition bus.Partition
	begin     bus.From      // where to begin
	follows   bool          // whether it continues others that were read: then it may skip no answer
	quiet     time.Duration // how long the stream may be silent at first; 0 means forever
	streams   int           // how many streams are read at once
	pause     time.Duration // how often to check whether there is something to read
	last      int64         // the offset of the last message passed on, or -1
	end       int64         // the end of the stream for which a silent broker was left
	left      string        // the address of that broker
	messages  chan<- message
	faults    chan<- error // takes a fatal error
	mutex     sync.Mutex
	tried     bool  // whether reading has worked or failed once
	failure   error // why the partition can't be read now
	later     bool  // whether there is a later number of partitions
}

// setLater notes whether there is a later number of partitions.
func (r *Reader) setLater(is bool) {
	r.mutex.Lock()
	defer r.mutex.Unlock()
	r.later = is
}

// isUnread reports whether nothing was read of a partition that may be closed.
func (r *Reader) isUnread() bool {
	r.mutex.Lock()
	defer r.mutex.Unlock()
	return r.later && r.last < 0
}

// Partition returns the reader's partition.
func (r *Reader) Partition() bus.Partition { return r.partition }

// work reads until the context ends.
func (r *Reader) work(ctx context.Context) {
	log := r.options.Log.OfPartition(r.partition)
	err := bus.Again(ctx, r.options.Bus, log, func(ctx context.Context) error {
		err := r.run(ctx)
		for errors.Is(err, errSilent) {
			err = r.run(ctx)
		}
		if ctx.Err() == nil {
			r.failed(err)
		}
		return err
	})
	var final *bus.Final
	if errors.As(err, &final) {
		select {
		case r.faults <- fmt.Errorf("partition %v: %w", r.partition, final.Reason):
		case <-ctx.Done():
		}
	}
}

// failed notes why the partition can't be read, or nil once it can.
func (r *Reader) failed(err error) {
	r.mutex.Lock()
	r.tried, r.failure = true, err
	r.mutex.Unlock()
	r.options.Gauges.Failed(r.partition, err)
}

func (r *Reader) isTried() bool {
	r.mutex.Lock()
	defer r.mutex.Unlock()
	return r.tried
}

// fault returns why the partition can't be read, or nil.
func (r *Reader) fault() error {
	r.mutex.Lock()
	defer r.mutex.Unlock()
	if r.failure == nil {
		return nil
	}
	return fmt.Errorf("partition %v can't be read: %w", r.partition, r.failure)
}

// run reads with one connection.
func (r *Reader) run(ctx context.Context) error {
	link, stream, err := r.Open(ctx)
	if errors.Is(err, errOver) {
		return r.reportOver(ctx)
	}
	if err != nil {
		return err
	}
	defer link.Close()
	r.failed(nil)
	silence, ticker := newSilence(link, r.partition.Queue(bus.Answers)), time.NewTicker(r.pause)
	defer ticker.Stop()
	quiet := after(r.quiet)
	for {
		select {
		case <-ticker.C:
			silence.look(r.last)
		case end := <-silence.ends:
			if err := r.leave(link, silence, end); err != nil {
				return err
			}
		case next, open := <-stream.Arrivals():
			if !open {
				return stream.Ended()
			}
			quiet = nil
			if err := r.handOn(ctx, link, next); err != nil {
				return err
			}
		case <-quiet:
			return r.reportOver(ctx)
		case <-link.Done():
			return link.Err()
		case <-ctx.Done():
			return ctx.Err()
		}
	}
}

// after returns a channel for when a time is over; never if it is 0.
func after(while time.Duration) <-chan time.Time {
	if while == 0 {
		return nil
	}
	return time.After(while)
}

// handOn passes a message on, unless the connection ends first.
func (r *Reader) handOn(ctx context.Context, link bus.Link, next bus.Message) error {
	select {
	case r.messages <- message{partition: r.partition, Message: next}:
		r.Took(next)
		return nil
	case <-link.Done():
		return link.Err()
	case <-ctx.Done():
		return ctx.Err()
	}
}

// reportOver reports the partition's end, and waits to be stopped.
func (r *Reader) reportOver(ctx context.Context) error {
	r.failed(nil)
	select {
	case r.messages <- message{partition: r.partition, over: true}:
		<-ctx.Done()
	case <-ctx.Done():
	}
	return ctx.Err()
}

// Open connects, and continues reading.
func (r *Reader) Open(ctx context.Context) (bus.Link, bus.Reader, error) {
	link, err := r.options.Bus.Connect(ctx, "desk receive", r.left)
	if err != nil {
		return nil, nil, err
	}
	stream, err := r.read(link)
	if err == nil {
		return link, stream, nil
	}
	link.Close()
	if r.isUnread() && !r.follows && r.options.Bus.Judge(err) == bus.Missing {
		r.options.Log.OfPartition(r.partition).Warning("its stream of answers was deleted, and nothing of it was read")
		err = errOver
	}
	return nil, nil, err
}

// errOver means that nothing of a partition is to be read: its log is closed, and its answers are before the wanted ones.
var errOver = errors.New("nothing of it is to be read")

// read reads the stream of answers.
func (r *Reader) read(link bus.Link) (bus.Reader, error) {
	from := r.begin
	if r.last >= 0 {
		from = bus.FromOffset(r.last)
	}
	r.quiet = 0
	if r.isUnread() && from.Place != bus.First {
		h, err := r.history(link)
		if err != nil {
			return nil, err
		}
		if h.Closed != (bus.Settings{}) {
			if from.Place == bus.Next || from.Place == bus.At && from.Offset > h.At || from.Place == bus.Since && !from.Since.Before(h.Sent) {
				return nil, errOver
			}
			r.quiet = quietTime
		}
	}
	stream, err := link.Read(bus.Reading{Stream: r.partition.Queue(bus.Answers), From: from, Window: bus.OpenOf(r.streams)})
	if err != nil {
		return nil, err
	}
	return stream, r.pin(link)
}

// history returns what the stream's end says.
func (r *Reader) history(link bus.Link) (*bus.History, error) {
	publisher, err := link.Appender()
	if err != nil {
		return nil, err
	}
	h, err := bus.ReadHistory(bus.HistoryOptions{Link: link, Partition: r.partition, Open: bus.MostOpen}, publisher)
	if err != nil {
		return nil, err
	}
	return h, publisher.Close()
}

// quietTime is how long a closed stream that is read from a time on may be silent: then all of it is before that time.
const quietTime = 10 * time.Second

// Took notes that a message was passed on.
func (r *Reader) Took(message bus.Message) {
	r.mutex.Lock()
	defer r.mutex.Unlock()
	r.last = message.Offset
}

// pin publishes a mark in a stream that is read from its end on and of which nothing was read yet. This gives a place to
// continue from, so that answers during the receiver's absence are not missed.
func (r *Reader) pin(link bus.Link) error {
	if r.begin.Place != bus.Next || r.last >= 0 {
		return nil
	}
	publisher, err := link.Appender()
	if err != nil {
		return err
	}
	route := r.partition.Route(bus.AnswersExchange, bus.TopicMarks)
	if err := publisher.Append(route, bus.Headers{bus.MarkHeader: "desk receive"}, nil); err != nil {
		return err
	}
	if err := publisher.Settle(); err != nil {
		return err
	}
	return publisher.Close()
}
