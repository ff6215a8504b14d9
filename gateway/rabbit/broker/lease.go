package broker

import (
	"context"
	"errors"
	"fmt"
	"math/rand"
	"strconv"
	"time"

	amqp "github.com/rabbitmq/amqp091-go"

	"gateway/rabbit/bus"
)

// The lease of a partition is a message in a quorum queue with a single active consumer. Whoever receives it owns the partition
// until the connection ends.

// renewal is how often the message is replaced by a new one. The broker ends an unacknowledged delivery after consumer_timeout:
// half an hour by default, one minute at least.
const renewal = 15 * time.Second

// Pauses after a lease that could not be requested, and after one without a queue.
const (
	askPause     = 2 * time.Second
	missingPause = 10 * time.Second
)

// gather is how long reports about missing queues are collected.
const gather = time.Second

// mostAsks is how often in a row requesting a lease may fail before another broker is tried.
const mostAsks = 3

// A held is the lease of one partition that this process holds.
type held struct {
	partition  bus.Partition
	route      bus.Route
	link       *Link
	channel    *amqp.Channel
	closed     chan *amqp.Error // has the reason if the broker ends the channel
	publisher  *Publisher       // on this channel
	deliveries <-chan amqp.Delivery
	message    amqp.Delivery
}

// Own waits until one of these partitions is free, and takes its lease. The lease is kept until the link fails; if it can't be
// kept, the link fails. missing is called again and again with the partitions that have no queues.
func (l *Link) Own(ctx context.Context, partitions []bus.Partition, missing func([]bus.Partition)) (bus.Partition, error) {
	w := &waiting{link: l, won: make(chan *held), asked: make(chan asked), over: make(chan struct{})}
	defer close(w.over)
	for _, at := range rand.Perm(len(partitions)) {
		go w.seek(partitions[at])
	}
	won, err := w.wait(ctx, missing)
	if err != nil {
		return bus.Partition{}, err
	}
	go won.keep()
	return won.partition, nil
}

// A waiting waits for the lease of any partition, each on its own channel, and takes the first. A problem with one queue, such
// as a missing leader, neither delays the others nor ends the link.
type waiting struct {
	link  *Link
	won   chan *held
	asked chan asked
	over  chan struct{} // is closed once a lease is won, or none is waited for any more
}

// An asked is why requesting a partition's lease failed, if it did, and how often in a row.
type asked struct {
	partition bus.Partition
	failure   error
	failures  int
}

// final returns the failure if another attempt at this broker doesn't help.
func (a asked) final() error {
	is := (Broker{}).Judge(a.failure)
	if isMissing(a.failure) || is == bus.Passing && a.failures < mostAsks {
		return nil
	}
	return fmt.Errorf("the lease of partition %v: %w", a.partition, a.failure)
}

func (w *waiting) wait(ctx context.Context, missing func([]bus.Partition)) (*held, error) {
	var gathered <-chan time.Time
	missed := make(map[bus.Partition]bool)
	for {
		select {
		case lease := <-w.won:
			return lease, nil
		case asked := <-w.asked:
			if err := asked.final(); err != nil {
				return nil, err
			}
			missed[asked.partition] = isMissing(asked.failure)
			if gathered == nil {
				gathered = time.After(gather)
			}
		case <-gathered:
			gathered = nil
			missing(those(missed))
		case <-w.link.Done():
			return nil, w.link.Err()
		case <-ctx.Done():
			return nil, ctx.Err()
		}
	}
}

// those returns the partitions whose value is true.
func those(is map[bus.Partition]bool) []bus.Partition {
	var found []bus.Partition
	for partition, so := range is {
		if so {
			found = append(found, partition)
		}
	}
	return found
}

// seek requests the lease of a partition again and again, until any lease is won.
func (w *waiting) seek(partition bus.Partition) {
	for failures := 0; ; {
		lease := &held{partition: partition, link: w.link, route: partition.Route(bus.AnswersExchange, bus.TopicLease)}
		failure := w.ask(lease)
		if failures++; failure == nil {
			failures = 0
		}
		select {
		case w.asked <- asked{partition, failure, failures}:
		case <-w.over:
		}
		if failure == nil && w.handOver(lease) {
			return
		}
		lease.giveUp()
		if !w.pause(failure) {
			return
		}
	}
}

// pause waits after a failure, and reports whether a lease is still wanted.
func (w *waiting) pause(failure error) bool {
	pause := askPause
	if isMissing(failure) {
		pause = missingPause
	}
	while := time.NewTimer(pause)
	defer while.Stop()
	select {
	case <-while.C:
		return true
	case <-w.over:
	case <-w.link.Done():
	}
	return false
}

// ask requests a lease, once its queue has confirmed a message and thus has a leader. RabbitMQ ends the whole connection of a
// consumer of a queue without one, and with it the lease of another partition.
func (w *waiting) ask(l *held) (err error) {
	if l.channel, err = w.link.loose(); err != nil {
		return err
	}
	l.closed = l.channel.NotifyClose(make(chan *amqp.Error, 1))
	if l.publisher, err = w.link.publisherOn(l.channel); err != nil {
		return err
	}
	if err := l.publisher.Append(l.route, nil, nil); err != nil { // a second message is dropped
		return err
	}
	if err := l.publisher.settleUnless(w.over); err != nil || w.isOver() {
		return l.because(err)
	}
	if err := l.channel.Qos(1, 0, false); err != nil {
		return err
	}
	l.deliveries, err = l.channel.Consume(l.partition.Queue(bus.Lease), strconv.Itoa(l.partition.Number), false, false, false, false, nil)
	return err
}

// handOver waits until this process has the lease, and hands it over if it is the first. It reports whether it was.
func (w *waiting) handOver(l *held) bool {
	select {
	case delivery, open := <-l.deliveries:
		if !open { // the broker ended the waiting, for example because the queue was deleted
			return false
		}
		l.message = delivery
	case <-w.over:
		return false
	case <-w.link.Done():
		return false
	}
	select {
	case w.won <- l:
		return true
	case <-w.over:
	case <-w.link.Done():
	}
	return false
}

func (w *waiting) isOver() bool {
	select {
	case <-w.over:
		return true
	default:
		return false
	}
}

// because returns the broker's reason for ending the channel, or else the error.
func (l *held) because(err error) error {
	select {
	case reason := <-l.closed:
		if reason != nil {
			return lost("a channel", reason)
		}
	default:
	}
	return err
}

// giveUp ends the channel, which returns the message. The consumer isn't cancelled first, as that would end the connection if
// the queue has no leader. A lease that doesn't go back is withheld from all others, so the link fails then. A channel without
// a consumer keeps nothing, and may hang in the broker for over a minute.
func (l *held) giveUp() {
	if l.channel == nil {
		return
	}
	closed := make(chan struct{})
	go func() {
		l.channel.Close()
		close(closed)
	}()
	if l.deliveries == nil {
		return
	}
	late := time.NewTimer(bus.Patience)
	defer late.Stop()
	select {
	case <-closed:
	case <-l.link.Done():
	case <-late.C:
		l.link.Fail(fmt.Errorf("the lease of partition %v: it was not given back for %v", l.partition, bus.Patience))
	}
}

// errTaken means that the broker ended the lease.
var errTaken = errors.New("it was taken away")

// keep renews the lease until the link fails, or fails the link.
func (l *held) keep() {
	var err error
	for err == nil {
		err = l.renew()
	}
	l.link.Fail(fmt.Errorf("the lease of partition %v: %w", l.partition, err))
}

// renew replaces the message by a new one, after a while.
func (l *held) renew() error {
	while := time.NewTimer(renewal)
	defer while.Stop()
	select {
	case <-while.C:
	case <-l.deliveries: // no second message comes before the first is acknowledged
		return l.because(errTaken)
	case <-l.link.Done():
		return l.link.Err()
	}
	if err := l.publisher.Append(l.route, nil, nil); err != nil {
		return err
	}
	if err := l.publisher.Settle(); err != nil {
		return err
	}
	if err := l.message.Ack(false); err != nil {
		return err
	}
	late := time.NewTimer(bus.Patience)
	defer late.Stop()
	select {
	case delivery, open := <-l.deliveries:
		if !open {
			return l.because(errTaken)
		}
		l.message = delivery
		return nil
	case <-l.link.Done():
		return l.link.Err()
	case <-late.C:
		return errors.New("it was not handed back")
	}
}

// isMissing reports whether the failure is that a queue is missing or down.
func isMissing(failure error) bool {
	var reason *amqp.Error
	return errors.Is(failure, bus.ErrMissing) || errors.As(failure, &reason) && reason.Code == amqp.NotFound
}
