package broker

import (
	"context"
	"errors"
	"fmt"

	amqp "github.com/rabbitmq/amqp091-go"

	"gateway/rabbit/bus"
	"gateway/rabbit/logs"
)

// SegmentBytes is the size of a stream's files. A broker that becomes a stream's leader first reads the newest file message by
// message, which takes long with RabbitMQ's default of 500 MB.
const SegmentBytes = 8 << 20

// progressPartitions is how many partitions are declared between two reports.
const progressPartitions = 64

// Declare makes the missing exchanges and the queues of all partitions. Existing streams with files of another size are kept.
func (b Broker) Declare(ctx context.Context, settings bus.Settings, log *logs.Log) error {
	d := declaring{broker: b, settings: settings, log: log, segment: SegmentBytes}
	return bus.Again(ctx, b, log, d.run)
}

// Leave unbinds the logs of these closed partitions, so that lines sent to them come back.
func (b Broker) Leave(ctx context.Context, settings bus.Settings) error {
	link, err := b.connect(ctx, "desk partition rescale", "")
	if err != nil {
		return err
	}
	defer link.Close()
	return link.leave(settings.Each())
}

// leave unbinds the logs of these partitions.
func (l *Link) leave(partitions []bus.Partition) error {
	channel, err := l.channel()
	if err != nil {
		return err
	}
	for _, partition := range partitions {
		for _, topic := range []bus.Topic{bus.TopicLines, bus.TopicModels} {
			route := partition.Route(bus.RequestsExchange, topic)
			if err := channel.QueueUnbind(partition.Queue(bus.Lines), route.Key, route.Exchange, nil); err != nil {
				return l.Because(fmt.Errorf("partition %v: %w", partition, err))
			}
		}
	}
	return l.end(channel)
}

// errSegment means that existing streams may have files of another size. They are kept.
var errSegment = errors.New("a queue is there with other arguments, and is tried without the length of files")

// mostRefusals is how often in a row a lease may take no message before its queue is made again.
const mostRefusals = 3

// A leaseFault means that a partition's lease takes no message. RabbitMQ 3.10 leaves a quorum queue so forever if it was
// declared while the other brokers were unreachable.
type leaseFault struct{ reason error }

func (f *leaseFault) Error() string { return "its lease takes no message: " + f.reason.Error() }

func (f *leaseFault) Unwrap() error { return f.reason }

// A declaring is the state of Declare.
type declaring struct {
	broker   Broker
	settings bus.Settings
	log      *logs.Log
	next     int   // the next partition
	segment  int64 // the size of its streams' files, or 0 if existing ones have another
	refusals int   // how often in a row its lease took no message
}

func (d *declaring) run(ctx context.Context) error {
	link, err := d.broker.connect(ctx, "desk partition --declare", "")
	if err != nil {
		return err
	}
	defer link.Close()
	for d.next < d.settings.Partitions {
		if err := d.declareNext(link); err != nil {
			return fmt.Errorf("partition %d: %w", d.next, err)
		}
		d.segment, d.refusals = SegmentBytes, 0
		if d.next++; d.next%progressPartitions == 0 {
			d.log.Info("%d of %d partitions are declared", d.next, d.settings.Partitions)
		}
	}
	return nil
}

func (d *declaring) declareNext(link *Link) error {
	if d.refusals >= mostRefusals {
		d.log.Warning("partition %d: its lease takes no message, and is made anew", d.next)
		if err := link.deleteLease(d.settings, d.next); err != nil {
			return err
		}
		d.refusals = 0
	}
	err := link.declare(d.settings, d.next, d.segment)
	if isOther(err) && d.segment > 0 { // existing streams may have files of another size; nothing else may differ
		d.segment = 0
		return errSegment
	}
	if fault := (*leaseFault)(nil); errors.As(err, &fault) {
		d.refusals++
	}
	return err
}

// deleteLease deletes a partition's lease. It has no data, and its holder ends its ownership.
func (l *Link) deleteLease(settings bus.Settings, partition int) error {
	channel, err := l.channel()
	if err != nil {
		return err
	}
	if _, err := channel.QueueDelete(settings.Queue(bus.Lease, partition), false, false, false); err != nil {
		return l.Because(fmt.Errorf("deleting its lease: %w", err))
	}
	return l.end(channel)
}

// declare makes a partition's exchanges and queues. It doesn't ask for message counts: the broker would ask the queue leader's
// node, and wait without end. Then it marks the answers, so that readers need not wait for a first message, and puts a message
// into the lease, which must take it.
func (l *Link) declare(settings bus.Settings, partition int, segment int64) error {
	channel, err := l.channel()
	if err != nil {
		return err
	}
	if err := declareOn(channel, settings, partition, segment); err != nil {
		return l.Because(err)
	}
	if err := l.end(channel); err != nil {
		return err
	}
	publisher, err := l.publisher()
	if err != nil {
		return err
	}
	route := settings.Route(bus.AnswersExchange, bus.TopicMarks, partition)
	if err := publisher.Append(route, bus.Headers{bus.MarkHeader: "declared"}, nil); err != nil {
		return err
	}
	if err := publisher.Settle(); err != nil {
		return err
	}
	if err := publisher.Append(settings.Route(bus.AnswersExchange, bus.TopicLease, partition), nil, nil); err != nil {
		return err
	}
	if err := publisher.Settle(); err != nil {
		return &leaseFault{err}
	}
	return publisher.Close()
}

func declareOn(channel *amqp.Channel, settings bus.Settings, partition int, segment int64) error {
	for _, exchange := range []string{bus.RequestsExchange, bus.AnswersExchange} {
		if err := channel.ExchangeDeclare(exchange, amqp.ExchangeTopic, true, false, false, true, nil); err != nil {
			return fmt.Errorf("exchange %s: %w", exchange, err)
		}
	}
	for queue, arguments := range arguments(settings, partition, segment) {
		if err := declareQueue(channel, settings, partition, queue, arguments); err != nil {
			return err
		}
	}
	return nil
}

// declareQueue makes and binds a queue of a partition, or the registry.
func declareQueue(channel *amqp.Channel, settings bus.Settings, partition int, queue string, arguments amqp.Table) error {
	if _, err := channel.QueueDeclare(queue, true, false, false, true, arguments); err != nil {
		return fmt.Errorf("queue %s: %w", queue, err)
	}
	for _, b := range settings.Bindings(partition) {
		if b.Queue != queue {
			continue
		}
		if err := channel.QueueBind(queue, b.Route.Key, b.Route.Exchange, true, nil); err != nil {
			return fmt.Errorf("queue %s: %w", queue, err)
		}
	}
	return nil
}

// arguments returns the queue arguments of a partition, and of the registry.
func arguments(s bus.Settings, partition int, segment int64) map[string]amqp.Table {
	stream := amqp.Table{"x-queue-type": "stream", "x-queue-leader-locator": "least-leaders"}
	if segment > 0 {
		stream["x-stream-max-segment-size-bytes"] = segment
	}
	return map[string]amqp.Table{
		s.Queue(bus.Lines, partition):   stream,
		s.Queue(bus.Answers, partition): stream,
		s.Queue(bus.Lease, partition):   {"x-queue-type": "quorum", "x-single-active-consumer": true, "x-max-length": int64(1)},
		bus.Registry:                    {"x-queue-type": "stream", "x-queue-leader-locator": "least-leaders"},
		bus.Scale:                       {"x-queue-type": "stream", "x-queue-leader-locator": "least-leaders"},
	}
}
