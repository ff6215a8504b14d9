package broker

import (
	"context"
	"errors"
	"fmt"

	"gateway/rabbit/answer"
	"gateway/rabbit/bus"
	"gateway/rabbit/ledger"
	"gateway/rabbit/logs"
)

// fillOpen is how many marks are unconfirmed while a log is filled.
const fillOpen = 1000

// A Repair makes the log of a partition again, from its answers and their last snapshot. The new log's offsets continue those
// of the old one, so that places stay in order. It is filled with marks up to there.
type Repair struct {
	Partition bus.Partition
	// After is set if there is another number of partitions since. The new log is closed then, as the old one was or would have
	// been.
	After   bus.Settings
	Program string // this program's version
	Log     *logs.Log
}

// Reasons why a partition is not repaired.
var (
	errAnswered = errors.New("all its lines are answered, and its log is closed: nothing is to be repaired")
	errUnbegun  = errors.New("it has not begun: it does once it is owned, and the partitions from which its keys come are answered up to the change")
)

// Repair repairs a partition. It owns the partition meanwhile.
func (b Broker) Repair(ctx context.Context, r Repair) error {
	if err := b.repair(ctx, r); err != nil {
		return fmt.Errorf("partition %v: %w", r.Partition, err)
	}
	return nil
}

func (b Broker) repair(ctx context.Context, r Repair) error {
	link, err := b.connectDeclared(ctx, r)
	if err != nil {
		return err
	}
	defer link.Close()
	waiting := func([]bus.Partition) {}
	if _, err := link.Own(ctx, []bus.Partition{r.Partition}, waiting); err != nil {
		return err
	}
	publisher, err := link.publisher()
	if err != nil {
		return err
	}
	h, err := bus.ReadHistory(bus.HistoryOptions{Link: link, Partition: r.Partition, Open: bus.MostOpen}, publisher)
	if err != nil {
		return fmt.Errorf("its answers can't be read, and nothing else says where it stands: %w", err)
	}
	switch {
	case h.Closed != bus.Settings{}:
		if err := link.leave([]bus.Partition{r.Partition}); err != nil {
			return err
		}
		return errAnswered
	case r.Partition.Of.Epoch > 0 && !h.HasSnapshot:
		return errUnbegun
	}
	gap := lostAfter(h)
	r.Log.OfPartition(r.Partition).Info("answered up to line %v; the log is made anew from offset %d on", h.Upto(), gap.To+1)
	if err := r.again(link, publisher, gap.To); err != nil {
		return err
	}
	if err := r.publish(publisher, h, gap); err != nil || r.After == (bus.Settings{}) {
		return err
	}
	if err := r.close(publisher); err != nil {
		return err
	}
	return link.leave([]bus.Partition{r.Partition})
}

// lostAfter returns the gap after the last answer.
func lostAfter(h *bus.History) ledger.Gap {
	first := h.Upto().Offset + 1
	if h.More {
		first--
	}
	return ledger.Gap{From: first, To: h.Upto().Offset + 1}
}

// close closes the log.
func (r Repair) close(publisher *Publisher) error {
	if err := publisher.Append(r.Partition.Route(bus.RequestsExchange, bus.TopicMarks), bus.CloseHeaders(r.After), nil); err != nil {
		return err
	}
	return publisher.Settle()
}

// connectDeclared connects, and makes the missing queues. Existing streams may have files of another size.
func (b Broker) connectDeclared(ctx context.Context, r Repair) (link *Link, err error) {
	for _, segment := range []int64{SegmentBytes, 0} {
		if link, err = b.connect(ctx, "desk partition repair", ""); err != nil {
			return nil, err
		}
		if err = link.declare(r.Partition.Of, r.Partition.Number, segment); err == nil {
			return link, nil
		}
		if link.Close(); !isOther(err) {
			break
		}
	}
	return nil, err
}

// again deletes the log, makes it again, and fills it up to an offset.
func (r Repair) again(link *Link, publisher *Publisher, upto int64) error {
	channel, err := link.channel()
	if err != nil {
		return err
	}
	lines := r.Partition.Queue(bus.Lines)
	if _, err := channel.QueueDelete(lines, false, false, false); err != nil {
		return link.Because(fmt.Errorf("deleting %s: %w", lines, err))
	}
	if err := declareQueue(channel, r.Partition.Of, r.Partition.Number, lines, arguments(r.Partition.Of, r.Partition.Number, SegmentBytes)[lines]); err != nil {
		return link.Because(err)
	}
	if err := link.end(channel); err != nil {
		return err
	}
	marks := r.Partition.Route(bus.RequestsExchange, bus.TopicMarks)
	for offset := int64(0); offset <= upto; offset++ {
		if err := publisher.Append(marks, bus.Headers{bus.MarkHeader: "repaired"}, nil); err != nil {
			return err
		}
		if publisher.Open() < fillOpen {
			continue
		}
		if err := publisher.Settle(); err != nil {
			return err
		}
	}
	return publisher.Settle()
}

// publish writes the loss into the answers, and publishes a snapshot that continues after it.
func (r Repair) publish(publisher *Publisher, h *bus.History, gap ledger.Gap) error {
	route := r.Partition.Route(bus.AnswersExchange, bus.TopicAnswers)
	part := bus.Part{After: h.Upto(), Upto: gap.Place(), SnapshotAt: h.At}
	if err := publisher.Append(route, bus.PartHeaders(part), answer.AppendLost(nil, gap)); err != nil {
		return err
	}
	if err := publisher.Settle(); err != nil {
		return err
	}
	l := bus.Repaired(h, gap)
	body, err := l.Snapshot(r.Program)
	if err != nil {
		return err
	}
	part = bus.Part{Snapshot: true, After: gap.Place(), Upto: gap.Place(), SnapshotAt: h.At}
	if err := publisher.Append(route, bus.PartHeaders(part), body); err != nil {
		return err
	}
	return publisher.Settle()
}
