package partition

import (
	"errors"
	"fmt"

	"gateway/rabbit/bus"
	"gateway/rabbit/ledger"
)

// A closedError means that a partition is answered for good, as there is another number of partitions.
type closedError struct{ to bus.Settings }

func (c *closedError) Error() string {
	return fmt.Sprintf("all its lines are answered, and others follow: there are %d partitions now (epoch %d)", c.to.Partitions, c.to.Epoch)
}

// An unclosedError means that a partition can't begin, as others that had its keys aren't answered for good.
type unclosedError struct{ sources []bus.Partition }

func (u *unclosedError) Error() string {
	return fmt.Sprintf("it begins once partitions %v are answered up to the change", u.sources)
}

// errNoBefore means that the number of partitions before a later one is unknown.
var errNoBefore = errors.New("nothing says how many partitions there were before")

// publishFirst publishes the snapshot before a partition's first line, which has what its sources know, and begins the history
// with it. It is the same no matter who publishes it, or how often.
func publishFirst(reading bus.HistoryOptions, scaling bus.Scaling, publisher bus.Appender, h *bus.History, program string) error {
	sources, err := readSources(reading, scaling, publisher)
	if err != nil {
		return err
	}
	l := ledger.Merge(sources, reading.Keep)
	body, err := l.Snapshot(program)
	if err != nil {
		return err
	}
	part := bus.Part{Snapshot: true, After: ledger.Start, Upto: ledger.Start, SnapshotAt: -1}
	route := reading.Partition.Route(bus.AnswersExchange, bus.TopicAnswers)
	if err := publisher.Append(route, bus.PartHeaders(part), body); err != nil {
		return fmt.Errorf("publishing the first snapshot: %w", err)
	}
	if err := publisher.Settle(); err != nil {
		return err
	}
	reading.Progress.Passed("the first snapshot is confirmed")
	h.Ledger, h.HasSnapshot, h.Messages = l, true, 0
	h.End++
	h.At = h.End
	return nil
}

// readSources reads what the earlier partitions of this one's keys know.
func readSources(reading bus.HistoryOptions, scaling bus.Scaling, publisher bus.Appender) ([]ledger.Source, error) {
	of := reading.Partition
	before, is := scaling.Before(of.Of.Epoch)
	if !is {
		return nil, errNoBefore
	}
	var sources []ledger.Source
	var unclosed []bus.Partition
	for _, number := range bus.Sources(before, of.Of, of.Number) {
		reading.Partition = bus.Partition{Of: before, Number: number}
		h, err := bus.ReadHistory(reading, publisher)
		if err != nil {
			return nil, fmt.Errorf("partition %v, from which keys come: %w", reading.Partition, err)
		}
		if h.Closed != of.Of {
			unclosed = append(unclosed, reading.Partition)
			continue
		}
		origin := ledger.Origination{Epoch: before.Epoch, Partitions: before.Partitions, Partition: number}
		sources = append(sources, ledger.Source{Origination: origin, Ledger: h.Ledger})
	}
	if len(unclosed) > 0 {
		return nil, &unclosedError{unclosed}
	}
	return sources, nil
}
