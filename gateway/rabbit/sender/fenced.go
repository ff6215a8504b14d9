package sender

import (
	"bytes"
	"context"
	"errors"
	"fmt"
	"sync"

	"gateway/rabbit/bus"
	"gateway/rabbit/ledger"
)

// A fencedCount counts the lines of this process that partitions took before a newer one claimed its name. A model, which goes
// to every partition, counts once.
type fencedCount struct {
	mutex    sync.Mutex
	requests int64
	models   int64
}

func (c *fencedCount) add(requests, models int64) {
	c.mutex.Lock()
	defer c.mutex.Unlock()
	c.requests += requests
	if models > c.models {
		c.models = models
	}
}

// takenBefore counts this process's lines that were taken, over all partitions.
func (s *Sender) takenBefore(ctx context.Context, newer *bus.Superseded) (int64, error) {
	var taken int64
	err := bus.Again(ctx, s.options.Bus, s.options.Log, func(ctx context.Context) error {
		link, err := s.connect(ctx)
		if err != nil {
			return err
		}
		defer link.Close()
		taken, err = s.takenOver(link, newer)
		return err
	})
	if err != nil {
		return 0, fmt.Errorf("counting the lines that were taken: %w", err)
	}
	return taken, nil
}

// takenOver counts this process's lines that were taken, with one connection.
func (s *Sender) takenOver(link bus.Link, newer *bus.Superseded) (int64, error) {
	var count fencedCount
	err := eachPartition(len(s.lanes), s.options.AtOnce, func(partition int) error {
		if l := s.lanes[partition]; !l.claimed || l.fenced {
			return nil
		}
		if err := s.fence(link, partition, newer.Epoch); err != nil {
			return err
		}
		found, err := s.takenIn(link, s.lanes[partition])
		count.add(found.requests, found.models)
		return err
	})
	return count.requests + count.models, err
}

// A takenLines counts a process's lines that a partition took.
type takenLines struct{ requests, models, upto int64 } // upto includes those of earlier processes

// takenIn reads a partition's log from this process's claim to that of a newer one, or to the log's closing.
func (s *Sender) takenIn(link bus.Link, l *Lane) (takenLines, error) {
	found := takenLines{upto: l.before}
	stream, err := link.Read(bus.Reading{Stream: l.queue, From: bus.FromOffset(l.claim), Window: open})
	if err != nil {
		return found, err
	}
	for {
		message, err := stream.Next()
		if err != nil {
			return found, err
		}
		from, foreign := bus.ReadOrigin(message)
		isNewer := foreign == nil && from.Sender == s.options.Name && from.Epoch > s.epoch
		if _, isClose := bus.ReadClose(message, s.options.Settings); isNewer || isClose {
			return found, stream.Close()
		}
		if foreign != nil || from.Kind != ledger.Lines || from.Key() != s.origin().Key() || from.Epoch != s.epoch {
			continue
		}
		lines := takenOf(message, from, found.upto)
		found.upto += int64(len(lines))
		for _, raw := range lines {
			if isModel(raw) {
				found.models++
			} else {
				found.requests++
			}
		}
	}
}

// fence claims the name in a partition's log for the newer process, which may not have done so yet. Then a late message of this
// one, in flight when the connection was lost, doesn't count. A closed log gets no more messages, and needs no claim.
func (s *Sender) fence(link bus.Link, partition int, epoch int64) error {
	publisher, err := link.Appender()
	if err != nil {
		return err
	}
	claim := s.origin()
	claim.Kind, claim.Epoch = ledger.Claim, epoch
	if err := publisher.Append(linesRoute(s.options.Settings, partition), bus.OriginHeaders(claim), nil); err != nil {
		return err
	}
	if err := publisher.Settle(); !errors.Is(err, bus.ErrMissing) {
		return err
	}
	return nil
}

// takenOf returns the lines of a message that the partition takes if it expects the line with this number.
func takenOf(message bus.Message, from ledger.Origin, next int64) [][]byte {
	lines := bytes.Split(message.Body, []byte("\n"))
	skipped := next - from.Number
	if skipped < 0 || skipped >= int64(len(lines)) {
		return nil
	}
	return lines[skipped:]
}
