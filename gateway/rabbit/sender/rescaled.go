package sender

import (
	"context"
	"errors"
	"fmt"
	"sync"
	"time"

	"gateway/rabbit/bus"
	"gateway/rabbit/ledger"
)

// A scale knows the number of partitions.
type scale interface {
	Scaling() bus.Scaling
	Newest() (bus.Settings, <-chan struct{})
}

// watchScale ends everything once there is another number of partitions.
func (s *Sender) watchScale(ctx context.Context) {
	if s.options.Scale == nil {
		return
	}
	for {
		newest, changed := s.options.Scale.Newest()
		if newest.Epoch > s.options.Settings.Epoch {
			s.fail(&bus.Rescaled{To: newest})
			return
		}
		select {
		case <-changed:
		case <-ctx.Done():
			return
		}
	}
}

// Look checks whether there was another number of partitions before now. The error is *bus.Rescaled then. Otherwise each
// confirmed line counts, as a log is closed only once the new number can be seen, and the lanes may end the batch.
func (s *Sender) Look(ctx context.Context) error {
	var newest bus.Settings
	var known bus.Scaling
	if s.options.Scale != nil {
		known = s.options.Scale.Scaling()
	}
	err := bus.Again(ctx, s.options.Bus, s.options.Log, func(ctx context.Context) error {
		link, err := s.connect(ctx)
		if err != nil {
			return err
		}
		defer link.Close()
		scale, err := bus.LookAtScale(link, known)
		if err != nil && s.options.Bus.Judge(err) == bus.Missing {
			return nil // an older program declared the partitions
		}
		if err == nil {
			newest, _ = scale.Newest()
		}
		return err
	})
	if err != nil {
		return err
	}
	if newest.Epoch > s.options.Settings.Epoch {
		return &bus.Rescaled{To: newest}
	}
	s.letEnd()
	return nil
}

// letEnd lets the lanes end the batch.
func (s *Sender) letEnd() {
	s.mutex.Lock()
	s.looked = true
	s.mutex.Unlock()
	for _, l := range s.lanes {
		signal(l.wake)
	}
}

// mayEnd reports whether the lanes may end the batch.
func (s *Sender) mayEnd() bool {
	s.mutex.Lock()
	defer s.mutex.Unlock()
	return s.looked
}

// ready waits until each partition has said which lines of the batch were taken before the number of partitions changed. If one
// can't be reached while others can, it is skipped.
func (s *Sender) ready(ctx context.Context) error {
	if !s.options.Named || s.options.Settings.Epoch == 0 {
		return nil
	}
	look := time.NewTicker(time.Second)
	defer look.Stop()
	for !s.isClaimed() {
		select {
		case <-s.changed:
		case <-look.C:
			for _, l := range s.lanes {
				if !l.IsClaimed() && !l.isPassed() && l.isStuck(stuckTime) && s.others(l) {
					l.passBy()
				}
			}
		case reason := <-s.fault:
			return reason
		case <-ctx.Done():
			return ctx.Err()
		}
	}
	s.Gather()
	return nil
}

func (s *Sender) isClaimed() bool {
	for _, l := range s.lanes {
		if !l.IsClaimed() && !l.isPassed() {
			return false
		}
	}
	return true
}

// Gather takes what the partitions know of the batch. Call it before the first line.
func (s *Sender) Gather() {
	for _, l := range s.lanes {
		if l.IsClaimed() {
			s.sections.add(l.known.batch)
		}
	}
}

// A takenCount is what partitions took of a batch before their logs were closed.
type takenCount struct {
	fencedCount
	whole bool    // whether this is all of it
	upto  []int64 // of each partition, how many lines
}

// takenBeforeClose counts this process's lines that count, if the number of partitions has changed.
func (s *Sender) takenBeforeClose(ctx context.Context) (*takenCount, error) {
	var count *takenCount
	err := bus.Again(ctx, s.options.Bus, s.options.Log, func(ctx context.Context) error {
		link, err := s.connect(ctx)
		if err != nil {
			return err
		}
		defer link.Close()
		count = &takenCount{whole: s.fed, upto: make([]int64, len(s.lanes))}
		var mutex sync.Mutex
		return eachPartition(len(s.lanes), s.options.AtOnce, func(partition int) error {
			l := s.lanes[partition]
			found, err := s.takenBeforeCloseOf(link, l)
			if err != nil {
				return err
			}
			mutex.Lock()
			defer mutex.Unlock()
			count.upto[partition] = found.upto
			count.add(found.requests, found.models)
			count.whole = count.whole && l.hasNoMore(found.upto)
			return nil
		})
	})
	if err != nil {
		return nil, fmt.Errorf("counting the lines that were taken: %w", err)
	}
	return count, nil
}

// hasNoMore reports whether the lane got no more than this many lines.
func (l *Lane) hasNoMore(upto int64) bool {
	l.mutex.Lock()
	defer l.mutex.Unlock()
	return len(l.pending) == 0 && l.unsent == 0 && upto >= l.next
}

// takenBeforeCloseOf returns what a partition took before its log was closed, and waits for the closing.
func (s *Sender) takenBeforeCloseOf(link bus.Link, l *Lane) (takenLines, error) {
	at := bus.Partition{Of: s.options.Settings, Number: l.partition}
	switch {
	case l.next == 0 || s.options.Named && (!l.claimed || l.fenced):
		return takenLines{upto: l.before}, nil
	case s.options.Named:
		found, err := s.takenIn(link, l)
		return found, unclosed(err)
	}
	h, err := bus.LookAtHistory(bus.HistoryOptions{Link: link, Partition: at, Open: open})
	if err == nil && h.Closed == (bus.Settings{}) {
		err = readToClose(link, at, h.Ledger)
	}
	if err != nil {
		return takenLines{}, err
	}
	batch := h.Ledger.Senders.Find(s.options.Name).Batch(s.options.Batch)
	if batch == nil {
		return takenLines{}, nil
	}
	return takenLines{requests: batch.Count - batch.Models, models: batch.Models, upto: batch.Count}, nil
}

// unclosed returns the error for a log that isn't closed.
func unclosed(err error) error {
	if err == nil {
		return nil
	}
	return fmt.Errorf("the change of the number of partitions isn't done: %w", err)
}

// readToClose takes the lines after the ledger's place, up to the log's closing.
func readToClose(link bus.Link, at bus.Partition, l *ledger.Ledger) error {
	stream, err := readLog(link, at.Queue(bus.Lines), l)
	if err != nil {
		return err
	}
	for {
		message, err := stream.Next()
		if err != nil {
			return unclosed(err)
		}
		if _, is := bus.ReadClose(message, at.Of); is {
			return stream.Close()
		}
		bus.TakeMessage(message, l)
	}
}

// rescaled returns the tally after a change of the number of partitions: without an error if all was taken before.
func (s *Sender) rescaled(ctx context.Context, tally Tally, reason *bus.Rescaled) (Tally, error) {
	count, err := s.takenBeforeClose(ctx)
	if err != nil {
		return tally, fmt.Errorf("%w; %v", reason, err)
	}
	all := tally.Sent + tally.Unsent
	tally.Sent = count.requests + count.models
	if tally.Unsent = all - tally.Sent; tally.Unsent < 0 {
		tally.Unsent = 0
	}
	if s.options.Taken != nil {
		s.options.Taken(count.upto)
	}
	if count.whole {
		return tally, nil
	}
	return tally, reason
}

// butRescaled returns the error, unless it is another number of partitions: after a look, a change comes too late to affect
// what counts, and nobody needs the end of the batch.
func butRescaled(err error) error {
	if _, is := isRescaled(err); is {
		return nil
	}
	return err
}

// isRescaled finds the error if it is another number of partitions.
func isRescaled(err error) (*bus.Rescaled, bool) {
	var reason *bus.Rescaled
	return reason, errors.As(err, &reason)
}
