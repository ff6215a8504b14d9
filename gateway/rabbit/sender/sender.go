// Package sender sends lines to the partitions of their keys. Each partition has its own lane and connection: if one can't be
// reached, the others continue.
package sender

import (
	"context"
	"errors"
	"fmt"
	"io"
	"sync"
	"time"

	"gateway/rabbit/bus"
	"gateway/rabbit/ledger"
	"gateway/rabbit/line"
	"gateway/rabbit/logs"
	"gateway/rabbit/metrics"
)

// Options says what is sent, and by whom.
type Options struct {
	Bus      bus.Bus
	Settings bus.Settings
	Earlier  []bus.Settings // the earlier numbers of partitions
	Scale    scale          // knows later ones; nil if nobody watches
	Name     string         // the sender's name
	Named    bool           // whether the name is its own, under which it may be restarted
	Batch    string         // the input's batch id, for a sender with its own name
	GiveUp   time.Duration
	AtOnce   int // how many partitions are asked at a time
	Input    io.Reader
	Log      *logs.Log
	Check    func(model []byte) error // refuses a faulty model
	// Confirmed, unless nil, is called with each line that a partition has. It must not wait.
	Confirmed func(line []byte)
	// Numbered, unless nil, is called with each line's number among those of its partition, before it is sent. Taken is called
	// with the lines that each partition took if the number of partitions has changed; the error is *bus.Rescaled then.
	Numbered func(line []byte, partition int, number int64)
	Taken    func(upto []int64)
	Gauges   *metrics.Partitions // new ones if nil
}

// A Tally counts lines of the input.
type Tally struct {
	Sent     int64 // confirmed by the broker, and taken
	Repeated int64 // taken in an earlier run of the batch
	Refused  int64 // that can't be sent
	Unsent   int64 // of unreachable partitions
}

// A Sender is a process that passes its input's lines to the lanes of their partitions.
type Sender struct {
	options  Options
	lanes    []*Lane
	sections sections
	epoch    int64 // of this process; 0 without its own name
	count    int64 // lines of the input
	refused  int64
	repeated int64      // taken before the number of partitions changed
	fed      bool       // whether the input has ended
	fault    chan error // the first is why everything ends
	changed  chan struct{}
	mutex    sync.Mutex
	looked   bool // whether the number of partitions was the same once all was confirmed
}

// A modelTally counts a model once, however many partitions take it.
type modelTally struct{ counted sync.Once }

// A pending is a line that waits for a message.
type pending struct {
	text  []byte
	model *modelTally // for a model, which goes to several partitions
}

func (p pending) isModel() bool { return p.model != nil }

// counts reports whether a line is to be counted: a model is with the first of its partitions.
func (p pending) counts() (first bool) {
	if p.model == nil {
		return true
	}
	p.model.counted.Do(func() { first = true })
	return first
}

// NewGauges returns the gauges of a sender that has sent nothing.
func NewGauges() *metrics.Partitions { return metrics.NewPartitions("send") }

// New makes a sender that has sent nothing.
func New(options Options) *Sender {
	if options.Gauges == nil {
		options.Gauges = NewGauges()
	}
	if options.AtOnce == 0 {
		options.AtOnce = atOnce
	}
	s := &Sender{options: options, fault: make(chan error, 1), changed: make(chan struct{}, 1),
		sections: sections{earlier: options.Earlier, newest: options.Settings}}
	for partition := 0; partition < options.Settings.Partitions; partition++ {
		s.lanes = append(s.lanes, newLane(s, partition))
	}
	return s
}

// Send sends the lines of the input, and ends when the broker has confirmed all.
func Send(ctx context.Context, options Options) (Tally, error) {
	whole := ctx
	ctx, cancel := context.WithCancel(whole)
	defer cancel()
	s := New(options)
	if err := s.Claim(ctx); err != nil {
		return Tally{}, err
	}
	go s.watchName(ctx)
	go s.watchScale(ctx)
	var running sync.WaitGroup
	for _, l := range s.lanes {
		running.Add(1)
		go func(l *Lane) {
			defer running.Done()
			l.work(ctx)
		}(l)
	}
	err := s.ready(ctx)
	if err == nil {
		err = s.feed(ctx)
	}
	if err == nil {
		err = s.wait(ctx, (*Lane).IsSettled)
	}
	if err == nil {
		err = s.Look(ctx)
	}
	if err == nil {
		err = butRescaled(s.wait(ctx, (*Lane).isDone))
	}
	if err == nil {
		err = s.Check(ctx)
	}
	cancel()
	running.Wait()
	return s.Ended(whole, err)
}

// Lanes returns the lanes, one for each partition.
func (s *Sender) Lanes() []*Lane { return s.lanes }

// Epoch returns the epoch of this process; 0 without its own name.
func (s *Sender) Epoch() int64 { return s.epoch }

// origin returns what this process's messages say about it.
func (s *Sender) origin() ledger.Origin {
	return ledger.Origin{Kind: ledger.Lines, Sender: s.options.Name, Named: s.options.Named, Epoch: s.epoch, Batch: s.options.Batch}
}

// fail ends everything, with this reason if it is the first.
func (s *Sender) fail(reason error) {
	select {
	case s.fault <- reason:
	default:
	}
}

// notice lets wait look at the lanes again.
func (s *Sender) notice() {
	select {
	case s.changed <- struct{}{}:
	default:
	}
}

// feed passes the input's lines to the lanes.
func (s *Sender) feed(ctx context.Context) error {
	input := readInput(ctx, s.options.Input)
	for {
		select {
		case next := <-input:
			for _, text := range next.lines {
				s.count++
				if err := s.takeLine(ctx, text); err != nil {
					return err
				}
			}
			if next.err == nil {
				continue
			}
			if !errors.Is(next.err, io.EOF) {
				return fmt.Errorf("reading the input after line %d: %w", s.count, next.err)
			}
			return s.End()
		case reason := <-s.fault:
			return reason
		case <-ctx.Done():
			return ctx.Err()
		}
	}
}

// Take takes a line of the input.
func (s *Sender) Take(ctx context.Context, text []byte) error {
	s.count++
	return s.takeLine(ctx, inputLine{text: text})
}

// End notes that the input has ended.
func (s *Sender) End() error {
	if err := s.sections.end(); err != nil {
		return fmt.Errorf("batch %q: %w", s.options.Batch, err)
	}
	s.fed = true
	for _, l := range s.lanes {
		l.close()
	}
	return nil
}

func (s *Sender) takeLine(ctx context.Context, text inputLine) error {
	if len(text.text) == 0 && !text.tooLong {
		return nil // a blank line
	}
	parsed, err := s.read(text)
	if err != nil {
		s.refused++
		s.options.Log.Warning("line %d is not sent: %v", s.count, err)
		return nil
	}
	if parsed.IsModel() {
		return s.takeModel(ctx, text.text)
	}
	isTaken, err := s.sections.takeRequest(text.text, parsed)
	if err != nil {
		return fmt.Errorf("batch %q: %w", s.options.Batch, err)
	}
	if isTaken {
		s.repeated++
		return nil
	}
	return s.put(ctx, s.lanes[parsed.Partition(len(s.lanes))], pending{text: text.text})
}

// takeModel takes a model of the input. It goes to each partition that doesn't have it.
func (s *Sender) takeModel(ctx context.Context, text []byte) error {
	has, err := s.sections.takeModel(text)
	if err != nil {
		return fmt.Errorf("batch %q: %w", s.options.Batch, err)
	}
	model, isSent := pending{text: text, model: &modelTally{}}, false
	for _, l := range s.lanes {
		if has[l.partition] {
			continue
		}
		isSent = true
		if err := s.put(ctx, l, model); err != nil {
			return err
		}
	}
	if !isSent {
		s.repeated++
	}
	return nil
}

func (s *Sender) read(text inputLine) (line.Line, error) {
	if text.tooLong {
		return line.Line{}, fmt.Errorf("over %d bytes", line.MaximumBytes)
	}
	parsed, err := line.Look(text.text)
	if err == nil && parsed.IsModel() {
		err = s.options.Check(parsed.Engine)
	}
	return parsed, err
}

// put passes a line to a lane, once it has room. If it can't be reached while others can, it is skipped.
func (s *Sender) put(ctx context.Context, l *Lane, next pending) error {
	if l.put(next) {
		return nil
	}
	look := time.NewTicker(time.Second)
	defer look.Stop()
	for !l.put(next) {
		select {
		case <-l.room:
		case <-look.C:
			if l.isStuck(stuckTime) && s.others(l) {
				l.passBy()
			}
		case reason := <-s.fault:
			return reason
		case <-ctx.Done():
			return ctx.Err()
		}
	}
	return nil
}

// stuckTime is how long a lane may have no confirm before the other lanes' lines pass it.
const stuckTime = 30 * time.Second

// others reports whether another lane continues.
func (s *Sender) others(of *Lane) bool {
	for _, l := range s.lanes {
		if l != of && !l.isStuck(0) {
			return true
		}
	}
	return false
}

// wait waits until each lane has come this far, or is given up: while a broker is reached, a lane is given up that has had no
// confirm for as long as the options say.
func (s *Sender) wait(ctx context.Context, has func(*Lane) bool) error {
	look := time.NewTicker(time.Second)
	defer look.Stop()
	for !s.each(has) {
		select {
		case <-s.changed:
		case <-look.C:
		case reason := <-s.fault:
			return reason
		case <-ctx.Done():
			return ctx.Err()
		}
	}
	select {
	case reason := <-s.fault:
		return reason
	default:
		return nil
	}
}

func (s *Sender) each(has func(*Lane) bool) bool {
	for _, l := range s.lanes {
		if !has(l) && !(s.options.GiveUp > 0 && l.isStuck(s.options.GiveUp) && s.others(l)) {
			return false
		}
	}
	return true
}

// Ended returns the final report, with or without an error. If a newer process has taken the name, the lines taken before are
// counted.
func (s *Sender) Ended(ctx context.Context, err error) (Tally, error) {
	tally := Tally{Refused: s.refused, Repeated: s.repeated}
	var unreached []error
	for _, l := range s.lanes {
		sent, repeated, unsent, reason := l.tally()
		tally.Sent, tally.Repeated, tally.Unsent = tally.Sent+sent, tally.Repeated+repeated, tally.Unsent+unsent
		if unsent > 0 {
			unreached = append(unreached, fmt.Errorf("partition %d: %d lines were not sent: %w", l.partition, unsent, reason))
		}
	}
	if reason, is := isRescaled(err); is {
		return s.rescaled(ctx, tally, reason)
	}
	var newer *bus.Superseded
	if errors.As(err, &newer) {
		taken, fault := s.takenBefore(ctx, newer)
		if fault != nil {
			return tally, fmt.Errorf("%w; %v", newer, fault)
		}
		tally.Sent = taken
	}
	if err == nil && len(unreached) > 0 {
		for _, fault := range unreached[1:] {
			s.options.Log.Error("%v", fault)
		}
		err = unreached[0]
	}
	return tally, err
}
