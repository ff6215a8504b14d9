// Package receiver writes the answers of all partitions, each once.
package receiver

import (
	"bufio"
	"bytes"
	"context"
	"errors"
	"fmt"
	"io"
	"os"
	"time"

	"gateway/rabbit/answer"
	"gateway/rabbit/bus"
	"gateway/rabbit/ledger"
	"gateway/rabbit/logs"
)

// savePause is how often the place is written if something came.
const savePause = 250 * time.Millisecond

// Options says what is received, and where it goes.
type Options struct {
	Bus      bus.Bus
	Settings bus.Settings // the first number of partitions
	Scale    scale        // knows later numbers; nil if there are none
	From     bus.From     // for partitions without a place
	Place    string       // the file with the place, or empty
	Output   *os.File     // takes the answers, unless Each does
	Each     func(line []byte, record answer.Record) error
	File     bool          // whether Output is its own file, whose length belongs to the place
	Idle     time.Duration // it ends after this long without an answer; 0 means never
	Log      *logs.Log
	Gauges   *Gauges // new ones if nil
}

// A Receiver writes answers.
type Receiver struct {
	options Options
	output  *bufio.Writer
	written int64  // the output's length
	sum     string // of its end, as in the place
	epochs  []epoch
	gaps    int       // of lost requests or answers, for each of which a line is written
	dirty   bool      // whether something is written and its place isn't
	moved   time.Time // when the last answer came
}

// A received is the state of a partition.
type received struct {
	at     bus.Partition
	stream int64        // the offset of the last message, or -1
	chain  ledger.Chain // how far the answers go
	hole   bool         // whether offsets are missing since the last answers or snapshot
	over   bool         // whether its last snapshot was read, after which nothing counts
	reader *Reader      // once it is read
}

// An epoch has the partitions of one number.
type epoch struct {
	bus.Settings
	partitions []*received
}

// Receive writes answers until the context ends, or none came for a while. The error names partitions that could not be read at
// the end, or says that requests or answers are lost.
func Receive(ctx context.Context, options Options) error {
	r, err := New(options)
	if err != nil {
		return err
	}
	reading, cancel := context.WithCancel(ctx)
	defer cancel()
	f := &feeding{Receiver: r, reading: reading, messages: make(chan message), faults: make(chan error)}
	f.start()
	fault := f.write(ctx)
	if saved := r.Save(); fault == nil {
		fault = saved
	}
	for _, reader := range r.Readers() {
		if fault == nil && ctx.Err() == nil {
			fault = reader.fault()
		}
	}
	if fault == nil && r.gaps > 0 {
		fault = fmt.Errorf("requests or answers are lost in %d gaps: a line %q is written for each", r.gaps, answer.LostMember)
	}
	return fault
}

// write writes what comes until the context ends, a partition fails for good, or nothing came for a while. What is at hand is
// written together.
func (r *feeding) write(ctx context.Context) error {
	ticker := time.NewTicker(savePause)
	defer ticker.Stop()
	for {
		select {
		case m := <-r.messages:
			if err := r.take(m); err != nil {
				return err
			}
			continue
		default:
		}
		if err := r.output.Flush(); err != nil {
			return fmt.Errorf("writing answers: %w", err)
		}
		select {
		case m := <-r.messages:
			if err := r.take(m); err != nil {
				return err
			}
		case <-r.changed():
			r.start()
		case <-ticker.C:
			if err := r.Save(); err != nil {
				return err
			}
			if r.idled() {
				return nil
			}
		case fault := <-r.faults:
			return fault
		case <-ctx.Done():
			return nil
		}
	}
}

// idled reports whether nothing came for a while since each partition was reached, or failed.
func (r *Receiver) idled() bool {
	if r.options.Idle == 0 {
		return false
	}
	for _, reader := range r.Readers() {
		if !reader.isTried() {
			r.moved = time.Now()
			return false
		}
	}
	return time.Since(r.moved) > r.options.Idle
}

// New returns a receiver at the place in its file.
func New(options Options) (*Receiver, error) {
	if options.Gauges == nil {
		options.Gauges = NewGauges()
	}
	var output io.Writer = options.Output
	if options.Output == nil {
		output = io.Discard
	}
	r := &Receiver{options: options, output: bufio.NewWriterSize(output, bus.MessageBytes), moved: time.Now()}
	r.Rescaled()
	if len(r.epochs) == 0 {
		r.add(options.Settings)
	}
	if err := r.restore(); err != nil {
		return r, err
	}
	return r, nil
}

// ErrNotEmpty means that it is not known how much of an output belongs to the answers.
var ErrNotEmpty = errors.New("the output is not empty, and no place says where it goes on: give another file, or the --place that belongs to it")

// restore returns to the place in the file, and cuts the output after it. Without a place the output must be empty, so that
// nothing is overwritten. The place is written at once, so that it exists before any answer.
func (r *Receiver) restore() error {
	known := false
	if r.options.Place != "" {
		var err error
		if known, err = r.restorePlace(); err != nil {
			return err
		}
	}
	if r.options.File {
		if err := r.cutOutput(known); err != nil {
			return err
		}
	}
	if r.dirty = !known; known {
		r.options.Log.Info("goes on at the place in %s", r.options.Place)
	} else {
		r.options.Log.Info("begins at %v", r.options.From)
	}
	return r.Save()
}

// restorePlace reads the place, and reports whether there is one.
func (r *Receiver) restorePlace() (bool, error) {
	p, err := readPlaces(r.options.Place, r.epochs[0].Partitions)
	if err != nil || p == nil {
		return false, err
	}
	for _, of := range p.epochs() {
		if err := r.restoreEpoch(of); err != nil {
			return false, err
		}
	}
	r.written, r.sum = p.Output, p.Sum
	return true, nil
}

func (r *Receiver) cutOutput(known bool) error {
	state, err := r.options.Output.Stat()
	if err != nil {
		return fmt.Errorf("the output: %w", err)
	}
	if !known && state.Size() > 0 {
		return ErrNotEmpty
	}
	if state.Size() < r.written {
		return fmt.Errorf("the output has %d bytes, and %d by the place: they don't belong to each other", state.Size(), r.written)
	}
	sum, err := sumBefore(r.options.Output, r.written)
	if err != nil {
		return fmt.Errorf("the output: %w", err)
	}
	if known && sum != r.sum {
		return errors.New("the output is another than the place says: they don't belong to each other")
	}
	if err := r.options.Output.Truncate(r.written); err != nil {
		return fmt.Errorf("the output: %w", err)
	}
	if _, err := r.options.Output.Seek(r.written, io.SeekStart); err != nil {
		return fmt.Errorf("the output: %w", err)
	}
	return nil
}

// Add takes a partition's next message, and writes its new answers.
func (r *Receiver) Add(at bus.Partition, message bus.Message) error {
	offset, partition := message.Offset, r.find(at)
	if partition.over {
		return nil
	}
	if offset == 0 {
		partition.chain.Reach(ledger.Start)
	}
	partition.hole = partition.hole || partition.stream >= 0 && offset > partition.stream+1
	partition.stream, r.dirty = offset, true
	part, is, err := bus.ReadPart(message)
	if err != nil {
		return fmt.Errorf("partition %v, offset %d: %w", at, offset, err)
	}
	if !is {
		return nil
	}
	if err := r.lookForCut(partition, part); err != nil {
		return err
	}
	switch {
	case part.Snapshot:
		partition.chain.Reach(part.Upto)
		if part.Closed != (bus.Settings{}) {
			r.end(partition)
		}
		return nil
	case !partition.chain.Fits(part.After, part.Upto):
		return nil
	}
	return r.writeAnswers(partition, message.Body, part)
}

// lookForCut finds answers that were cut before they were received: offsets are missing, and the next message doesn't fit.
// Missing offsets alone say nothing, as the broker uses some itself. It writes a line about the cut, and continues after it.
func (r *Receiver) lookForCut(partition *received, part bus.Part) error {
	chain, begin := &partition.chain, part.After
	isCut := partition.hole && chain.Known && chain.Upto.Before(begin)
	partition.hole = false
	if !isCut {
		return nil
	}
	r.options.Log.OfPartition(partition.at).Error("retention has cut the answers after line %v and up to line %v before they were received",
		chain.Upto, begin)
	text := answer.Unreceived(chain.Upto, begin)
	chain.Reach(begin)
	r.lost()
	return r.writeLine(partition, text)
}

// lost notes that a line says what is lost.
func (r *Receiver) lost() {
	r.gaps++
	r.options.Gauges.lost()
}

// writeLine writes a line of a partition's answers.
func (r *Receiver) writeLine(partition *received, text []byte) error {
	prefix := fmt.Sprintf(`{"partition":%d,`, partition.at.Number)
	if epoch := partition.at.Of.Epoch; epoch > 0 {
		prefix += fmt.Sprintf(`"epoch":%d,`, epoch)
	}
	r.output.WriteString(prefix)
	r.output.Write(text[1:])
	if err := r.output.WriteByte('\n'); err != nil {
		return fmt.Errorf("writing answers: %w", err)
	}
	r.written += int64(len(prefix) + len(text))
	return nil
}

// writeRecord writes a line of a partition's answers, or passes it on.
func (r *Receiver) writeRecord(partition *received, text []byte, record answer.Record) error {
	if r.options.Each != nil {
		return r.options.Each(text, record)
	}
	return r.writeLine(partition, text)
}

func (r *Receiver) writeAnswers(partition *received, body []byte, part bus.Part) error {
	for _, text := range bytes.Split(bytes.TrimSuffix(body, []byte("\n")), []byte("\n")) {
		record, err := answer.ReadRecord(text)
		if err != nil {
			return fmt.Errorf("partition %v: %w: %.100q", partition.at, err, text)
		}
		if !partition.chain.Upto.Before(record.Place) {
			continue
		}
		if record.Lost {
			r.lost()
		}
		if err := r.writeRecord(partition, text, record); err != nil {
			return err
		}
	}
	partition.chain.Reach(part.Upto)
	r.moved = time.Now()
	return nil
}

// Save flushes the output, and writes the place.
func (r *Receiver) Save() error {
	if err := r.output.Flush(); err != nil {
		return fmt.Errorf("writing answers: %w", err)
	}
	if r.options.Place == "" || !r.dirty {
		return nil
	}
	if r.options.File {
		if err := r.options.Output.Sync(); err != nil {
			return fmt.Errorf("writing answers: %w", err)
		}
		var err error
		if r.sum, err = sumBefore(r.options.Output, r.written); err != nil {
			return fmt.Errorf("reading back the answers: %w", err)
		}
	}
	if err := r.places().write(r.options.Place); err != nil {
		return err
	}
	r.dirty = false
	return nil
}
