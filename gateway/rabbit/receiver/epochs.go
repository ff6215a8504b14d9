package receiver

import (
	"context"
	"fmt"
	"time"

	"gateway/rabbit/bus"
	"gateway/rabbit/ledger"
)

// A scale knows the number of partitions.
type scale interface {
	Scaling() bus.Scaling
	Newest() (bus.Settings, <-chan struct{})
}

// Rescaled notes the current number of partitions.
func (r *Receiver) Rescaled() {
	if r.options.Scale == nil {
		return
	}
	for _, of := range r.options.Scale.Scaling().All[len(r.epochs):] {
		r.add(of)
	}
}

// add adds the partitions of the next number.
func (r *Receiver) add(of bus.Settings) {
	added := epoch{Settings: of}
	for _, at := range of.Each() {
		added.partitions = append(added.partitions, &received{at: at, stream: -1})
	}
	r.epochs = append(r.epochs, added)
}

func (r *Receiver) find(at bus.Partition) *received {
	return r.epochs[at.Of.Epoch].partitions[at.Number]
}

// end notes that a partition no longer counts.
func (r *Receiver) end(partition *received) {
	partition.over, r.dirty, r.moved = true, true, time.Now()
}

// Readers returns the readers of the current partitions: not of one that is over, nor of one whose keys come from one that
// isn't. So the answers for each key come in order.
func (r *Receiver) Readers() (readers []*Reader) {
	for at := range r.epochs {
		for _, partition := range r.epochs[at].partitions {
			if partition.over || !r.mayBegin(at, partition) {
				continue
			}
			if partition.reader == nil {
				partition.reader = &Reader{options: r.options, partition: partition.at, begin: r.options.From, follows: r.follows(at, partition),
					streams: r.epochs[at].Partitions, pause: pauseOf(r.options), last: partition.stream, end: -1}
				if partition.reader.follows {
					partition.reader.begin = bus.From{}
				}
			}
			partition.reader.setLater(at < len(r.epochs)-1)
			readers = append(readers, partition.reader)
		}
	}
	return readers
}

func (r *Receiver) mayBegin(at int, partition *received) bool {
	for _, source := range r.sources(at, partition) {
		if !source.over {
			return false
		}
	}
	return true
}

// follows reports whether an earlier partition of its keys was read: then it is read from its first answer on.
func (r *Receiver) follows(at int, partition *received) bool {
	for _, source := range r.sources(at, partition) {
		if source.stream >= 0 {
			return true
		}
	}
	return false
}

// sources returns the earlier partitions of its keys.
func (r *Receiver) sources(at int, partition *received) (sources []*received) {
	if at == 0 {
		return nil
	}
	before := r.epochs[at-1]
	for _, number := range bus.Sources(before.Settings, partition.at.Of, partition.at.Number) {
		sources = append(sources, before.partitions[number])
	}
	return sources
}

// A feeding passes a receiver what its readers read, each in its own goroutine.
type feeding struct {
	*Receiver
	reading  context.Context
	messages chan message
	faults   chan error
	stops    map[*Reader]context.CancelFunc
	known    <-chan struct{} // is closed once more is known of the number of partitions
}

// start starts readers, and stops those that are over.
func (r *feeding) start() {
	if r.options.Scale != nil {
		_, r.known = r.options.Scale.Newest()
	}
	r.Rescaled()
	if r.stops == nil {
		r.stops = map[*Reader]context.CancelFunc{}
	}
	reads := map[*Reader]bool{}
	for _, reader := range r.Readers() {
		if reads[reader] = true; r.stops[reader] == nil {
			reader.messages, reader.faults = r.messages, r.faults
			reading, stop := context.WithCancel(r.reading)
			r.stops[reader] = stop
			go reader.work(reading)
		}
	}
	for reader, stop := range r.stops {
		if !reads[reader] {
			stop()
			delete(r.stops, reader)
			r.options.Gauges.Failed(reader.partition, nil)
		}
	}
}

// changed returns a channel that is closed once the number of partitions may have changed.
func (r *feeding) changed() <-chan struct{} { return r.known }

// take takes a message, or the end of a partition.
func (r *feeding) take(m message) error {
	partition := r.find(m.partition)
	if partition.over {
		return nil
	}
	if m.over {
		r.end(partition)
	} else if err := r.Add(m.partition, m.Message); err != nil {
		return err
	}
	if partition.over {
		r.start()
	}
	return nil
}

// restoreEpoch restores the places of the partitions of one number.
func (r *Receiver) restoreEpoch(of epochPlaces) error {
	if of.Epoch >= int64(len(r.epochs)) || len(of.Partitions) != r.epochs[of.Epoch].Partitions {
		return fmt.Errorf("the place in %s is of other partitions than the brokers'", r.options.Place)
	}
	for number, at := range of.Partitions {
		partition := r.epochs[of.Epoch].partitions[number]
		partition.stream, partition.hole, partition.over = at.Stream, at.Hole, at.Over
		partition.chain = ledger.Chain{Known: at.Known, Upto: at.Upto}
	}
	return nil
}

// places returns the receiver's places.
func (r *Receiver) places() *places {
	p := &places{Output: r.written, Sum: r.sum}
	for _, of := range r.epochs {
		found := epochPlaces{Epoch: of.Epoch}
		for _, partition := range of.partitions {
			found.Partitions = append(found.Partitions, place{Stream: partition.stream, Known: partition.chain.Known, Upto: partition.chain.Upto,
				Hole: partition.hole, Over: partition.over})
		}
		if of.Epoch == 0 {
			p.Partitions = found.Partitions
		} else {
			p.Later = append(p.Later, found)
		}
	}
	return p
}
