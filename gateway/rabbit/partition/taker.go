package partition

import (
	"context"
	"errors"
	"fmt"
	"os"
	"time"

	"gateway/rabbit/bus"
)

// Run owns partitions until the context ends.
func Run(ctx context.Context, options Options) error {
	watching, stop := context.WithCancel(ctx)
	defer stop()
	scale, err := bus.StartKeeping(watching, options.Bus, options.Log, connectionName(), options.Settings)
	if err != nil {
		return err
	}
	t := newTaker(options, scale)
	return bus.Again(ctx, options.Bus, options.Log, t.work)
}

func newTaker(options Options, scale scale) *taker {
	return &taker{options: options, scale: scale, patience: firstPatience, refused: make(map[bus.Partition]error),
		rests: make(map[bus.Partition]time.Time), fails: make(map[bus.Partition]time.Time), closed: make(map[bus.Partition]bool)}
}

// connectionName returns the display name of this process's connections.
func connectionName() string { return fmt.Sprintf("desk partition, process %d", os.Getpid()) }

// A scale knows the number of partitions.
type scale interface {
	Scaling() bus.Scaling
	Newest() (bus.Settings, <-chan struct{})
}

// A taker takes partitions over, one after another.
type taker struct {
	options  Options
	scale    scale
	patience time.Duration           // of the next takeover
	last     string                  // the address to try last, as a takeover failed there, or empty
	refused  map[bus.Partition]error // partitions whose model this program's engine refuses: another program must own them
	// rests is until when other partitions go before one that can't be owned before something is done.
	rests map[bus.Partition]time.Time
	// fails is since when a partition can't be taken over.
	fails map[bus.Partition]time.Time
	// sources are earlier partitions that must be owned before some of the newest; closed are those that nobody owns any more.
	sources []bus.Partition
	closed  map[bus.Partition]bool
}

// work owns partitions, one after the other, until a failure.
func (t *taker) work(ctx context.Context) error {
	for {
		err := t.own(ctx)
		var closed *closedError
		if !errors.Is(err, errRested) && !errors.Is(err, errChanged) && !errors.As(err, &closed) {
			return err
		}
		if ctx.Err() != nil {
			return ctx.Err()
		}
	}
}

// lasting is how long a takeover fails before the partition's log may be lost for good.
const lasting = 2 * time.Minute

// rest is how long a partition is left alone that can't be owned before something is done.
const rest = 30 * time.Second

// partitions returns those that may be owned now: resting ones too if all others are refused.
func (t *taker) partitions() []bus.Partition {
	var may, resting []bus.Partition
	for _, partition := range t.all() {
		switch {
		case t.refused[partition] != nil:
		case time.Now().Before(t.rests[partition]):
			resting = append(resting, partition)
		default:
			may = append(may, partition)
		}
	}
	if len(may) == 0 {
		return resting
	}
	return may
}

// all returns the newest partitions, and the earlier ones that these need.
func (t *taker) all() []bus.Partition {
	newest, _ := t.scale.Newest()
	var all []bus.Partition
	for _, partition := range append(newest.Each(), t.sources...) {
		if !t.closed[partition] {
			all = append(all, partition)
		}
	}
	return all
}

// missing notes the partitions without queues, and reports a change.
func (t *taker) missing(partitions []bus.Partition) {
	if t.options.Gauges.setMissing(partitions) && len(partitions) > 0 {
		t.options.Log.Error("partitions %v have no queues: %v", partitions, bus.ErrMissing)
	}
}

// failed notes why a partition can't be owned. The error is final if this program can own no other.
func (t *taker) failed(partition bus.Partition, reason error) error {
	var closed *closedError
	var unclosed *unclosedError
	switch {
	case errors.As(reason, &closed):
		t.closed[partition] = true
		return reason
	case errors.As(reason, &unclosed):
		return t.waitFor(partition, unclosed)
	}
	if t.options.Bus.Judge(reason) == bus.Missing {
		reason = fmt.Errorf("%w: %v", bus.ErrMissing, reason)
	}
	err := fmt.Errorf("partition %v: %w", partition, reason)
	for _, lasting := range []error{errOtherLog, bus.ErrNoSnapshot, bus.ErrMissing} {
		if errors.Is(reason, lasting) {
			t.rests[partition] = time.Now().Add(rest)
			t.options.Gauges.waitsFor(partition, reason, time.Now().Add(2*rest))
		}
	}
	if !errors.Is(reason, errRefusedModel) {
		return t.mayBeLost(partition, err)
	}
	t.options.Gauges.waitsFor(partition, reason, time.Time{})
	t.options.Log.Error("%v", err)
	if t.refused[partition] = reason; len(t.partitions()) == 0 {
		return &bus.Final{Reason: err}
	}
	return err
}

// mayBeLost notes that a partition can't be taken over, and says what to do if that lasts.
func (t *taker) mayBeLost(partition bus.Partition, reason error) error {
	since, known := t.fails[partition]
	if !known {
		t.fails[partition] = time.Now()
		return reason
	}
	if time.Since(since) < lasting {
		return reason
	}
	err := fmt.Errorf("%w (for %v now; if its stream of lines is lost for good: desk partition repair %d)", reason,
		time.Since(since).Round(time.Second), partition.Number)
	t.options.Gauges.waitsFor(partition, err, time.Now().Add(2*rest))
	return err
}

// own waits for a free partition, and owns it until the connection is lost.
func (t *taker) own(ctx context.Context) error {
	options := t.options
	link, err := options.Bus.Connect(ctx, connectionName(), t.last)
	if err != nil {
		return err
	}
	defer link.Close()
	options.Gauges.setConnected(true)
	defer options.Gauges.setConnected(false)
	partition, err := t.wait(ctx, link)
	if err != nil {
		return err
	}
	options.Log.OfPartition(partition).Info("owned by process %d", os.Getpid())
	o, err := t.take(link, partition)
	if err != nil {
		return t.failed(partition, err)
	}
	defer o.End()
	delete(t.fails, partition)
	options.Gauges.takeover(partition)
	defer options.Gauges.left()
	if err := o.run(); err != nil {
		options.Log.OfPartition(partition).Info("owned no more: %v", err)
		return t.failed(partition, err)
	}
	return nil
}

// errRested means that resting partitions may be tried again, errChanged that their number has changed.
var (
	errRested  = errors.New("partitions that could not be owned are looked at again")
	errChanged = errors.New("the number of partitions has changed")
)

// wait waits for a partition's lease, until a resting one may be tried or the number of partitions changes.
func (t *taker) wait(ctx context.Context, link bus.Link) (bus.Partition, error) {
	newest, changed := t.scale.Newest()
	may := t.partitions()
	until, cancel := context.WithCancel(ctx)
	defer cancel()
	if pause := t.pause(len(may)); pause > 0 {
		until, cancel = context.WithTimeout(until, pause)
		defer cancel()
	}
	go func() {
		for of := newest; of == newest; of, changed = t.scale.Newest() {
			select {
			case <-changed:
			case <-until.Done():
				return
			}
		}
		cancel()
	}()
	partition, err := link.Own(until, may, t.missing)
	switch {
	case ctx.Err() != nil:
	case errors.Is(err, context.DeadlineExceeded):
		return partition, errRested
	case errors.Is(err, context.Canceled):
		return partition, errChanged
	}
	return partition, err
}

// pause returns how long may partitions are waited for while others rest; 0 means forever.
func (t *taker) pause(may int) time.Duration {
	if may+len(t.refused) == len(t.all()) {
		return 0
	}
	if len(t.sources) > 0 {
		return shortRest
	}
	return rest
}

// shortRest is how long a partition is left alone whose sources aren't closed.
const shortRest = 2 * time.Second

// waitFor notes that a partition has no state before others are closed, which may need an owner.
func (t *taker) waitFor(partition bus.Partition, reason *unclosedError) error {
	t.rests[partition] = time.Now().Add(shortRest)
	t.options.Gauges.waitsFor(partition, reason, time.Now().Add(2*shortRest))
	for _, source := range reason.sources {
		if !t.isSource(source) {
			t.options.Log.OfPartition(partition).Info("%v", reason)
			t.sources = append(t.sources, source)
		}
	}
	return errRested
}

func (t *taker) isSource(partition bus.Partition) bool {
	for _, source := range t.sources {
		if source == partition {
			return true
		}
	}
	return false
}

// take takes a partition over. If a broker does nothing for a while the takeover fails, and the next has twice the patience.
// After any failure another broker is tried.
func (t *taker) take(link bus.Link, partition bus.Partition) (*Owner, error) {
	log := t.options.Log.OfPartition(partition)
	late := fmt.Errorf("the broker did nothing for %v in a takeover", t.patience)
	s := beginSteps(t.patience, func() { link.Fail(late) })
	scaling := t.scale.Scaling()
	o, err := begin(t.options, link, partition, scaling, log, s)
	s.end()
	var closed *closedError
	var unclosed *unclosedError
	if errors.As(err, &closed) || errors.As(err, &unclosed) {
		return nil, err
	}
	if err != nil {
		log.Warning("not taken over, after %v: %v", s, err)
		if errors.Is(err, late) {
			t.patience = longer(t.patience)
		}
		t.last = link.Address()
		return nil, err
	}
	t.patience, t.last = firstPatience, ""
	log.Info("goes on behind line %v, after %v", o.intake.upto, s)
	return o, nil
}
