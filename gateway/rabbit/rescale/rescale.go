// Package rescale changes the number of partitions. Each step may be repeated, by anybody: the scale stream decides which
// change counts, and of several closings of a log the first one does.
package rescale

import (
	"context"
	"errors"
	"fmt"

	"gateway/rabbit/bus"
	"gateway/rabbit/logs"
)

// ErrUndeclared means that the brokers don't have the number of partitions.
var ErrUndeclared = errors.New("the brokers don't know how many partitions there are: run desk partition --declare first, with " +
	bus.PartitionsVariable + " as it is")

// An Other error means that another change is running.
type Other struct{ To bus.Settings }

func (o *Other) Error() string {
	return fmt.Sprintf("a change to %d partitions is under way: desk partition rescale %d goes on with it", o.To.Partitions, o.To.Partitions)
}

// A Change is a change to another number of partitions.
type Change struct {
	From, To bus.Settings
	Done     bool // whether there is nothing to do
	link     bus.Link
	appender bus.Appender
}

// Begin begins a change, or finds the running one to this number of partitions.
func Begin(link bus.Link, to int) (*Change, error) {
	scale, err := bus.LookAtScale(link, bus.Scaling{})
	if err != nil {
		return nil, err
	}
	newest, is := scale.Newest()
	switch {
	case !is:
		return nil, &bus.Final{Reason: ErrUndeclared}
	case !scale.Open && newest.Partitions == to:
		return &Change{To: newest, Done: true}, nil
	}
	c := &Change{link: link}
	if c.appender, err = link.Appender(); err != nil {
		return nil, err
	}
	if !scale.Open {
		next := bus.Settings{Partitions: to, Epoch: newest.Epoch + 1}
		if err := c.append(bus.ScaleRoute, bus.BeginHeaders(next)); err != nil {
			return nil, err
		}
		if scale, err = bus.LookAtScale(link, *scale); err != nil {
			return nil, err
		}
		newest, _ = scale.Newest()
	}
	if newest.Partitions != to {
		return nil, &bus.Final{Reason: &Other{newest}}
	}
	if c.Done = !scale.Open; c.Done { // another process has done it meanwhile
		return &Change{To: newest, Done: true}, nil
	}
	c.To = newest
	c.From, _ = scale.Before(newest.Epoch)
	return c, nil
}

func (c *Change) append(to bus.Route, headers bus.Headers) error {
	if err := c.appender.Append(to, headers, nil); err != nil {
		return err
	}
	return c.appender.Settle()
}

// Close closes an old partition's log. The new partitions are declared by then.
func (c *Change) Close(partition int) error {
	return c.append(c.From.Route(bus.RequestsExchange, bus.TopicMarks, partition), bus.CloseHeaders(c.To))
}

// End records that each log is closed.
func (c *Change) End() error { return c.append(bus.ScaleRoute, bus.DoneHeaders(c.To.Epoch)) }

// Declare records the number of partitions if there is none, once their streams are declared. It returns the number that
// counts.
func Declare(ctx context.Context, options Options, settings bus.Settings) (newest bus.Settings, err error) {
	err = bus.Again(ctx, options.Bus, options.Log, func(ctx context.Context) error {
		var is bool
		if newest, is, err = known(ctx, options.Bus); err != nil {
			return err
		}
		if !is {
			newest = settings
		}
		if err := options.Declare(ctx, newest); err != nil || is {
			return err
		}
		return say(ctx, options.Bus, settings)
	})
	return newest, err
}

// known returns the number of partitions, if it is recorded.
func known(ctx context.Context, on bus.Bus) (newest bus.Settings, is bool, err error) {
	link, err := on.Connect(ctx, "desk partition --declare", "")
	if err != nil {
		return newest, false, err
	}
	defer link.Close()
	scale, err := bus.LookAtScale(link, bus.Scaling{})
	if err != nil && on.Judge(err) == bus.Missing {
		return newest, false, nil
	}
	if err != nil {
		return newest, false, err
	}
	newest, is = scale.Newest()
	return newest, is, nil
}

// say records the number of partitions. An earlier record counts instead.
func say(ctx context.Context, on bus.Bus, settings bus.Settings) error {
	link, err := on.Connect(ctx, "desk partition --declare", "")
	if err != nil {
		return err
	}
	defer link.Close()
	c := &Change{link: link}
	if c.appender, err = link.Appender(); err != nil {
		return err
	}
	return c.append(bus.ScaleRoute, bus.DeclaredHeaders(settings.Partitions))
}

// Options says what is changed.
type Options struct {
	Bus     bus.Bus
	To      int
	Declare func(context.Context, bus.Settings) error // makes the missing streams of partitions
	Leave   func(context.Context, bus.Settings) error // unbinds closed logs
	Log     *logs.Log
}

// Run changes the number of partitions, and returns the change.
func Run(ctx context.Context, options Options) (change *Change, err error) {
	err = bus.Again(ctx, options.Bus, options.Log, func(ctx context.Context) error {
		link, err := options.Bus.Connect(ctx, "desk partition rescale", "")
		if err != nil {
			return err
		}
		defer link.Close()
		change, err = Begin(link, options.To)
		if err != nil && options.Bus.Judge(err) == bus.Missing {
			return &bus.Final{Reason: ErrUndeclared}
		}
		if err != nil || change.Done {
			return err
		}
		return change.run(ctx, options)
	})
	return change, err
}

// run does what follows Begin.
func (c *Change) run(ctx context.Context, options Options) error {
	options.Log.Info("%d partitions become %d (epoch %d)", c.From.Partitions, c.To.Partitions, c.To.Epoch)
	if err := options.Declare(ctx, c.To); err != nil {
		return err
	}
	for _, partition := range c.From.All() {
		if err := c.Close(partition); err != nil {
			return fmt.Errorf("closing the log of partition %d: %w", partition, err)
		}
	}
	if err := options.Leave(ctx, c.From); err != nil {
		return err
	}
	return c.End()
}
