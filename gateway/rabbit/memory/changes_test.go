package memory_test

import (
	"context"
	"errors"
	"strings"

	"gateway/rabbit/bus"
	"gateway/rabbit/ledger"
	"gateway/rabbit/memory"
	"gateway/rabbit/rescale"
)

// A changing is a process that changes the number of partitions.
type changing struct {
	*rescale.Change
	link     bus.Link
	declared bool
	closed   int // how many logs are closed
	left     bool
}

// mostChanges limits the changes.
const mostChanges = 4

// moveChange begins a change, continues it by one step, or kills its process.
func (w *world) moveChange() error {
	c := w.change
	if c == nil {
		return w.beginChange()
	}
	if w.Chance(6) {
		c.link.Fail(memory.ErrLink)
		w.change = nil
		return nil
	}
	return w.goOn(c)
}

// goOn does the next step of a change.
func (w *world) goOn(c *changing) (err error) {
	switch {
	case !c.declared:
		w.Declare(c.To)
		c.declared = true
	case c.closed < c.From.Partitions:
		if err = c.Close(c.closed); err == nil {
			c.closed++
		}
	case !c.left:
		w.Leave(c.From)
		c.left = true
	default:
		err = c.End()
		w.change = nil
	}
	if err != nil {
		w.change = nil
		if errors.Is(err, memory.ErrLink) {
			err = nil
		}
	}
	return err
}

func (w *world) beginChange() error {
	to := 1 + w.random.Intn(4)
	if scaling := w.scaling(); scaling.Open && !w.Chance(4) {
		newest, _ := scaling.Newest()
		to = newest.Partitions
	} else if len(scaling.All) > mostChanges || !scaling.Open && !w.Chance(6) {
		return nil
	}
	link, err := w.Connect(context.Background(), "", "")
	if err != nil {
		return err
	}
	change, err := rescale.Begin(link, to)
	var other *rescale.Other
	switch {
	case errors.Is(err, memory.ErrLink), errors.As(err, &other), err == nil && change.Done:
		return nil
	case err != nil:
		return err
	}
	w.change = &changing{Change: change, link: link}
	return nil
}

// finishChange finishes a running change.
func (w *world) finishChange() error {
	w.change = nil
	for scaling := w.scaling(); scaling.Open; scaling = w.scaling() {
		if w.change == nil {
			if err := w.beginChange(); err != nil {
				return err
			}
			continue
		}
		if err := w.goOn(w.change); err != nil {
			return err
		}
	}
	return nil
}

// isOver reports whether an owner's error means that its partition is answered for good, isUnbegun that a partition can't begin
// yet.
func isOver(err error) bool {
	return strings.Contains(err.Error(), "all its lines are answered, and others follow")
}

func isUnbegun(err error) bool {
	return strings.Contains(err.Error(), "it begins once partitions") || strings.Contains(err.Error(), "it has not begun")
}

// anyPartition returns a current or earlier partition.
func (w *world) anyPartition() bus.Partition {
	all := w.scaling().All
	of := all[w.random.Intn(len(all))]
	for w.IsMissing(of.Queue(bus.Lines, 0)) {
		of = all[w.random.Intn(len(all))]
	}
	return of.Each()[w.random.Intn(of.Partitions)]
}

// mostOwners limits the owners: now and then two of a partition.
func (w *world) mostOwners() int {
	if !w.rescales {
		return 2
	}
	return 6
}

// withoutSections removes sections of batches from a snapshot.
func withoutSections(message bus.Message) bus.Message {
	return altered(message, func(l *ledger.Ledger) {
		for _, sender := range l.Senders.All() {
			for _, batch := range sender.Batches {
				batch.Sections = nil
			}
		}
	})
}
