package calls

import (
	"context"
	"encoding/json"
	"errors"
	"fmt"
	"sort"
	"sync"
	"time"

	"gateway/rabbit/bus"
	"gateway/rabbit/sender"
)

// send sends accepted lines with one sender after another, each for one number of partitions.
func (c *Calls) send(ctx context.Context, scale *bus.Watch) error {
	for {
		name, err := bus.NewMark()
		if err != nil {
			return err
		}
		newest, _ := scale.Newest()
		c.mutex.Lock()
		c.epoch, c.reached = newest.Epoch, true
		input := c.input
		c.mutex.Unlock()
		var taken []int64
		tally, err := sender.Send(ctx, sender.Options{Bus: c.options.Bus, Settings: newest, Scale: scale, Name: name, Input: input,
			Log: c.options.Log, Gauges: c.sends, Confirmed: c.confirm, Numbered: c.number, Taken: func(upto []int64) { taken = upto },
			Check: func([]byte) error { return nil }})
		var changed *bus.Rescaled
		if errors.As(err, &changed) && taken != nil {
			c.options.Log.Info("%v: what those before did not take is sent to these", changed)
			c.again(taken)
			continue
		}
		if err == nil && tally.Refused+tally.Unsent > 0 {
			err = fmt.Errorf("%d lines could not be sent", tally.Refused+tally.Unsent)
		}
		return err
	}
}

// idOf returns the id of a request's line; models have none.
func idOf(line []byte) (request, bool) {
	var read struct{ ID name }
	err := json.Unmarshal(line, &read)
	return request{read.ID.Call, read.ID.At}, err == nil && read.ID.Call != ""
}

// number notes a line's number among those of its partition.
func (c *Calls) number(line []byte, partition int, number int64) {
	asked, is := idOf(line)
	c.mutex.Lock()
	defer c.mutex.Unlock()
	if w := c.waiting[asked]; is && w != nil {
		w.partition, w.number = partition, number
	}
}

// again accepts unanswered lines again that the partitions did not take, in order. They took this many lines each.
func (c *Calls) again(taken []int64) {
	c.mutex.Lock()
	defer c.mutex.Unlock()
	var rest []*waiter
	for _, w := range c.waiting {
		if w.number < 0 || w.number >= taken[w.partition] {
			w.number, w.confirmed = -1, false
			rest = append(rest, w)
		} else {
			w.confirmed = true
		}
	}
	sort.Slice(rest, func(a, b int) bool { return rest[a].order < rest[b].order })
	c.input.close() // its reader ignores what comes later
	c.input = newFeed()
	c.input.add(c.options.Model)
	for _, w := range rest {
		c.input.add(w.line)
	}
	if c.closed {
		c.input.close()
	}
}

// lookTime limits a look at the number of partitions.
const lookTime = 5 * time.Second

var errLate = fmt.Errorf("the broker did nothing for %v", lookTime)

// look returns the newest number of partitions, and reports whether it was found.
func (c *Calls) look() (bus.Settings, bool) {
	ctx, stop := context.WithTimeout(context.Background(), lookTime)
	defer stop()
	link, err := c.options.Bus.Connect(ctx, "desk http", "")
	if err != nil {
		return bus.Settings{}, false
	}
	defer link.Close()
	late := time.AfterFunc(lookTime, func() { link.Fail(errLate) })
	defer late.Stop()
	c.mutex.Lock()
	known := c.scale.Scaling()
	c.mutex.Unlock()
	scale, err := bus.LookAtScale(link, known)
	if err != nil {
		return bus.Settings{}, c.options.Bus.Judge(err) == bus.Missing // an older program declared the partitions
	}
	newest, is := scale.Newest()
	return newest, is
}

// A looks shares looks at the number of partitions: one serves all that have waited for it. The zero value has made none.
type looks struct {
	mutex sync.Mutex
	begun time.Time // the last
	epoch int64     // what it found, or -1
}

// isSame reports whether the number of partitions still has this epoch, by a look that begins now or later.
func (l *looks) isSame(epoch int64, look func() (bus.Settings, bool)) bool {
	asked := time.Now()
	l.mutex.Lock()
	defer l.mutex.Unlock()
	if !l.begun.After(asked) {
		l.begun, l.epoch = time.Now(), -1
		if newest, is := look(); is {
			l.epoch = newest.Epoch
		}
	}
	return l.epoch == epoch
}
