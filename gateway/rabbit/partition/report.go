package partition

import (
	"fmt"
	"sync/atomic"
	"time"

	"gateway/rabbit/bus"
)

// reportPause is how often the partition's lag is reported and its log's end checked.
const reportPause = 10 * time.Second

// A report is the last report.
type report struct {
	text string
	at   time.Time
}

// reportLag reports the partition's lag, if something has changed.
func (o *Owner) reportLag() {
	waiting := len(o.queue.entries)
	var seconds float64
	if head := o.queue.head(); head != nil {
		seconds = time.Since(head.from.Sent).Seconds()
	}
	o.gauges.lag(waiting, o.unread(), seconds)
	o.tail.reached(o.intake.offset)
	text := fmt.Sprintf("read to offset %d, %d without an answer", o.intake.offset, waiting)
	if now := time.Now(); text != o.report.text && now.Sub(o.report.at) > reportPause {
		o.log.Info("%s", text)
		o.report = report{text: text, at: now}
	}
}

// An idle reader of the log has read nothing for a while.
type idle struct{ since time.Time }

// late returns an error if the broker has sent no message for too long though some are due: the reader may be lost.
func (i *idle) late(now time.Time, due bool) error {
	if !due || i.since.IsZero() {
		i.since = now
	}
	if now.Sub(i.since) > bus.Patience {
		return fmt.Errorf("no message for %v, and some are there", bus.Patience)
	}
	return nil
}

// A tail knows the log's end, with some seconds' delay.
type tail struct {
	last   int64                 // the offset of the last message
	read   int64                 // the offset of the last message that the owner read
	looked int64                 // read at the last look
	marked int64                 // read when the end was last marked
	mark   func() (int64, error) // marks the end, and returns the mark's offset
}

func newTail(mark func() (int64, error)) *tail {
	return &tail{last: -1, read: -1, looked: -2, marked: -2, mark: mark}
}

func (t *tail) offset() int64 {
	if t == nil {
		return -1
	}
	return atomic.LoadInt64(&t.last)
}

// reached notes how far the owner has read.
func (t *tail) reached(offset int64) {
	if t != nil {
		atomic.StoreInt64(&t.read, offset)
	}
}

// watchTail looks for a stream's end from time to time, until the link ends or the stream can't be read: its owner's reader
// fails then too.
func watchTail(link bus.Link, stream string, mark func() (int64, error)) *tail {
	t := newTail(mark)
	go func() {
		end, err := link.End(stream)
		for pause := time.Duration(0); err == nil; pause = reportPause {
			select {
			case <-link.Done():
				return
			case <-time.After(pause):
			}
			err = t.look(end)
		}
	}()
	return t
}

// look looks for the log's end. The bus may report it too high. So if messages seem to be left, and none was read since the
// last look, the end is marked, once: each message that the bus counted is before the mark.
func (t *tail) look(end bus.End) error {
	last, err := end.Offset()
	if err != nil {
		return err
	}
	read := atomic.LoadInt64(&t.read)
	if last > read && read == t.looked && read != t.marked {
		mark, err := t.mark()
		if err != nil {
			return err
		}
		end.AtMost(mark - 1)
		if last >= mark {
			last = mark - 1
		}
		t.marked = read
	}
	if t.looked = read; last >= 0 {
		atomic.StoreInt64(&t.last, last)
	}
	return nil
}
