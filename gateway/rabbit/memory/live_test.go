package memory_test

import (
	"context"
	"errors"
	"fmt"
	"math/rand"
	"strings"
	"sync"
	"time"

	"gateway/rabbit/bus"
	"gateway/rabbit/memory"
)

// A live bus hands over by itself what the bus in memory has, and loses nothing, so that whole programs run on it. One
// partition may be sick: requests to its streams fail.
type live struct {
	*memory.Bus
	mutex sync.Mutex
	sick  int                         // the number of a partition, or -1
	owned map[bus.Partition]*liveLink // the last owner of each
}

var errSick = errors.New("the stream is down")

func newLive(partitions, sick int) *live {
	b := memory.New(rand.New(rand.NewSource(1)), bus.Settings{Partitions: partitions})
	b.Steady = true
	return &live{Bus: b, sick: sick, owned: map[bus.Partition]*liveLink{}}
}

// heal makes the sick partition work again.
func (l *live) heal() { l.with(func() { l.sick = -1 }) }

func (l *live) with(work func()) {
	l.mutex.Lock()
	defer l.mutex.Unlock()
	work()
}

// isSick reports whether a stream, or a route's key, belongs to the sick partition.
func (l *live) isSick(name string) bool {
	return strings.Contains(name, fmt.Sprintf(".%d.of.", l.sick))
}

// declare makes the streams of partitions.
func (l *live) declare(_ context.Context, settings bus.Settings) error {
	l.with(func() { l.Declare(settings) })
	return nil
}

// leave unbinds the logs of partitions.
func (l *live) leave(_ context.Context, settings bus.Settings) error {
	l.with(func() { l.Leave(settings) })
	return nil
}

// Own waits until nobody owns one of the partitions.
func (l *liveLink) Own(ctx context.Context, partitions []bus.Partition, _ func([]bus.Partition)) (bus.Partition, error) {
	for {
		for _, partition := range partitions {
			isFree := false
			l.bus.with(func() {
				owner := l.bus.owned[partition]
				if isFree = !l.bus.IsMissing(partition.Queue(bus.Lease)) && (owner == nil || owner.Link.Err() != nil); isFree {
					l.bus.owned[partition] = l
				}
			})
			if isFree {
				return partition, nil
			}
		}
		select {
		case <-ctx.Done():
			return bus.Partition{}, ctx.Err()
		case <-l.Done():
			return bus.Partition{}, l.Err()
		case <-time.After(time.Millisecond):
		}
	}
}

// bodies returns the non-empty bodies of a stream's messages.
func (l *live) bodies(stream string) (found []string) {
	l.with(func() {
		for _, message := range l.Stream(stream).Messages {
			if len(message.Body) > 0 {
				found = append(found, string(message.Body))
			}
		}
	})
	return found
}

// Connect opens a connection that ends with the context.
func (l *live) Connect(ctx context.Context, name, last string) (bus.Link, error) {
	made := &liveLink{bus: l}
	l.with(func() {
		link, _ := l.Bus.Connect(ctx, name, last)
		made.Link = link.(*memory.Link)
	})
	go made.work(ctx)
	return made, nil
}

// Pause is short.
func (l *live) Pause(ctx context.Context, _ time.Duration) {
	select {
	case <-ctx.Done():
	case <-time.After(time.Millisecond):
	}
}

type liveLink struct {
	*memory.Link
	bus     *live
	readers []*liveReader
}

// work confirms and hands over until the link ends.
func (l *liveLink) work(ctx context.Context) {
	for {
		select {
		case <-l.Done():
			return
		case <-ctx.Done():
			l.Fail(ctx.Err())
			return
		case <-time.After(time.Millisecond):
		}
		l.bus.with(func() {
			if l.Waits() {
				l.Confirm(2)
			}
			for l.isFree() && l.Due() {
				l.Deliver()
			}
		})
	}
}

// isFree reports whether each reader has taken what was handed over.
func (l *liveLink) isFree() bool {
	for _, r := range l.readers {
		if len(r.Arrivals()) > 0 {
			return false
		}
	}
	return true
}

func (l *liveLink) Fail(reason error) { l.bus.with(func() { l.Link.Fail(reason) }) }
func (l *liveLink) Close()            { l.bus.with(l.Link.Close) }

func (l *liveLink) Appender() (made bus.Appender, err error) {
	l.bus.with(func() { made, err = l.Link.Appender() })
	if err != nil {
		return nil, err
	}
	return &liveAppender{made, l.bus}, nil
}

func (l *liveLink) Read(what bus.Reading) (made bus.Reader, err error) {
	l.bus.with(func() {
		var read bus.Reader
		if l.bus.isSick(what.Stream) {
			err = errSick
		} else if read, err = l.Link.Read(what); err == nil {
			r := &liveReader{read, l}
			l.readers, made = append(l.readers, r), r
		}
	})
	return made, err
}

func (l *liveLink) End(stream string) (made bus.End, err error) {
	l.bus.with(func() { made, err = l.Link.End(stream) })
	return &liveEnd{made, l.bus}, err
}

type liveEnd struct {
	bus.End
	bus *live
}

func (e *liveEnd) Offset() (offset int64, err error) {
	e.bus.with(func() { offset, err = e.End.Offset() })
	return offset, err
}

type liveReader struct {
	bus.Reader
	link *liveLink
}

func (r *liveReader) Next() (bus.Message, error) {
	select {
	case message := <-r.Arrivals():
		return message, nil
	case <-r.link.Done():
		return bus.Message{}, r.link.Err()
	}
}

// Close ends the reader, and drops the last message that it got.
func (r *liveReader) Close() (err error) {
	r.link.bus.with(func() {
		err = r.Reader.Close()
		for at, other := range r.link.readers {
			if other == r {
				r.link.readers = append(r.link.readers[:at:at], r.link.readers[at+1:]...)
				return
			}
		}
	})
	return err
}

type liveAppender struct {
	bus.Appender
	bus *live
}

func (a *liveAppender) Append(to bus.Route, headers bus.Headers, body []byte) (err error) {
	a.bus.with(func() {
		if err = errSick; !a.bus.isSick(to.Key) {
			err = a.Appender.Append(to, headers, body)
		}
	})
	return err
}

func (a *liveAppender) Open() (open int) {
	a.bus.with(func() { open = a.Appender.Open() })
	return open
}

func (a *liveAppender) Take(confirm error, open bool) (err error) {
	a.bus.with(func() { err = a.Appender.Take(confirm, open) })
	return err
}

func (a *liveAppender) Settle() (err error) {
	a.bus.with(func() { err = a.Appender.Settle() })
	return err
}

func (a *liveAppender) Close() (err error) {
	a.bus.with(func() { err = a.Appender.Close() })
	return err
}
