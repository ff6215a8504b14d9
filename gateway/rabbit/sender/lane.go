package sender

import (
	"context"
	"errors"
	"fmt"
	"sync"
	"time"

	"gateway/rabbit/bus"
	"gateway/rabbit/ledger"
)

// A Lane sends the lines of one partition. One message is in flight at a time: with several, one could be lost and the next
// kept when a stream changes its leader.
type Lane struct {
	sender    *Sender
	partition int
	queue     string
	limit     int           // how many bytes may wait
	room      chan struct{} // has a value where there may be room
	wake      chan struct{} // has a value where there may be something to send

	// What only the lane's own goroutine uses.
	claimed  bool
	claim    int64 // the offset of this process's claim in the log
	fenced   bool  // whether a newer process claimed the name before: no line counts
	before   int64 // how many lines of the batch were taken before
	known    known
	next     int64     // the number of the next message's first line
	last     time.Time // when a message was last published
	waiting  gathering
	models   int64 // how many lines of the batch so far are models
	message  *message
	link     bus.Link
	appender bus.Appender

	mutex    sync.Mutex
	pending  []pending
	came     time.Time // when the last of these came
	bytes    int       // of pending lines and those in flight
	closed   bool      // whether no more lines come
	settled  bool      // and whether all are confirmed then
	ready    bool      // whether the name is claimed
	done     bool
	passed   bool      // whether lines were left out: no later one is sent
	stuck    time.Time // since when nothing is confirmed, or zero
	reason   error     // why
	sent     int64
	repeated int64
	unsent   int64
}

type message struct {
	number int64
	models int64 // of the batch, before this message
	lines  []pending
	body   []byte
}

func newLane(s *Sender, partition int) *Lane {
	limit := bus.WindowBytes / s.options.Settings.Partitions
	if limit < bus.MessageBytes {
		limit = bus.MessageBytes
	}
	return &Lane{sender: s, partition: partition, queue: s.options.Settings.Queue(bus.Lines, partition), limit: limit,
		room: make(chan struct{}, 1), wake: make(chan struct{}, 1)}
}

func signal(to chan struct{}) {
	select {
	case to <- struct{}{}:
	default:
	}
}

// put takes a line, unless there is no room.
func (l *Lane) put(next pending) bool {
	l.mutex.Lock()
	defer l.mutex.Unlock()
	if l.passed {
		if next.counts() {
			l.unsent++
		}
		return true
	}
	if l.bytes >= l.limit {
		return false
	}
	l.pending, l.came = append(l.pending, next), time.Now()
	l.bytes += len(next.text)
	if l.message == nil && (len(l.pending) == 1 || l.isFull()) { // lines in between wait for a message with them
		signal(l.wake)
	}
	return true
}

// close notes that no more lines come.
func (l *Lane) close() {
	l.mutex.Lock()
	l.closed = true
	l.mutex.Unlock()
	signal(l.wake)
}

// passBy leaves out the lines from now on.
func (l *Lane) passBy() {
	l.mutex.Lock()
	l.passed = true
	reason := l.reason
	l.mutex.Unlock()
	l.sender.options.Log.OfPartition(l.partition).Error("it can't be reached, and its further lines are not sent: %v", reason)
}

// isStuck reports whether nothing was confirmed for this long though something is due.
func (l *Lane) isStuck(long time.Duration) bool {
	l.mutex.Lock()
	defer l.mutex.Unlock()
	return !l.done && !l.stuck.IsZero() && time.Since(l.stuck) >= long
}

// IsSettled reports whether no more lines come, and all are confirmed.
func (l *Lane) IsSettled() bool {
	l.mutex.Lock()
	defer l.mutex.Unlock()
	return l.settled || l.done
}

// settle notes that no more lines come, and all are confirmed.
func (l *Lane) settle() {
	l.mutex.Lock()
	l.settled = true
	l.mutex.Unlock()
	l.sender.notice()
}

// IsClaimed reports whether the name is claimed in the partition, so that what it took of the batch is known.
func (l *Lane) IsClaimed() bool {
	l.mutex.Lock()
	defer l.mutex.Unlock()
	return l.ready
}

func (l *Lane) isPassed() bool {
	l.mutex.Lock()
	defer l.mutex.Unlock()
	return l.passed
}

func (l *Lane) isDone() bool {
	l.mutex.Lock()
	defer l.mutex.Unlock()
	return l.done
}

// tally counts the lines, and returns why some were not sent.
func (l *Lane) tally() (sent, repeated, unsent int64, reason error) {
	l.mutex.Lock()
	defer l.mutex.Unlock()
	unsent = l.unsent
	if l.message != nil {
		unsent += int64(len(l.message.lines))
	}
	if l.reason == nil {
		l.reason = errors.New("the sender ended before")
	}
	return l.sent, l.repeated, unsent + int64(len(l.pending)), l.reason
}

// failed notes that the connection has failed.
func (l *Lane) failed(reason error) {
	l.mutex.Lock()
	if l.stuck.IsZero() {
		l.stuck = time.Now()
	}
	l.reason = reason
	l.mutex.Unlock()
	l.sender.options.Gauges.Failed(l.partition, reason)
	l.sender.notice()
}

// reached notes that there is a connection. If nothing waits for a confirm, the lane is not stuck.
func (l *Lane) reached() {
	l.mutex.Lock()
	defer l.mutex.Unlock()
	if l.message == nil && len(l.pending) == 0 {
		l.goesOn()
	}
}

// goesOn notes that the partition is reached, and confirms.
func (l *Lane) goesOn() {
	l.stuck = time.Time{}
	l.sender.options.Gauges.Failed(l.partition, nil)
}

// work sends until all is sent, or the context ends.
func (l *Lane) work(ctx context.Context) {
	log := l.sender.options.Log.OfPartition(l.partition)
	err := bus.Again(ctx, l.sender.options.Bus, log, func(ctx context.Context) error {
		err := l.run(ctx)
		if err != nil && ctx.Err() == nil { // at the end all connections are lost, which is no reason for unsent lines
			l.failed(err)
		}
		return err
	})
	l.sender.failFinally(err)
}

// run sends with one connection.
func (l *Lane) run(ctx context.Context) error {
	if !l.isNeeded(ctx) {
		return nil
	}
	if err := l.Open(ctx); err != nil {
		return err
	}
	defer l.link.Close()
	for {
		if more, err := l.Step(); err != nil || !more {
			return err
		}
		if err := l.Wait(ctx); err != nil {
			return err
		}
	}
}

// Open connects, claims the name in the partition, and publishes unconfirmed messages again.
func (l *Lane) Open(ctx context.Context) (err error) {
	if l.link, err = l.sender.connect(ctx); err != nil {
		return err
	}
	if err = l.begin(); err != nil {
		l.link.Close()
	}
	return err
}

func (l *Lane) begin() (err error) {
	if err := l.claimBatch(l.link); err != nil {
		return err
	}
	if l.appender, err = l.link.Appender(); err != nil {
		return err
	}
	if l.message != nil { // it may have to be sent again
		if err := l.append(); err != nil {
			return err
		}
	}
	l.reached()
	return nil
}

// isNeeded waits until there is something to do: a sender without a name connects to a partition for its first line.
func (l *Lane) isNeeded(ctx context.Context) bool {
	for !l.sender.options.Named {
		l.mutex.Lock()
		has, closed := len(l.pending) > 0 || l.next > 0, l.closed
		l.mutex.Unlock()
		if has {
			return true
		}
		if closed {
			l.finish()
			return false
		}
		select {
		case <-l.wake:
		case <-ctx.Done():
			return false
		}
	}
	return true
}

// claimBatch claims the name in the partition's log, and reads what the partition has of the batch.
func (l *Lane) claimBatch(link bus.Link) error {
	if !l.sender.options.Named || l.claimed {
		return nil
	}
	found, err := claimPartition(link, l.sender.options.Settings, l.partition, l.sender.origin())
	if err != nil {
		return err
	}
	l.claim, l.fenced, l.claimed = found.offset, found.fenced, true
	if found.batch != nil {
		l.known, l.before, l.next = known{batch: found.batch}, found.batch.Count, found.batch.Count
	}
	l.mutex.Lock()
	l.ready = true
	l.mutex.Unlock()
	l.sender.notice()
	return nil
}

// Step publishes the next message, if none is in flight, or ends the batch. It reports whether there is more to wait for.
func (l *Lane) Step() (more bool, err error) {
	if l.message != nil || l.gathers() > 0 {
		return true, nil
	}
	next, closed, err := l.nextMessage()
	if err != nil {
		return false, err
	}
	if next == nil && closed && !l.sender.mayEnd() {
		l.settle()
		return true, nil
	}
	if next == nil && closed {
		return false, l.end()
	}
	if next == nil {
		return true, nil
	}
	l.mutex.Lock()
	l.message = next
	l.mutex.Unlock()
	return true, l.append()
}

// isFull reports whether the waiting lines fill a message.
func (l *Lane) isFull() bool {
	return len(l.pending) >= bus.MessageLines || l.bytes >= bus.MessageBytes
}

// gathers returns how much longer waiting lines wait for more.
func (l *Lane) gathers() time.Duration {
	l.mutex.Lock()
	defer l.mutex.Unlock()
	if l.message != nil || l.closed || len(l.pending) == 0 || l.isFull() {
		return 0
	}
	return l.waiting.rest(time.Now(), l.last)
}

// nextMessage makes the next message, or returns nil if there is nothing to send, and reports whether no more lines come.
func (l *Lane) nextMessage() (next *message, closed bool, err error) {
	lines, closed, err := l.take()
	if err != nil || len(lines) == 0 {
		return nil, closed, err
	}
	l.mutex.Lock()
	l.waiting.sent(time.Now(), l.came)
	l.mutex.Unlock()
	next = &message{number: l.next, models: l.models, lines: lines}
	next.body = bodyOf(lines)
	for at, one := range lines {
		if one.isModel() {
			l.models++
		}
		if l.sender.options.Numbered != nil {
			l.sender.options.Numbered(one.text, l.partition, l.next+int64(at))
		}
	}
	l.next += int64(len(lines))
	return next, closed, nil
}

// bodyOf returns a message body with these lines.
func bodyOf(lines []pending) []byte {
	size := len(lines) - 1
	for _, one := range lines {
		size += len(one.text)
	}
	body := append(make([]byte, 0, size), lines[0].text...)
	for _, one := range lines[1:] {
		body = append(append(body, '\n'), one.text...)
	}
	return body
}

// take removes the lines of the next message, and reports whether no more come. Lines that the partition has are left out.
// Models and requests have separate messages, as models need other permissions.
func (l *Lane) take() (lines []pending, closed bool, err error) {
	l.mutex.Lock()
	defer l.mutex.Unlock()
	size := 0
	for len(l.pending) > 0 && len(lines) < bus.MessageLines {
		next := l.pending[0]
		if len(lines) > 0 && (size+len(next.text) >= bus.MessageBytes || next.isModel() != lines[0].isModel()) {
			break
		}
		repeated, err := l.known.take(next.text)
		if err != nil {
			return nil, false, l.other(err)
		}
		l.pending = l.pending[1:]
		if repeated {
			l.bytes -= len(next.text)
			if next.isModel() {
				l.models++
			}
			if next.counts() {
				l.repeated++
			}
			signal(l.room)
			continue
		}
		size += len(next.text) + 1
		lines = append(lines, next)
	}
	closed = l.closed && len(l.pending) == 0
	if closed && len(lines) == 0 && !l.passed {
		if err := l.known.end(); err != nil {
			return nil, false, l.other(err)
		}
	}
	return lines, closed, nil
}

// other returns the error for a batch that was sent before with other lines.
func (l *Lane) other(err error) error {
	return &bus.Final{Reason: fmt.Errorf("batch %q, partition %d: %w", l.sender.options.Batch, l.partition, err)}
}

func (l *Lane) append() error {
	from := l.sender.origin()
	from.Number, from.Models = l.message.number, l.message.models
	route := linesRoute(l.sender.options.Settings, l.partition)
	if l.message.lines[0].isModel() {
		route = l.sender.options.Settings.Route(bus.RequestsExchange, bus.TopicModels, l.partition)
	}
	l.last = time.Now()
	return l.appender.Append(route, bus.OriginHeaders(from), l.message.body)
}

// Wait waits for an event, and handles it.
func (l *Lane) Wait(ctx context.Context) error {
	pause := time.Second
	if gathers := l.gathers(); gathers > 0 {
		pause = gathers
	}
	late := time.NewTimer(pause)
	defer late.Stop()
	select {
	case <-l.wake:
	case confirm, open := <-l.appender.Confirms():
		if err := l.appender.Take(confirm, open); err != nil {
			return err
		}
		l.confirmed()
	case <-late.C:
		return l.appender.Late()
	case <-l.link.Done():
		return l.link.Err()
	case <-ctx.Done():
		return ctx.Err()
	}
	return nil
}

// confirmed notes that the message in flight is in the log.
func (l *Lane) confirmed() {
	l.mutex.Lock()
	defer l.mutex.Unlock()
	for _, next := range l.message.lines {
		l.bytes -= len(next.text)
		if next.counts() {
			l.sent++
		}
		if l.sender.options.Confirmed != nil {
			l.sender.options.Confirmed(next.text)
		}
	}
	l.message = nil
	l.goesOn()
	signal(l.room)
}

// end sends the partition the end of the batch, if it has all of it, and finishes the lane.
func (l *Lane) end() error {
	l.mutex.Lock()
	whole := !l.passed
	l.mutex.Unlock()
	if whole {
		end := l.sender.origin()
		end.Kind, end.Number, end.Models = ledger.End, l.next, l.models
		route := linesRoute(l.sender.options.Settings, l.partition)
		if err := l.appender.Append(route, bus.OriginHeaders(end), nil); err != nil {
			return err
		}
		if err := l.appender.Settle(); err != nil {
			return err
		}
	}
	l.finish()
	return nil
}

func (l *Lane) finish() {
	l.mutex.Lock()
	l.done = true
	l.goesOn()
	l.mutex.Unlock()
	l.sender.notice()
}
