// Package partition owns any one free partition at a time: it reads the partition's log, lets the engine answer it, and
// publishes the answers in line order, with snapshots between them.
package partition

import (
	"time"

	"gateway/rabbit/bus"
	"gateway/rabbit/logs"
	"gateway/rabbit/process"
)

// tick is how often deadlines are checked.
const tick = 50 * time.Millisecond

// Options says how partitions are processed.
type Options struct {
	Bus      bus.Bus
	Settings bus.Settings // if the brokers don't have the number of partitions
	Engine   process.Options
	Deadline time.Duration // how long a line's evaluation may take
	Keep     time.Duration // how long a named sender is remembered after its last message; 0 means forever
	Log      *logs.Log
	Gauges   *Gauges
	Program  string // this program's version
	// Begin starts an engine, by default a process. Now is the clock, by default the machine's.
	Begin func(process.Options) (Evaluator, error)
	Now   func() time.Time
}

// An Owner owns a partition.
type Owner struct {
	log       *logs.Log
	gauges    *Gauges
	link      bus.Link
	lines     string    // the log's name
	marks     bus.Route // for marks of the log
	publisher bus.Appender
	stream    bus.Reader
	queue     *queue
	intake    *intake
	work      *work
	output    *output
	tail      *tail
	timed     bool // whether the clock is the machine's; otherwise the test lets the owner look at it
	report    report
	idle      idle
}

// Begin takes a partition over once, after its last answer.
func Begin(options Options, link bus.Link, partition bus.Partition, scaling bus.Scaling) (*Owner, error) {
	return begin(options, link, partition, scaling, options.Log, unwatched{})
}

type unwatched struct{}

func (unwatched) Moved()        {}
func (unwatched) Passed(string) {}

// begin takes a partition over after its last answer.
func begin(options Options, link bus.Link, partition bus.Partition, scaling bus.Scaling, log *logs.Log, s bus.Progress) (*Owner, error) {
	publisher, err := link.Appender()
	if err != nil {
		return nil, err
	}
	reading := bus.HistoryOptions{Link: link, Partition: partition, Open: bus.MostOpen, Keep: options.Keep, Progress: s}
	h, err := bus.ReadHistory(reading, publisher)
	if err != nil {
		return nil, err
	}
	for _, fault := range h.Unread {
		log.Warning("a snapshot is left out, and the one before it counts: %v", fault)
		options.Gauges.unreadSnapshot()
	}
	s.Passed("the mark is confirmed")
	if h.Closed != (bus.Settings{}) {
		return nil, &closedError{h.Closed}
	}
	if partition.Of.Epoch > 0 && !h.HasSnapshot {
		if err := publishFirst(reading, scaling, publisher, h, options.Program); err != nil {
			return nil, err
		}
	}
	o := newOwner(options, link, partition, log, h)
	o.publisher, o.output.publisher = publisher, publisher
	if o.stream, err = link.Read(bus.Reading{Stream: o.lines, From: o.intake.from(), Window: bus.MostOpen}); err != nil {
		return nil, err
	}
	s.Passed("the log is begun")
	if o.intake.mark, err = bus.NewMark(); err != nil {
		return nil, err
	}
	return o, o.publishMarks(partition.Route(bus.AnswersExchange, bus.TopicMarks), h.At)
}

// newOwner returns an owner that continues after a history.
func newOwner(options Options, link bus.Link, partition bus.Partition, log *logs.Log, h *bus.History) *Owner {
	lines := partition.Queue(bus.Lines)
	q, route := &queue{}, partition.Route(bus.AnswersExchange, bus.TopicAnswers)
	first := func() (int64, error) { return link.First(lines) }
	now, begin := options.Now, options.Begin
	if now == nil {
		now = time.Now
	}
	if begin == nil {
		begin = beginProcess
	}
	marks := partition.Route(bus.RequestsExchange, bus.TopicMarks)
	return &Owner{log: log, gauges: options.Gauges, timed: options.Now == nil, link: link, lines: lines, marks: marks, queue: q,
		intake: newIntake(log, options.Gauges, q, h, partition.Of, first),
		work: &work{log: log, options: options.Engine, deadline: int(options.Deadline / tick), queue: q, ledger: h.Ledger,
			models: h.Ledger.Models.Clone(), begin: begin, restarts: options.Gauges.restart, taken: time.Now()},
		output: &output{now: now, gather: bus.AnswerGather, route: route, program: options.Program, ledger: h.Ledger, last: h.Upto(),
			published: h.End, snapshotAt: h.At, sinceMessages: h.Messages, next: now().Add(firstPause)}}
}

// publishMarks marks the log, and points to the last snapshot at the end of the answers.
func (o *Owner) publishMarks(answers bus.Route, snapshotAt int64) error {
	if err := o.publisher.Append(o.marks, bus.Headers{bus.MarkHeader: o.intake.mark}, nil); err != nil {
		return err
	}
	if err := o.publisher.Append(answers, bus.PointerHeaders(snapshotAt), nil); err != nil {
		return err
	}
	return o.publisher.Settle()
}

// CheckLog checks that the log isn't shorter than its answers, like one that the brokers made again: the owner would read from
// after its end, and find no message.
func (o *Owner) CheckLog() error {
	end, err := o.markEnd()
	if err == nil && end <= o.intake.upto.Offset {
		return errOtherLog
	}
	return err
}

// markEnd marks the log's end over the owner's link, and returns the mark's offset.
func (o *Owner) markEnd() (int64, error) {
	stream, err := o.link.Read(bus.Reading{Stream: o.lines, From: bus.From{Place: bus.Last}, Window: bus.MostOpen})
	if err != nil {
		return 0, err
	}
	publisher, err := o.link.Appender()
	if err != nil {
		return 0, err
	}
	mark, err := bus.NewMark()
	if err != nil {
		return 0, err
	}
	if err := publisher.Append(o.marks, bus.Headers{bus.MarkHeader: mark}, nil); err != nil {
		return 0, err
	}
	if err := publisher.Settle(); err != nil {
		return 0, err
	}
	message, err := stream.Next()
	for err == nil && message.Headers[bus.MarkHeader] != mark {
		message, err = stream.Next()
	}
	if err != nil {
		return 0, err
	}
	if err := stream.Close(); err != nil {
		return 0, err
	}
	return message.Offset, publisher.Close()
}

// run works until the link fails.
func (o *Owner) run() error {
	ticker := time.NewTicker(tick)
	defer ticker.Stop()
	o.tail = watchTail(o.link, o.lines, o.markEnd)
	go func() {
		if err := o.CheckLog(); err != nil {
			o.link.Fail(err)
		}
	}()
	for {
		if err := o.Step(); err != nil {
			return err
		}
		if err := o.Wait(ticker.C); err != nil {
			return err
		}
	}
}

// End ends the engine.
func (o *Owner) End() { o.work.end() }

// Wait waits for an event, and handles it.
func (o *Owner) Wait(ticks <-chan time.Time) error {
	var arrivals <-chan bus.Message
	if o.room() {
		arrivals = o.stream.Arrivals()
	}
	var answers <-chan []process.Answer
	if o.work.process != nil {
		answers = o.work.process.Answers()
	}
	var gathered <-chan time.Time
	if gathers := o.output.gathers(o.queue.head() != nil); gathers > 0 && o.timed {
		while := time.NewTimer(gathers)
		defer while.Stop()
		gathered = while.C
	}
	select {
	case <-gathered:
	case message, open := <-arrivals:
		if !open {
			return o.stream.Ended()
		}
		o.intake.take(message)
		o.idle.since = time.Now()
	case batch, open := <-answers:
		if open {
			o.work.take(batch)
		} else {
			o.work.ended(o.work.process.Err())
		}
	case confirm, open := <-o.publisher.Confirms():
		return o.publisher.Take(confirm, open)
	case <-ticks:
		return o.tick()
	case <-o.link.Done():
		return o.link.Err()
	}
	return nil
}

// tick looks at the time.
func (o *Owner) tick() error {
	o.work.tick()
	o.output.tick(o.output.now())
	o.reportLag()
	if err := o.idle.late(time.Now(), o.unread() > 0 && o.room()); err != nil {
		return err
	}
	return o.publisher.Late()
}

// room reports whether more messages are read.
func (o *Owner) room() bool { return o.queue.bytes+o.queue.ready < bus.WindowBytes }

// unread returns how many messages of the log are unread.
func (o *Owner) unread() int64 {
	if unread := o.tail.offset() - o.intake.offset; unread > 0 {
		return unread
	}
	return 0
}

// Step does what needs no waiting.
func (o *Owner) Step() error {
	for {
		o.settle()
		published, err := o.output.publish(o.queue.head() != nil)
		if err != nil {
			return err
		}
		if !published {
			break
		}
	}
	if o.work.fault != nil {
		return o.work.fault
	}
	if o.intake.fault != nil {
		return o.intake.fault
	}
	if o.output.isOver() {
		return &closedError{o.output.closing}
	}
	return o.work.give()
}

// settle passes the settled entries at the queue's head to the output.
func (o *Owner) settle() {
	var s settled
	for e := o.queue.head(); e != nil && e.settled() && o.output.room(); e = o.queue.head() {
		o.output.settle(e)
		s.add(e)
		o.queue.drop()
		o.work.dropped(e)
	}
	o.gauges.settled(s)
}
