package partition

import (
	"bytes"
	"errors"

	"gateway/rabbit/answer"
	"gateway/rabbit/bus"
	"gateway/rabbit/ledger"
	"gateway/rabbit/line"
	"gateway/rabbit/logs"
)

// An intake makes entries from the log's messages, and takes each sender's lines once.
type intake struct {
	log     *logs.Log // for what is dropped
	gauges  *Gauges
	first   func() (int64, error) // the offset of the log's first message
	queue   *queue
	senders *ledger.Senders
	begin   ledger.Place    // the snapshot's place: what is before it is taken
	part    bool            // whether the message at the snapshot's place has more lines
	upto    ledger.Place    // what is before it is answered
	more    bool            // whether the message of that place has more lines
	records []answer.Record // the answers after the snapshot, up to there
	offset  int64           // of the last message read
	lines   int64           // how many lines were given numbers
	cut     bool            // whether messages of the log are lost
	mark    string          // this takeover's mark, published once the log is read
	of      bus.Settings    // this partition's settings
	closed  bool            // whether the log is closed: later messages don't count
	fault   error           // why the log can't be read on
}

// errOtherLog means that the log's stream was deleted, and is another one now.
var errOtherLog = errors.New("the log is not the one that the answers are for: its stream was made anew. desk partition repair " +
	"lets it go on behind the answers")

// errOvertaken means that retention cut messages that this owner was about to read. Another owner may have answered them, so
// the partition is taken over again, with what the answers say now.
var errOvertaken = errors.New("retention has cut the log while it was read")

// errModel means that a model came under the topic of requests, which every sender may use.
var errModel = errors.New("a model without the right to send models")

func newIntake(log *logs.Log, gauges *Gauges, queue *queue, h *bus.History, of bus.Settings, first func() (int64, error)) *intake {
	return &intake{log: log, of: of, gauges: gauges, first: first, queue: queue, senders: h.Ledger.Senders.Clone(), begin: h.Ledger.Place, part: h.Ledger.Part,
		upto: h.Upto(), more: h.More, records: h.Records, offset: -1, lines: h.Ledger.Lines}
}

// from returns where to start reading the log.
func (in *intake) from() bus.From {
	if in.begin.Offset < 0 {
		return bus.From{}
	}
	return bus.FromOffset(in.begin.Offset)
}

// together limits the entries made at once: all of them stay while one is needed.
const together = 64

// take takes a message.
func (in *intake) take(message bus.Message) {
	offset := message.Offset
	if in.lookForGap(offset); in.fault != nil {
		return
	}
	in.offset = offset
	if message.Topic(bus.RequestsExchange) == bus.TopicMarks {
		in.takeMark(message)
	}
	if message.Topic(bus.RequestsExchange) == bus.TopicMarks || in.closed {
		return
	}
	from, err := bus.ReadOrigin(message)
	if err != nil {
		in.drop(ledger.Place{Offset: offset}, err)
		return
	}
	if from.Kind != ledger.Lines {
		in.takeControl(from, ledger.Place{Offset: offset})
		return
	}
	var counts verdicts
	lines := bytes.Split(message.Body, []byte("\n"))
	var entries []entry // some are made together, which is faster
	for index, raw := range lines {
		place := ledger.Place{Offset: offset, Index: int64(index)}
		if !in.begin.Before(place) {
			continue
		}
		if len(entries) == 0 {
			entries = make([]entry, min(len(lines)-index, together))
		}
		e := &entries[0]
		entries = entries[1:]
		e.place, e.from, e.sequence, e.raw, e.part = place, from, from.Number+int64(index), raw, index < len(lines)-1
		counts[in.takeLine(e)]++
	}
	in.reportVerdicts(offset, from, counts)
}

// takeMark takes a mark, or the log's closing.
func (in *intake) takeMark(message bus.Message) {
	if message.Headers[bus.MarkHeader] == in.mark && message.Offset <= in.upto.Offset {
		in.fault = errOtherLog
	}
	place := ledger.Place{Offset: message.Offset}
	if to, is := bus.ReadClose(message, in.of); is && !in.closed && in.begin.Before(place) {
		in.closed = true
		in.queue.add(&entry{place: place, from: ledger.Origin{Sent: message.Sent}, skipped: true, closes: &to})
	}
}

// lookForGap checks whether messages before this one are lost, and adds a line to the answers then.
func (in *intake) lookForGap(offset int64) {
	gap, isLost := in.gapBefore(offset)
	if !isLost || in.fault != nil || in.closed {
		return
	}
	if in.offset >= 0 {
		in.fault = errOvertaken
		return
	}
	in.cut = true
	records := in.recordsUpto(gap.Place())
	in.lines += int64(len(records))
	if first := in.unanswered(); gap.From < first {
		gap.From = first
	}
	if gap.Messages() <= 0 || !in.upto.Before(gap.Place()) {
		in.log.Warning("messages up to offset %d are lost, but answered", gap.To)
		in.queue.add(&entry{place: gap.Place(), lost: &lost{gap, records}, skipped: true, known: true})
		return
	}
	in.log.Error("the messages from offset %d to %d are lost: retention has cut them, or the broker", gap.From, gap.To)
	in.gauges.lostMessages(gap)
	in.queue.add(&entry{place: gap.Place(), lost: &lost{gap, records}, skipped: true})
}

// gapBefore returns the gap between a message and the one before, and reports whether it is lost. The stream was read from the
// snapshot's last message on, or from the last one read. The broker uses some offsets itself: nothing is lost if the log begins
// before them, or if it is a single offset, with which a log may begin.
func (in *intake) gapBefore(offset int64) (gap ledger.Gap, isLost bool) {
	gap, isMessage := ledger.Gap{From: in.begin.Offset + 1, To: offset - 1}, false
	switch {
	case in.offset >= 0:
		gap.From = in.offset + 1
	case in.part && offset > in.begin.Offset:
		gap.From, isMessage = in.begin.Offset, true
	}
	if gap.Messages() <= 0 || gap.Messages() == 1 && gap.From > 0 && !isMessage {
		return gap, false
	}
	first, err := in.first()
	if err != nil {
		in.fault = err
	}
	return gap, first > gap.From
}

// unanswered returns the offset of the first message with unanswered lines.
func (in *intake) unanswered() int64 {
	if in.more {
		return in.upto.Offset
	}
	return in.upto.Offset + 1
}

// recordsUpto removes and returns the records of lines up to a place.
func (in *intake) recordsUpto(place ledger.Place) []answer.Record {
	count := 0
	for count < len(in.records) && !place.Before(in.records[count].Place) {
		count++
	}
	taken := in.records[:count]
	in.records = in.records[count:]
	return taken
}

// lookForLines notes how many lines of a batch are missing before this place. An unknown batch may be forgotten, not lost.
func (in *intake) lookForLines(from ledger.Origin, place ledger.Place, missing int64, isKnown bool) {
	if missing == 0 || !isKnown && !in.cut || !in.upto.Before(place) {
		return
	}
	in.gauges.lostLines(missing)
	in.log.Error("line %v: %d lines of sender %q are lost before it", place, missing, from.Sender)
}

// takeControl takes a claim, or a batch's end.
func (in *intake) takeControl(from ledger.Origin, place ledger.Place) {
	if !in.begin.Before(place) {
		return
	}
	isKnown := in.senders.Find(from.Sender).Batch(from.Batch) != nil
	counts, missing := in.senders.Control(from)
	in.lookForLines(from, place, missing, isKnown)
	in.queue.add(&entry{place: place, from: from, ends: counts && from.Kind == ledger.End, skipped: true})
}

// A verdicts counts what happened to lines.
type verdicts [ledger.Verdicts]int64

// takeLine takes a line, and returns what happens to it.
func (in *intake) takeLine(e *entry) ledger.Verdict {
	var fault error
	if e.line, fault = line.Read(e.raw); fault == nil && e.line.IsModel() && !e.from.MayHaveModels {
		e.line, fault = line.Line{}, errModel
	}
	taking := in.senders.Take(e.from, e.sequence, e.raw, e.line.IsModel())
	if taking.Verdict != ledger.Taken {
		return taking.Verdict
	}
	e.first, e.step = taking.First, taking.Step
	in.lookForLines(e.from, e.place, taking.Missing, !taking.First)
	if fault != nil {
		e.skipped = true
		in.drop(e.place, fault)
		in.queue.add(e)
		return ledger.Taken
	}
	in.lines++
	e.number = in.lines
	if !in.upto.Before(e.place) {
		e.known = true
		e.outcome = in.recorded(e.place)
	} else if taking.Adrift {
		e.refuse(answer.Lost)
		in.queue.ready += len(e.text)
	}
	in.queue.add(e)
	return ledger.Taken
}

// recorded returns the outcome of the answer in the stream for this place.
func (in *intake) recorded(place ledger.Place) ledger.Outcome {
	for len(in.records) > 0 && in.records[0].Place.Before(place) {
		in.records = in.records[1:]
	}
	if len(in.records) == 0 || in.records[0].Place != place {
		in.log.Error("line %v counts as answered, but no answer stands there", place)
		return ledger.Outcome{}
	}
	outcome := in.records[0].Outcome
	in.records = in.records[1:]
	return outcome
}

// drop reports a line or message that is left out, unless that was reported before.
func (in *intake) drop(place ledger.Place, reason error) {
	if in.upto.Before(place) {
		in.log.Warning("line %v is dropped: %v", place, reason)
	}
}

func (in *intake) reportVerdicts(offset int64, from ledger.Origin, counts verdicts) {
	if !in.upto.Before(ledger.Place{Offset: offset}) {
		return
	}
	if count := counts[ledger.Repeated]; count > 0 {
		in.log.Info("message %d: %d lines of sender %q are dropped: they were taken before", offset, count, from.Sender)
	}
	if count := counts[ledger.Fenced]; count > 0 {
		in.log.Info("message %d: %d lines of sender %q are dropped: a newer process sends under its name", offset, count, from.Sender)
	}
}
