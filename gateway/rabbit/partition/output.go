package partition

import (
	"fmt"
	"time"

	"gateway/rabbit/answer"
	"gateway/rabbit/bus"
	"gateway/rabbit/ledger"
)

// A snapshot is due after this much of lines and answers, or four times its size if that is more; after this many messages,
// fewer if it is small, as the next owner reads them; and an hour after the last one, or a minute after a takeover, so that
// streams cut by age keep one. It is due soon after a model, as the model is lost if it is cut before a snapshot has it.
const (
	snapshotBytes    = 4 << 20
	snapshotFactor   = 4
	snapshotMessages = 1000
	smallMessages    = 150
	smallSnapshot    = 128 << 10
	snapshotPause    = time.Hour
	firstPause       = time.Minute
	modelPause       = 10 * time.Second // between a snapshot and the next one after a model
)

// A publisher appends messages, and knows how many are unconfirmed.
type publisher interface {
	Open() int
	Append(to bus.Route, headers bus.Headers, body []byte) error
}

// An output publishes the answers in line order, with snapshots between them.
type output struct {
	publisher publisher
	now       func() time.Time
	route     bus.Route // of the answers
	ledger    *ledger.Ledger
	program   string       // this program's version
	last      ledger.Place // the last published answer's place
	upto      ledger.Place // the last answer's place in the body
	// published is an offset of the answer stream: the last published message is there or after it, as others publish marks.
	// snapshotAt is the last snapshot's offset.
	published, snapshotAt int64
	body                  []byte
	begun, sent           time.Time     // when the body got its first answer, and when the last message of answers was published
	gather                time.Duration // how long answers wait for others
	more                  bool          // whether the message of that place has more lines
	lines                 int           // in the body

	sinceBytes    int // of lines and answers since the last snapshot
	sinceMessages int
	size          int          // of the last snapshot
	next          time.Time    // when one is due in any case, unless zero
	aged          bool         // whether that time has come
	modelled      bool         // whether a model was loaded since the last snapshot
	written       time.Time    // when the last snapshot was written
	fresh         bool         // whether that is less than modelPause ago
	closing       bus.Settings // the settings after this partition, once all is settled up to its log's closing
	isClosed      bool         // whether the last snapshot is published
}

// room reports whether the next answer may be settled.
func (out *output) room() bool {
	return len(out.body) < bus.MessageBytes && out.lines < bus.MessageLines && !out.snapshotDue()
}

func (out *output) snapshotDue() bool {
	if out.closing != (bus.Settings{}) {
		return !out.isClosed
	}
	due := snapshotBytes
	if out.size*snapshotFactor > due {
		due = out.size * snapshotFactor
	}
	messages := snapshotMessages
	if out.size <= smallSnapshot {
		messages = smallMessages
	}
	return out.ledger.Place != ledger.Start && (out.sinceBytes >= due || out.sinceMessages >= messages || out.aged || out.modelled && !out.fresh)
}

// isOver reports whether all is answered up to the log's closing, and the last snapshot confirmed.
func (out *output) isOver() bool { return out.isClosed && out.publisher.Open() == 0 }

// tick looks at the time.
func (out *output) tick(now time.Time) {
	out.aged = !out.next.IsZero() && now.After(out.next)
	out.fresh = now.Sub(out.written) < modelPause
}

// settle notes that an entry is settled, and adds its answer to the body if it is new.
func (out *output) settle(e *entry) {
	out.ledger.Part = e.part
	if e.lost != nil {
		out.settleLost(e)
		return
	}
	if e.closes != nil {
		out.closing = *e.closes
		out.ledger.Skip(e.place)
		return
	}
	if e.from.Kind != ledger.Lines {
		out.ledger.Senders.Control(e.from)
		out.ledger.Skip(e.place)
		return
	}
	out.ledger.Senders.TakeKnown(e.from, e.sequence, e.raw, e.line.IsModel(), e.step)
	if e.first {
		out.ledger.Models.Begin(e.from.Key())
	}
	if e.skipped {
		out.ledger.Skip(e.place)
		return
	}
	out.sinceBytes += len(e.raw) + len(e.text)
	out.modelled = out.modelled || e.outcome.InForce
	out.ledger.Settle(e.place, e.from.Key(), e.line, e.outcome)
	if e.known {
		return
	}
	out.begin()
	out.more = e.part
	out.body = answer.Append(out.body, e.place, e.line.Key, e.line.ID, e.text)
	out.upto = e.place
	out.lines++
}

// settleLost notes that messages are lost, and adds a line about it if there is none.
func (out *output) settleLost(e *entry) {
	out.ledger.Skip(e.place)
	for _, record := range e.lost.records {
		out.ledger.SettleLost(record.Client, record.Outcome)
	}
	if e.known {
		return
	}
	out.begin()
	out.more = false
	out.body = answer.AppendLost(out.body, e.lost.gap)
	out.upto = e.place
	out.lines++
}

// begin notes when the body gets its first answer.
func (out *output) begin() {
	if out.lines == 0 {
		out.begun = out.now()
	}
}

// gathers returns how long the answers in the body wait for more. soon means that some may come soon.
func (out *output) gathers(soon bool) time.Duration {
	switch {
	case out.lines == 0 || out.publisher.Open() > 0 || !out.room():
		return 0
	case soon:
		return out.gather - out.now().Sub(out.begun)
	}
	return out.gather - out.now().Sub(out.sent)
}

// publish publishes what is due, once the last message is confirmed. With several in flight, one could be lost and the next
// kept when the stream changes its leader. soon means that more answers may come soon.
func (out *output) publish(soon bool) (bool, error) {
	switch {
	case out.publisher.Open() > 0 || out.gathers(soon) > 0:
		return false, nil
	case out.lines > 0:
		return true, out.publishAnswers()
	case out.snapshotDue():
		return true, out.publishSnapshot()
	}
	return false, nil
}

func (out *output) publishAnswers() error {
	part := bus.Part{After: out.last, Upto: out.upto, More: out.more, SnapshotAt: out.snapshotAt}
	if err := out.publisher.Append(out.route, bus.PartHeaders(part), out.body); err != nil {
		return fmt.Errorf("publishing answers: %w", err)
	}
	out.published++
	out.last = out.upto
	out.body, out.lines, out.sent = make([]byte, 0, min(len(out.body), bus.MessageBytes)), 0, out.now()
	out.sinceMessages++
	return nil
}

func min(a, b int) int {
	if a < b {
		return a
	}
	return b
}

func (out *output) publishSnapshot() error {
	body, err := out.ledger.Snapshot(out.program)
	if err != nil {
		return err
	}
	part := bus.Part{Snapshot: true, After: out.last, Upto: out.ledger.Place, SnapshotAt: out.snapshotAt, Closed: out.closing}
	if err := out.publisher.Append(out.route, bus.PartHeaders(part), body); err != nil {
		return fmt.Errorf("publishing a snapshot: %w", err)
	}
	out.published++
	out.snapshotAt = out.published
	out.sinceBytes, out.sinceMessages, out.size = 0, 0, len(body)
	out.written, out.fresh, out.isClosed = out.now(), true, out.closing != (bus.Settings{})
	out.next, out.aged, out.modelled = out.written.Add(snapshotPause), false, false
	return nil
}
