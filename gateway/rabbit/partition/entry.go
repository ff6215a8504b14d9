package partition

import (
	"gateway/rabbit/answer"
	"gateway/rabbit/bus"
	"gateway/rabbit/ledger"
	"gateway/rabbit/line"
)

// An entry is a line of the log, or a message without lines, from its reading to its answer.
type entry struct {
	place    ledger.Place
	from     ledger.Origin
	sequence int64 // its number among the batch's lines
	first    bool  // whether it is the first of its batch
	ends     bool  // whether it ends its batch
	part     bool  // whether its message has more lines
	step     ledger.Step
	raw      []byte // as sent
	line     line.Line
	number   int64 // its number among the log's answered lines, from 1

	skipped  bool  // it has no answer: it is no line, or desk send would not have sent it
	known    bool  // its answer is in the stream already
	given    bool  // the engine has it
	asked    int64 // its number in the engine's input
	answered bool
	refused  bool          // refused without the engine before it could answer
	reason   answer.Reason // why it is refused without the engine, or empty
	text     []byte
	outcome  ledger.Outcome
	lost     *lost         // it is no line, but lost messages
	closes   *bus.Settings // it is no line, but closes the log: these settings apply after it
}

// A lost is a gap in the log, with what the answers say about its first lines.
type lost struct {
	gap     ledger.Gap
	records []answer.Record
}

// hasModel reports whether a loaded model is lost.
func (l *lost) hasModel() bool {
	for _, record := range l.records {
		if record.Outcome.InForce {
			return true
		}
	}
	return false
}

// overhead is about how many bytes an entry takes besides its texts.
const overhead = 300

// bytes returns about how much memory the entry takes.
func (e *entry) bytes() int { return len(e.raw) + len(e.line.Engine) + overhead }

// settled reports whether the entry is finished.
func (e *entry) settled() bool { return e.skipped || e.known || e.answered }

// refuse answers the entry without the engine.
func (e *entry) refuse(reason answer.Reason) {
	e.answered, e.refused, e.reason = true, true, reason
	e.text = answer.Refusal(e.line.Client, e.number, reason, nil)
}

// forget withdraws an answer of the engine, so that the line can be given again.
func (e *entry) forget() {
	e.given = false
	if !e.refused {
		e.answered, e.text, e.outcome, e.reason = false, nil, ledger.Outcome{}, ""
	}
}

// A queue has the entries from the first unsettled one on, in log order.
type queue struct {
	entries []*entry
	bytes   int // of all entries, without their answers
	ready   int // of answers waiting for their turn
}

func (q *queue) add(e *entry) {
	q.entries = append(q.entries, e)
	q.bytes += e.bytes()
}

func (q *queue) head() *entry {
	if len(q.entries) == 0 {
		return nil
	}
	return q.entries[0]
}

func (q *queue) drop() {
	e := q.entries[0]
	q.entries[0] = nil
	q.entries = q.entries[1:]
	q.bytes -= e.bytes()
	q.ready -= len(e.text)
}
