package ledger

import (
	"time"

	"gateway/rabbit/line"
)

// A Ledger is a partition's state up to one place of its log.
type Ledger struct {
	Place   Place // the last answered place
	Part    bool  // whether the message there has more lines
	Lines   int64 // how many lines went to the engine, or were refused without it
	Models  *Models
	Tickets [line.Clients]int64 // the next ticket of each client
	Senders *Senders
}

// New returns the ledger of an empty log. Named senders are remembered for keep after their last message; 0 means forever.
func New(keep time.Duration) *Ledger {
	return (&Ledger{Place: Start, Models: NewModels()}).with(NewSenders(nil, time.Time{}, keep))
}

func (l *Ledger) with(senders *Senders) *Ledger {
	l.Senders = senders
	senders.forget = func(batch BatchKey) { l.Models.Forget(batch) }
	return l
}

// An Outcome is what an answer changes for later lines.
type Outcome struct {
	HasTicket bool
	Ticket    int64 // the answer's ticket, if any
	InForce   bool  // whether the line is a model and was loaded
}

// Skip notes that a line or message has no answer.
func (l *Ledger) Skip(place Place) { l.Place = place }

// SettleLost takes the outcome of the answer to a lost line, of a client or none.
func (l *Ledger) SettleLost(client int, outcome Outcome) {
	l.Lines++
	if outcome.InForce {
		l.Models.Lose()
	}
	if outcome.HasTicket && client != line.NoClient {
		l.Tickets[client] = outcome.Ticket + 1
	}
}

// Settle notes that a line of a batch is answered.
func (l *Ledger) Settle(place Place, batch BatchKey, read line.Line, outcome Outcome) {
	l.Place = place
	l.Lines++
	if outcome.InForce {
		l.Models.Put(batch, read.Engine)
	}
	if outcome.HasTicket && !read.IsModel() {
		l.Tickets[read.Client] = outcome.Ticket + 1
	}
}
