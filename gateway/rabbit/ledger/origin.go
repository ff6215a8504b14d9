package ledger

import "time"

// A Kind says what a log message is.
type Kind string

// The kinds of messages.
const (
	Lines Kind = "lines"
	Claim Kind = "claim" // from here on a newer process uses the name
	End   Kind = "end"   // the batch has no more lines
)

// An Origin says who sent a log message, and as what.
type Origin struct {
	Kind   Kind
	Sender string
	Named  bool   // whether the name is the sender's own, under which it may be restarted
	Epoch  int64  // the process's number among those of the name: the greatest counts. 0 without its own name
	Batch  string // the batch's id; a claim has none
	Number int64  // of the message's first line in the batch and partition, or how many there are at the end
	Models int64  // how many lines of the batch before the message are models, or -1 if unknown
	Sent   time.Time
	// MayHaveModels means that the message was published under the topic of models.
	MayHaveModels bool
}

// A BatchKey identifies a sender's batch.
type BatchKey struct{ Sender, Batch string }

// Key names the origin's batch.
func (o Origin) Key() BatchKey { return BatchKey{o.Sender, o.Batch} }
