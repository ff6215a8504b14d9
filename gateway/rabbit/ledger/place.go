// Package ledger holds what a partition's answers depend on besides the line and the current model: how far the log is
// answered, the next tickets, and what each sender has sent. All of it is a function of the log and the answers.
package ledger

import "fmt"

// A Place is the place of a line in a partition's log: its message's offset, and the line's number in the message, from 0.
type Place struct {
	Offset int64 `json:"offset"`
	Index  int64 `json:"index"`
}

// Start is before every line.
var Start = Place{Offset: -1}

// Before reports whether the place is before the other.
func (p Place) Before(other Place) bool {
	return p.Offset < other.Offset || p.Offset == other.Offset && p.Index < other.Index
}

// A Gap holds the first and last offset of lost messages.
type Gap struct{ From, To int64 }

// Place returns the gap's place: after every line of its messages, before every later line.
func (g Gap) Place() Place { return Place{Offset: g.To, Index: afterAll} }

// afterAll is greater than the number of any line in its message.
const afterAll = 1 << 32

// Messages returns how many messages are lost at most: the broker uses some offsets itself.
func (g Gap) Messages() int64 { return g.To - g.From + 1 }

func (p Place) String() string { return fmt.Sprintf("%d.%d", p.Offset, p.Index) }

// A Chain is how far a reader of an answer stream has come. Each message names the place after which it begins and its last
// one. So a reader knows what it has already, and when a message is missing.
type Chain struct {
	Known bool  // whether Upto is known; a reader that begins in the middle learns it from the first message
	Upto  Place // the last answered place
}

// Fits reports whether to take a message from after to upto; then its answers after the chain's place count. A message after a
// gap doesn't fit: its publisher sends again from there. Nor does a message with nothing new.
func (c *Chain) Fits(after, upto Place) bool {
	if !c.Known {
		c.Known, c.Upto = true, after
	}
	return !c.Upto.Before(after) && c.Upto.Before(upto)
}

// Reach notes that everything up to the place is answered.
func (c *Chain) Reach(upto Place) {
	if !c.Known || c.Upto.Before(upto) {
		c.Known, c.Upto = true, upto
	}
}
