package ledger

import (
	"container/list"
	"time"
)

// MaximumNameless limits the remembered senders without a name. Beyond it the one with the oldest last line is forgotten.
const MaximumNameless = 10_000

// MaximumBatches limits the remembered batches of a sender. Beyond it the oldest is forgotten.
const MaximumBatches = 1000

// namelessTime is how long such a sender is remembered after its last message, by the log's time stamps. It is usually
// forgotten at its end; this is for one that died.
const namelessTime = 24 * time.Hour

// A Sender is what is known of one sender.
type Sender struct {
	Name    string
	Named   bool
	Epoch   int64    // of the newest process
	Batches []*Batch // the latest is last
	Sent    time.Time
}

// Batch returns what is known of a batch, or nil.
func (s *Sender) Batch(id string) *Batch {
	if s == nil {
		return nil
	}
	for at := len(s.Batches) - 1; at >= 0; at-- {
		if s.Batches[at].ID == id {
			return s.Batches[at]
		}
	}
	return nil
}

// Senders has what each sender has sent. It is a function of the log. NewSenders makes one.
type Senders struct {
	keep   time.Duration // how long named senders and their batches are remembered; 0 means forever
	now    time.Time     // the latest time stamp in the log
	byName map[string]*list.Element
	byUse  [2]*list.List // of *Sender, without and with their own names, the latest at the back
	forget func(BatchKey)
}

// NewSenders has these senders, the latest of each kind last, and the log's latest time stamp. Named ones are remembered for
// keep after their last message; 0 means forever.
func NewSenders(known []Sender, now time.Time, keep time.Duration) *Senders {
	s := &Senders{keep: keep, now: now, byName: make(map[string]*list.Element), byUse: [2]*list.List{list.New(), list.New()},
		forget: func(BatchKey) {}}
	for at := range known {
		sender := known[at]
		batches := sender.Batches
		sender.Batches = nil
		for _, batch := range batches {
			sender.Batches = append(sender.Batches, batch.clone())
		}
		s.byName[sender.Name] = s.of(sender.Named).PushBack(&sender)
	}
	return s
}

// Clone returns an independent copy.
func (s *Senders) Clone() *Senders { return NewSenders(s.All(), s.now, s.keep) }

func (s *Senders) of(named bool) *list.List {
	if named {
		return s.byUse[1]
	}
	return s.byUse[0]
}

// All returns the senders, the latest of each kind last.
func (s *Senders) All() []Sender {
	var all []Sender
	for _, of := range s.byUse {
		for element := of.Front(); element != nil; element = element.Next() {
			all = append(all, *element.Value.(*Sender))
		}
	}
	return all
}

// Find returns what is known of a sender, or nil.
func (s *Senders) Find(name string) *Sender {
	if element := s.byName[name]; element != nil {
		return element.Value.(*Sender)
	}
	return nil
}

// A Verdict is what happens to a line.
type Verdict int

// The verdicts.
const (
	Taken    Verdict = iota
	Repeated         // it was taken before
	Fenced           // a newer process uses its name

	Verdicts = iota // how many there are
)

// A Taking is what Take reports about a line. A sender waits for a message's confirm before it sends the next to the same
// partition, so missing lines were lost by the broker.
type Taking struct {
	Verdict Verdict
	First   bool  // whether it is the first of its batch to come
	Missing int64 // how many lines of its batch are missing before it; each is reported once
	Adrift  bool  // whether the line's model isn't known, as it is missing
	Step    Step  // of the batch's digest
}

// Take takes a line with this number in its batch, unless it was taken before or a newer process has the name.
func (s *Senders) Take(from Origin, number int64, line []byte, isModel bool) Taking {
	return s.TakeKnown(from, number, line, isModel, Step{})
}

// TakeKnown is Take with the step known from another copy of the senders, so that it isn't computed again.
func (s *Senders) TakeKnown(from Origin, number int64, line []byte, isModel bool, known Step) Taking {
	sender := s.seen(from)
	if from.Epoch < sender.Epoch {
		return Taking{Verdict: Fenced}
	}
	sender.Epoch = from.Epoch
	batch, first := sender.Batch(from.Batch), false
	if batch == nil {
		batch, first = s.begin(sender, from.Batch), true
	}
	if number < batch.Count || batch.Ended {
		return Taking{Verdict: Repeated}
	}
	missing := batch.skip(number, from.Models)
	step := batch.add(line, isModel, known)
	batch.Sent = from.Sent
	return Taking{Verdict: Taken, First: first, Missing: missing, Adrift: batch.Adrift, Step: step}
}

// Control takes a claim or a batch's end. It reports whether it counts, and how many lines of the batch never came.
func (s *Senders) Control(from Origin) (counts bool, missing int64) {
	sender := s.seen(from)
	if from.Epoch < sender.Epoch {
		return false, 0
	}
	sender.Epoch = from.Epoch
	if from.Kind != End {
		return true, 0
	}
	batch := sender.Batch(from.Batch)
	if batch == nil {
		batch = s.begin(sender, from.Batch)
	}
	if !batch.Ended {
		missing = batch.skip(from.Number, from.Models)
	}
	batch.Ended, batch.Marks, batch.Sent = true, nil, from.Sent
	s.forget(from.Key())
	if !sender.Named {
		s.remove(s.byName[sender.Name])
	}
	return true, missing
}

// begin begins a batch, and forgets the sender's batches that are too old or too many.
func (s *Senders) begin(sender *Sender, id string) *Batch {
	batch := &Batch{ID: id, Sent: s.now}
	sender.Batches = append(sender.Batches, batch)
	for len(sender.Batches) > MaximumBatches || s.keep > 0 && s.now.Sub(sender.Batches[0].Sent) > s.keep {
		s.forget(BatchKey{sender.Name, sender.Batches[0].ID})
		sender.Batches = sender.Batches[1:]
	}
	return batch
}

// seen finds or makes a message's sender, and forgets expired ones.
func (s *Senders) seen(from Origin) *Sender {
	if from.Sent.After(s.now) {
		s.now = from.Sent
	}
	s.forgetOld()
	element := s.byName[from.Sender]
	if element == nil {
		element = s.of(from.Named).PushBack(&Sender{Name: from.Sender, Named: from.Named})
		s.byName[from.Sender] = element
		if nameless := s.of(false); nameless.Len() > MaximumNameless {
			s.remove(nameless.Front())
		}
	}
	sender := element.Value.(*Sender)
	sender.Sent = s.now
	s.of(sender.Named).MoveToBack(element)
	return sender
}

// BreakOff notes that what the open batches sent last isn't known: none of them can be sent again.
func (s *Senders) BreakOff() {
	for _, of := range s.byUse {
		for element := of.Front(); element != nil; element = element.Next() {
			for _, batch := range element.Value.(*Sender).Batches {
				if !batch.Ended {
					batch.Missing++
				}
			}
		}
	}
}

// forgetOld forgets expired senders and batches.
func (s *Senders) forgetOld() {
	for first := s.of(false).Front(); first != nil && s.isOld(first, namelessTime); first = s.of(false).Front() {
		s.remove(first)
	}
	if s.keep == 0 {
		return
	}
	for first := s.of(true).Front(); first != nil && s.isOld(first, s.keep); first = s.of(true).Front() {
		s.remove(first)
	}
}

func (s *Senders) isOld(element *list.Element, keep time.Duration) bool {
	return s.now.Sub(element.Value.(*Sender).Sent) > keep
}

func (s *Senders) remove(element *list.Element) {
	sender := element.Value.(*Sender)
	delete(s.byName, sender.Name)
	s.of(sender.Named).Remove(element)
	for _, batch := range sender.Batches {
		s.forget(BatchKey{sender.Name, batch.ID})
	}
}
