package calls

import (
	"time"

	"gateway/engine"
)

// A Kept is a call with answers.
type Kept struct {
	Key      string
	Service  string
	IsList   bool
	Outcomes []engine.Outcome // of its requests; empty for those without an answer
	due      int              // how many have no answer
	has      []bool
	bytes    int
	since    time.Time
}

// IsWhole reports whether each request has an answer.
func (k *Kept) IsWhole() bool { return k.due == 0 }

// overhead is about how many bytes a request takes besides its answer's text. A call allocates all of its own at once.
const overhead = 150

// A kept holds the calls with kept answers, oldest first.
type kept struct {
	most   int // bytes
	bytes  int
	byCall map[string]*Kept
	order  []string
}

// add keeps an answer, and forgets the oldest calls if there are too many bytes.
func (k *kept) add(key string, id name, outcome engine.Outcome, now time.Time) {
	call := k.byCall[id.Call]
	if call == nil {
		call = &Kept{Key: key, Service: id.Service, IsList: id.IsList, Outcomes: make([]engine.Outcome, id.Of), due: id.Of,
			has: make([]bool, id.Of), since: now, bytes: overhead * id.Of}
		k.bytes += call.bytes
		k.byCall[id.Call] = call
		k.order = append(k.order, id.Call)
	}
	if id.At >= len(call.has) || call.has[id.At] || call.Key != key {
		return
	}
	call.Outcomes[id.At], call.has[id.At] = outcome, true
	call.due--
	call.bytes += len(outcome.Value)
	for k.bytes += len(outcome.Value); k.bytes > k.most && len(k.order) > 1; {
		k.drop()
	}
}

// find returns a copy of a call, or nil.
func (k *kept) find(id string) *Kept {
	call := k.byCall[id]
	if call == nil {
		return nil
	}
	copied := *call
	copied.Outcomes = append([]engine.Outcome(nil), call.Outcomes...)
	return &copied
}

// forget drops the calls whose first answer came before a time.
func (k *kept) forget(before time.Time) {
	for len(k.order) > 0 && k.byCall[k.order[0]].since.Before(before) {
		k.drop()
	}
}

// drop drops the oldest call.
func (k *kept) drop() {
	k.bytes -= k.byCall[k.order[0]].bytes
	delete(k.byCall, k.order[0])
	k.order = k.order[1:]
}
