package service

import "sync"

// turns keeps the calls of each client in the order in which their bodies were complete. Their requests are put in, and
// their answers given, in this order.
type turns struct {
	mu     sync.Mutex
	byName map[string]*order
}

// An order is the calls of one client that are not over.
type order struct {
	name string
	last *turn
	// next is the first call whose requests may not be put in yet.
	next *turn
}

// A turn is a call's place in the order of its client. Without a client it is nil, and waits for nothing.
type turn struct {
	order         *order
	before, after *turn
	// mayPut is closed once the requests of all earlier calls are put in, mayAnswer once all earlier calls are over.
	mayPut, mayAnswer chan struct{}
}

func newTurns() *turns {
	return &turns{byName: map[string]*order{}}
}

// begin returns a call the place after all others of its client. Each turn has to end.
func (ts *turns) begin(client string) *turn {
	if client == "" {
		return nil
	}
	ts.mu.Lock()
	defer ts.mu.Unlock()
	o := ts.byName[client]
	if o == nil {
		o = &order{name: client}
		ts.byName[client] = o
	}
	t := &turn{order: o, before: o.last, mayPut: make(chan struct{}), mayAnswer: make(chan struct{})}
	if o.last == nil {
		close(t.mayAnswer)
	} else {
		o.last.after = t
	}
	o.last = t
	if o.next == nil {
		o.next = t
		close(t.mayPut)
	}
	return t
}

// waitToPut waits until the requests of all earlier calls are put in.
func (t *turn) waitToPut() {
	if t != nil {
		<-t.mayPut
	}
}

// waitToAnswer waits until all earlier calls have their answers, or nobody waits for these.
func (t *turn) waitToAnswer() {
	if t != nil {
		<-t.mayAnswer
	}
}

// put notes that the requests of a call are put in.
func (ts *turns) put(t *turn) {
	if t == nil {
		return
	}
	ts.mu.Lock()
	defer ts.mu.Unlock()
	t.pass()
}

// pass lets the next call put its requests in.
func (t *turn) pass() {
	o := t.order
	if o.next != t {
		return
	}
	o.next = t.after
	if o.next != nil {
		close(o.next.mayPut)
	}
}

// end notes that a call is answered or refused, or that nobody waits for it. Later calls still wait for earlier ones.
func (ts *turns) end(t *turn) {
	if t == nil {
		return
	}
	ts.mu.Lock()
	defer ts.mu.Unlock()
	t.pass()
	if t.after == nil {
		t.order.last = t.before
	} else {
		t.after.before = t.before
	}
	switch {
	case t.before != nil:
		t.before.after = t.after
	case t.after != nil:
		close(t.after.mayAnswer)
	default:
		delete(ts.byName, t.order.name)
	}
}
