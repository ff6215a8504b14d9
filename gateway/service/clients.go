package service

import (
	"sync"
	"sync/atomic"
)

// clients counts unanswered requests, in all and for each client.
type clients struct {
	clientLimit, limit int

	mu     sync.Mutex
	byName map[string]*client
	out    int
}

// A client is a name with calls.
type client struct {
	name string
	// out is how many of its requests are unanswered, calls how many calls are not over.
	out, calls int
}

func newClients(clientLimit, limit int) *clients {
	return &clients{clientLimit: clientLimit, limit: limit, byName: map[string]*client{}}
}

// enter admits a call of this many requests, or says why not. Without a name there is no client. One call may have as
// many requests as a list may have; the limit counts what other calls of the client have out.
func (c *clients) enter(name string, requests int) (*client, *problemKind) {
	c.mu.Lock()
	defer c.mu.Unlock()
	if c.out > 0 && c.out+requests > c.limit {
		return nil, problemFull
	}
	if name == "" {
		c.out += requests
		return nil, nil
	}
	it := c.byName[name]
	if it == nil {
		it = &client{name: name}
		c.byName[name] = it
	}
	if it.out > 0 && it.out+requests > c.clientLimit {
		return nil, problemBusy
	}
	c.out += requests
	it.out += requests
	it.calls++
	return it, nil
}

// answered counts requests of a call as answered.
func (c *clients) answered(it *client, requests int) {
	c.mu.Lock()
	defer c.mu.Unlock()
	c.out -= requests
	if it != nil {
		it.out -= requests
		c.forget(it)
	}
}

// leave ends a call of a client.
func (c *clients) leave(it *client) {
	if it == nil {
		return
	}
	c.mu.Lock()
	defer c.mu.Unlock()
	it.calls--
	c.forget(it)
}

func (c *clients) forget(it *client) {
	if it.calls == 0 && it.out == 0 {
		delete(c.byName, it.name)
	}
}

// count returns the numbers of unanswered requests and of named clients.
func (c *clients) count() (requests, named int) {
	c.mu.Lock()
	defer c.mu.Unlock()
	return c.out, len(c.byName)
}

// A budget limits how many bytes may be held.
type budget struct {
	limit int64
	held  atomic.Int64
}

// take holds more bytes, or none if they are too many.
func (b *budget) take(bytes int64) bool {
	if b.held.Add(bytes) > b.limit {
		b.held.Add(-bytes)
		return false
	}
	return true
}

func (b *budget) give(bytes int64) {
	b.held.Add(-bytes)
}
