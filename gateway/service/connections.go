package service

import (
	"container/list"
	"net"
	"net/http"
	"net/netip"
	"sync"
	"time"
)

// connections limits the number of connections, in all and from one address. When places run out, the connections that
// have been idle longest are closed for new ones. Connections from this machine through a unix socket have no address,
// and share one limit.
type connections struct {
	limit, addressLimit int

	mu sync.Mutex
	// all has the open connections, byAddress the number from each address.
	all       map[net.Conn]*place
	byAddress map[netip.Addr]*peer
	// idle has those that wait for a request, the longest first.
	idle list.List
	// freed is closed, and made again, whenever a place is freed.
	freed chan struct{}
}

// A place is one connection.
type place struct {
	of *peer
	// idle and own are its elements in the idle lists, of all and of its address; nil while it isn't idle.
	idle, own *list.Element
}

// A peer is one address with its connections.
type peer struct {
	address netip.Addr
	count   int
	idle    list.List
}

func newConnections(limit, addressLimit int) *connections {
	return &connections{limit: limit, addressLimit: addressLimit, all: map[net.Conn]*place{}, byAddress: map[netip.Addr]*peer{},
		freed: make(chan struct{})}
}

// count returns how many connections are open.
func (c *connections) count() int {
	c.mu.Lock()
	defer c.mu.Unlock()
	return len(c.all)
}

// addressOf returns the peer's address, which is the same for all that have none. IPv6 addresses of one /64 network are
// one.
func addressOf(connection net.Conn) netip.Addr {
	from, err := netip.ParseAddrPort(connection.RemoteAddr().String())
	if err != nil {
		return netip.Addr{}
	}
	address := from.Addr().Unmap()
	if address.Is6() {
		if prefix, err := address.Prefix(64); err == nil {
			return prefix.Addr()
		}
	}
	return address
}

// enter admits a connection, which may replace an idle one, or reports that its address has no place.
func (c *connections) enter(connection net.Conn) bool {
	address := addressOf(connection)
	c.mu.Lock()
	defer c.mu.Unlock()
	of := c.byAddress[address]
	if of == nil {
		of = &peer{address: address}
		c.byAddress[address] = of
	}
	if of.count >= c.addressLimit && !c.closeOldest(&of.idle) {
		return false
	}
	of.count++
	c.all[connection] = &place{of: of}
	// A connection is idle until it sends something.
	c.rest(connection)
	return true
}

// closeOldest closes the connection of a list that has been idle longest, and reports whether there was one.
func (c *connections) closeOldest(idle *list.List) bool {
	first := idle.Front()
	if first == nil {
		return false
	}
	connection := first.Value.(net.Conn)
	c.leave(connection)
	// Close may have to send a closing message; don't wait for that.
	go connection.Close()
	return true
}

// rest notes that a connection waits for a request.
func (c *connections) rest(connection net.Conn) {
	if it := c.all[connection]; it != nil && it.idle == nil {
		it.idle, it.own = c.idle.PushBack(connection), it.of.idle.PushBack(connection)
	}
}

// wake notes that a connection has a request.
func (c *connections) wake(connection net.Conn) {
	if it := c.all[connection]; it != nil && it.idle != nil {
		c.idle.Remove(it.idle)
		it.of.idle.Remove(it.own)
		it.idle, it.own = nil, nil
	}
}

// leave removes a connection.
func (c *connections) leave(connection net.Conn) {
	it := c.all[connection]
	if it == nil {
		return
	}
	c.wake(connection)
	delete(c.all, connection)
	if it.of.count--; it.of.count == 0 {
		delete(c.byAddress, it.of.address)
	}
	close(c.freed)
	c.freed = make(chan struct{})
}

// see notes the state of a connection.
func (c *connections) see(connection net.Conn, state http.ConnState) {
	c.mu.Lock()
	defer c.mu.Unlock()
	switch state {
	case http.StateActive:
		c.wake(connection)
	case http.StateIdle:
		c.rest(connection)
	case http.StateClosed, http.StateHijacked:
		c.leave(connection)
	}
}

// room waits until there is a place for another connection, or the channel is closed. An idle connection loses its
// place for it.
func (c *connections) room(ended <-chan struct{}) {
	for {
		c.mu.Lock()
		if len(c.all) < c.limit || c.closeOldest(&c.idle) {
			c.mu.Unlock()
			return
		}
		freed := c.freed
		c.mu.Unlock()
		select {
		case <-freed:
		case <-ended:
			return
		}
	}
}

// A boundListener accepts connections while there is a place.
type boundListener struct {
	net.Listener
	places *connections
	ended  chan struct{}
	once   sync.Once
	// refused is called with an address whose places are taken.
	refused func(from net.Addr)
}

// Accept returns the next connection that has a place.
func (b *boundListener) Accept() (net.Conn, error) {
	for {
		b.places.room(b.ended)
		connection, err := b.Listener.Accept()
		if err != nil {
			return nil, err
		}
		if b.places.enter(connection) {
			return connection, nil
		}
		b.refused(connection.RemoteAddr())
		connection.Close()
	}
}

// Close closes the listener.
func (b *boundListener) Close() error {
	b.once.Do(func() { close(b.ended) })
	return b.Listener.Close()
}

// refusedConnection counts a connection whose address had no place, and logs one a minute.
func (s *Service) refusedConnection(from net.Addr) {
	s.metrics.refusedConnections.Inc()
	now := time.Now().Unix()
	if last := s.refusedAt.Load(); now-last >= 60 && s.refusedAt.CompareAndSwap(last, now) {
		s.options.Log("connections of %s are refused: it has %d that are not idle", from, s.places.addressLimit)
	}
}
