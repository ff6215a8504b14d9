package broker

import (
	"context"
	"errors"
	"fmt"
	"net"
	"sync"
	"time"

	amqp "github.com/rabbitmq/amqp091-go"

	"gateway/rabbit/bus"
)

const (
	heartbeat   = 10 * time.Second
	dialTimeout = 5 * time.Second
	dialTurn    = 500 * time.Millisecond // how long a broker has until the next is tried too
	closePause  = time.Second            // how long a clean close may take
	reasonPause = time.Second            // how long the reason of a failure may take to arrive
)

// A Link is a connection to one of the brokers. It fails as a whole: if a channel, a message or a wait fails, all of it ends,
// and the work begins again on another link.
type Link struct {
	address    string // of the broker
	connection *amqp.Connection
	socket     net.Conn
	done       chan struct{}
	once       sync.Once
	err        error
}

// An away error is bus.ErrAway with the reason of one of the brokers.
type away struct{ reason error }

func (a *away) Error() string { return fmt.Sprintf("%v: %v", bus.ErrAway, a.reason) }

func (a *away) Is(target error) bool { return target == bus.ErrAway }

func (a *away) Unwrap() error { return a.reason }

type dialed struct {
	link *Link
	err  error
}

// connect connects to one of the brokers, in random order. A broker that doesn't answer at once delays nothing: the next is
// tried too. The link fails when the context ends.
func (b Broker) connect(ctx context.Context, name, last string) (*Link, error) {
	order, open := b.order(last), 0
	results := make(chan dialed, len(order))
	var fault error
	for len(order) > 0 || open > 0 {
		var turn <-chan time.Time
		if len(order) > 0 {
			go func(address string) {
				link, err := b.dial(ctx, address, name)
				results <- dialed{link, err}
			}(order[0])
			order, open = order[1:], open+1
			turn = time.After(dialTurn)
		}
		select {
		case <-turn:
		case result := <-results:
			open--
			if result.err == nil {
				go closeOthers(results, open)
				go result.link.watch(ctx)
				return result.link, nil
			}
			fault = b.moreUseful(fault, result.err)
		}
	}
	return nil, &away{fault}
}

// moreUseful returns the more useful of two brokers' failures: one about permissions. An untrusted certificate says nothing if
// another broker may come back.
func (b Broker) moreUseful(before, next error) error {
	isOfRights := func(failure error) bool { is := b.Judge(failure); return is == bus.Refused || is == bus.Doubted }
	if before == nil || isOfRights(next) || !isOfRights(before) && b.Judge(before) == bus.Untrusted {
		return next
	}
	return before
}

// closeOthers closes the connections that were too late.
func closeOthers(results <-chan dialed, open int) {
	for ; open > 0; open-- {
		if result := <-results; result.err == nil {
			result.link.Close()
		}
	}
}

func (b Broker) dial(ctx context.Context, address, name string) (*Link, error) {
	timeout := b.opening
	if timeout == 0 {
		timeout = dialTimeout
	}
	link := &Link{address: address, done: make(chan struct{})}
	properties := amqp.NewConnectionProperties()
	properties["connection_name"] = name
	connection, err := amqp.DialConfig(address, amqp.Config{
		Heartbeat:  heartbeat,
		Locale:     "en_US",
		Properties: properties,
		Dial: func(network, address string) (net.Conn, error) {
			dialer := net.Dialer{Timeout: timeout, Deadline: time.Now().Add(timeout)}
			socket, err := dialer.DialContext(ctx, network, address)
			if err != nil {
				return nil, err
			}
			link.socket = socket
			// The library removes the deadline once the connection is open.
			return socket, socket.SetDeadline(time.Now().Add(timeout))
		},
	})
	if err != nil {
		if link.socket != nil {
			link.socket.Close()
		}
		return nil, err
	}
	link.connection = connection
	return link, nil
}

func (l *Link) watch(ctx context.Context) {
	closed := l.connection.NotifyClose(make(chan *amqp.Error, 1))
	select {
	case <-ctx.Done():
		l.close()
		l.Fail(ctx.Err())
	case reason := <-closed:
		l.Fail(lost("the connection", reason))
	case <-l.done:
	}
}

func lost(what string, reason *amqp.Error) error {
	if reason == nil {
		return fmt.Errorf("%s ended", what)
	}
	return fmt.Errorf("%s ended: %w", what, reason)
}

// Fail ends the link, with this reason if it is the first.
func (l *Link) Fail(reason error) {
	l.once.Do(func() {
		l.err = reason
		close(l.done)
		l.socket.Close()
	})
}

// Close ends the link cleanly.
func (l *Link) Close() {
	l.close()
	l.Fail(errors.New("the connection was closed"))
}

func (l *Link) close() {
	closed := make(chan struct{})
	go func() {
		l.connection.Close()
		close(closed)
	}()
	select {
	case <-closed:
	case <-time.After(closePause):
	}
}

// Address returns the broker's address.
func (l *Link) Address() string { return l.address }

// Done returns a channel that is closed once the link has failed.
func (l *Link) Done() <-chan struct{} { return l.done }

// Err returns why the link failed. Call it once Done is closed.
func (l *Link) Err() error { return l.err }

// channel opens a channel. If that fails, so does the link.
func (l *Link) channel() (*amqp.Channel, error) {
	channel, err := l.connection.Channel()
	if err != nil {
		return nil, l.Because(fmt.Errorf("opening a channel: %w", err))
	}
	closed := channel.NotifyClose(make(chan *amqp.Error, 1))
	go func() {
		if reason := <-closed; reason != nil {
			l.Fail(lost("a channel", reason))
		}
	}()
	return channel, nil
}

// loose opens a channel whose failure doesn't fail the link.
func (l *Link) loose() (*amqp.Channel, error) {
	channel, err := l.connection.Channel()
	if err != nil {
		return nil, l.Because(fmt.Errorf("opening a channel: %w", err))
	}
	return channel, nil
}

// Because returns why the link failed, if it has, or else the error.
func (l *Link) Because(err error) error {
	select {
	case <-l.done:
		return l.err
	case <-time.After(reasonPause):
		return err
	}
}

// end closes a channel once the broker has done all that was requested on it. The client library loses the broker's reason for
// closing a channel if Close is called after that was read and before it is reported. So end first makes a request that is
// answered. The broker answers in order, so after this answer it has nothing left to refuse.
func (l *Link) end(channel *amqp.Channel) error {
	if err := channel.Qos(1, 0, false); err != nil {
		return l.Because(fmt.Errorf("closing a channel: %w", err))
	}
	if err := channel.Close(); err != nil {
		return l.Because(fmt.Errorf("closing a channel: %w", err))
	}
	return nil
}
