package broker

import (
	"context"
	"errors"
	"fmt"
	"time"

	amqp "github.com/rabbitmq/amqp091-go"

	"gateway/rabbit/bus"
)

// maximumOpen limits a publisher's unconfirmed messages: one for each partition, and some marks.
const maximumOpen = 2 * bus.MaximumPartitions

// A Publisher publishes messages, and reports their confirms in the order of the messages.
type Publisher struct {
	link     *Link
	channel  *amqp.Channel
	confirms chan error
	open     []time.Time // when the unconfirmed messages were published, in order
}

// Appender opens its own channel for publishing.
func (l *Link) Appender() (bus.Appender, error) {
	publisher, err := l.publisher()
	if err != nil {
		return nil, err
	}
	return publisher, nil
}

func (l *Link) publisher() (*Publisher, error) {
	channel, err := l.channel()
	if err != nil {
		return nil, err
	}
	return l.publisherOn(channel)
}

// publisherOn enables publishing on a channel.
func (l *Link) publisherOn(channel *amqp.Channel) (*Publisher, error) {
	if err := channel.Confirm(false); err != nil {
		return nil, l.Because(fmt.Errorf("asking for confirms: %w", err))
	}
	p := &Publisher{link: l, channel: channel, confirms: make(chan error, maximumOpen)}
	confirms := channel.NotifyPublish(make(chan amqp.Confirmation, maximumOpen))
	go p.judge(confirms, channel.NotifyReturn(make(chan amqp.Return, maximumOpen)))
	return p, nil
}

// judge passes the confirms on as what they mean.
func (p *Publisher) judge(confirms <-chan amqp.Confirmation, returned <-chan amqp.Return) {
	defer close(p.confirms)
	for confirmation := range confirms {
		p.confirms <- said(confirmation, returned)
	}
}

// said returns what a confirm means: nil if the message is in its stream.
func said(confirmation amqp.Confirmation, returned <-chan amqp.Return) error {
	if !confirmation.Ack {
		return errors.New("the broker refused a message")
	}
	select {
	case message, open := <-returned: // a returned message is confirmed too, but later
		if !open {
			return errors.New("the channel ended")
		}
		return fmt.Errorf("no queue for %s (%s): %w", message.RoutingKey, message.ReplyText, bus.ErrMissing)
	default:
		return nil
	}
}

// Open returns how many messages are unconfirmed.
func (p *Publisher) Open() int { return len(p.open) }

// Append publishes a message.
func (p *Publisher) Append(to bus.Route, headers bus.Headers, body []byte) error {
	now := time.Now()
	message := amqp.Publishing{Headers: amqp.Table(headers), Body: body, Timestamp: now, DeliveryMode: amqp.Persistent}
	if err := p.channel.PublishWithContext(context.Background(), to.Exchange, to.Key, true, false, message); err != nil {
		return p.link.Because(fmt.Errorf("publishing to %s: %w", to.Key, err))
	}
	p.open = append(p.open, now)
	return nil
}

// Confirms has a value for each confirm; pass each to Take.
func (p *Publisher) Confirms() <-chan error { return p.confirms }

// Take takes the confirm of the oldest unconfirmed message.
func (p *Publisher) Take(confirm error, open bool) error {
	switch {
	case !open:
		return p.link.Because(errors.New("the channel ended"))
	case confirm != nil:
		return confirm
	case len(p.open) == 0:
		return errors.New("the broker confirmed what was not published")
	}
	p.open = p.open[1:]
	return nil
}

// Late returns an error if a message has waited too long for its confirm.
func (p *Publisher) Late() error {
	if len(p.open) > 0 && time.Since(p.open[0]) > bus.Patience {
		return fmt.Errorf("no confirm for %v", bus.Patience)
	}
	return nil
}

// Settle waits until all messages are confirmed.
func (p *Publisher) Settle() error { return p.settleUnless(nil) }

// settleUnless waits until all messages are confirmed, or enough is closed.
func (p *Publisher) settleUnless(enough <-chan struct{}) error {
	late := time.NewTimer(bus.Patience)
	defer late.Stop()
	for len(p.open) > 0 {
		select {
		case confirm, open := <-p.confirms:
			if err := p.Take(confirm, open); err != nil {
				return err
			}
		case <-enough:
			return nil
		case <-p.link.Done():
			return p.link.Err()
		case <-late.C:
			return fmt.Errorf("no confirm for %v", bus.Patience)
		}
	}
	return nil
}

// Close ends the publisher's channel.
func (p *Publisher) Close() error { return p.link.end(p.channel) }
