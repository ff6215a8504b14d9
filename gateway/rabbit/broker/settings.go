// Package broker implements the bus on RabbitMQ, and is the only package that uses the client library: broker addresses, a
// connection that ends as a whole, publishing with confirms, reading a stream, and the lease of a partition.
package broker

import (
	"context"
	"crypto/tls"
	"crypto/x509"
	"errors"
	"fmt"
	"math/rand"
	"os"
	"strconv"
	"strings"
	"time"

	amqp "github.com/rabbitmq/amqp091-go"

	"gateway/rabbit/bus"
)

// A Broker is a bus on RabbitMQ at these amqp or amqps addresses.
type Broker struct {
	Addresses []string
	opening   time.Duration // how long a connection may take to open; 0 means dialTimeout
}

// Read reads the environment. Without it there is one partition, at a broker on this machine. An error doesn't contain an
// address, which may have a password.
func Read() (Broker, bus.Settings, error) {
	b, settings := Broker{Addresses: []string{"amqp://127.0.0.1"}}, bus.Settings{Partitions: 1}
	if text := os.Getenv(bus.BrokersVariable); text != "" {
		b.Addresses = strings.Split(text, ",")
	}
	for at, address := range b.Addresses {
		if _, err := amqp.ParseURI(address); err != nil {
			return b, settings, fmt.Errorf("%s: number %d is no address as amqp://HOST:PORT", bus.BrokersVariable, at+1)
		}
	}
	if text := os.Getenv(bus.PartitionsVariable); text != "" {
		number, err := strconv.Atoi(text)
		if err != nil || number < 1 || number > bus.MaximumPartitions {
			return b, settings, fmt.Errorf("%s: %q is no number from 1 to %d", bus.PartitionsVariable, text, bus.MaximumPartitions)
		}
		settings.Partitions = number
	}
	return b, settings, nil
}

// order returns the addresses in random order, with last at the end.
func (b Broker) order(last string) []string {
	var order, end []string
	for _, at := range rand.Perm(len(b.Addresses)) {
		if address := b.Addresses[at]; address == last {
			end = append(end, address)
		} else {
			order = append(order, address)
		}
	}
	return append(order, end...)
}

// Connect connects to one of the brokers.
func (b Broker) Connect(ctx context.Context, name, last string) (bus.Link, error) {
	link, err := b.connect(ctx, name, last)
	if err != nil {
		return nil, err
	}
	return link, nil
}

// Pause waits, until the context ends at most.
func (b Broker) Pause(ctx context.Context, long time.Duration) {
	wait := time.NewTimer(long)
	defer wait.Stop()
	select {
	case <-ctx.Done():
	case <-wait.C:
	}
}

// Judge says what a failure means. The client library reports a refused login also if the connection broke off then, so that is
// doubted.
func (b Broker) Judge(failure error) bus.Judgement {
	var reason *amqp.Error
	switch {
	case isUntrusted(failure):
		return bus.Untrusted
	case !errors.As(failure, &reason):
		return bus.Passing
	case isDown(reason):
		return bus.Passing
	case reason.Code == amqp.NotFound:
		return bus.Missing
	case reason.Code == amqp.AccessRefused && reason.Server:
		return bus.Refused
	case reason.Code == amqp.AccessRefused:
		return bus.Doubted
	case isOther(failure), isTooLong(reason), reason.Code == amqp.NotImplemented:
		return bus.Wrong
	}
	return bus.Passing
}

// isUntrusted reports whether TLS failed: the certificate is not the broker's or has an unknown CA, or the broker doesn't speak
// TLS there.
func isUntrusted(failure error) bool {
	var authority x509.UnknownAuthorityError
	var name x509.HostnameError
	var invalid x509.CertificateInvalidError
	var plain tls.RecordHeaderError
	return errors.As(failure, &authority) || errors.As(failure, &name) || errors.As(failure, &invalid) || errors.As(failure, &plain)
}

// isOther reports whether a queue or exchange exists with other arguments.
func isOther(failure error) bool {
	var reason *amqp.Error
	return errors.As(failure, &reason) && reason.Code == amqp.PreconditionFailed && strings.Contains(reason.Reason, "inequivalent arg")
}

// isDown reports whether a queue's broker is down, or doesn't know the queue yet after its start.
func isDown(reason *amqp.Error) bool {
	return reason.Code == amqp.NotFound && strings.Contains(reason.Reason, "is down or inaccessible")
}

// isTooLong reports whether a message exceeds the broker's max_message_size.
func isTooLong(reason *amqp.Error) bool {
	return reason.Code == amqp.PreconditionFailed && strings.Contains(reason.Reason, "is larger than")
}
