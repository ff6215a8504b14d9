package broker

import (
	"context"
	"crypto/x509"
	"errors"
	"io"
	"log"
	"net/http/httptest"
	"strings"
	"sync/atomic"
	"testing"
	"time"

	amqp "github.com/rabbitmq/amqp091-go"

	"gateway/rabbit/brokertest"
	"gateway/rabbit/bus"
	"gateway/rabbit/logs"
)

// Final failures are distinguished from passing ones.
func TestJudgements(t *testing.T) {
	for _, c := range []struct {
		failure error
		is      bus.Judgement
	}{
		{errors.New("the connection was reset"), bus.Passing},
		{&amqp.Error{Code: amqp.NotFound, Reason: "NOT_FOUND - no queue 'q' in vhost '/'"}, bus.Missing},
		{&amqp.Error{Code: amqp.NotFound, Reason: "NOT_FOUND - home node 'n' of durable queue 'q' in vhost '/' is down or inaccessible"}, bus.Passing},
		{&amqp.Error{Code: amqp.AccessRefused, Server: true}, bus.Refused},
		{&amqp.Error{Code: amqp.AccessRefused}, bus.Doubted},
		{&amqp.Error{Code: amqp.PreconditionFailed, Reason: "delivery acknowledgement on channel 1 timed out"}, bus.Passing},
		{&amqp.Error{Code: amqp.PreconditionFailed, Reason: "inequivalent arg 'x-queue-type' for queue 'q'"}, bus.Wrong},
		{&amqp.Error{Code: amqp.PreconditionFailed, Reason: "message size 9 is larger than configured max size 8"}, bus.Wrong},
		{&amqp.Error{Code: amqp.NotImplemented}, bus.Wrong},
		{&amqp.Error{Code: amqp.InternalError}, bus.Passing},
		{&away{x509.UnknownAuthorityError{}}, bus.Untrusted},
	} {
		if is := (Broker{}).Judge(c.failure); is != c.is {
			t.Errorf("%v: %d", c.failure, is)
		}
	}
}

// A certificate from an unknown CA is reported, unless another broker may come back.
func TestACertificateThatIsNotTrusted(t *testing.T) {
	server := httptest.NewUnstartedServer(nil)
	server.Config.ErrorLog = log.New(io.Discard, "", 0)
	server.StartTLS()
	defer server.Close()
	judge := func(addresses ...string) bus.Judgement {
		b := Broker{Addresses: addresses}
		_, err := b.Connect(context.Background(), "test", "")
		return b.Judge(err)
	}
	address, away := "amqps://"+strings.TrimPrefix(server.URL, "https://"), "amqp://127.0.0.1:1"
	for judge(address) != bus.Untrusted { // a busy machine may be too late for it
	}
	for range make([]int, 4) {
		if is := judge(address, away); is != bus.Passing {
			t.Errorf("beside a broker that is away: %d", is)
		}
	}
}

// Existing streams with files of another size are kept. A queue with other arguments ends the declaring.
func TestDeclaringWithOtherQueues(t *testing.T) {
	b := brokertest.Start(t)
	// The client library has a race if a connection is lost while it opens, so opening may take any time.
	on, silent := Broker{Addresses: []string{b.Address}, opening: time.Hour}, logs.New(io.Discard, "test")
	var asked, isLease int32 // asked counts the log's declarations; isLease is 1 once the lease is the differing queue. The broker has a goroutine for each connection
	b.Other = func(queue string) bool {
		if atomic.LoadInt32(&isLease) == 1 {
			return brokertest.Is(queue, "lease", "1")
		}
		return brokertest.Is(queue, "lines", "1") && atomic.AddInt32(&asked, 1) == 1
	}
	if err := on.Declare(context.Background(), bus.Settings{Partitions: 2}, silent); err != nil {
		t.Error(err)
	}
	atomic.StoreInt32(&isLease, 1)
	var final *bus.Final
	if err := on.Declare(context.Background(), bus.Settings{Partitions: 2}, silent); !errors.As(err, &final) {
		t.Error(err)
	}
}

// A lease that takes no message is made again.
func TestDeclaringALeaseThatTakesNoMessage(t *testing.T) {
	b := brokertest.Start(t)
	b.Nacks = func(queue string) bool { return brokertest.Is(queue, "lease", "1") && len(b.Deleted()) == 0 }
	on := Broker{Addresses: []string{b.Address}, opening: time.Hour}
	settings := bus.Settings{Partitions: 2}
	if err := on.Declare(context.Background(), settings, logs.New(io.Discard, "test")); err != nil {
		t.Error(err)
	}
	if deleted := b.Deleted(); len(deleted) != 1 || deleted[0] != settings.Queue(bus.Lease, 1) {
		t.Errorf("%v are deleted", deleted)
	}
}

// A lease that finally takes a message is kept.
func TestDeclaringALeaseThatIsLate(t *testing.T) {
	b := brokertest.Start(t)
	var asked int32
	b.Nacks = func(queue string) bool {
		return brokertest.Is(queue, "lease", "0") && atomic.AddInt32(&asked, 1) < mostRefusals
	}
	on := Broker{Addresses: []string{b.Address}, opening: time.Hour}
	if err := on.Declare(context.Background(), bus.Settings{Partitions: 1}, logs.New(io.Discard, "test")); err != nil {
		t.Error(err)
	}
	if deleted := b.Deleted(); len(deleted) != 0 {
		t.Errorf("%v are deleted", deleted)
	}
}
