// Package bus is what senders, owners and receivers know of the message system: appending with a confirm, reading from an
// offset, the end of a stream, and claims of names, which give epochs. Package broker implements it on RabbitMQ, and package
// memory in memory with a seeded scheduler. The comments name the equivalents in Kafka with transactions.
package bus

import (
	"context"
	"errors"
	"fmt"
	"time"
)

// A Bus gives access to streams.
//
// Kafka: a cluster; each stream is a partition of a topic.
type Bus interface {
	// Connect opens a connection with a display name. The address last is tried last, unless it is empty.
	//
	// Kafka: its clients' constructors, with client.id and bootstrap.servers.
	Connect(ctx context.Context, name, last string) (Link, error)
	// Judge says what a failure of this bus means.
	//
	// Kafka: a RetriableException passes; UnknownTopicOrPartition is Missing; authorization errors, RecordTooLarge and
	// InvalidConfiguration don't pass; an abortable one aborts the transaction.
	Judge(failure error) Judgement
	// Pause waits, until the context ends at most.
	Pause(ctx context.Context, long time.Duration)
}

// A Judgement says what a failure means.
type Judgement int

// The judgements.
const (
	Passing   Judgement = iota // it may pass: the work begins again
	Missing                    // a stream is missing: somebody must declare it
	Refused                    // the user lacks permission
	Doubted                    // the user may lack permission: one such failure proves nothing
	Wrong                      // it can't be done as requested
	Untrusted                  // the certificate isn't trusted, perhaps at one of several brokers
)

// A Link is a connection. It fails as a whole: if an appender, a reader or a wait fails, all of it ends, and the work begins
// again on another link.
//
// Kafka: a producer and consumers with a common life; a fatal error of one ends the others.
type Link interface {
	// Appender opens an appender.
	//
	// Kafka: a KafkaProducer with acks=all, enable.idempotence and, for a named sender, its name as transactional.id. Our line
	// numbers in the headers do what its sequence numbers do, and outlive one producer.
	Appender() (Appender, error)
	// Read reads a stream.
	//
	// Kafka: assign and seek of a KafkaConsumer with isolation.level=read_committed.
	Read(Reading) (Reader, error)
	// First is the offset of the first message of a stream that has some.
	//
	// Kafka: beginningOffsets.
	First(stream string) (int64, error)
	// End watches the end of a stream.
	//
	// Kafka: endOffsets.
	End(stream string) (End, error)
	// Own waits until one of these partitions is free, and returns it. The partition is owned until the link ends. Ownership
	// affects only speed: two owners append the same answers. missing is called with the undeclared partitions.
	//
	// Kafka: a consumer group over the log's partitions. Answers, and offsets by sendOffsetsToTransaction, are one transaction
	// there; here each message of answers names its last line.
	Own(ctx context.Context, partitions []Partition, missing func([]Partition)) (Partition, error)
	// Address is where the link leads.
	Address() string
	// Done is closed once the link has ended; Err is why.
	Done() <-chan struct{}
	Err() error
	// Fail ends the link with a reason, Close cleanly.
	Fail(reason error)
	Close()
}

// An Appender appends messages. Their confirms come in the same order.
type Appender interface {
	// Append appends a message. Once confirmed it is in the stream for good; until then it may be there, be missing, or come
	// later.
	//
	// Kafka: send. A transaction would begin before a batch's first message, and end after its last with commitTransaction:
	// readers would then see the batch as a whole, and later.
	Append(to Route, headers Headers, body []byte) error
	// Open is the number of unconfirmed messages.
	//
	// Kafka: max.in.flight.requests.per.connection limits it; a transaction counts its own.
	Open() int
	// Confirms has a value for each message, nil if it is in the stream. Pass each to Take.
	//
	// Kafka: the callback of send. It gets ProducerFencedException if a newer producer has the name.
	Confirms() <-chan error
	Take(confirm error, open bool) error
	// Settle waits until all messages are confirmed.
	//
	// Kafka: flush.
	Settle() error
	// Late returns an error if a message has waited too long for its confirm.
	//
	// Kafka: delivery.timeout.ms, after which the callback gets a TimeoutException and the transaction is aborted.
	Late() error
	// Close ends the appender, once all messages are confirmed.
	//
	// Kafka: close, after commitTransaction.
	Close() error
}

// A Reading says what is read.
type Reading struct {
	Stream string
	From   From
	Window int  // how many messages may be in flight
	Brief  bool // whether the reader is closed soon
}

// A Reader reads a stream.
type Reader interface {
	// Arrivals has the messages. It is closed when the reader ends, and Ended says why.
	//
	// Kafka: poll.
	Arrivals() <-chan Message
	Ended() error
	// Next waits for the next message.
	//
	// Kafka: poll, which returns no message of an open or aborted transaction.
	Next() (Message, error)
	// Close ends the reader.
	//
	// Kafka: unsubscribe.
	Close() error
}

// An End knows where a stream ends.
type End interface {
	// Offset is the offset of the last message, some seconds ago, or -1 if unknown. It may be too high until AtMost corrects
	// it.
	Offset() (int64, error)
	// AtMost notes that no message was after this offset when Offset was last called.
	//
	// Kafka: not needed, as endOffsets is exact.
	AtMost(offset int64)
}

// A From is where a reader of a stream begins.
type From struct {
	Place  Where
	Offset int64     // of At
	Since  time.Time // of Since
}

// A Where is a kind of From.
type Where int

// The kinds.
const (
	First Where = iota // the first message that is left
	Last               // the last messages that were appended together
	Next               // what is appended from now on
	At                 // the message at an offset, or the first one after it that is left
	Since              // the first message since a time
)

// String words it.
func (f From) String() string {
	switch f.Place {
	case Last:
		return "the last messages"
	case Next:
		return "what comes from now on"
	case At:
		return fmt.Sprintf("offset %d, or the first one after it that is left", f.Offset)
	case Since:
		return "the first message since " + f.Since.UTC().Format(time.RFC3339)
	}
	return "the first message that is left"
}

// FromOffset begins at the message with an offset.
func FromOffset(offset int64) From { return From{Place: At, Offset: offset} }

// Patience is how long a bus may take for a request.
const Patience = 30 * time.Second

// ErrAway means that no broker can be reached.
var ErrAway = errors.New("no broker can be reached")

// ErrMissing says what to do if a stream is missing.
var ErrMissing = errors.New("desk partition --declare makes it, with the same " + PartitionsVariable)

// Limits of what is in flight.
const (
	// WindowBytes limits the bytes in flight in one direction.
	WindowBytes = 16 << 20
	// MessageBytes limits a message of several lines. A longer line has its own message.
	MessageBytes = 256 << 10
	// MessageLines limits the lines of a message.
	MessageLines = 2048
	// MostOpen limits a stream's messages in flight. The programs append messages of at most a mebibyte, except snapshots, so
	// these are at most 16 MiB.
	MostOpen = 16
)

// LineGather and AnswerGather limit how long a message of lines, or of answers, waits after the one before it, unless it is
// full. Most of a line's cost at the brokers is that of its message, so several single lines share one. A message after a pause
// doesn't wait, nor does one that no other line joins.
const (
	LineGather   = 40 * time.Millisecond
	AnswerGather = 10 * time.Millisecond
)

// OpenOf returns the messages in flight for each of several streams read at once: 16 MiB of full messages with several lines,
// and at least two for each stream.
func OpenOf(streams int) int {
	open := WindowBytes / MessageBytes / streams
	if open > MostOpen {
		return MostOpen
	}
	if open < 2 {
		return 2
	}
	return open
}
