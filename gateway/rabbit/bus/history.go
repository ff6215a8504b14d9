package bus

import (
	"bytes"
	"crypto/rand"
	"encoding/hex"
	"errors"
	"fmt"
	"time"

	"gateway/rabbit/answer"
	"gateway/rabbit/ledger"
)

// ErrNoSnapshot means that retention cut the answers, and how far a log is answered is unknown.
var ErrNoSnapshot = errors.New("retention has cut the answers, and what is left has no snapshot that can be read: delete both " +
	"streams of the partition, so that it begins anew")

// A History is the last snapshot and the answers after it.
type History struct {
	Ledger  *ledger.Ledger  // from the snapshot, or that of an empty log
	Records []answer.Record // the answers after it, in order
	More    bool            // whether the message of the last answered line has more lines
	// Messages is the number of messages after the snapshot.
	Messages int
	// Unread has the errors of unreadable snapshots. The one before each counts.
	Unread []error
	// At is the snapshot's offset in the answer stream, End that of the last message read.
	At, End int64
	// HasSnapshot means that there is one. A partition of a later number of partitions has one before its first line.
	HasSnapshot bool
	// Closed is set if the snapshot is the last one because the log is closed: the settings after it.
	Closed  Settings
	Sent    time.Time // when the snapshot was published
	pointer int64     // where the messages read say the last snapshot is, or -1
	keep    time.Duration
	chain   ledger.Chain
	found   bool // whether there is a snapshot, or the stream's start was read
}

// Upto returns the last answered place.
func (h *History) Upto() ledger.Place { return h.chain.Upto }

// firstStep is how many messages are first read back, step the growth of each further attempt. A small snapshot is among the
// first, a large one among those of the second, if there are few other messages.
const (
	firstStep = 160
	step      = 7
)

// NewMark returns a unique mark.
func NewMark() (string, error) {
	var bytes [16]byte
	if _, err := rand.Read(bytes[:]); err != nil {
		return "", fmt.Errorf("making a name: %w", err)
	}
	return hex.EncodeToString(bytes[:]), nil
}

// A Progress is notified of each message read, and of each finished step by name.
type Progress interface {
	Moved()
	Passed(step string)
}

// HistoryOptions says which answer stream is read, and how.
type HistoryOptions struct {
	Link      Link
	Partition Partition
	Open      int           // how many messages are in flight
	Keep      time.Duration // how long named senders are remembered after their last message
	Progress  Progress
}

// ReadHistory publishes a mark in the stream, and reads the stream from its last snapshot to the mark. It begins with the last
// messages, which point to the snapshot. If these are only marks, it goes further and further back. So the time depends on the
// distance to the last snapshot, not on what is before it.
func ReadHistory(options HistoryOptions, publisher Appender) (*History, error) {
	mark, err := NewMark()
	if err != nil {
		return nil, err
	}
	r := newHistoryReader(options)
	r.ends = func(message Message) bool { return message.Headers[MarkHeader] == mark }
	stream, err := r.begin()
	if err != nil {
		return nil, err
	}
	route := options.Partition.Route(AnswersExchange, TopicMarks)
	if err := publisher.Append(route, Headers{MarkHeader: mark}, nil); err != nil {
		return nil, err
	}
	h, err := r.read(stream)
	if err != nil {
		return nil, err
	}
	return h, publisher.Settle()
}

// LookAtHistory is ReadHistory without publishing. It reads up to a message that was there at its start.
func LookAtHistory(options HistoryOptions) (*History, error) {
	r := newHistoryReader(options)
	end := int64(-1)
	r.ends = func(message Message) bool {
		if end < 0 {
			end = message.Offset
		}
		return message.Offset >= end
	}
	stream, err := r.begin()
	if err != nil {
		return nil, err
	}
	return r.read(stream)
}

type unwatched struct{}

func (unwatched) Moved()        {}
func (unwatched) Passed(string) {}

type historyReader struct {
	HistoryOptions
	queue string
	ends  func(Message) bool // whether it is the last message to read
}

func newHistoryReader(options HistoryOptions) *historyReader {
	if options.Progress == nil {
		options.Progress = unwatched{}
	}
	return &historyReader{HistoryOptions: options, queue: options.Partition.Queue(Answers)}
}

// begin starts to read the last messages.
func (r *historyReader) begin() (Reader, error) {
	stream, err := r.Link.Read(Reading{Stream: r.queue, From: From{Place: Last}, Window: r.Open})
	r.Progress.Passed("its end is read from")
	return stream, err
}

// read reads the last messages, and then from the snapshot they point to, or further and further back until there is one.
func (r *historyReader) read(stream Reader) (*History, error) {
	h, end, err := r.pass(stream, -1)
	r.Progress.Passed("the end is there")
	back := int64(firstStep)
	for first := true; err == nil && (!h.found || first && h.mayBeLate()); first = false {
		from := h.pointer
		if !first || from < end-back { // the broker uses offsets itself, so the pointer may be far too low
			from, back = end-back, back*step
		}
		if from < 0 {
			from = 0
		}
		if stream, err = r.Link.Read(Reading{Stream: r.queue, From: FromOffset(from), Window: r.Open, Brief: true}); err != nil {
			return nil, err
		}
		h, _, err = r.pass(stream, from)
		r.Progress.Passed(fmt.Sprintf("%d messages back", end-from))
	}
	if err != nil {
		return nil, fmt.Errorf("reading %s: %w", r.queue, err)
	}
	return h, nil
}

// mayBeLate reports whether the snapshot may be from an owner that was too late: the messages point to one before it, which may
// reach further, or to a snapshot between them that does.
func (h *History) mayBeLate() bool { return h.pointer >= 0 && h.pointer < h.At }

// pass reads the stream up to the last message to read, and returns its offset. It began at the offset from, or at the last
// messages if that is negative.
func (r *historyReader) pass(stream Reader, from int64) (*History, int64, error) {
	h := NewHistory(false, r.Keep)
	cut := false
	for first := true; ; first = false {
		message, err := stream.Next()
		if err != nil {
			return nil, 0, err
		}
		r.Progress.Moved()
		switch {
		case first && message.Offset == 0:
			h = NewHistory(true, r.Keep)
		case first:
			cut = from == 0
		}
		if err := h.Take(message); err != nil {
			return nil, 0, fmt.Errorf("offset %d: %w", message.Offset, err)
		}
		if h.End = message.Offset; h.found && h.Messages == 0 {
			h.At = message.Offset
		}
		if !r.ends(message) {
			continue
		}
		if cut && !h.found {
			return nil, 0, ErrNoSnapshot
		}
		return h, message.Offset, stream.Close()
	}
}

// NewHistory returns a history without messages, at a stream's beginning or within it. Named senders are remembered for keep
// after their last message.
func NewHistory(beginning bool, keep time.Duration) *History {
	h := &History{Ledger: ledger.New(keep), keep: keep, found: beginning, pointer: -1}
	if beginning {
		h.chain.Reach(ledger.Start)
	}
	return h
}

// Take takes the stream's next message. Before a snapshot is found, answers are ignored.
func (h *History) Take(message Message) error {
	h.Messages++
	if at := SnapshotAt(message); at >= 0 {
		h.pointer = at
	}
	part, is, err := ReadPart(message)
	if err != nil || !is {
		return err
	}
	if part.Snapshot {
		return h.takeSnapshot(part, message)
	}
	if !h.found || !h.chain.Fits(part.After, part.Upto) {
		return nil
	}
	for _, text := range bytes.Split(bytes.TrimSuffix(message.Body, []byte("\n")), []byte("\n")) {
		record, err := answer.ReadRecord(text)
		if err != nil {
			return err
		}
		if h.chain.Upto.Before(record.Place) && !record.Lost {
			h.Records = append(h.Records, record)
		}
	}
	h.chain.Reach(part.Upto)
	h.More = part.More
	return nil
}

// takeSnapshot takes a snapshot that reaches further than the one before. The one before the first line may come late, so it
// counts if the stream is read from its beginning.
func (h *History) takeSnapshot(part Part, message Message) error {
	isNew := h.Ledger.Place.Before(part.Upto) || part.IsFirst() && !h.HasSnapshot && h.chain.Upto == ledger.Start
	if h.found && !isNew || !h.found && part.IsFirst() {
		return nil
	}
	l, err := ledger.Read(message.Body, h.keep)
	if err != nil { // the snapshot before it counts, which may be further back
		h.Unread = append(h.Unread, err)
		return nil
	}
	h.found, h.HasSnapshot, h.Closed, h.Ledger, h.Messages, h.Sent = true, true, part.Closed, l, 0, message.Sent
	if h.chain.Reach(part.Upto); h.chain.Upto == part.Upto {
		h.More = l.Part
	}
	after := h.Records[:0]
	for _, record := range h.Records {
		if l.Place.Before(record.Place) {
			after = append(after, record)
		}
	}
	h.Records = after
	return nil
}
