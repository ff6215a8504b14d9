package bus

import (
	"errors"
	"fmt"
	"unicode/utf8"

	"gateway/rabbit/ledger"
)

// MaximumSenderBytes limits the length of a sender's name.
const MaximumSenderBytes = 255

// MarkHeader is the header of a message without content. Its publisher reads a stream up to it, to know that it has read
// everything before.
const MarkHeader = "mark"

// MaximumBatchBytes limits the length of a batch's id.
const MaximumBatchBytes = 255

// The headers of a log message. Its time stamp says when it was sent.
const (
	senderHeader = "sender"
	namedHeader  = "named"
	epochHeader  = "epoch"
	batchHeader  = "batch"
	numberHeader = "number"
	modelsHeader = "models"
)

// The headers of a message with answers or a snapshot.
const (
	kindHeader        = "kind"
	afterOffsetHeader = "after-offset"
	afterIndexHeader  = "after-index"
	offsetHeader      = "offset"
	indexHeader       = "index"
	snapshotAtHeader  = "snapshot-at"
	moreHeader        = "more"
	kindAnswers       = "answers"
	kindSnapshot      = "snapshot"
	kindClose         = "close" // of a log
)

// The headers of a partition's last snapshot: the number of partitions after it.
const (
	closedEpochHeader      = "closed-epoch"
	closedPartitionsHeader = "closed-partitions"
)

// ErrForeign means that a message's topic or headers are not from our programs.
var ErrForeign = errors.New("not from desk send")

// OriginHeaders returns the headers of a log message.
func OriginHeaders(from ledger.Origin) Headers {
	return Headers{kindHeader: string(from.Kind), senderHeader: from.Sender, namedHeader: from.Named,
		epochHeader: from.Epoch, batchHeader: from.Batch, numberHeader: from.Number, modelsHeader: from.Models}
}

// IsSender reports whether a sender's name is valid: UTF-8 of 1 to MaximumSenderBytes bytes, which a snapshot can hold.
func IsSender(name string) bool {
	return len(name) > 0 && len(name) <= MaximumSenderBytes && utf8.ValidString(name)
}

// IsBatch reports whether a batch id is valid: UTF-8 of at most MaximumBatchBytes bytes.
func IsBatch(id string) bool { return len(id) <= MaximumBatchBytes && utf8.ValidString(id) }

// ReadOrigin reads the headers of a message of a log or the registry.
func ReadOrigin(message Message) (ledger.Origin, error) {
	topic, headers := message.Topic(RequestsExchange), message.Headers
	from := ledger.Origin{Sent: message.Sent, MayHaveModels: topic == TopicModels}
	if topic != TopicLines && topic != TopicModels && topic != TopicSenders {
		return from, ErrForeign
	}
	var is [6]bool
	var kind string
	kind, is[0] = headers[kindHeader].(string)
	from.Sender, is[1] = headers[senderHeader].(string)
	from.Named, is[2] = headers[namedHeader].(bool)
	from.Epoch, is[3] = number(headers[epochHeader])
	from.Batch, is[4] = headers[batchHeader].(string)
	from.Number, is[5] = number(headers[numberHeader])
	from.Kind = ledger.Kind(kind)
	models, isCounted := number(headers[modelsHeader])
	if from.Models = models; !isCounted {
		from.Models = -1
	}
	isKind := from.Kind == ledger.Lines || from.Kind == ledger.Claim || from.Kind == ledger.End
	if is != [6]bool{true, true, true, true, true, true} || !isKind || !IsSender(from.Sender) || !IsBatch(from.Batch) ||
		from.Number < 0 || from.Epoch < 0 {
		return from, ErrForeign
	}
	return from, nil
}

// number returns a whole number of any width, as client libraries differ.
func number(value interface{}) (int64, bool) {
	switch value := value.(type) {
	case int64:
		return value, true
	case int32:
		return int64(value), true
	case int16:
		return int64(value), true
	case int8:
		return int64(value), true
	}
	return 0, false
}

// A Part is what a message of the answer stream says about itself.
type Part struct {
	Snapshot bool
	After    ledger.Place // the place of the last answer before; the headers omit the start
	Upto     ledger.Place // for answers the place of the last; for a snapshot all up to here is answered
	More     bool         // for answers, whether the last one's message has more lines
	// SnapshotAt is an offset of the stream: the last snapshot before the message is there or soon after. -1 means unknown.
	SnapshotAt int64
	// Closed is set in a partition's last snapshot: the settings after it.
	Closed Settings
}

// IsFirst reports whether a snapshot is the one before the first line.
func (p Part) IsFirst() bool { return p.Snapshot && p.Upto == ledger.Start }

// PartHeaders returns the headers of a message of answers, or of a snapshot.
func PartHeaders(part Part) Headers {
	headers := Headers{kindHeader: kindAnswers, snapshotAtHeader: part.SnapshotAt, moreHeader: part.More}
	if part.Snapshot {
		headers[kindHeader] = kindSnapshot
	}
	if part.Closed != (Settings{}) {
		headers[closedEpochHeader], headers[closedPartitionsHeader] = part.Closed.Epoch, int64(part.Closed.Partitions)
	}
	if part.Upto != ledger.Start {
		headers[offsetHeader], headers[indexHeader] = part.Upto.Offset, part.Upto.Index
	}
	if part.After != ledger.Start { // some libraries can't read negative numbers
		headers[afterOffsetHeader], headers[afterIndexHeader] = part.After.Offset, part.After.Index
	}
	return headers
}

// PointerHeaders returns the headers of a mark that points to the last snapshot.
func PointerHeaders(snapshotAt int64) Headers {
	return Headers{MarkHeader: "taken over", snapshotAtHeader: snapshotAt}
}

// SnapshotAt returns where a message of the answer stream says the last snapshot is, or -1.
func SnapshotAt(message Message) int64 {
	if at, is := number(message.Headers[snapshotAtHeader]); is {
		return at
	}
	return -1
}

// ReadPart reads the headers of a message of the answer stream. is is false for marks and for messages under another topic.
func ReadPart(message Message) (part Part, is bool, err error) {
	headers := message.Headers
	kind, _ := headers[kindHeader].(string)
	if message.Topic(AnswersExchange) != TopicAnswers || kind != kindAnswers && kind != kindSnapshot {
		return part, false, nil
	}
	part.Snapshot = kind == kindSnapshot
	part.More, _ = headers[moreHeader].(bool)
	part.SnapshotAt = SnapshotAt(message)
	if part.Snapshot {
		part.Closed, _ = settingsOf(headers, closedEpochHeader, closedPartitionsHeader)
	}
	names, places := []string{offsetHeader, indexHeader}, []*int64{&part.Upto.Offset, &part.Upto.Index}
	part.After = ledger.Start
	if _, has := headers[offsetHeader]; !has && part.Snapshot {
		part.Upto = ledger.Start
		return part, true, nil
	}
	if _, has := headers[afterOffsetHeader]; has {
		names = append(names, afterOffsetHeader, afterIndexHeader)
		places = append(places, &part.After.Offset, &part.After.Index)
	}
	for at, name := range names {
		value, isNumber := number(headers[name])
		if !isNumber {
			return part, false, fmt.Errorf("a message of answers has no header %s", name)
		}
		*places[at] = value
	}
	return part, true, nil
}
