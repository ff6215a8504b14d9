package bus

import (
	"fmt"
	"strconv"
	"strings"
)

// Scale is the stream with the number of partitions. Retention must not cut it.
const Scale = prefix + "scale"

// ScaleRoute and LookRoute lead to it. LookRoute is for marks of its readers: a mark says nothing, but everything before it has
// been read.
var (
	ScaleRoute = Route{RequestsExchange, string(TopicScale)}
	LookRoute  = Route{RequestsExchange, string(TopicLooks)}
)

// The kinds of its records.
const (
	scaleDeclared = "declared" // this many partitions were declared, with none before
	scaleBegin    = "begin"    // a change to this many partitions begins
	scaleDone     = "done"     // the change to this epoch is done
	scaleState    = "state"    // what all records before an offset say, for readers of the rest
)

// The headers of its records.
const (
	partitionsHeader = "partitions"
	countsHeader     = "counts" // each number of partitions that counts, the newest last
	openHeader       = "open"
	uptoHeader       = "upto"
)

// A Scaling is what the stream's records say, one after another. Programs that have read up to the same place know the same: of
// two changes begun at once the first counts.
type Scaling struct {
	All  []Settings // each number of partitions that counts, with its epoch, the newest last
	Open bool       // whether the newest change is not done
	next int64      // the offset after the last message read
}

// DeclaredHeaders returns the headers of the first record.
func DeclaredHeaders(partitions int) Headers {
	return Headers{kindHeader: scaleDeclared, partitionsHeader: int64(partitions)}
}

// BeginHeaders returns the headers of a record that begins a change. It has the epoch, so a late copy begins no other one.
func BeginHeaders(to Settings) Headers {
	return Headers{kindHeader: scaleBegin, epochHeader: to.Epoch, partitionsHeader: int64(to.Partitions)}
}

// DoneHeaders returns the headers of a record that ends a change.
func DoneHeaders(epoch int64) Headers { return Headers{kindHeader: scaleDone, epochHeader: epoch} }

// StateHeaders returns the headers of a record with what all messages read say.
func StateHeaders(s Scaling) Headers {
	counts := make([]string, len(s.All))
	for at, settings := range s.All {
		counts[at] = strconv.Itoa(settings.Partitions)
	}
	return Headers{kindHeader: scaleState, countsHeader: strings.Join(counts, " "), openHeader: s.Open, uptoHeader: s.next}
}

// readState reads such a record, if a message is one.
func readState(message Message) (s Scaling, is bool) {
	if message.Topic(RequestsExchange) != TopicScale || message.Headers[kindHeader] != scaleState {
		return s, false
	}
	counts, _ := message.Headers[countsHeader].(string)
	for at, count := range strings.Fields(counts) {
		partitions, err := strconv.Atoi(count)
		if err != nil || partitions < 1 || partitions > MaximumPartitions {
			return s, false
		}
		s.All = append(s.All, Settings{Partitions: partitions, Epoch: int64(at)})
	}
	var isBool, isOffset bool
	s.Open, isBool = message.Headers[openHeader].(bool)
	s.next, isOffset = number(message.Headers[uptoHeader])
	return s, isBool && isOffset && len(s.All) > 0
}

// Newest returns the newest number of partitions, if known.
func (s *Scaling) Newest() (Settings, bool) {
	if len(s.All) == 0 {
		return Settings{}, false
	}
	return s.All[len(s.All)-1], true
}

// Before returns the number of partitions before an epoch.
func (s *Scaling) Before(epoch int64) (Settings, bool) {
	if epoch < 1 || epoch >= int64(len(s.All)) {
		return Settings{}, false
	}
	return s.All[epoch-1], true
}

// Take takes the stream's next message, and reports whether it counts.
func (s *Scaling) Take(message Message) bool {
	s.next = message.Offset + 1
	if message.Topic(RequestsExchange) != TopicScale {
		return false
	}
	kind, _ := message.Headers[kindHeader].(string)
	partitions, isCount := number(message.Headers[partitionsHeader])
	isCount = isCount && partitions >= 1 && partitions <= MaximumPartitions
	epoch, isEpoch := number(message.Headers[epochHeader])
	switch {
	case kind == scaleDeclared && isCount && len(s.All) == 0:
		s.All = []Settings{{Partitions: int(partitions)}}
	case kind == scaleBegin && isCount && isEpoch && len(s.All) > 0 && !s.Open && epoch == int64(len(s.All)):
		s.All = append(s.All, Settings{Partitions: int(partitions), Epoch: int64(len(s.All))})
		s.Open = true
	case kind == scaleDone && isEpoch && s.Open && epoch == int64(len(s.All)-1):
		s.Open = false
	default:
		return false
	}
	return true
}

// CloseHeaders returns the headers of the message that ends a log: later lines don't count, and these settings apply. It is
// published under the topic of marks, which senders may not use.
func CloseHeaders(to Settings) Headers {
	return Headers{kindHeader: kindClose, epochHeader: to.Epoch, partitionsHeader: int64(to.Partitions)}
}

// ReadClose reports whether a message closes a log of these settings, and returns what is after it.
func ReadClose(message Message, of Settings) (to Settings, is bool) {
	kind, _ := message.Headers[kindHeader].(string)
	if message.Topic(RequestsExchange) != TopicMarks || kind != kindClose {
		return to, false
	}
	to, is = settingsOf(message.Headers, epochHeader, partitionsHeader)
	return to, is && to.Epoch == of.Epoch+1
}

// settingsOf reads settings from two headers.
func settingsOf(headers Headers, epochName, partitionsName string) (Settings, bool) {
	epoch, isEpoch := number(headers[epochName])
	partitions, isCount := number(headers[partitionsName])
	return Settings{Partitions: int(partitions), Epoch: epoch}, isEpoch && isCount && partitions >= 1 && partitions <= MaximumPartitions
}

// Sources returns the partitions of before that share keys with a partition of after. A key's number is the same in both but
// for the divisor, so these are the partitions that agree modulo the divisors' common divisor.
func Sources(before, after Settings, partition int) []int {
	common := before.Partitions
	for rest := after.Partitions; rest != 0; {
		common, rest = rest, common%rest
	}
	var sources []int
	for source := partition % common; source < before.Partitions; source += common {
		sources = append(sources, source)
	}
	return sources
}

// A Rescaled error means that there is another number of partitions now.
type Rescaled struct{ To Settings }

func (r *Rescaled) Error() string {
	return fmt.Sprintf("there are %d partitions now (epoch %d)", r.To.Partitions, r.To.Epoch)
}
