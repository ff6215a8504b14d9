package bus

import (
	"fmt"
	"strconv"
)

// The environment variables that every program reads.
const (
	BrokersVariable    = "DESK_BROKERS"
	PartitionsVariable = "DESK_PARTITIONS"
)

// MaximumPartitions is how many partitions there may be.
const MaximumPartitions = 1024

// prefix begins every stream's name. Its number rises with the message format, so no program reads another format.
const prefix = "desk.2."

// Registry is the stream in which named senders claim their names.
const Registry = prefix + "senders"

// A Kind is a stream of a partition, or its lease.
type Kind string

// The kinds.
const (
	Lines   Kind = "lines"   // the log
	Answers Kind = "answers" // answers and snapshots
	Lease   Kind = "lease"   // who owns the partition
)

// Settings is the number of partitions, and the epoch since when; the first has epoch 0.
type Settings struct {
	Partitions int
	Epoch      int64
}

// name returns a partition's name. It has the epoch, except the first: after two changes there may be as many partitions as
// before.
func (s Settings) name(partition int) string {
	name := fmt.Sprintf("%d.of.%d", partition, s.Partitions)
	if s.Epoch > 0 {
		name += fmt.Sprintf(".%d", s.Epoch)
	}
	return name
}

// All returns the numbers of the partitions.
func (s Settings) All() []int {
	all := make([]int, s.Partitions)
	for partition := range all {
		all[partition] = partition
	}
	return all
}

// Queue returns the name of a partition's stream or lease. It contains the number of partitions, so programs with another
// number find none.
func (s Settings) Queue(kind Kind, partition int) string {
	return fmt.Sprintf("%s%s.%s", prefix, kind, s.name(partition))
}

// A Partition is a partition with the settings it belongs to.
type Partition struct {
	Of     Settings
	Number int
}

// Each returns all partitions.
func (s Settings) Each() []Partition {
	each := make([]Partition, s.Partitions)
	for number := range each {
		each[number] = Partition{s, number}
	}
	return each
}

// Queue returns the name of the partition's stream or lease.
func (p Partition) Queue(kind Kind) string { return p.Of.Queue(kind, p.Number) }

// Route returns where messages of a topic are published for the partition.
func (p Partition) Route(exchange string, topic Topic) Route {
	return p.Of.Route(exchange, topic, p.Number)
}

// String names the partition, without epoch if it is the first.
func (p Partition) String() string {
	if p.Of.Epoch == 0 {
		return strconv.Itoa(p.Number)
	}
	return fmt.Sprintf("%d of epoch %d", p.Number, p.Of.Epoch)
}
