package metrics

import (
	"fmt"
	"sort"
	"strings"
	"sync"

	"github.com/prometheus/client_golang/prometheus"
)

// Partitions are those that a program sends to or receives from, each over its own connection. They report which can't be
// reached. NewPartitions makes them.
type Partitions struct {
	program string // as in the names of the metrics
	mutex   sync.Mutex
	failing map[any]error
}

// NewPartitions returns the Partitions of a program: send or receive.
func NewPartitions(program string) *Partitions {
	return &Partitions{program: program, failing: make(map[any]error)}
}

// Failed notes why a partition can't be reached, or nil once it is. partition is a number, or more.
func (p *Partitions) Failed(partition any, reason error) {
	p.mutex.Lock()
	defer p.mutex.Unlock()
	if reason == nil {
		delete(p.failing, partition)
		return
	}
	p.failing[partition] = reason
}

// Ready reports whether each partition is reached, and names the others.
func (p *Partitions) Ready() (bool, string) {
	p.mutex.Lock()
	defer p.mutex.Unlock()
	if len(p.failing) == 0 {
		return true, "each partition is reached"
	}
	var said []string
	for partition, reason := range p.failing {
		said = append(said, fmt.Sprintf("partition %v can't be reached: %v", partition, reason))
	}
	sort.Strings(said)
	return false, strings.Join(said, "; ")
}

// Namespace begins the names of the program's metrics.
func (p *Partitions) Namespace() string { return "desk_" + p.program }

// Collectors returns the metrics.
func (p *Partitions) Collectors() []prometheus.Collector {
	options := prometheus.GaugeOpts{Namespace: p.Namespace(), Name: "failing_partitions", Help: "Partitions that can't be reached."}
	return []prometheus.Collector{prometheus.NewGaugeFunc(options, func() float64 {
		p.mutex.Lock()
		defer p.mutex.Unlock()
		return float64(len(p.failing))
	})}
}
