package receiver

import (
	"fmt"
	"sync/atomic"

	"github.com/prometheus/client_golang/prometheus"

	"gateway/rabbit/metrics"
)

// Gauges has a receiver's metrics. NewGauges makes them.
type Gauges struct {
	*metrics.Partitions
	gaps int64 // of lost requests or answers
}

// NewGauges returns the gauges of a receiver that has read nothing.
func NewGauges() *Gauges { return &Gauges{Partitions: metrics.NewPartitions("receive")} }

func (g *Gauges) lost() { atomic.AddInt64(&g.gaps, 1) }

// Ready reports whether each partition is read, and what was lost.
func (g *Gauges) Ready() (bool, string) {
	is, said := g.Partitions.Ready()
	if gaps := atomic.LoadInt64(&g.gaps); gaps > 0 {
		said += fmt.Sprintf("; requests or answers are lost in %d gaps", gaps)
	}
	return is, said
}

// Collectors returns the metrics.
func (g *Gauges) Collectors() []prometheus.Collector {
	options := prometheus.CounterOpts{Namespace: g.Namespace(), Name: "lost_gaps_total",
		Help: "Gaps of requests or answers, for each of which a line was written."}
	return append(g.Partitions.Collectors(), prometheus.NewCounterFunc(options, func() float64 { return float64(atomic.LoadInt64(&g.gaps)) }))
}
